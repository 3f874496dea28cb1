"""Answer sets of logic programs, by the programs aspenum and gringo.

    import aspenum

    for answer in aspenum.solve(text="{a; b}. :- a, b."):
        print(sorted(answer))

`solve` grounds by gringo what it is given and runs aspenum on it; `solve_ground` runs aspenum on a ground program, in aspif
or in the text format of smodels. Both give a `Result`: its answers are sets of the texts that they show. A run that gives no
result raises `AspenumError`, and a program that can't be read `Refused`, with the line and the field.

Nothing of this module is proved. It runs the programs, and reads the JSON that aspenum writes.
"""

from __future__ import annotations

import json
import os
import re
import subprocess
from dataclasses import dataclass, field
from typing import Any, Iterator, Mapping, Optional, Sequence, Union

__all__ = ["Answer", "AspenumError", "Refused", "Result", "ground", "solve", "solve_ground"]
__version__ = "0.1.0"

Path = Union[str, "os.PathLike[str]"]

#: The statuses of a run that has a result; all others are errors (see the manual, EXIT STATUS).
_WITH_RESULT = frozenset({1, 10, 11, 20, 30})


class AspenumError(Exception):
    """A run that gave no result. `status` is its exit status: 33 out of memory, 64 wrong arguments, 65 a refused program,
    66 an input that couldn't be read, 69 no gringo, 74 a failed write; negative where a signal ended it."""

    def __init__(self, status: int, message: str) -> None:
        super().__init__(message or f"aspenum ended with status {status}")
        self.status = status


class Refused(AspenumError):
    """A program that can't be read: gringo's or aspenum's message, with the line and the field of the ground program where
    aspenum names them."""

    def __init__(self, message: str) -> None:
        super().__init__(65, message)
        place = re.search(r"\bline (\d+)(?:, field (\d+))?", message)
        self.line: Optional[int] = int(place[1]) if place else None
        self.field: Optional[int] = int(place[2]) if place and place[2] else None


class Answer(frozenset):
    """The texts that an answer shows. In an optimisation `cost` is its cost, the most significant priority first."""

    cost: Optional[tuple[int, ...]]

    def __new__(cls, texts: Sequence[str], cost: Optional[Sequence[int]] = None) -> "Answer":
        answer = super().__new__(cls, texts)
        answer.cost = None if cost is None else tuple(cost)
        return answer

    def symbols(self) -> frozenset:
        """The texts as symbols of clingo, whose Python module has to be installed."""
        import clingo  # type: ignore[import-not-found]

        return frozenset(clingo.parse_term(text) for text in self)


@dataclass(frozen=True)
class Result:
    """What a run found. It is iterated over its answers, in aspenum's order."""

    #: "SATISFIABLE", "UNSATISFIABLE", "OPTIMUM FOUND", or "UNKNOWN" where the budget was spent before an answer was found
    word: str
    #: whether nothing was left out: no limit of answers was reached and no budget spent
    finished: bool
    #: how many answers were found, also where `quiet` leaves them out
    number: int
    #: the answers
    answers: Sequence[Answer] = field(default=(), repr=False)
    #: the best cost, the most significant priority first; None where nothing was minimised, or no answer was found
    cost: Optional[tuple[int, ...]] = None
    #: with the modes "brave" and "cautious", the texts that some, or every answer shows, in the order of the outputs
    consequences: Optional[tuple[str, ...]] = None

    def __iter__(self) -> Iterator[Answer]:
        return iter(self.answers)

    def __len__(self) -> int:
        return len(self.answers)

    def __bool__(self) -> bool:
        return self.number > 0

    @property
    def optimal(self) -> bool:
        """Whether the answers are known to cost least."""
        return self.word == "OPTIMUM FOUND"


def ground(*files: Path, text: str = "", consts: Optional[Mapping[str, Any]] = None, gringo: str = "gringo") -> bytes:
    """The aspif text of a program: that of the files and the text together. `consts` are gringo's constants."""
    words = [gringo, *(f"--const={name}={value}" for name, value in (consts or {}).items()), *map(os.fspath, files)]
    if text:
        words.append("-")
    try:
        done = subprocess.run(words, input=text.encode(), capture_output=True)
    except FileNotFoundError as missing:
        raise AspenumError(69, f"{gringo} isn't there") from missing
    if done.returncode != 0:
        raise Refused(done.stderr.decode(errors="replace").strip())
    return done.stdout


def solve_ground(
    program: Union[str, bytes],
    *,
    mode: str = "auto",
    models: int = 0,
    workers: int = 1,
    budget: Optional[int] = None,
    optima: bool = False,
    quiet: bool = False,
    format: str = "aspif",
    aspenum: str = "aspenum",
) -> Result:
    """Solves a ground program.

    `mode` is "auto", "enum", "opt", "brave" or "cautious"; `models` the most answers that are wanted, 0 for all; `workers`
    how many threads search; `budget` after how many conflicts the run ends with what it found; `optima` asks for all answers
    of least cost, `quiet` for counts and costs alone; `format` is "aspif" or "smodels"."""
    words = [aspenum, "--output", "json", "--mode", mode, "--workers", str(workers), "--format", format]
    if models:
        words += ["--models", str(models)]
    if budget is not None:
        words += ["--budget", str(budget)]
    words += ["--opt-all"] * optima + ["--quiet"] * quiet
    text = program.encode() if isinstance(program, str) else program
    done = subprocess.run(words, input=text, capture_output=True)
    if done.returncode not in _WITH_RESULT:
        message = done.stderr.decode(errors="replace").strip()
        raise Refused(message) if done.returncode == 65 else AspenumError(done.returncode, message)
    return _result_of(json.loads(done.stdout.decode(errors="surrogateescape")))


def solve(
    *files: Path,
    text: str = "",
    consts: Optional[Mapping[str, Any]] = None,
    gringo: str = "gringo",
    **options: Any,
) -> Result:
    """Grounds by gringo and solves: `files`, `text` and `consts` are `ground`'s, the options `solve_ground`'s."""
    return solve_ground(ground(*files, text=text, consts=consts, gringo=gringo), **options)


def _result_of(read: Mapping[str, Any]) -> Result:
    models = read["Models"]
    costs, texts = models.get("Costs"), read.get("Consequences")
    return Result(
        word=read["Result"],
        finished=models["More"] == "no",
        number=models["Number"],
        answers=tuple(Answer(it["Value"], it.get("Costs")) for it in read["Call"][0].get("Witnesses", ())),
        cost=None if costs is None else tuple(costs),
        consequences=None if texts is None else tuple(texts),
    )
