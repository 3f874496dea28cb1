#!/usr/bin/env python3
"""Times brave and cautious consequences by name beside clasp as it comes: processor time, conflicts, and whether the texts are the same.

usage: bench/consequences.py [--program build/aspenum] [--limit SECONDS] [--runs N] [--texts FOLDER] [NAME..]

The programs are those of programs.py that show something. Costs count on neither side (clasp: --opt-mode=ignore). With --runs each
side runs so many times, in turn, and its least time counts. What doesn't end within the limit (60 seconds of processor time) is shown
with ">", counts at the limit in the mean of times, and isn't in that of conflicts. Times below a hundredth of a second count as one.
It ends with status 1 where two that ended said different things."""
import argparse
import math
import re
import sys
import tempfile

from programs import PROGRAMS
from solve import number, once_more, run, text_of

CLASP = "clasp -n 0 -q1 --opt-mode=ignore --stats -e".split()
LEAST = 0.01


def texts_of(output, is_clasp):
    """The texts that a side's last answer has, in one order, or None where the program has no answer."""
    with open(output, encoding="utf-8") as file:
        lines = file.read().split("\n")
    if not is_clasp:
        return None if lines[0].startswith("UNSAT") else sorted(lines[0].split()[1:])
    at = [place for place, line in enumerate(lines) if line.startswith("Answer:")]
    return sorted(lines[at[-1] + 1].split()) if at else None


def conflicts_of(side, notes, output):
    with open(output, encoding="utf-8") as file:
        return number(r"Conflicts: (\d+)", notes) if side == 0 else number(r"(?m)^Conflicts\s*: (\d+)", file.read())


def measured(program, name, mode, room, limit, runs):
    """Of each side the seconds, the conflicts and whether it ended, and what is told of their texts."""
    path = text_of(name, room)
    commands = [program, "--mode", mode, "--names", "--stats"], [*CLASP, mode]
    outputs = [f"{room}/consequences.{side}" for side in (0, 1)]
    found = [run(commands[side], path, outputs[side], limit) for side in (0, 1)]
    for side in [side for _ in range(runs - 1) for side in (0, 1)]:
        found[side] = once_more(commands[side], path, outputs[side], limit, found[side])
    sides = []
    for side, (notes, time, _, ended) in enumerate(found):
        sides.append((time if ended else limit, conflicts_of(side, notes, outputs[side]), ended))
    both = sides[0][2] and sides[1][2]
    texts = [texts_of(outputs[side], side == 1) for side in (0, 1)] if both else None
    return sides, "-" if not both else "yes" if texts[0] == texts[1] else "NO"


def mean(pairs, least):
    logs = [math.log(max(ours, least) / max(theirs, least)) for ours, theirs in pairs]
    return math.exp(sum(logs) / len(logs)) if logs else float("nan")


def cell(side):
    return f"{'' if side[2] else '> '}{side[0]:.2f}"


def main():
    parser = argparse.ArgumentParser(usage=__doc__.split("usage: ")[1].split("\n\n")[0])
    parser.add_argument("--program", default="build/aspenum")
    parser.add_argument("--limit", type=int, default=60)
    parser.add_argument("--runs", type=int, default=1)
    parser.add_argument("--texts")
    parser.add_argument("names", nargs="*")
    given = parser.parse_args()
    rows = []
    with tempfile.TemporaryDirectory() as empty:
        room = given.texts or empty
        for name in given.names or PROGRAMS:
            with open(text_of(name, room), "rb") as text:
                if not re.search(rb"(?m)^4 ", text.read()):
                    continue
            for mode in ("brave", "cautious"):
                (ours, theirs), same = measured(given.program, name, mode, room, given.limit, given.runs)
                rows.append((ours, theirs, same))
                print(f"| {name} | {mode} | {cell(ours)} | {cell(theirs)} | {ours[1]} | {theirs[1]} | {same} |", flush=True)
    ended = [(ours, theirs) for ours, theirs, _ in rows if ours[2] and theirs[2] and None not in (ours[1], theirs[1])]
    times = mean([(ours[0], theirs[0]) for ours, theirs, _ in rows], LEAST)
    conflicts = mean([(ours[1], theirs[1]) for ours, theirs in ended], 1)
    print(f"{len(rows)} questions: mean of times {times:.2f} of clasp's, of conflicts {conflicts:.2f}")
    return any(same == "NO" for _, _, same in rows)


if __name__ == "__main__":
    sys.exit(main())
