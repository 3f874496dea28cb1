#!/usr/bin/env python3
"""Compares aspenum with the plain reference, and with clasp where it is there, on random small programs.

    compare.py PROGRAM [COUNT [SEED]] [--no-clasp] [--smodels]     (PROGRAM may have words behind it: "build/aspenum --workers 4")

With --smodels the programs are smodels texts, and the reference solves what tests/smodels.py makes of them. Each program has up to seven atoms and every kind of statement. In an enumeration and where all optima are listed the bytes
must be the reference's, with --stream too, and with --stream and a limit those of its first answers or optima, and where consequences are asked for, by numbers and by name, also of outputs of several literals and of some atoms alone, in lines and as JSON; in an optimisation the closing lines, cost and count, must be. With a limit the number of answers must be
the reference's, and they must be some of its answers in its order. Every fourth program is solved in parts too. Where clasp lists other answers than the
reference, or with a limit another number of them, that is told and counted, and is no failure: clasp 3.3.5 is known to lose
answers of choices over weight bodies.
"""
import collections
import json
import random
import shutil
import subprocess
import sys

import reference
import smodels

# a program as an aspif text, and what the solver reads, with the words that say so
Case = collections.namedtuple("Case", "text source words")


def literals(random_, atoms, most, least=0):
    return [random_.choice([1, -1]) * random_.choice(atoms) for _ in range(random_.randint(least, most))]


def body(random_, atoms):
    if random_.random() < 0.65:
        chosen = literals(random_, atoms, 3)
        return [0, len(chosen)] + chosen
    if random_.random() < 0.3:
        # Many literals, of which each stands there several times: a body's normal form has each once.
        chosen = literals(random_, atoms, 34, 26)
        items = [number for literal in chosen for number in (literal, random_.randint(1, 3))]
        return [1, random_.randint(10, 50), len(chosen)] + items
    chosen = literals(random_, atoms, 4)
    items = [number for literal in chosen for number in (literal, random_.randint(0, 3))]
    return [1, random_.randint(-1, 5), len(chosen)] + items


def statement(random_, atoms):
    kind = random_.random()
    if kind < 0.45:
        return [1, 0, 1, random_.choice(atoms)] + body(random_, atoms)
    if kind < 0.65:
        head = [random_.choice(atoms) for _ in range(random_.randint(0, 3))]
        return [1, 1, len(head)] + head + body(random_, atoms)
    if kind < 0.8:
        return [1, 0, 0] + body(random_, atoms)
    if kind < 0.9:
        return [5, random_.choice(atoms), random_.randint(0, 3)]
    if kind < 0.95:
        chosen = literals(random_, atoms, 1)
        return [6, len(chosen)] + chosen
    chosen = literals(random_, atoms, 3)
    items = [number for literal in chosen for number in (literal, random_.randint(-2, 3))]
    return [2, random_.randint(0, 2), len(chosen)] + items


def without_constraints(lines):
    """Each constraint as a rule for an atom that is assumed false, as gringo's smodels text has it."""
    return [line.replace("1 0 0 ", "1 0 1 30 ", 1) if line.startswith("1 0 0 ") else line for line in lines] + ["6 1 -30"]


def program(random_):
    numbers = sorted(random_.sample(range(1, 30), random_.randint(1, 7)))
    lines = [" ".join(map(str, statement(random_, numbers))) for _ in range(random_.randint(1, 12))]
    if random_.random() < 0.2:
        lines = without_constraints(lines)
    lines += [f"4 {len(f'p({a})')} p({a}) 1 {a}" for a in numbers]
    return "asp 1 0 0\n" + "\n".join(lines) + "\n0\n"


def run(words, text, seconds=120):
    return subprocess.run(words, input=text.encode(), stdout=subprocess.PIPE, stderr=subprocess.PIPE, timeout=seconds)


def answers(text):
    lines = text.split("\n")
    return [lines[i + 1] for i, line in enumerate(lines) if line.startswith("Answer: ")]


def without_answer(text):
    """The lines of an optimisation but the answer's texts: which of several optima is written isn't promised."""
    lines = text.split("\n")
    return lines[:1] + lines[2:] if lines[0].startswith("Answer: ") else lines


def wanted_of(text, mode):
    return "".join(line + "\n" for line in reference.lines(reference.read(text), mode))


def is_part(some, all_):
    """Whether some are members of all, in their order."""
    rest = iter(all_)
    return all(answer in rest for answer in some)


# the words for each mode of the reference, and what of the bytes is promised
MODES = {
    "enum": (["--mode", "enum"], lambda whole: whole),
    "opt": (["--mode", "opt"], without_answer),
    "optima": (["--mode", "opt", "--opt-all"], lambda whole: whole),
    "brave": (["--mode", "brave"], lambda whole: whole),
    "cautious": (["--mode", "cautious"], lambda whole: whole),
}


def with_outputs(text):
    """The program with outputs of no, one or several literals, two of them with one text, beside half of its own or none."""
    random_ = random.Random(text)
    atoms = [int(line.split()[-1]) for line in text.split("\n") if line.startswith("4 ")]
    lines = []
    for name in ("x", "y", "y", "z"):
        condition = literals(random_, atoms, 3)
        lines.append(" ".join(map(str, [4, 1, name, len(condition), *condition])))
    share = random_.choice([0, 0.5])
    kept = [line for line in text.removesuffix("0\n").splitlines() if not line.startswith("4 ") or random_.random() < share]
    return "\n".join([*kept, *lines[random_.randint(0, 4) :]]) + "\n0\n"


def names_differ(aspenum, case):
    """What is wrong with consequences by name, or nothing."""
    text = with_outputs(case.text)
    for mode in ("brave", "cautious"):
        wanted = wanted_of(text, f"{mode} names")
        given = run([*aspenum, "--mode", mode, "--names"], text)
        if given.stdout.decode() != wanted:
            return f"--mode {mode} --names differs from the reference:\n{text}"
        told = json.loads(run([*aspenum, "--mode", mode, "--output", "json"], text).stdout)
        if told.get("Consequences") != (wanted.split("\n")[0].split()[1:] if "FOUND" in wanted else None):
            return f"--mode {mode} --output json differs from the reference:\n{text}"
    return None


def closing(text):
    """The lines behind the answers."""
    lines = text.split("\n")
    return lines[2 * len(answers(text)) :]


def limit_differs(aspenum, case, mode, limit):
    """What is wrong with a list that ends with so many answers, or nothing."""
    wanted = "".join(line + "\n" for line in reference.lines(reference.read(case.text), mode, limit))
    given = run([*aspenum, *case.words, *MODES[mode][0], "--models", str(limit)], case.source)
    found = given.stdout.decode()
    if closing(found) != closing(wanted) or len(answers(found)) != len(answers(wanted)):
        return f"--models {limit} ends otherwise than the reference ({mode})"
    if not is_part(answers(found), answers(wanted_of(case.text, mode))):
        return f"--models {limit} writes other answers than the reference has, or not in its order ({mode})"
    if given.returncode != (11 if "LIMIT" in wanted else 20 if "UNSATISFIABLE" in wanted else 30):
        return f"the status is {given.returncode} with --models {limit} ({mode})"
    return None


def first_differs(aspenum, case, mode, limit):
    """What is wrong with the first so many of a list, or nothing."""
    whole = wanted_of(case.text, mode)
    found = answers(whole)
    if len(found) >= limit:
        cost = "".join(line + "\n" for line in closing(whole) if line.startswith("Optimization:"))
        whole = "".join(f"Answer: {number}\n{answer}\n" for number, answer in enumerate(found[:limit], 1)) + f"{cost}LIMIT REACHED\nModels: {limit}+\n"
    given = run([*aspenum, *case.words, *MODES[mode][0], "--stream", "--models", str(limit)], case.source)
    if given.stdout.decode() != whole:
        return f"--stream --models {limit} differs from the reference ({mode})"
    if given.returncode != (11 if "LIMIT" in whole else 20 if "UNSATISFIABLE" in whole else 30):
        return f"the status is {given.returncode} with --stream --models {limit} ({mode})"
    return None


def differs(aspenum, case):
    """What is wrong with aspenum's answers to a program, or nothing."""
    for mode, (words, part) in MODES.items():
        wanted = wanted_of(case.text, mode)
        given = run([*aspenum, *case.words, *words], case.source)
        if part(given.stdout.decode()) != part(wanted):
            return f"{' '.join(words)} differs from the reference"
        if given.returncode != (20 if "UNSATISFIABLE" in wanted else 30):
            return f"the status is {given.returncode} with {' '.join(words)}"
    for mode in ("optima", "enum"):
        given = run([*aspenum, *case.words, *MODES[mode][0], "--stream"], case.source)
        if given.stdout.decode() != wanted_of(case.text, mode):
            return f"--stream differs from the reference ({mode})"
    if not case.words:
        wrong = names_differ(aspenum, case)
        if wrong:
            return wrong
    for mode in ("optima", "enum"):
        count = len(answers(wanted_of(case.text, mode)))
        for limit in sorted({1, max(count, 1), count + 1}):
            wrong = limit_differs(aspenum, case, mode, limit)
            if wrong:
                return wrong
        for limit in sorted({1, max(count // 2, 1), max(count, 1), count + 1}):
            wrong = first_differs(aspenum, case, mode, limit)
            if wrong:
                return wrong
    return None


def joined(aspenum, case, mode):
    """What the parts of a program give: their answers one after the other, and the least of their costs."""
    most = len(case.text) % 9 + 1
    given = run([aspenum[0], *case.words, "--split", str(most)], case.source)
    cubes = given.stdout.decode().splitlines()
    if given.returncode != 0 or not 0 < len(cubes) <= most:
        return None
    found, costs = [], []
    for cube in cubes:
        part = run([*aspenum, "--mode", mode], case.text.removesuffix("0\n") + cube + "\n0\n").stdout.decode()
        found += answers(part)
        costs += [[int(number) for number in line.split()[1:]] for line in part.split("\n") if line.startswith("Optimization:")]
    return found, min(costs, default=None)


def parts_differ(aspenum, case):
    """What is wrong with the parts of a program, or nothing."""
    for mode, at in (("enum", 0), ("opt", 1)):
        parts = joined(aspenum, case, mode)
        if parts is None:
            return "--split writes too many lines, or none"
        wanted = wanted_of(case.text, mode)
        cost = [[int(number) for number in line.split()[1:]] for line in wanted.split("\n") if line.startswith("Optimization:")]
        if parts[at] != (answers(wanted), min(cost, default=None))[at]:
            return f"the parts differ from the whole with --mode {mode}"
    return None


def clasp_consequences(source, mode):
    """The texts that clasp finds in some or in every answer, or nothing where it finds no answer."""
    told = run(["clasp", "-e", mode, "--opt-mode=ignore"], source, 10).stdout.decode()
    if "UNSATISFIABLE" in told:
        return None
    lines = told.split("\n")
    at = max(number for number, line in enumerate(lines) if line.startswith("Answer:"))
    return sorted(lines[at + 1].split())


def my_consequences(text, mode):
    first, *rest = wanted_of(text, mode).split("\n")
    return None if first == "UNSATISFIABLE" else sorted(f"p({atom})" for atom in first.split()[1:])


def my_names(text, mode):
    first, *rest = wanted_of(text, f"{mode} names").split("\n")
    return None if first == "UNSATISFIABLE" else sorted(first.split()[1:])


def clasp_differs(case):
    """Whether clasp lists other answers than the reference: its own affair, and worth knowing."""
    text, source, _ = case
    wanted = wanted_of(text, "enum")
    try:
        listed = run(["clasp", "-n", "0", "--opt-mode=ignore"], source, 10).stdout.decode()
    except subprocess.TimeoutExpired:
        return "clasp gives no answer within ten seconds"
    mine = sorted(sorted(answer.split()) for answer in answers(wanted))
    if sorted(sorted(answer.split()) for answer in answers(listed)) != mine:
        return "clasp lists other answers than the reference"
    limit = max(len(mine) // 2, 1)
    some = run(["clasp", "-n", str(limit), "--opt-mode=ignore"], source, 10).stdout.decode()
    if len(answers(some)) != min(limit, len(mine)):
        return f"clasp lists another number of answers with -n {limit}"
    if reference.read(text)["minimize"]:
        optima = run(["clasp", "--opt-mode=optN", "-n", "0", "-q1"], source, 10).stdout.decode()
        if sorted(sorted(a.split()) for a in answers(optima)) != sorted(sorted(a.split()) for a in answers(wanted_of(text, "optima"))):
            return "clasp lists other optima than the reference"
    for mode in ("brave", "cautious"):
        if clasp_consequences(source, mode) != my_consequences(text, mode):
            return f"clasp finds other {mode} consequences than the reference"
        named = with_outputs(text)
        if not case.words and clasp_consequences(named, mode) != my_names(named, mode):
            return f"clasp finds other {mode} consequences by name than the reference:\n{named}"
    return None


def made(random_, in_smodels):
    if not in_smodels:
        text = program(random_)
        return Case(text, text, [])
    source = smodels.program(random_)
    return Case(smodels.aspif_of(source), source, ["--format", "smodels"])


def main():
    words = [word for word in sys.argv[1:] if word not in ("--no-clasp", "--smodels")]
    aspenum = words[0].split()
    count = int(words[1]) if len(words) > 1 else 200
    seed = int(words[2]) if len(words) > 2 else 1
    with_clasp = "--no-clasp" not in sys.argv and shutil.which("clasp")
    random_ = random.Random(seed)
    failed = others = 0
    for number in range(count):
        case = made(random_, "--smodels" in sys.argv)
        wrong = differs(aspenum, case) or (parts_differ(aspenum, case) if number % 4 == 0 else None)
        failed += 1 if wrong else 0
        other = clasp_differs(case) if with_clasp else None
        others += 1 if other else 0
        for message in filter(None, (wrong, other)):
            print(f"program {number}: {message}\n{case.source}")
    clasp = f"clasp differs on {others}" if with_clasp else "not compared with clasp"
    print(f"compare: {count} programs, {failed} differ; {clasp} (seed {seed})")
    sys.exit(1 if failed else 0)


if __name__ == "__main__":
    main()
