#!/usr/bin/env python3
"""Has the checker look at the proofs that the program writes, and at these with something changed.

    recorded.py PROGRAM CHECKER [COUNT [SEED]]

The programs are those of rows.txt that are solved, the examples, COUNT (300) random small ones, of which every third is a
smodels text, and 20 random ones with conflicts: all answers, an optimum, all optima, two answers or optima, and what a budget
of two conflicts finds, with one worker and with four. Each proof has to be confirmed, as a part where the run was ended by a
limit or by its budget. Of each, two of these are judged as well, chosen at random:

- without an answer: it isn't whole, or lists one less as a part
- with an answer that is listed twice: it is wrong
- with a set that is listed and was never found: it is wrong, but where it is a part and the set is an answer
- without a set that was found, the last one where an optimum is sought: a line doesn't follow; a part may say the same
- with a line in the place of the one before it: it says the same, or a line doesn't follow

Each of them has to come, with both outcomes where there are two."""
import random
import subprocess
import sys
from collections import Counter
from glob import glob
from itertools import accumulate, product
from os.path import abspath, dirname, join

HERE = dirname(abspath(__file__))
SOLVED, LIMITED, SPENT = (20, 30), 11, (10, 1)
ENDED = (*SOLVED, LIMITED, *SPENT)
KINDS = (["--mode", "enum"], ["--mode", "opt"], ["--mode", "opt", "--opt-all"], ["--mode", "enum", "--models", "2"],
         ["--mode", "opt", "--opt-all", "--models", "2"], ["--mode", "enum", "--budget", "2"], ["--mode", "opt", "--opt-all", "--budget", "2"])


def run(words, text):
    return subprocess.run(words, input=text, capture_output=True, timeout=120)


def rows():
    """The texts of rows.txt that are solved, each with its format."""
    for line in open(join(HERE, "rows.txt")):
        status, words, text, _ = line.rstrip("\n").split("~")
        if int(status) in SOLVED and not any(it in words for it in ("--make", "--budget", "--queries")):
            yield "smodels" if "smodels" in words else "aspif", text.encode().decode("unicode_escape").encode("latin-1").rstrip(b"\n") + b"\n"


def examples():
    for form in ("aspif", "smodels"):
        for path in sorted(glob(join(HERE, "..", "examples", "*." + form))):
            with open(path, "rb") as file:
                yield form, file.read()


def random_programs(count, seed):
    sys.path.insert(0, HERE)
    from compare import made
    choose = random.Random(seed)
    for number in range(count):
        case = made(choose, number % 3 == 0)
        yield "smodels" if case.words else "aspif", case.source.encode()


def random_clauses(count, seed):
    """So many programs that have more than two conflicts: a choice of 20 atoms and constraints on three of them each, which some
    or no sets keep, and costs of half of them."""
    choose = random.Random(seed)
    for number in range(count):
        atoms = range(1, 21)
        lines = ["asp 1 0 0", " ".join(map(str, (1, 1, 20, *atoms, 0, 0)))]
        for _ in range(choose.randint(60, 100)):
            lines.append("1 0 0 0 3 " + " ".join(str(choose.choice((1, -1)) * atom) for atom in choose.sample(atoms, 3)))
        if number % 2:
            lines.append("2 0 20 " + " ".join(f"{atom} {choose.randint(-3, 3)}" for atom in atoms))
        yield "aspif", "\n".join([*lines, "0", ""]).encode()


# ---- what is changed: each gives the lines of a proof with something changed, or None where it has nothing of that kind
def sets_of(lines, kind):
    """Where the lines of a kind stand, and the sets that they tell: each tells what it changes."""
    places = [at for at, line in enumerate(lines) if line[:2] == kind + b" "]
    return places, list(accumulate((set(map(int, lines[at].split()[2:])) for at in places), set.symmetric_difference))


def told(kind, sets):
    changes = [sorted(atoms ^ before) for atoms, before in zip(sets, [set(), *sets])]
    return [b" ".join([kind, *(b"%d" % it for it in (len(change), *change))]) for change in changes]


def without_a_set(lines, kind, choose):
    """Where all optima are sought one is found twice, and then goes twice."""
    places, sets = sets_of(lines, kind)
    if not places:
        return None
    out = sets[-1] if lines[1] == b"opt" else choose.choice(sets)
    kept = [at for at, atoms in zip(places, sets) if atoms != out]
    others = dict(zip(kept, told(kind, [atoms for atoms in sets if atoms != out])))
    return [others.get(at, line) for at, line in enumerate(lines) if at in others or at not in places]


def without_an_answer(lines, choose):
    return without_a_set(lines, b"a", choose)


def without_a_found_set(lines, choose):
    return without_a_set(lines, b"f", choose)


def with_an_answer_twice(lines, choose):
    """It changes no atom of the one before it."""
    places, _ = sets_of(lines, b"a")
    at = choose.choice(places) + 1 if places else 0
    return [*lines[:at], b"a 0", *lines[at:]] if places else None


def with_a_set_never_found(lines, choose):
    """It differs from an answer in one atom, and is listed where it has to be."""
    places, sets = sets_of(lines, b"a")
    atoms = sorted(set().union(*sets))
    other = choose.choice(sets) ^ {choose.choice(atoms)} if atoms else set()
    if not atoms or other in sets or other in sets_of(lines, b"f")[1]:
        return None
    sets = sorted([*sets, other], key=lambda it: [atom in it for atom in atoms])
    return [*lines[:places[0]], *told(b"a", sets), *lines[places[-1] + 1:]]


def with_a_place_taken(lines, choose):
    """What a line says isn't known any more from the next one on that has a place."""
    placed = [at for at, line in enumerate(lines) if line[:2] in (b"o ", b"l ")]
    if len(placed) < 2:
        return None
    first = choose.randrange(len(placed) - 1)
    one, other = (lines[at].split(b" ") for at in placed[first:first + 2])
    one[1] = other[1] = one[1] if one[1] != b"0" else b"1"
    others = dict(zip(placed[first:first + 2], (b" ".join(one), b" ".join(other))))
    return [others.get(at, line) for at, line in enumerate(lines)]


CHANGES = (without_an_answer, with_an_answer_twice, with_a_set_never_found, without_a_found_set, with_a_place_taken)


def outcomes(change, mode, given):
    """What may be said of a changed proof where this was said before: how it begins. Of a part an answer more or less is told."""
    part = int(given.split()[1]) if given.startswith(b"PART") else None
    if change is without_an_answer:
        return [b"NO 8 " if part is None else b"PART %d\n" % (part - 1)]
    if change is with_an_answer_twice:
        return [b"NO 2 "]
    if change is with_a_set_never_found:
        others = {b"enum": [], b"opt": [b"NO 2 "], b"optima": [b"NO 7 "]}[mode]
        return [b"NO 1 ", *others, *([] if part is None else [b"PART %d\n" % (part + 1)])]
    return [b"NO 5 "] if change is without_a_found_set and part is None else [b"NO 5 ", given]


def main():
    program, checker = sys.argv[1:3]
    count, seed = (int(word) for word in (sys.argv[3:] + ["300", "1"][len(sys.argv) - 3:]))
    choose, failed = random.Random(seed), 0
    ended, came = Counter(), Counter()
    for form, text in [*rows(), *examples(), *random_programs(count, seed), *random_clauses(20, seed)]:
        reads = ["--format", form]
        for kind, workers in product(KINDS, ("1", "4")):
            words = [*kind, "--workers", workers]
            ran = run([program, *reads, *words, "--proof"], text)
            given = run([checker, *reads], text + ran.stdout).stdout
            wanted = b"YES\n" if ran.returncode in SOLVED else b"PART 2\n" if ran.returncode == LIMITED else b"PART "
            if ran.returncode not in ENDED or not given.startswith(wanted):
                failed += 1
                print(f"failed: {text}: {words}: status {ran.returncode}, {given}")
                continue
            ended[ran.returncode] += 1
            lines = ran.stdout.split(b"\n")
            changed = [(it, it(lines, choose)) for it in choose.sample(CHANGES, len(CHANGES))]
            for change, other in [it for it in changed if it[1]][:2]:
                said = run([checker, *reads], text + b"\n".join(other)).stdout
                begins = [it for it in outcomes(change, lines[1], given) if said.startswith(it)]
                came[change.__name__, *(it[:4] for it in begins)] += 1
                if not begins:
                    failed += 1
                    print(f"failed: {text}: {words}: {change.__name__}: {said} for {b' '.join(other)}")
    wanted = {(it.__name__, said[:4]) for it in CHANGES for mode in (b"enum", b"opt", b"optima") for given in (b"YES\n", b"PART 2\n")
              for said in outcomes(it, mode, given)}
    lacking = [*(f"status {it}" for it in ENDED if not ended[it]), *(f"{it[0]} {it[1].decode()}" for it in wanted if not came[it])]
    if lacking:
        failed += 1
        print(f"failed: none came to {', '.join(sorted(lacking))}")
    parts = [sum(ended[it] for it in them) for them in ((LIMITED,), SPENT)]
    changes = ", ".join(f"{name} {said.decode().strip()} {came[name, said]}" for name, said in sorted(wanted))
    print(f"recorded: {sum(ended.values())} confirmed, {parts[0]} of them as a part by a limit and {parts[1]} by a budget; {changes}; "
          f"{failed} failed")
    sys.exit(1 if failed else 0)


if __name__ == "__main__":
    main()
