#!/usr/bin/env python3
"""Programs in the text format of smodels, for the comparisons.

    smodels.py < program.smodels     writes the program as an aspif text, statement by statement

`aspif_of` and `program` share nothing with the solver but the format. Rules keep their order, and so do outputs.
"""
import sys


def literals(fields):
    """Literals of `n k atoms ..`, of whose atoms the first k are negated, and what follows them."""
    n, k = fields[0], fields[1]
    atoms = fields[2 : 2 + n]
    return [-atom for atom in atoms[:k]] + atoms[k:], fields[2 + n :]


def weighed(bound, found, weights):
    return [1, bound, len(found)] + [number for pair in zip(found, weights) for number in pair]


def rule(fields, number):
    """A rule as the fields of an aspif statement; `number` minimize statements came before it."""
    kind, *rest = fields
    if kind == 3:
        heads, rest = rest[1 : 1 + rest[0]], rest[1 + rest[0] :]
        found, _ = literals(rest)
        return [1, 1, len(heads)] + heads + [0, len(found)] + found
    if kind == 6:
        found, weights = literals(rest[1:])
        return [2, number] + weighed(0, found, weights)[2:]
    head, *rest = rest
    if kind == 1:
        found, _ = literals(rest)
        return [1, 0, 1, head, 0, len(found)] + found
    if kind == 2:
        found, _ = literals(rest[:2] + rest[3:])
        return [1, 0, 1, head] + weighed(rest[2], found, [1] * len(found))
    found, weights = literals(rest[1:])
    return [1, 0, 1, head] + weighed(rest[0], found, weights)


def aspif_of(text):
    """The same program as an aspif text."""
    lines = iter(text.split("\n"))
    made = ["asp 1 0 0"]
    minimized = 0
    for line in iter(lambda: next(lines), "0"):
        fields = [int(field) for field in line.split()]
        made.append(" ".join(map(str, rule(fields, minimized))))
        minimized += fields[0] == 6
    for line in iter(lambda: next(lines), "0"):
        atom, name = line.split(" ", 1)
        made.append(f"4 {len(name.encode())} {name} 1 {atom}")
    for word, sign in (("B+", ""), ("B-", "-")):
        if next(lines) != word:
            sys.exit(f"smodels.py: no {word}")
        made += [f"6 1 {sign}{atom}" for atom in iter(lambda: next(lines), "0")]
    return "\n".join(made) + "\n0\n"


def part(random_, atoms, most, least=0):
    """Fields `n k atoms ..`."""
    chosen = [random_.choice(atoms) for _ in range(random_.randint(least, most))]
    return [len(chosen), random_.randint(0, len(chosen))] + chosen


def statement(random_, atoms):
    kind = random_.random()
    head = random_.choice(atoms)
    if kind < 0.4:
        return [1, head] + part(random_, atoms, 3)
    if kind < 0.55:
        n, k, *chosen = part(random_, atoms, 4)
        return [2, head, n, k, random_.randint(0, 5)] + chosen
    if kind < 0.75:
        heads = [random_.choice(atoms) for _ in range(random_.randint(1, 3))]
        return [3, len(heads)] + heads + part(random_, atoms, 3)
    chosen = part(random_, atoms, 4)
    weights = [random_.randint(0, 3) for _ in range(chosen[0])]
    if kind < 0.9:
        return [5, head, random_.randint(0, 6)] + chosen + weights
    return [6, 0] + chosen + weights


def program(random_):
    """A random program with up to seven atoms and every part of the format. As in gringo's texts atom 1 may be assumed false."""
    atoms = sorted(random_.sample(range(2, 30), random_.randint(1, 7)))
    heads = atoms + [1] * random_.randint(0, 2)
    lines = [" ".join(map(str, statement(random_, heads))) for _ in range(random_.randint(1, 12))] + ["0"]
    lines += [f"{atom} p({atom})" for atom in atoms] + ["0"]
    true = [random_.choice(atoms)] if random_.random() < 0.2 else []
    false = [random_.choice(atoms)] if random_.random() < 0.2 else []
    lines += ["B+", *map(str, true), "0", "B-", "1", *map(str, false), "0", str(random_.randint(0, 9))]
    return "\n".join(lines) + "\n"


if __name__ == "__main__":
    sys.stdout.write(aspif_of(sys.stdin.read()))
