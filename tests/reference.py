#!/usr/bin/env python3
"""What aspenum must write for an aspif program, by walking all sets of atoms.

    reference.py [enum|opt|optima|brave|cautious [LIMIT]] < program.aspif

The modes "brave names" and "cautious names" tell texts. The mode optima is an optimisation that lists all optima. With a limit, which one for a single optimum and consequences take no
notice of, a list ends with so many answers: here the first ones, where aspenum may write others.

Slow and plain on purpose: it shares nothing with the solver but the format.
"""
import sys


def read(text):
    program = {"rules": [], "minimize": [], "outputs": [], "externals": {}, "assumptions": []}
    for line in text.split("\n")[1:]:
        if line == "0":
            return program
        kind, _, rest = line.partition(" ")
        if kind == "4":
            length, _, rest = rest.partition(" ")
            label, rest = rest[: int(length)], rest[int(length) :]
            program["outputs"].append((label, [int(x) for x in rest.split()[1:]]))
            continue
        numbers = [int(x) for x in rest.split()] if kind != "10" else []
        if kind == "1":
            program["rules"].append(read_rule(numbers))
        elif kind == "2":
            items = list(zip(numbers[2::2], numbers[3::2]))
            program["minimize"].append((numbers[0], items))
        elif kind == "5":
            program["externals"][numbers[0]] = numbers[1]
        elif kind == "6":
            program["assumptions"] += numbers[1:]
        elif kind != "10":
            sys.exit(f"reference.py: statement {kind} isn't read here")
    sys.exit("reference.py: no end")


def read_rule(numbers):
    choice, count = numbers[0] == 1, numbers[1]
    head, body = numbers[2 : 2 + count], numbers[2 + count :]
    if body[0] == 0:
        literals = body[2:]
        return choice, head, len(literals), [(literal, 1) for literal in literals], True
    return choice, head, body[1], list(zip(body[3::2], body[4::2])), False


def rules_in_force(program):
    heads = {atom for rule in program["rules"] for atom in rule[1]}
    rules = list(program["rules"])
    for atom, value in sorted(program["externals"].items()):
        if atom not in heads and value < 2:
            rules.append((value == 0, [atom], 0, [], True))
    return rules


def atoms_of(program):
    atoms = set(program["externals"]) | {abs(x) for x in program["assumptions"]}
    for _, head, _, items, _ in program["rules"]:
        atoms |= set(head) | {abs(literal) for literal, _ in items}
    for _, items in program["minimize"]:
        atoms |= {abs(literal) for literal, _ in items}
    for _, condition in program["outputs"]:
        atoms |= {abs(literal) for literal in condition}
    return sorted(atoms)


def holds(literal, atoms):
    return (literal > 0) == (abs(literal) in atoms)


def weight(items, negative, positive):
    """Negative literals are read in the one set, positive ones in the other."""
    return sum(w for literal, w in items if holds(literal, positive if literal > 0 else negative))


def body_holds(rule, negative, positive):
    _, _, bound, items, normal = rule
    if normal:
        return all(holds(l, positive if l > 0 else negative) for l, _ in items)
    return weight(items, negative, positive) >= bound


def is_stable(rules, atoms):
    least = set()
    while True:
        derived = set()
        for rule in rules:
            choice, head = rule[0], rule[1]
            if body_holds(rule, atoms, least):
                derived |= {a for a in head if a in atoms} if choice else set(head)
        if derived == least:
            break
        least = derived
    if least != atoms:
        return False
    return not any(not r[0] and not r[1] and body_holds(r, atoms, atoms) for r in rules)


def subsets(atoms):
    if not atoms:
        yield ()
        return
    for rest in subsets(atoms[1:]):
        yield rest
    for rest in subsets(atoms[1:]):
        yield (atoms[0],) + rest


def answers(program):
    rules = rules_in_force(program)
    for chosen in subsets(atoms_of(program)):
        atoms = set(chosen)
        if all(holds(l, atoms) for l in program["assumptions"]) and is_stable(rules, atoms):
            yield atoms


def cost(program, atoms):
    priorities = sorted({priority for priority, _ in program["minimize"]}, reverse=True)
    return [
        sum(weight(items, atoms, atoms) for other, items in program["minimize"] if other == priority)
        for priority in priorities
    ]


def consequences(program, mode):
    """The lines of what is in some answer, or in every one."""
    found = list(answers(program))
    if not found:
        yield "UNSATISFIABLE"
        return
    known = set.union(*found) if mode == "brave" else set.intersection(*found)
    yield " ".join(["Consequences:"] + [str(atom) for atom in sorted(known)])
    yield "CONSEQUENCES FOUND"


def named_consequences(program, mode):
    """The lines of the texts that some answer shows, or every one."""
    found = list(answers(program))
    if not found:
        yield "UNSATISFIABLE"
        return
    enough = any if mode == "brave names" else all
    shown = [text for text, condition in program["outputs"] if enough(all(holds(l, atoms) for l in condition) for atoms in found)]
    yield " ".join(["Consequences:"] + shown)
    yield "CONSEQUENCES FOUND"


def lines(program, mode, limit=0):
    if mode in ("brave names", "cautious names"):
        yield from named_consequences(program, mode)
        return
    if mode in ("brave", "cautious"):
        yield from consequences(program, mode)
        return
    found = list(answers(program))
    optimises = mode in ("opt", "optima")
    if optimises and found:
        least = min(cost(program, atoms) for atoms in found)
        found = [atoms for atoms in found if cost(program, atoms) == least]
    if mode == "opt":
        found, limit = found[:1], 0
    enough = 0 < limit <= len(found)
    if enough:
        found = found[:limit]
    for number, atoms in enumerate(found, 1):
        yield f"Answer: {number}"
        yield " ".join(t for t, condition in program["outputs"] if all(holds(l, atoms) for l in condition))
    if optimises and found:
        yield " ".join(["Optimization:"] + [str(sum_) for sum_ in cost(program, found[0])])
    if enough:
        yield "LIMIT REACHED"
    elif not found:
        yield "UNSATISFIABLE"
    else:
        yield "OPTIMUM FOUND" if optimises else "SATISFIABLE"
    yield f"Models: {len(found)}" + ("+" if enough else "")


def main():
    program = read(sys.stdin.buffer.read().decode("latin-1"))
    mode = sys.argv[1] if len(sys.argv) > 1 else ("opt" if program["minimize"] else "enum")
    limit = int(sys.argv[2]) if len(sys.argv) > 2 else 0
    text = "".join(line + "\n" for line in lines(program, mode, limit))
    sys.stdout.buffer.write(text.encode("latin-1"))


if __name__ == "__main__":
    main()
