#!/usr/bin/env python3
"""Gives the checker of proofs right, changed and hostile proofs of random small programs.

    tests/proofs.py [PROGRAM [COUNT [SEED]]]     (build/aspcheck, 20 programs, seed 1)

The proofs are made here, from the reference's answers, which are found in any order: a line for each set of literals on the atoms, the
longest first, and a line of a loop for each supported set that isn't stable. So no proof was made by the solver. Of each program

- the proof as it was made must be a yes; then lines are left out that it doesn't need;
- changed at a line, a literal, an answer or a set that is found it may be a yes only where what it lists is right;
- cut, swapped or with a number that is too great it must be refused as a text that is no proof's.
"""
import random
import subprocess
import sys
from itertools import accumulate, product

import reference

ANSWERED, REFUSED = (0, 1), (65, 67, 68)


# ---- programs
def clauses(r):
    """A free choice of atoms and constraints on three of them each: what has to be shown by cases."""
    atoms = r.randint(4, 6)
    lines = ["asp 1 0 0", numbers(1, 1, atoms, *range(1, atoms + 1), 0, 0)]
    for _ in range(r.randint(3 * atoms, 6 * atoms)):
        chosen = r.sample(range(1, atoms + 1), 3)
        lines.append(numbers(1, 0, 0, 0, 3, *(r.choice([-1, 1]) * a for a in chosen)))
    if r.random() < 0.5:
        items = [(a, r.randint(1, 3)) for a in range(1, atoms + 1)]
        lines.append(numbers(2, 1, len(items), *(n for item in items for n in item)))
    return "\n".join(lines + ["0", ""])


def random_program(r):
    if r.random() < 0.4:
        return clauses(r)
    atoms = r.randint(2, 5)
    literal = lambda: r.choice([1, 1, -1]) * r.randint(1, atoms)
    lines = ["asp 1 0 0"]
    for _ in range(r.randint(2, 9)):
        kind = r.random()
        if kind < 0.4:
            head = f"0 1 {r.randint(1, atoms)}"
        elif kind < 0.75:
            chosen = r.sample(range(1, atoms + 1), r.randint(1, min(3, atoms)))
            head = numbers(1, len(chosen), *chosen)
        else:
            head = "0 0"
        if r.random() < 0.65:
            literals = [literal() for _ in range(r.randint(1 if head == "0 0" else 0, 3))]
            body = numbers(0, len(literals), *literals)
        else:
            items = [(literal(), r.randint(0, 4)) for _ in range(r.randint(1, 4))]
            body = numbers(1, r.randint(-1, 7), len(items), *(n for item in items for n in item))
        lines.append(f"1 {head} {body}")
    if r.random() < 0.6:
        for priority in r.sample([1, 2, 3], r.randint(1, 2)):
            items = [(literal(), r.randint(-3, 4)) for _ in range(r.randint(1, 4))]
            lines.append(numbers(2, priority, len(items), *(n for item in items for n in item)))
    if r.random() < 0.2:
        lines.append(numbers(5, r.randint(1, atoms), r.randint(0, 3)))
    if r.random() < 0.25:
        lines.append(numbers(6, 1, literal()))
    return "\n".join(lines + ["0", ""])


def numbers(*parts):
    return " ".join(str(part) for part in parts)


def counted(parts):
    return numbers(len(parts), *parts)


# ---- variables: the atoms in order, then the distinct bodies in normal form that are neither one literal nor define an atom.
# A body of one literal is that literal, and a normal one that defines atoms is the first of them.
def normal(rule):
    _, _, bound, items, is_normal = rule
    if is_normal:
        return "all", tuple(sorted({literal for literal, _ in items}))
    weights = {}
    for literal, weight in items:
        if weight:
            weights[literal] = weights.get(literal, 0) + weight
    return "weights", bound, tuple(sorted(weights.items()))


def one_literal(form):
    return form[0] == "all" and len(form[1]) == 1


def names(atoms, rules):
    """The first atom that each normal body defines: the head of some rule, where no rule for it has another body."""
    found = {}
    for atom in atoms:
        forms = {normal(rule) for rule in rules if atom in rule[1]}
        if len(forms) == 1 and any(not is_choice and heads == [atom] for is_choice, heads, *_ in rules):
            form = forms.pop()
            if form[0] == "all":
                found.setdefault(form, atom)
    return found


class Numbered:
    def __init__(self, text):
        self.program = reference.read(text)
        self.atoms = reference.atoms_of(self.program)
        self.rules = reference.rules_in_force(self.program)
        self.names = names(self.atoms, self.rules)
        forms = dict.fromkeys(normal(rule) for rule in self.rules)
        self.forms = [form for form in forms if not one_literal(form) and form not in self.names]

    def lit(self, literal):
        var = self.atoms.index(abs(literal)) + 1
        return var if literal > 0 else -var

    def body(self, rule):
        form = normal(rule)
        if one_literal(form):
            return self.lit(form[1][0])
        if form in self.names:
            return self.lit(self.names[form])
        return len(self.atoms) + self.forms.index(form) + 1

    def assumed(self):
        return [self.lit(literal) for literal in self.program["assumptions"]]


# ---- proofs
def least(rules, atoms):
    found = set()
    while True:
        derived = set()
        for rule in rules:
            if reference.body_holds(rule, atoms, found):
                derived |= {a for a in rule[1] if a in atoms} if rule[0] else set(rule[1])
        if derived == found:
            return found
        found = derived


def loop_line(numbered, atoms):
    """The line of what isn't founded in a set, if there is any: all that the set says stands in its nogood."""
    unfounded = atoms - least(numbered.rules, atoms)
    if not unfounded:
        return None
    nogood = [numbered.lit(a if a in atoms else -a) for a in numbered.atoms]
    nogood += [-numbered.body(rule) for rule in numbered.rules if not reference.body_holds(rule, atoms, atoms)]
    return f"o {counted(sorted(unfounded))} {counted(list(dict.fromkeys(nogood)))}"


def is_consistent(literals):
    return not any(-literal in literals for literal in literals)


def proof_lines(numbered, r):
    """Cubes over all values of the free atoms, each behind those that it needs."""
    assumed = list(dict.fromkeys(numbered.program["assumptions"]))
    if not is_consistent(assumed):
        yield f"c {counted([numbered.lit(x) for x in assumed])}"
        return
    free = [a for a in numbered.atoms if a not in map(abs, assumed)]
    r.shuffle(free)

    def walk(literals, left):
        if not left:
            line = loop_line(numbered, {x for x in literals if x > 0})
            if line:
                yield line
        for value in (1, -1) if left else ():
            yield from walk(literals + [value * left[0]], left[1:])
        yield f"{r.choice('lc') if left else 'l'} {counted([numbered.lit(x) for x in literals])}"

    yield from walk(assumed, free)


def listed(numbered, mode):
    found = sorted(reference.answers(numbered.program), key=lambda s: [a in s for a in numbered.atoms])
    if mode == "enum" or not found:
        return found
    return [min(found, key=lambda s: reference.cost(numbered.program, s))]


def placed(line):
    """The line as a proof has it: known for good, and without names."""
    kind, rest = line[:1], line[1:]
    return f"o 0{rest}" if kind == "o" else f"l 0{rest} 0" if kind == "l" else line


def told(kind, sets):
    return [f"{kind} {counted(sorted(set(s) ^ set(before)))}" for s, before in zip(sets, [set(), *sets])]


def proof_of(numbered, mode, answers, lines, found=None):
    """The sets found are those listed, where no others are named."""
    found = answers if found is None else found
    return "\n".join(["proof 3", mode] + told("f", found) + [placed(it) for it in lines] + told("a", answers) + ["0", ""])


def needed(numbered, mode, answers, lines, is_a_yes):
    """Leaves out each line without which the proof is a yes still."""
    for line in list(lines):
        others = [it for it in lines if it != line]
        if is_a_yes(proof_of(numbered, mode, answers, others)):
            lines = others
    return lines


# ---- what is changed
def is_right(numbered, mode, text):
    changes = (set(map(int, line.split()[2:])) for line in text.split("\n") if line.startswith("a "))
    answers = list(accumulate(changes, set.symmetric_difference))
    all_of_them = list(reference.answers(numbered.program))
    if mode == "enum":
        return len(answers) == len(all_of_them) and all(s in all_of_them for s in answers)
    if not answers:
        return not all_of_them
    cost = lambda s: reference.cost(numbered.program, s)
    return len(answers) == 1 and answers[0] in all_of_them and cost(answers[0]) == min(map(cost, all_of_them))


def nogood_count(words):
    """Where a line says how many literals follow."""
    return 1 if words[0] != "o" else 2 + int(words[1])


def changes(numbered, mode, answers, lines, r):
    places = range(len(lines))
    for at in r.sample(places, min(3, len(lines))):
        yield "line dropped", proof_of(numbered, mode, answers, lines[:at] + lines[at + 1 :])
    for at in r.sample(places, min(3, len(lines))):
        words = lines[at].split()
        if len(words) > 2:
            words[-r.randint(1, int(words[nogood_count(words)]) or 1)] = str(r.choice([-1, 1]) * r.randint(1, len(numbered.atoms) + len(numbered.forms)))
            yield "literal changed", proof_of(numbered, mode, answers, lines[:at] + [" ".join(words)] + lines[at + 1 :])
    for at in range(len(answers)):
        others = answers[:at] + answers[at + 1 :]
        yield "answer left out", proof_of(numbered, mode, others, lines)
        yield "answer found but not listed", proof_of(numbered, mode, others, lines, answers)
        yield "answer listed but not found", proof_of(numbered, mode, answers, lines, others)
    sets = [{a for a, b in zip(numbered.atoms, bits) if b} for bits in product((0, 1), repeat=len(numbered.atoms))]
    other = r.choice(sets)
    with_other = sorted(answers + [other], key=lambda s: [a in s for a in numbered.atoms])
    yield "set added", proof_of(numbered, mode, with_other, lines)
    yield "set found", proof_of(numbered, mode, answers, lines, answers + [other])
    yield "other set", proof_of(numbered, mode, [other], lines)
    yield "only the last line", proof_of(numbered, mode, answers, lines[-1:])
    if len(lines) > 1:
        at = r.randrange(len(lines) - 1)
        yield "lines swapped", proof_of(numbered, mode, answers, lines[:at] + [lines[at + 1], lines[at]] + lines[at + 2 :])


def hostile(text, r):
    lines = text.split("\n")
    yield text[: r.randrange(len(text) - 1)]
    yield text + "0\n"
    yield text.replace("proof 3\n", "proof 2\n")
    yield "\n".join([lines[1], lines[0]] + lines[2:])
    at = r.randrange(2, len(lines) - 2)
    for word in ("18446744073709551616", "9" * 100, "4294967296", "-0", "+1", "01", "x", "", "1  1"):
        words = lines[at].split()
        words[r.randrange(1, len(words))] = word
        yield "\n".join(lines[:at] + [" ".join(words)] + lines[at + 1 :])
    yield "\n".join(lines[:at] + ["l 0 1 " + "1" * 100000 + " 0"] + lines[at:])
    yield "\n".join(lines[:at] + ["c 4294967295 1"] + lines[at:])
    yield text.replace("\n", "\r\n")


def main():
    program = sys.argv[1] if len(sys.argv) > 1 else "build/aspcheck"
    count = int(sys.argv[2]) if len(sys.argv) > 2 else 20
    r = random.Random(int(sys.argv[3]) if len(sys.argv) > 3 else 1)
    tally, faults = {}, 0

    def run(text):
        done = subprocess.run([program], input=text.encode(), capture_output=True, timeout=120)
        return done.returncode, done.stdout.decode()

    def note(what, fault, text, given):
        nonlocal faults
        tally[what] = tally.get(what, 0) + 1
        if fault:
            faults += 1
            print(f"{what}: {given} for\n{text}")

    for _ in range(count):
        text = random_program(r)
        numbered = Numbered(text)
        for mode in ("enum", "opt"):
            answers = listed(numbered, mode)
            lines = list(proof_lines(numbered, r))
            proof = proof_of(numbered, mode, answers, lines, r.sample(answers, len(answers)))
            given = run(text + proof)
            note("right proof", given != (0, "YES\n"), text + proof, given)
            lines = needed(numbered, mode, answers, lines, lambda proof: run(text + proof)[0] == 0)
            proof = proof_of(numbered, mode, answers, lines)
            for what, changed in changes(numbered, mode, answers, lines, r):
                given = run(text + changed)
                right = is_right(numbered, mode, changed)
                fault = given[0] not in ANSWERED or (given[0] == 0 and not right)
                note(f"{what}: {'yes' if given[0] == 0 else 'no'}", fault, text + changed, given)
            for changed in hostile(proof, r):
                given = run(text + changed)
                note("hostile", given[0] not in REFUSED or given[1] != "", text + changed, given)
    print("proofs: " + ", ".join(f"{what} {n}" for what, n in sorted(tally.items())) + f"; {faults} faults")
    return faults > 0


if __name__ == "__main__":
    sys.exit(main())
