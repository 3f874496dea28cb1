#!/usr/bin/env python3
"""A second checker of proofs, written by man/aspcheck.1 and the formats in man/aspenum.1. It shares no line with
aspcheck, and has to write the same and end with the same status: where they differ, one of them or the manual is wrong.
It is slow, keeps all in memory, and looks at no limit of a program but its bytes.

    second_checker.py [--format aspif|smodels] < program-and-proof"""
import re
import sys
from collections import Counter, defaultdict, namedtuple

NO, PART, USAGE, PROGRAM, TOO_LONG, PROOF = 1, 2, 64, 65, 67, 68
MOST_BYTES, MOST = 268435456, 2147483647
RANGES = {"flag": (0, 1), "value": (0, 3), "modifier": (0, 5), "kind": (1, 10), "type": (1, 6), "count": (0, MOST),
          "atom": (1, MOST), "literal": (-MOST, MOST), "number": (-MOST - 1, MOST), "place": (0, 4294967295)}
Body = namedtuple("Body", "has_weights bound items")
Rule = namedtuple("Rule", "heads is_choice body")


def need(holds, status):
    if not holds:
        sys.exit(status)


class Line:
    """The numbers of a line, from the left, each in the range that its name has. A fault ends all with the status."""
    def __init__(self, text, status):
        self.text, self.words, self.status = text, iter(re.findall(rb"[^ \t]+", text)), status

    def one(self, name):
        word, (least, most) = next(self.words, b""), RANGES[name]
        need(re.fullmatch(rb"-?[0-9]+", word) and least <= int(word) <= most, self.status)
        need(name != "literal" or int(word), self.status)
        return int(word)

    def many(self, *names):
        rows = [tuple(self.one(name) for name in names) for _ in range(self.one("count"))]
        return rows if len(names) > 1 else [number for number, in rows]

    def end(self):
        need(next(self.words, None) is None, self.status)


def lines_of(text):
    """The lines that aren't blank, and an empty one behind them."""
    stripped = (line.removesuffix(b"\r").strip(b" \t") for line in text.split(b"\n"))
    return (Line(line, PROGRAM) for line in [*filter(None, stripped), b""])


def until_zero(lines):
    for line in lines:
        if re.fullmatch(rb"-?0+", line.text):
            return
        yield line
        line.end()


class Program:
    """A body holds where the weights of its literals that hold reach its bound. A rule without a head has 0 there."""
    def __init__(self):
        self.rules, self.assumptions, self.atoms, self.externals, self.minimize = [], [], set(), {}, defaultdict(list)

    def add_rule(self, heads, is_choice, bound, items):
        """Equal literals of a body count once, with their weights added up. Without a bound all have to hold."""
        sums = Counter()
        for literal, weight in items:
            sums[literal] += weight
        weighed = tuple((literal, 1 if bound is None else sums[literal]) for literal in sorted(sums) if sums[literal])
        body = Body(bound is not None, len(sums) if bound is None else bound, weighed)
        self.rules.append(Rule(heads if heads or is_choice else [0], is_choice, body))
        self.atoms.update(map(abs, [*heads, *sums]))

    def read_aspif(self, lines):
        need(re.fullmatch(rb"asp[ \t]+0*1[ \t]+-?0+[ \t]+[0-9]+", next(lines).text), PROGRAM)
        for line in until_zero(lines):
            kind = line.one("kind")
            need(kind not in (3, 8, 9), PROGRAM)
            if kind == 1:
                is_choice, heads, has_weights = line.one("flag") == 1, line.many("atom"), line.one("flag")
                need(is_choice or len(heads) < 2, PROGRAM)
                bound = line.one("number") if has_weights else None
                items = line.many("literal", "count") if has_weights else [(it, 1) for it in line.many("literal")]
                self.add_rule(heads, is_choice, bound, items)
            elif kind == 2:
                self.minimize[line.one("number")] += line.many("literal", "number")
            elif kind == 4:
                shown = re.match(rb"[0-9]+[ \t]+([0-9]+)[ \t]", line.text)
                rest = line.text[shown.end() + int(shown[1]):] if shown else b"none"
                need(rest[:1] in b" \t", PROGRAM)
                line.words = Line(rest, PROGRAM).words
                self.atoms.update(map(abs, line.many("literal")))
            elif kind == 5:
                self.externals.update([(line.one("atom"), line.one("value"))])
            elif kind == 6:
                self.assumptions += line.many("literal")
            elif kind == 7:
                line.one("modifier"), line.one("atom"), line.one("number"), line.one("count"), line.many("literal")
            else:
                line.words = iter(())

    def read_smodels(self, lines):
        for line in until_zero(lines):
            kind = line.one("type")
            heads = line.many("atom") if kind == 3 else [line.one("atom" if kind < 6 else "count")]
            bound = line.one("count") if kind == 5 else None
            count, negated = line.one("count"), line.one("count")
            need(kind != 4 and negated <= count and (kind < 6 or heads == [0]), PROGRAM)
            bound = line.one("count") if kind == 2 else bound
            literals = [line.one("atom") * (-1 if place < negated else 1) for place in range(count)]
            items = [(literal, line.one("count") if kind > 3 else 1) for literal in literals]
            if kind == 6:
                self.minimize[len(self.minimize)] = items
            else:
                self.add_rule(heads, kind == 3, bound, items)
        for line in until_zero(lines):
            self.atoms.add(line.one("atom"))
            need(list(line.words), PROGRAM)
        for name, sign in ((b"B+", 1), (b"B-", -1)):
            need(next(lines).text == name, PROGRAM)
            self.assumptions += [sign * line.one("atom") for line in until_zero(lines)]
        line = next(lines)
        line.one("count"), line.end()

    def finish(self):
        """An external that is in no head stands for a choice or a fact. A cost has 64 bits for each priority."""
        for atom, value in sorted(self.externals.items()):
            if value < 2 and not any(atom in rule.heads for rule in self.rules):
                self.add_rule([atom], value == 0, None, [])
        self.price = Counter()
        for rank, priority in enumerate(sorted(self.minimize)):
            for literal, weight in self.minimize[priority]:
                self.price[literal] += weight << 64 * rank
        self.atoms.update(self.externals, map(abs, self.assumptions), map(abs, self.price))

    def cost(self, atoms):
        return sum(price for literal, price in self.price.items() if (abs(literal) in atoms) == (literal > 0))

    def is_answer(self, atoms):
        """Whether the atoms are those that follow, where they tell which literals are false and what is chosen."""
        derived, new = set(), True
        while new:
            new = {head for heads, is_choice, body in self.rules for head in heads if head in atoms or not is_choice
                   if sum(weight for literal, weight in body.items
                          if (literal in derived if literal > 0 else -literal not in atoms)) >= body.bound} - derived
            derived |= new
        return derived == atoms and all((abs(literal) in atoms) == (literal > 0) for literal in self.assumptions)


class Known:
    """What is known are sums. Each has a bound, literals with weights, and the greatest of these: never do the weights of
    true literals reach the bound. A nogood is a sum with weights of 1, and a body is two sums. Literals are those of
    atoms, and of bodies, whose numbers are no atom's."""
    def __init__(self, program):
        self.sums, self.uses, self.places = [], defaultdict(list), []
        self.program, self.names, self.is_whole = program, sorted(program.atoms), False
        bodies = {atom: {rule.body for rule in program.rules if atom in rule.heads} for atom in self.names}
        self.body = {rule.body: rule.heads[0] for rule in sorted(program.rules, reverse=True) if not rule.is_choice
                     if not rule.body.has_weights and len(bodies.get(rule.heads[0], [])) == 1}
        for heads, is_choice, body in program.rules:
            self.add_body(body)
            if not is_choice:
                self.learn(0, {self.body[body], -heads[0]} - {0})
        for atom in program.atoms:
            self.learn(0, {atom, *(-self.body[body] for body in bodies[atom])})

    def add_body(self, body):
        """The body isn't false where the weights reach its bound, nor true where those of false literals leave less."""
        if not body.has_weights and len(body.items) == 1:
            self.body[body] = body.items[0][0]
        elif body not in self.body:
            self.body[body] = MOST + len(self.names)
            self.names.append(self.body[body])
        more = sum(weight for _, weight in body.items) + 1
        for sign, bound in ((1, body.bound), (-1, more - body.bound)):
            weights = Counter({sign * literal: weight for literal, weight in body.items})
            weights[-sign * self.body[body]] += more
            self.add(more + max(bound, 0), weights)

    def add(self, bound, weights):
        greatest = max(weights.values(), default=0)
        for literal in [*weights, *[0] * (bound <= greatest)]:
            self.uses[literal].append(len(self.sums))
        self.sums.append((bound, weights, greatest))

    def learn(self, place, nogood):
        """A place beyond the last one is the next one. What was in the place before is no longer known."""
        if place:
            for number in self.places[place - 1:place]:
                self.sums[number] = (1, {}, 0)
            self.places[place - 1:place] = [len(self.sums)]
        self.add(len(nogood), dict.fromkeys(nogood, 1))

    def learn_cost(self, cost):
        """No set costs so much: what it costs at least, and what the dearer literal of each atom adds, stay below."""
        price, atoms = self.program.price, self.program.atoms
        more = {it: price[it] - price[-it] for atom in atoms for it in (atom, -atom) if price[it] > price[-it]}
        self.add(cost - sum(min(price[atom], price[-atom]) for atom in atoms), more)

    def refutes(self, nogood):
        """Whether unit propagation leads from the literals to a conflict. A literal that weighs what a sum lacks of its
        bound is false. The literal 0 stands for the sums in which there is such a one before any is true."""
        lacking, true, waiting = [bound for bound, _, _ in self.sums], set(), [0, *nogood]
        while waiting:
            literal = waiting.pop()
            if -literal in true:
                return True
            touched = [] if literal in true else self.uses[literal]
            true.add(literal)
            for number in touched:
                _, weights, greatest = self.sums[number]
                lacking[number] -= weights.get(literal, 0)
                if lacking[number] <= 0:
                    return True
                if lacking[number] <= greatest:
                    waiting += [-other for other, weight in weights.items()
                                if weight >= lacking[number] and other not in true and -other not in true]
        return False

    def is_loop(self, atoms, nogood):
        """Whether the nogood has an atom of the set, and no rule's body supports one from outside."""
        for heads, _, body in self.program.rules:
            outside = [weight for literal, weight in body.items if literal not in atoms
                       and (not body.has_weights or -literal not in nogood)]
            if atoms & set(heads) and -self.body[body] not in nogood and sum(outside) >= body.bound:
                return False
        return bool(atoms & nogood)

    def fault_of_set(self, mode, is_listed, before, atoms):
        """The reason why a set can't be listed or found behind others, or 0. What is found is known from then on."""
        cost = self.program.cost
        if not is_listed and (mode == b"opt" or mode == b"optima" and not before):
            self.learn_cost(cost(atoms) + (mode == b"optima"))
        if not is_listed and mode != b"opt":
            self.learn(0, {atom if atom in atoms else -atom for atom in self.program.atoms})
        return (2 if is_listed and before and (mode == b"opt" or min(atoms ^ before[-1], default=0) not in atoms) else
                3 if not self.program.atoms >= atoms else
                1 if is_listed and not self.program.is_answer(atoms) else
                2 if not is_listed and before and mode == b"opt" and cost(atoms) >= cost(before[-1]) else
                7 if before and mode == b"optima" and cost(atoms) != cost(before[0]) else 0)

    def fault_of_nogood(self, kind, place, atoms, numbers):
        """The reason why a line o, l or c is wrong, or 0. Its nogood is known from then on."""
        if not self.program.atoms >= atoms or any(abs(number) > len(self.names) for number in numbers):
            return 3
        nogood = {self.names[abs(number) - 1] * (1 if number > 0 else -1) for number in numbers}
        if not (self.is_loop(atoms, nogood) if kind == b"o" else self.refutes(nogood)):
            return 4 if kind == b"o" else 5
        self.learn(place, nogood)
        self.is_whole = self.is_whole or kind != b"o" and nogood <= set(self.program.assumptions)
        return 0


def judge(known, text):
    """YES, PART with the number of sets, or NO with the reason and the line of the first fault."""
    (mode, *lines), found, listed = text.split(b"\n"), [], []
    need(mode in (b"enum", b"opt", b"optima") and lines, PROOF)
    for number, text in enumerate(lines, 3):
        need(len(text) <= MOST_BYTES, TOO_LONG)
        need(re.fullmatch(rb"[0p]|[afolc]( (0|-?[1-9][0-9]*))+", text) and number < len(lines) + 2, PROOF)
        kind, line, fault = text[:1], Line(text[1:], PROOF), 0
        place = line.one("place") if kind in b"ol" else 0
        atoms = line.many("atom") if kind in b"afo" else []
        nogood = line.many("literal") if kind in b"olc" else []
        names = line.many("place") if kind == b"l" else []
        line.end()
        need(atoms == sorted(set(atoms)) and (atoms or kind != b"o") and (kind in b"a0p" or not listed), PROOF)
        if kind in b"af":
            before = listed if kind == b"a" else found
            after = set(atoms) ^ (before or [set()])[-1]
            fault = known.fault_of_set(mode, kind == b"a", before, after)
            before.append(after)
        elif kind in b"olc":
            fault = known.fault_of_nogood(kind, place, set(atoms), nogood)
        elif kind == b"0":
            promised = found[-1:] if mode == b"opt" else found
            fault = 6 if not known.is_whole else 8 if any(it not in listed for it in promised) else 0
        if fault:
            return "NO %d %d" % (fault, number)
        if kind in b"0p":
            need(number == len(lines) + 1 and not lines[-1], PROOF)
            return "YES" if kind == b"0" else "PART %d" % len(listed)


def main():
    sys.set_int_max_str_digits(0)
    words = [part for word in sys.argv[1:] for part in word.split("=", 1)]
    need(words in ([], ["--format", "aspif"], ["--format", "smodels"]), USAGE)
    text, start, proof = (b"\n" + sys.stdin.buffer.read()).partition(b"\nproof 3\n")
    need(len(text) <= MOST_BYTES + (not start), TOO_LONG)
    need(start, PROOF)
    program, lines = Program(), lines_of(text)
    program.read_smodels(lines) if words[1:] == ["smodels"] else program.read_aspif(lines)
    need(not next(lines).text, PROGRAM)
    program.finish()
    said = judge(Known(program), proof)
    print(said)
    sys.exit({"YES": 0, "PART": PART, "NO": NO}[said.split()[0]])


main()
