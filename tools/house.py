#!/usr/bin/env python3
"""Counts what the house is made of: lines by kind and crate, functions, parameters, clauses that are copies, long proof lines.

    house.py             the table by crates, with sums, as Markdown, and what is largest
    house.py --short     the sums alone

Code, contracts, ghost lines and comments are those of crates/*/src; definitions of specs; proofs without the imports at
their heads, which are told apart. Blank lines and comments count nowhere else. It reads the layout that `rt fmt` writes.
"""
import collections
import glob
import os
import re
import statistics
import sys

CLAUSE = re.compile(r"(?:requires|ensures|invariant|decreases)\b")
GHOST = re.compile(r"(?:pub (?:\(crate\) )?)?ghost\b")
FUNCTION = re.compile(r"( *)(?:pub(?:\([a-z]+\))? )?(?:const )?fn (\w+)")
KINDS = ("code", "contracts", "ghost", "comments", "definitions", "proofs", "imports", "functions", "edits")
LONG = 200
MANY = 8


def source_kinds(lines):
    """Returns what each line of a source is: blank, comments, contracts, ghost or code."""
    kinds, open_kind, depth = [], None, 0
    for line in (it.strip() for it in lines):
        if open_kind:
            kind = open_kind
        elif not line:
            kind = "blank"
        elif line.startswith("//"):
            kind = "comments"
        elif CLAUSE.match(line):
            kind = "contracts"
        elif GHOST.match(line):
            kind = "ghost"
        else:
            kind = "code"
        kinds.append(kind)
        if kind in ("contracts", "ghost"):
            depth += line.count("{") - line.count("}")
            open_kind = kind if depth > 0 else None
    return kinds


def parameters(lines, at, indent):
    """Returns how many parameters the function has whose head begins at a line."""
    if lines[at].rstrip().endswith("("):
        count = 0
        while not lines[at + 1].startswith(indent + ")"):
            at += 1
            count += lines[at].startswith(indent + "    ") and not lines[at].startswith(indent + "     ")
        return count
    text = lines[at][lines[at].index("(", lines[at].index("fn ")) + 1 :]
    depth, count, some = 0, 0, False
    for sign in text:
        if sign == ")" and depth == 0:
            break
        depth += (sign in "([{<") - (sign in ")]}>")
        some = some or not sign.isspace()
        count += sign == "," and depth == 0
    return count + some


class Function(collections.namedtuple("Function", "file line name parameters body")):
    def __str__(self):
        return f"{self.file}:{self.line} {self.name}"


def functions(path, lines, kinds):
    """Returns the functions of a source that have bodies."""
    found = []
    for at, line in enumerate(lines):
        head = FUNCTION.match(line)
        if not head or kinds[at] != "code":
            continue
        indent = head.group(1)
        end = next((it for it in range(at, len(lines)) if lines[it] == indent + "}"), None)
        start = next((it for it in range(at, end or at) if kinds[it] == "code" and lines[it].endswith("{")), None)
        if start is not None:
            body = sum(kinds[it] == "code" for it in range(start + 1, end))
            found.append(Function(path, at + 1, head.group(2), parameters(lines, at, indent), body))
    return found


def clauses(lines, kinds):
    """Returns the texts of a source's clauses without their names."""
    text = "\n".join(line.strip() for line, kind in zip(lines, kinds) if kind == "contracts")
    return [re.sub(r"\s+", " ", it) for it in re.findall(r"^(?:requires|ensures)(?: \w+)? (\{.*?\})$", text, re.M | re.S)]


def antt_counts(path):
    """Returns how many lines of a file of definitions or proofs say something, how many import, and how many are long."""
    with open(path) as file:
        lines = [it.rstrip("\n") for it in file]
    said = [it for it in lines if it.strip() and not it.strip().startswith("--")]
    imports = sum(it.startswith("use ") for it in said)
    return len(said) - imports, imports, sum(len(it) > LONG and not it.startswith("use ") for it in lines)


class House:
    def __init__(self):
        self.counts = collections.defaultdict(collections.Counter)
        self.functions, self.clauses, self.long_lines = [], collections.Counter(), 0
        for path in sorted(glob.glob("crates/*/src/**/*.rt", recursive=True)):
            self.read_source(path)
        for part, kind in (("specs", "definitions"), ("proofs", "proofs")):
            for path in glob.glob(f"crates/*/{part}/**/*.antt", recursive=True):
                self.read_antt(path, kind)
        for path in glob.glob("edits/*/*.edit") + glob.glob("crates/*/must-fail/*.edit"):
            self.counts[next(it for it in path.split("/") if it.startswith("asp_"))]["edits"] += 1

    def read_source(self, path):
        with open(path) as file:
            lines = file.read().split("\n")
        kinds = source_kinds(lines)
        own = functions(path, lines, kinds)
        counts = self.counts[path.split("/")[1]]
        counts.update(kinds)
        counts["functions"] += len(own)
        self.functions += own
        self.clauses.update(clauses(lines, kinds))

    def read_antt(self, path, kind):
        said, imports, long = antt_counts(path)
        counts = self.counts[path.split("/")[1]]
        counts[kind] += said
        if kind == "proofs":
            counts["imports"] += imports
            self.long_lines += long

    def table(self):
        rows = [("crate", *KINDS), ("---",) * (len(KINDS) + 1)]
        for crate, counts in sorted(self.counts.items(), key=lambda it: -it[1]["proofs"]):
            rows.append((crate, *(f"{counts[kind]:,}" for kind in KINDS)))
        return "\n".join("| " + " | ".join(row) + " |" for row in rows)

    def sums(self):
        bodies = [it.body for it in self.functions]
        total = sum((it for it in self.counts.values()), collections.Counter())
        copies = sum(self.clauses.values()) - len(self.clauses)
        wide = [it for it in self.functions if it.parameters > MANY]
        return "\n".join([
            ", ".join(f"{kind} {total[kind]:,}" for kind in KINDS) + f", in {len(self.counts)} crates",
            f"proofs with imports {total['proofs'] + total['imports']:,}; {total['proofs'] / total['code']:.2f} lines of proof for a line of code",
            f"functions: lines in the mean {statistics.mean(bodies):.1f}, median {statistics.median(bodies):.0f}, greatest {max(bodies)}",
            f"functions with more than {MANY} parameters: {len(wide)}",
            f"clauses: {sum(self.clauses.values()):,}, of them copies of another {copies:,}",
            f"lines of proof longer than {LONG} characters: {self.long_lines:,}",
        ])

    def largest(self):
        longest = sorted(self.functions, key=lambda it: -it.body)[:8]
        widest = sorted(self.functions, key=lambda it: -it.parameters)[:12]
        return "\n".join([f"{it.body} lines: {it}" for it in longest] + [f"{it.parameters} parameters: {it}" for it in widest])


def main():
    os.chdir(os.path.join(os.path.dirname(os.path.abspath(__file__)), ".."))
    house = House()
    if sys.argv[1:] == ["--short"]:
        print(house.sums())
    elif not sys.argv[1:]:
        print(house.table(), house.sums(), house.largest(), sep="\n\n")
    else:
        sys.exit(__doc__)


main()
