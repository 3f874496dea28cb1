#!/usr/bin/env python3
"""Puts queries after a ground program: ask.py QUERIES < PROGRAM.aspif | aspenum --queries --core-min --names

QUERIES is a file with a query a line: texts of outputs that are exactly one atom, each maybe after `not`, with blanks between
them. A line that begins with % is left out, and so is an empty one; a line with a dot alone is the query without literals.
"""
import sys


def main():
    program = sys.stdin.read()
    lines = program.splitlines()
    atoms = {}
    for line in lines:
        if line.startswith("4 "):
            _, length, rest = line.split(" ", 2)
            text, condition = rest[: int(length)], rest[int(length) :].split()
            if len(condition) == 2 and condition[0] == "1" and not condition[1].startswith("-"):
                atoms.setdefault(text, int(condition[1]))
    print("\n".join(lines))
    with open(sys.argv[1], encoding="utf-8") as file:
        for number, line in enumerate(file, 1):
            words = line.split()
            if not words or words[0].startswith("%"):
                continue
            literals, sign = [], 1
            for word in [] if words == ["."] else words:
                if word == "not":
                    sign = -1
                elif word in atoms:
                    literals.append(sign * atoms[word])
                    sign = 1
                else:
                    sys.exit(f"ask.py: line {number}: no output is exactly one atom with the text {word}")
            print(" ".join(map(str, [6, len(literals), *literals])))
    print(0)


if len(sys.argv) != 2:
    sys.exit(__doc__)
main()
