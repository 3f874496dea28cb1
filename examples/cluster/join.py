#!/usr/bin/env python3
"""Joins the results of a program's parts into what one run of aspenum writes, and ends with its status.

Answers come one part after the other; of the bests of an optimisation the first that none betters.
Usage: join.py FOLDER
"""
import sys

FINISHED = {"SATISFIABLE", "UNSATISFIABLE", "OPTIMUM FOUND"}


def read(path):
    """The answers of a part, the numbers of its cost line (None where there is none), and whether it was finished."""
    lines = open(path, encoding="utf-8", errors="surrogateescape").read().split("\n")
    at, answers, cost = 0, [], None
    while lines[at].startswith("Answer: "):
        answers.append(lines[at + 1])
        at += 2
    if lines[at].startswith("Optimization:"):
        cost = [int(number) for number in lines[at].split()[1:]]
        at += 1
    if not lines[at + 1].startswith("Models: "):
        sys.exit(f"join.py: {path}: no results")
    return answers, cost, lines[at] in FINISHED


def main(folder):
    count = sum(1 for _ in open(f"{folder}/cubes"))
    answers, best, finished = [], None, True
    for number in range(1, count + 1):
        try:
            found, cost, whole = read(f"{folder}/out/{number}")
        except FileNotFoundError:
            sys.exit(f"join.py: part {number} isn't solved")
        finished = finished and whole
        if cost is None:
            answers += found
        elif best is None or cost < best:
            answers, best = found, cost
    for number, answer in enumerate(answers, 1):
        print(f"Answer: {number}\n{answer}")
    if best is not None:
        print(" ".join(["Optimization:"] + [str(number) for number in best]))
    if finished:
        word = "OPTIMUM FOUND" if best is not None else "SATISFIABLE" if answers else "UNSATISFIABLE"
    else:
        word = "BUDGET SPENT" if answers else "UNKNOWN"
    print(f"{word}\nModels: {len(answers)}{'' if finished else '+'}")
    sys.exit((30 if answers else 20) if finished else (10 if answers else 1))


sys.stdout.reconfigure(encoding="utf-8", errors="surrogateescape")
main(sys.argv[1])
