#!/usr/bin/env python3
"""Tests python/aspenum.py with a program: its answers, costs, consequences and refusals beside what the program writes as text.

usage: tests/python.py PROGRAM     (what needs gringo is tried where it is installed)"""
import glob
import os
import shutil
import subprocess
import sys

HERE = os.path.dirname(os.path.dirname(os.path.abspath(__file__)))
sys.path.insert(0, f"{HERE}/python")
sys.dont_write_bytecode = True
import aspenum  # noqa: E402

PROGRAM = os.path.abspath(sys.argv[1])
CHOICE = "asp 1 0 0\n1 1 2 1 2 0 0\n4 1 a 1 1\n4 3 b c 1 2\n0\n"
COSTS = "asp 1 0 0\n1 1 2 1 2 0 0\n1 0 0 0 2 -1 -2\n2 1 1 1 -3\n2 2 2 1 2 2 1\n4 1 a 1 1\n4 1 b 1 2\n0\n"
tried = 0


def check(what, found, wanted):
    global tried
    tried += 1
    if found != wanted:
        sys.exit(f"python: {what}: {found!r} in place of {wanted!r}")


def solve(program, **options):
    return aspenum.solve_ground(program, aspenum=PROGRAM, **options)


def refusal(call):
    try:
        call()
    except aspenum.AspenumError as error:
        return error
    return None


def enumerations():
    result = solve(CHOICE)
    check("answers", [sorted(it) for it in result], [[], ["b c"], ["a"], ["a", "b c"]])
    check("word", (result.word, result.finished, result.number, len(result), bool(result)), ("SATISFIABLE", True, 4, 4, True))
    check("no cost", (result.cost, result.optimal, result.answers[0].cost), (None, False, None))
    limited = solve(CHOICE, models=2)
    check("a limit", (limited.finished, len(limited)), (False, 2))
    quiet = solve(CHOICE, quiet=True)
    check("quiet", (quiet.number, len(quiet)), (4, 0))
    none = solve("asp 1 0 0\n1 0 0 0 0\n0\n")
    check("none", (none.word, none.finished, bool(none)), ("UNSATISFIABLE", True, False))
    check("four workers", [sorted(it) for it in solve(CHOICE, workers=4)], [sorted(it) for it in result])
    check("smodels", [sorted(it) for it in solve("3 1 2 0 0\n0\n2 a\n0\nB+\n0\nB-\n0\n1\n", format="smodels")], [[], ["a"]])


def optimisations():
    result = solve(COSTS)
    check("optimum", (result.word, result.optimal, result.cost), ("OPTIMUM FOUND", True, (1, 0)))
    check("its answer", [(sorted(it), it.cost) for it in result], [(["b"], (1, 0))])
    check("all optima", len(solve(COSTS, optima=True)), 1)
    check("enumeration of costs", len(solve(COSTS, mode="enum")), 3)


def consequences():
    check("brave", solve(CHOICE, mode="brave").consequences, ("a", "b c"))
    check("cautious", solve(CHOICE, mode="cautious").consequences, ())
    check("neither", solve(CHOICE).consequences, None)
    both = CHOICE.replace("\n0\n", "\n4 2 ab 2 1 2\n4 3 c d 1 -1\n0\n")
    check("conditions", solve(both, mode="brave").consequences, ("a", "b c", "ab", "c d"))
    check("none in each", solve(both, mode="cautious").consequences, ())


def refusals():
    refused = refusal(lambda: solve("asp 1 0 0\n1 0 1 0 0 0\n0\n"))
    check("a refused program", (type(refused), refused.status, refused.line, refused.field), (aspenum.Refused, 65, 2, 4))
    wrong = refusal(lambda: solve(CHOICE, mode="all"))
    check("a wrong argument", (type(wrong), wrong.status), (aspenum.AspenumError, 64))
    spent = solve(CHOICE, budget=0)
    check("a spent budget", (spent.word in ("SATISFIABLE", "UNKNOWN"), spent.finished), (True, spent.word == "SATISFIABLE" and spent.number == 4))
    missing = refusal(lambda: aspenum.ground(text="a.", gringo="/no/gringo"))
    check("no gringo", missing.status, 69)


def examples():
    """The answers of each example are the lines that the program writes."""
    for path in sorted(glob.glob(f"{HERE}/examples/*.aspif")):
        with open(path, "rb") as file:
            program = file.read()
        lines = subprocess.run([PROGRAM], input=program, capture_output=True).stdout.decode().split("\n")
        written = [lines[i + 1] for i, line in enumerate(lines) if line.startswith("Answer: ")]
        read = solve(program)
        check(path, [sorted(" ".join(it).split()) for it in read], [sorted(line.split()) for line in written])
        costs = [tuple(map(int, line.split()[1:])) for line in lines if line.startswith("Optimization:")]
        check(f"the cost of {path}", [read.cost] if read.cost is not None else [], costs[-1:])


def grounded():
    def ask(**words):
        return [sorted(it) for it in aspenum.solve(aspenum=PROGRAM, **words)]

    check("a text", ask(text="{a; b}. :- a, b."), [[], ["b"], ["a"]])
    check("constants", ask(text="#const n=1. p(1..n).", consts={"n": 3}), [["p(1)", "p(2)", "p(3)"]])
    check("a blank in quotes", ask(text='p("a b", "\\"").'), [['p("a b","\\"")']])
    made = subprocess.run([sys.executable, f"{HERE}/examples/draw_timetable.py", PROGRAM], capture_output=True).stdout.decode()
    rows = [[row.split() for row in table.split("\n") if row.startswith("| ")] for table in made.split("\n\n")[1:]]
    drawn = [sorted(f"at({name},{row[1]})" for row in table for name in row[2:] if name != "|") for table in rows]
    with open(f"{HERE}/examples/timetable.out", encoding="utf-8") as file:
        check("drawn timetables", drawn, [sorted(line.split()) for line in file if line.startswith("at(")])
    refused = refusal(lambda: ask(text="a :-"))
    check("what gringo refuses", (type(refused), refused.status), (aspenum.Refused, 65))


enumerations()
optimisations()
consequences()
refusals()
examples()
if shutil.which("gringo"):
    grounded()
print(f"python: {tried} checks passed")
