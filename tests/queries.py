#!/usr/bin/env python3
"""Compares a series of queries with the plain reference, on random small programs.

    queries.py PROGRAM [COUNT [SEED]]     (PROGRAM may have words after it: "build/aspenum --core-min")

Each program has five queries. What is written for a query has to be what the reference says of the program with the
query's literals assumed; in an optimisation the closing lines, cost and count. There has to be a core exactly where there is
no answer: some of the program's assumptions and the query's literals, by ascending atoms and each once, such that the program
without its own assumptions and with these has no answer. A core that is called minimal must have answers without each of its
literals, and with --core-min each has to be. As JSON, with names or without, each series has to say what the lines say. Before that one series is asked whose second query has no end for a test: the first
one's results have to be there; one of 2,000 queries, by whose counts one search has to be kept for all of them; two of a refuted query, whose core has to be a
front of it with one literal more; one whose query, refuted by conflicts,
comes again after others that have answers, and has to be refuted without a conflict then; and hard and easy ones, by whose counts workers have to
search the hard ones, and one search the easy ones.
"""
import json
import random
import re
import subprocess
import sys
import threading

import compare
import json_output
import reference
from search import switched_sat


def queries(random_, text):
    atoms = [int(line.split()[-1]) for line in text.split("\n") if line.startswith("4 ")] + [31]
    return [compare.literals(random_, atoms, 4) for _ in range(5)]


def statement(query):
    return " ".join(map(str, [6, len(query), *query])) + "\n"


def with_assumed(text, literals):
    return text.removesuffix("0\n") + statement(literals) + "0\n"


def without_assumptions(text):
    return "".join(line + "\n" for line in text.split("\n")[:-1] if not line.startswith("6 "))


def assumptions(text):
    return [int(number) for line in text.split("\n") if line.startswith("6 ") for number in line.split()[2:]]


def has_answer(text, literals):
    return any(True for _ in reference.answers(reference.read(with_assumed(text, literals))))


def core_fault(text, query, line, minimal_asked):
    word, _, numbers = line.partition(":")
    core = [int(number) for number in numbers.split()]
    bare = without_assumptions(text)
    if not set(core) <= set(assumptions(text) + query):
        return "a literal that wasn't asked"
    if core != sorted(set(core), key=lambda literal: (abs(literal), literal)):
        return "not in order"
    if has_answer(bare, core):
        return "no core"
    if (word == "Minimal core") != minimal_asked:
        return "said to be " + word
    if minimal_asked and not all(has_answer(bare, [other for other in core if other != literal]) for literal in core):
        return "not minimal"
    return None


def pieces(whole):
    """What is written for each query."""
    found = whole.split("Query: ")
    assert found[0] == ""
    return [piece.partition("\n") for piece in found[1:]]


def lines_of(told):
    """The text that says what the JSON says of each query."""
    lines = []
    for entry in told["Call"]:
        alone = {"Call": [entry], "Models": entry["Models"], "Result": entry["Result"]}
        lines += [f"Query: {entry['Query']}\n", json_output.lines_of(alone, 10, False)]
        if "Core" in entry:
            word = {"yes": "Minimal core:", "unknown": "Core:"}[entry["Minimal"]]
            lines.append("".join([word, *(f" {literal}" for literal in entry["Core"]), "\n"]))
    return "".join(lines)


def sums_fault(told, status):
    """What the JSON says of all queries together, and isn't so."""
    models = [entry["Models"] for entry in told["Call"]]
    more = any(one["More"] == "yes" for one in models)
    words = {30: ("SATISFIABLE", "OPTIMUM FOUND"), 20: ("UNSATISFIABLE",), 10: ("SATISFIABLE",), 1: ("UNKNOWN",)}
    if told["Calls"] != len(models) or told["Models"] != {"Number": sum(one["Number"] for one in models), "More": "yes" if more else "no"}:
        return "sums"
    return None if told["Result"] in words[status] and more == (status in (1, 10)) else "result"


def json_differs(words, source):
    """Whether the JSON of a series and its lines say different things."""
    plain = compare.run(words, source)
    made = compare.run([*words, "--output", "json"], source)
    told = json.loads(made.stdout)
    if (made.returncode, lines_of(told)) != (plain.returncode, plain.stdout.decode()):
        return f"as JSON {made.stdout!r}, {plain.stdout!r}"
    return sums_fault(told, made.returncode)


def differs(program, text, asked, mode):
    words = ["--mode", mode, "--queries"]
    source = text + "".join(map(statement, asked)) + "0\n"
    done = compare.run(program + words, source)
    told = pieces(done.stdout.decode())
    if [number for number, _, _ in told] != ["1", "2", "3", "4", "5"]:
        return f"{len(told)} queries answered, status {done.returncode}, {done.stderr.decode()}"
    any_model = False
    promised = compare.MODES[mode][1]
    for query, (number, _, body) in zip(asked, told):
        lines = body.split("\n")
        cores = [line for line in lines if "ore:" in line.partition(" ")[0] or line.startswith("Minimal core:")]
        results = body if not cores else body[: body.index(cores[0])]
        wanted = compare.wanted_of(with_assumed(text, query), mode)
        if promised(results) != promised(wanted):
            return f"query {number}: {results!r}, not {wanted!r}"
        refuted = wanted.startswith("UNSATISFIABLE")
        any_model = any_model or not refuted
        if len(cores) != refuted:
            return f"query {number}: {len(cores)} cores"
        if refuted:
            fault = core_fault(text, query, cores[0], "--core-min" in program)
            if fault:
                return f"query {number}: {cores[0]}: {fault}"
    if done.returncode != (30 if any_model else 20):
        return f"status {done.returncode}"
    return next(filter(None, (json_differs(program + words + more, source) for more in ([], ["--names"], ["--budget", "3"], ["--quiet"]))), None)


def pigeons(count):
    """As many pigeons in one hole fewer, each in one at least: the query that asks for it has no answer, found by no short search."""
    atom = {(i, j): 2 + i * count + j for i in range(count) for j in range(count - 1)}
    lines = [f"1 1 {len(atom)} {' '.join(map(str, atom.values()))} 0 0", "1 1 1 1 0 0"]
    for i in range(count):
        absent = [-atom[i, j] for j in range(count - 1)]
        lines.append(" ".join(map(str, [1, 0, 0, 0, len(absent) + 1, 1, *absent])))
    lines += [f"1 0 0 0 2 {atom[i, j]} {atom[k, j]}" for j in range(count - 1) for i in range(count) for k in range(i)]
    return "asp 1 0 0\n" + "\n".join(lines) + "\n4 4 calm 1 -1\n0\n"


def sends_on(program):
    """Whether a query's results are there while the next one is searched."""
    asked = pigeons(13) + statement([-1]) + statement([1]) + "0\n"
    with subprocess.Popen([*program, "--queries", "--mode", "opt", "--quiet"], stdin=subprocess.PIPE, stdout=subprocess.PIPE, text=True) as running:
        late = threading.Timer(60, running.kill)
        late.start()
        running.stdin.write(asked)
        running.stdin.close()
        told = [running.stdout.readline() for _ in range(4)]
        late.cancel()
        try:
            running.wait(0.5)
            goes_on = False
        except subprocess.TimeoutExpired:
            goes_on = True
        running.kill()
    return told == ["Query: 1\n", "Optimization:\n", "OPTIMUM FOUND\n", "Models: 1\n"] and goes_on


def counted(words, source):
    """A run of a series, and the counts of each of its queries."""
    done = compare.run([*words, "--queries", "--stats"], source)
    parts = re.split("^Quer.*\n", done.stderr.decode(), flags=re.M)[1:-1]
    return done, [{name: int(number) for name, number in (line.split(": ") for line in part.splitlines())} for part in parts]


def counts_of(program, source):
    """The counts of each query of a series, in which all answers are asked for, and the status."""
    words = [word for word in program if word != "--core-min"]
    done, counts = counted([*words, "--mode", "enum", "--quiet"], source)
    return counts, done.returncode


def minimised(text):
    """The program, which prefers few of its atoms 1 to 12."""
    return text.removesuffix("0\n") + f"2 0 12 {' '.join(f'{atom} 1' for atom in range(1, 13))}\n0\n"


def without_cores(done):
    """What a series wrote, but for the literals of its cores, and its status. Which core is told depends on who searched the query."""
    return re.sub(b"ore: .*", b"ore:", done.stdout), done.returncode


def was_refuted(done):
    """Of each query whether it has a core."""
    return [b"Core:" in part for part in re.split(b"^Query: ", done.stdout, flags=re.M)[1:]]


def cores_of(done):
    """The literals of each core that was told."""
    return [set(map(int, line.split(b":")[1].split())) for line in done.stdout.splitlines() if line.startswith(b"Core:")]


def shares(program):
    """Whether workers search each hard query, by other counts than one thread has, and one search the easy ones, by the same counts; the results are those of one thread, but for which core is told."""
    hard, queries = switched_sat(180, 4.6, 3, 1)
    easy, some = switched_sat(20, 4.6, 3, 1)
    rows = [("enum", hard, queries, True), ("opt", minimised(hard), queries, True), ("opt", minimised(easy), some, False)]
    for mode, text, asked, is_hard in rows:
        source = text + "".join(map(statement, asked)) + "0\n"
        (alone, one), (crew, four) = (counted([program, "--mode", mode, "--workers", workers], source) for workers in ("1", "4"))
        if without_cores(alone) != without_cores(crew) or len(one) != len(asked):
            return f"{mode}: {alone.stdout[-200:]!r}, by four workers {crew.stdout[-200:]!r}"
        # (an optimum is searched from scratch by both, and then a core is all that was assumed, as by workers always)
        if not all(core == other if mode == "opt" else core <= other for core, other in zip(cores_of(alone), cores_of(crew), strict=True)):
            return f"{mode}: cores {cores_of(alone)}, by four workers {cores_of(crew)}"
        if cores_of(crew) != [set(query) for query, core in zip(asked, was_refuted(crew)) if core]:
            return f"{mode}: by four workers a core isn't all that was assumed"
        if [counts != others for counts, others in zip(one, four)] != [is_hard] * len(asked):
            return f"{mode}: {one}, of four workers {four}"
    return None


def keeps_one(program):
    """Whether one search is kept for all queries: what the program alone implies is propagated once, and two decisions refute a query."""
    # (atoms are left free, so that no set is whole before it is seen that the query is refuted)
    forced = range(14, 214)
    lines = ["asp 1 0 0", f"1 1 213 {' '.join(map(str, range(1, 214)))} 0 0", "1 0 0 0 2 1 2", *(f"1 0 0 0 1 {-atom}" for atom in forced), "0\n"]
    source = "\n".join(lines) + statement([1, 2]) * 1000 + statement([3, 1, 2]) * 1000 + "0\n"
    counts, status = counts_of(program, source)
    few = (one["Decisions"] <= 4 and (number == 0 or one["Propagated"] <= 10) for number, one in enumerate(counts))
    return len(counts) == 2000 and status == 20 and all(few)


def tells_why(program):
    """Whether a core without --core-min is the literal that is false and what was decided up to it, and one of a program without answers is empty."""
    words = [*(word for word in program if word != "--core-min"), "--queries", "--mode", "enum"]
    text = f"asp 1 0 0\n1 1 20 {' '.join(map(str, range(1, 21)))} 0 0\n1 0 0 0 2 3 4\n"
    asked = "".join(map(statement, [[9, 3, 7, 4, 8, 10], [3, -5, 4]]))
    told = compare.run(words, f"{text}0\n{asked}0\n").stdout.decode()
    none = compare.run(words, f"{text}1 0 0 0 0\n0\n{statement([1, -2])}0\n").stdout.decode()
    return [line for line in told.split("\n") if "ore:" in line] == ["Core: 3 4 9", "Core: 3 4"] and "\nCore:\n" in none


def keeps_what_it_learnt(program):
    """Whether a query that was refuted by conflicts is refuted without one when it comes again, also after one with answers."""
    counts, status = counts_of(program, pigeons(5) + "".join(map(statement, [[1], [-1], [1], [-1, 2], [1]])) + "0\n")
    conflicts = [one["Conflicts"] for one in counts]
    return status == 30 and len(conflicts) == 5 and conflicts[0] > 0 and conflicts[2] == conflicts[4] == 0


def main():
    program = sys.argv[1].split()
    if not keeps_one(program) or not keeps_what_it_learnt(program):
        print("queries aren't asked of one search")
        return True
    if not tells_why(program):
        print("a core isn't what the kept search says")
        return True
    fault = shares(program[0])
    if fault:
        print(fault)
        return True
    if not sends_on(program):
        print("a query's results aren't sent on before the next begins")
        return True
    count = int(sys.argv[2]) if len(sys.argv) > 2 else 100
    random_ = random.Random(int(sys.argv[3]) if len(sys.argv) > 3 else 1)
    different = 0
    for _ in range(count):
        text = compare.program(random_)
        asked = queries(random_, text)
        for mode in ("enum", "opt"):
            fault = differs(program, text, asked, mode)
            if fault:
                different += 1
                print(f"{mode}: {fault}\n{text}{''.join(map(statement, asked))}0\n")
    print(f"{count} programs with 5 queries each: {different} differ")
    return different != 0


if __name__ == "__main__":
    sys.exit(main())
