#!/usr/bin/env python3
"""Holds --progress to what no contract says: that lines come, when they are due, and with what was counted, and each better answer.

    progress.py PROGRAM

Programs of search.py, and an enumeration, run with the option and without it: standard output and the status are the same. Each
line stands beside the one before it: the conflicts or the answers have doubled, or in an optimisation a cheaper answer was
found; and between the last line and the counts of --stats nothing that was due is missing. With two and with four workers there
are lines too, where the run is long enough, whose conflicts and answers don't fall, and standard output is the same where it must
be. A line of a series names the query that is being answered, and no other line names one; by four workers, too, no count falls
from query to query. With --stats a series tells the counts
of each query, and their sums."""
import re
import subprocess
import sys

from search import cheapest_trust, random_sat, switched_sat

LINE = re.compile(r"Progress: conflicts (\d+), decisions (\d+), restarts (\d+), nogoods (\d+), answers (\d+)(?:, best((?: -?\d+)+))?(?:, query (\d+))?")
COUNT = re.compile(r"(\w+): (\d+)")
FREE = f"asp 1 0 0\n1 1 12 {' '.join(map(str, range(1, 13)))} 0 0\n0\n".encode()

# a program, the words, whether it is an optimisation, and the fewest lines that it must give to one worker and to several
ROWS = [
    ("3-SAT of 200", random_sat(200, 4.8, 2), [], False, 11, 1),
    ("trust of 24", cheapest_trust(24, 6, 4, 3), [], True, 10, 1),
    ("12 free atoms", FREE, [], False, 13, 0),
    ("12 free atoms, a budget", FREE, ["--budget", "0"], False, 13, 0),
]


def answers_apart(notes):
    """The lines of notes without the two lines of each answer, and those: how many lines stand before it, its number and its text."""
    lines, answers = [], []
    rest = iter(notes)
    for line in rest:
        if line.startswith("Answer: "):
            answers.append((len(lines), int(line[8:]), next(rest, None)))
        else:
            lines.append(line)
    return lines, answers


def answer_faults(lines, answers, written):
    """What is wrong with better answers: each new one stands behind its line, with its number, and the last one is the optimum."""
    due = [(it + 1, int(line[5])) for it, line in enumerate(lines) if int(line[5]) > (int(lines[it - 1][5]) if it else 0)]
    if [answer[:2] for answer in answers] != due:
        yield f"answers {[answer[:2] for answer in answers]}, due {due}"
    elif answers and f"Answer: 1\n{answers[-1][2]}\n" not in written:
        yield f"the last better answer isn't the optimum: {answers[-1]}"


def faults(name, text, words, optimum, least, crew_least):
    plain = subprocess.run([sys.argv[1], *words], input=text, capture_output=True, timeout=120)
    told = subprocess.run([sys.argv[1], "--progress", "--stats", *words], input=text, capture_output=True, timeout=120)
    if (plain.stdout, plain.returncode) != (told.stdout, told.returncode):
        yield "another output or status"
    if plain.stderr:
        yield "notes without the option"
    for workers in ("2", "4"):
        crew = subprocess.run([sys.argv[1], "--progress", "--workers", workers, *words], input=text, capture_output=True, timeout=120)
        if crew.returncode != plain.returncode or not optimum and crew.stdout != plain.stdout:
            yield f"another output or status of {workers} workers"
        for fault in crew_faults([LINE.fullmatch(line) for line in crew.stderr.decode().splitlines()], crew_least):
            yield f"{fault}, of {workers} workers"
    notes, answers = answers_apart(told.stderr.decode().splitlines())
    lines = [LINE.fullmatch(line) for line in notes]
    count = next((it for it, line in enumerate(lines) if not line), len(lines))
    stats = {it[1]: int(it[2]) for it in map(COUNT.fullmatch, notes[count:]) if it}
    if count < least or any(lines[count:]):
        yield f"{count} lines in front of the counts, of {least}"
    yield from answer_faults(lines[:count] if optimum else [], answers, plain.stdout.decode())
    last, cost = [0] * 5, None
    for line in lines[:count]:
        now = [int(it) for it in line.groups()[:5]]
        if not (now[0] >= 2 * last[0] > 0 or now[4] >= 2 * last[4] > 0 or last[0] < now[0] == 1 or last[4] < now[4] == 1 or optimum and now[4] > last[4]):
            yield f"a line that isn't due: {line[0]}"
        if any(was > it for was, it in zip(last[:3], now)) or now[4] < last[4]:
            yield f"a count fell: {line[0]}"
        if optimum and now[4] > last[4] and (line[6] is None or cost is not None and [int(it) for it in line[6].split()] >= cost):
            yield f"no cheaper answer: {line[0]}"
        if not optimum and line[6] is not None:
            yield f"a cost without an optimisation: {line[0]}"
        if line[7] is not None:
            yield f"a query without a series: {line[0]}"
        last, cost = now, line[6] and [int(it) for it in line[6].split()]
    if stats.get("Conflicts", 0) >= max(2 * last[0], 1) or stats.get("Decisions", -1) < last[1] or stats.get("Restarts", -1) < last[2]:
        yield f"the counts don't follow on the last line: {stats}"


def crew_faults(lines, least):
    """What is wrong with the lines of several workers: how early each comes is theirs to tell."""
    if not all(lines):
        yield "another note"
    elif len(lines) < least:
        yield f"{len(lines)} lines of {least}"
    else:
        told = [(int(line[1]), int(line[5])) for line in lines]
        if any(was[0] > now[0] or was[1] > now[1] or was == now for was, now in zip(told, told[1:])):
            yield "a count fell"


def series_faults():
    """Three queries, the first and the last of which have half of the answers: each has enough of them for a line."""
    text = FREE + b"6 1 1\n6 0\n6 1 -1\n0\n"
    told = subprocess.run([sys.argv[1], "--progress", "--queries"], input=text, capture_output=True, timeout=120)
    lines = [LINE.fullmatch(line) for line in told.stderr.decode().splitlines()]
    if told.returncode != 30 or not all(lines):
        yield f"status {told.returncode}, or another note"
        return
    if told.stdout != subprocess.run([sys.argv[1], "--queries"], input=text, capture_output=True, timeout=120).stdout:
        yield "another output"
    at = [(int(line[5]), int(line[7] or 0)) for line in lines]
    # up to 2,048 answers are the first query's, up to 6,144 the second's
    if [query for _, query in at] != [1 if answers <= 2048 else 2 if answers <= 6144 else 3 for answers, _ in at] or at[-1][1] < 2:
        yield f"another query: {at}"


def crew_series_faults():
    """Two hard queries by four workers: over both of them no count falls, and there are lines of each."""
    text, asked = switched_sat(200, 4.6, 2, 1)
    source = (text + "".join(f"6 {len(query)} {' '.join(map(str, query))}\n" for query in asked) + "0\n").encode()
    told = subprocess.run([sys.argv[1], "--progress", "--queries", "--workers", "4"], input=source, capture_output=True, timeout=120)
    lines = [LINE.fullmatch(line) for line in told.stderr.decode().splitlines()]
    fault = next(crew_faults(lines, 8), None)
    if fault or told.returncode != 20:
        yield f"status {told.returncode}, {fault}"
        return
    queries = [int(line[7] or 0) for line in lines]
    if queries != sorted(queries) or set(queries) != {1, 2} or int(lines[-1][1]) < 4096:
        yield f"other queries: {told.stderr.decode()}"


def parts_faults():
    """A series with --stats: the counts of each of its queries, and their sums."""
    text = random_sat(60, 4.2, 1) + b"6 0\n6 1 1\n6 2 -1 2\n0\n"
    told = subprocess.run([sys.argv[1], "--stats", "--queries"], input=text, capture_output=True, timeout=120)
    parts = [dict(line.split(": ") for line in part.splitlines()) for part in re.split(r"(?=^Quer)", told.stderr.decode(), flags=re.M)[1:]]
    counted = ["Conflicts", "Decisions", "Propagated", "Restarts", "Kept", "Dropped"]
    if [list(part) for part in parts] != [["Query", *counted]] * 3 + [["Queries", *counted]]:
        yield f"other parts: {told.stderr.decode()}"
    elif [part.get("Query", part.get("Queries")) for part in parts] != ["1", "2", "3", "3"]:
        yield "other numbers"
    elif any(int(parts[-1][it]) != sum(int(part[it]) for part in parts[:-1]) for it in counted[:4]) or int(parts[0]["Decisions"]) == 0:
        yield f"no sums: {parts}"
    if told.stdout != subprocess.run([sys.argv[1], "--queries"], input=text, capture_output=True, timeout=120).stdout:
        yield "another output"


def main():
    failed = 0
    for fault in parts_faults():
        print(f"failed: counts of a series: {fault}")
        failed += 1
    for fault in series_faults():
        print(f"failed: a series: {fault}")
        failed += 1
    for fault in crew_series_faults():
        print(f"failed: a series by four workers: {fault}")
        failed += 1
    for row in ROWS:
        for fault in faults(*row):
            print(f"failed: {row[0]}: {fault}")
            failed += 1
    print(f"progress: {len(ROWS) + 3} programs, {failed} faults")
    sys.exit(1 if failed else 0)


main()
