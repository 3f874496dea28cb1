#!/usr/bin/env python3
"""What several workers tell one another, by blocks under a lock and by a row of slots: a row of a table for each program and
number of workers, with the medians of some runs of either, one after the other in turn.

    logs.py [--markdown] PROGRAM [RUNS [NAME..]]      build/aspenum, 3 runs, the programs of NAMES

It needs gringo, and means something on an idle machine alone.
"""
import re
import statistics
import sys
import tempfile

import programs
import workers

NAMES = ("sat-250", "sat-300", "cover-60", "cover-65", "timetable-a", "timetable-b")
CREWS = (2, 4, 8)
LOGS = ("blocks", "row")
HEADS = ("program", "workers", "busiest, blocks", "row", "by the clock, blocks", "row", "conflicts, blocks", "row", "entries, blocks", "row")


def measured(program, path, room, crew, log):
    """Seconds of the busiest worker and by the clock, conflicts of all, and entries of the log."""
    _, clock, busiest, said, _ = workers.run([program, "--quiet", "--stats", "--workers", str(crew), "--log", log], path, room)
    count = lambda name: int(re.search(rf"^{name}: (\d+)", said, re.M)[1])
    return busiest, clock, count("Conflicts"), count("Log")


def row(program, path, room, name, crew, runs):
    """The cells of a row."""
    seen = {log: [] for log in LOGS}
    for _ in range(runs):
        for log in LOGS:
            seen[log].append(measured(program, path, room, crew, log))
    middle = {log: [statistics.median(run[i] for run in seen[log]) for i in range(4)] for log in LOGS}
    cells = [f"{middle[log][i]:.2f}" if i < 2 else f"{middle[log][i]:.0f}" for i in range(4) for log in LOGS]
    return [name, str(crew), *cells]


def main():
    words = sys.argv[1:]
    markdown = words[:1] == ["--markdown"]
    words = words[markdown:]
    program = words[0] if words else "build/aspenum"
    runs = int(words[1]) if len(words) > 1 else 3
    line = (lambda it: "| " + " | ".join(it) + " |") if markdown else (lambda it: "".join(f"{cell:>22}" for cell in it))
    print(line(HEADS))
    if markdown:
        print("|" + "---|" * len(HEADS))
    with tempfile.TemporaryDirectory() as room:
        for name in words[2:] or NAMES:
            path = f"{room}/{name}"
            with open(path, "wb") as file:
                file.write(programs.PROGRAMS[name][1]())
            for crew in CREWS:
                print(line(row(program, path, room, name, crew, runs)), flush=True)


main()
