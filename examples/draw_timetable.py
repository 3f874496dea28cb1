#!/usr/bin/env python3
"""Solves timetable.lp by the module aspenum (python/aspenum.py), and draws its best timetables: an hour a line.

    draw_timetable.py [PROGRAM]     (aspenum, where no program is named)"""
import re
import sys
from os.path import abspath, dirname, join

HERE = dirname(abspath(__file__))
sys.path.append(join(HERE, "..", "python"))
import aspenum  # noqa: E402


def drawn(answer):
    """The lines of a timetable: the lectures of each hour, by name, in two columns."""
    hours = {}
    for text in answer:
        lecture, hour = re.fullmatch(r"at\((\w+),(\d+)\)", text).groups()
        hours.setdefault(int(hour), []).append(lecture)
    line = "+---+" + ("-" * 9 + "+") * 2
    rows = ["| {} | {:7} | {:7} |".format(hour, *(sorted(hours[hour]) + ["", ""])[:2]) for hour in sorted(hours)]
    return [line, *(it for row in rows for it in (row, line))]


def main():
    result = aspenum.solve(join(HERE, "timetable.lp"), optima=True, aspenum=(sys.argv[1:] or ["aspenum"])[0])
    print(f"{result.word}: {len(result)} timetables, wishes unmet: {result.cost[0]}")
    for answer in result:
        print("\n".join(["", *drawn(answer)]))


main()
