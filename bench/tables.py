#!/usr/bin/env python3
"""Writes the tables of bench/README.md from the figures of bench/figures, each between two marks of the page.

    tables.py             says which tables aren't those of the figures; status 1 where one isn't
    tables.py --write     writes them

The figures come by `--save` of solve.py, of solve.py --workers and of growth.sh."""
import json
import os
import re
import sys

sys.dont_write_bytecode = True
from programs import HALVES  # noqa: E402
from solve import NEAREST_LIMIT, SIDES, cells, mean  # noqa: E402
from workers import cells as worker_cells, heads  # noqa: E402

PAGE = "bench/README.md"
OTHERS = SIDES[1:]


def figures(name):
    with open(f"bench/figures/{name}.json", encoding="utf-8") as file:
        found = json.load(file)
    return found["about"], found["rows"]


def table(heads, rows):
    return "\n".join("| " + " | ".join(it) + " |" for it in (heads, ["---"] * len(heads), *rows))


def of_when(about):
    return f"{about['date'].partition(',')[0]}, {about['machine']}, {about['revision']}"


def ratio(row):
    """Our time by that of clasp as it comes."""
    return max(row["aspenum"]["time"], 0.01) / max(row["default"]["time"], 0.01)


def solve():
    about, rows = figures("solve")
    runs = {1: "one run each"}.get(about["runs"], f"aspenum and clasp's default are the least of {about['runs']} runs in turn, nearest ran once")
    ended = {side: sum(it[side]["ended"] for it in rows) for side in SIDES}
    sorted_rows = sorted(rows, key=ratio)
    least, greatest = sorted_rows[:5], sorted_rows[:-6:-1]
    told = lambda some: ", ".join(f"{it['name']} {ratio(it):.2f}" for it in some)
    halves = []
    for half in (*HALVES, "all"):
        some = [it for it in rows if half in (it["half"], "all")]
        halves.append([half, f"{sum(it['aspenum']['ended'] for it in some)} of {len(some)}",
                       *(f"{mean(some, other, what, floor):.2f}" for what, floor in (("time", 0.01), ("conflicts", 1)) for other in OTHERS)])
    heads = ["half", "ended", *(f"{what} by {other}" for what in ("time", "conflicts") for other in OTHERS)]
    return "\n\n".join((
        f"{of_when(about)}, {about['clasp']}; {about['limit']} seconds at most (nearest {min(about['limit'], NEAREST_LIMIT)}), {about['at once']} at a time; {runs}.",
        table(heads, halves),
        f"Of {len(rows)} programs {ended['aspenum']} end within the limit ({ended['default']} with clasp's default, {ended['nearest']} "
        f"with nearest), and {sum(ratio(it) < 1 for it in rows)} take less time than clasp's default. "
        f"Least times by clasp's default: {told(least)}. Greatest: {told(greatest)}.",
        table(["program", "half", "aspenum", "nearest", "default", "conflicts", "nearest", "default", "MB", "nearest", "default", "same"], map(cells, rows)),
    ))


def workers():
    about, rows = figures("workers")
    runs = {1: "one run each"}.get(about["runs"], f"means of {about['runs']} runs in turn")
    told = "Processor seconds, except where the clock is named; clasp's by the clock"
    return f"{of_when(about)}, {about['clasp']}; {runs}. {told}.\n\n" + table(heads(about["workers"]), map(worker_cells, rows))


def growth():
    about, rows = figures("growth")
    lines = []
    for it in rows:
        seconds = [f"{'' if ended else '>'}{time:.2f}" for time, ended in zip(it["seconds"], it["ended"])]
        times = it["seconds"][-1] / max(it["seconds"][0], 0.01)
        whole = all(it["ended"]) and len(seconds) == len(about["sizes"])
        lines.append([it["name"], " ".join(seconds), f"{times:.0f}" if whole else "-", " ".join(f"{mb:.0f}" for mb in it["memory"])])
    sizes = f"{about['sizes'][0]:,} to {about['sizes'][-1]:,}"
    return f"{of_when(about)}; single runs, n from {sizes}, doubled each time.\n\n" + table(["input", "seconds", "last by first", "MB"], lines)


def main():
    os.chdir(os.path.join(os.path.dirname(os.path.realpath(__file__)), ".."))
    with open(PAGE, encoding="utf-8") as file:
        page = file.read()
    new, wrong = page, []
    for name, made in (("solve", solve()), ("workers", workers()), ("growth", growth())):
        begin, end = f"<!-- bench/figures/{name}.json -->\n", f"\n<!-- end of {name}.json -->"
        old = re.search(re.escape(begin) + "(.*?)" + re.escape(end), new, re.S)
        if not old:
            sys.exit(f"{PAGE}: no place for the table {name}: wanted are the lines {begin.strip()} and {end.strip()}")
        if old.group(1) != made:
            wrong.append(f"{PAGE}: the table of {name} isn't that of bench/figures/{name}.json: bench/tables.py --write makes it")
        new = new[:old.start(1)] + made + new[old.end(1):]
    if "--write" in sys.argv[1:]:
        with open(PAGE, "w", encoding="utf-8") as file:
            file.write(new)
        return
    for it in wrong:
        print(it)
    sys.exit(1 if wrong else 0)


if __name__ == "__main__":
    main()
