#!/usr/bin/env python3
"""Times aspenum beside clasp: processor time, conflicts, memory, and whether they say the same.

usage: bench/solve.py [--program build/aspenum] [--limit SECONDS] [--jobs N] [--runs N] [--half tuned|held-out] [--small]
                      [--markdown] [--texts FOLDER] [--save FILE [--revision TEXT] [--machine TEXT]] [NAME..]
       bench/solve.py --workers N [--program build/aspenum] [--runs N] [--markdown] [--texts FOLDER] [--save FILE ..] [NAME..]

clasp runs twice: as it comes ("default", writing no answers), and in the configuration nearest to this search ("nearest"),
which switches off what this search has nothing like. Each program runs once in each, within a limit of 60 seconds of processor
time ("nearest" 20): what doesn't end is shown with ">" and counted at the limit. With --runs all but "nearest" run several times, in turn, and
the least time of each counts: for machines that aren't calm. The programs are in programs.py, each with its half: we tune on
'tuned' alone, and 'held out' tells whether that helped what we didn't look at. bench/README.md says what each is. It ends with
status 1 where two that ended said different things; it is outside the gate.

With --save the figures are kept, with the day, the machine and the revision, for docs/pictures: bench/figures/solve.json and,
with --workers, bench/figures/workers.json.

With --workers it runs programs (those of workers.py where none is named) with one worker and with so many, and shows the busiest
thread's processor time and conflicts, clasp's time with as many threads, and how many answers were delivered twice; means of --runs."""
import argparse
import math
import os
import re
import resource
import subprocess
import sys
import tempfile
from concurrent.futures import ThreadPoolExecutor

import saving
import workers
from programs import HALVES, PROGRAMS

HERE = os.path.dirname(os.path.abspath(__file__))
CLASP = (
    "clasp --sat-prepro=no --eq=0 --no-backprop --trans-ext=no --heuristic=vsids --restarts=l,64 --no-local-restarts"
    " --opt-strategy=bb,lin --strengthen=no --otfs=0 --no-init-moms --score-other=no --save-progress=0 --sign-def=neg"
    " --sign-fix --update-lbd=no --del-glue=0 --loops=common --deletion=basic,50 --del-grow=no --del-cfl=+,2000,500 --stats -n 0"
).split()
DEFAULT = "clasp --stats -n 0 -q".split()
NEAREST_LIMIT = 20


def run(words, path, output, limit):
    """Returns the notes, the processor time in seconds, the greatest memory in MB, and whether the limit stopped it."""
    def limits():
        resource.setrlimit(resource.RLIMIT_CPU, (limit, limit + 1))
        resource.setrlimit(resource.RLIMIT_AS, (6 << 30, 6 << 30))

    with open(path, "rb") as text, open(output, "wb") as out, tempfile.TemporaryFile() as notes:
        process = subprocess.Popen(words, stdin=text, stdout=out, stderr=notes, preexec_fn=limits)
        _, status, used = os.wait4(process.pid, 0)
        notes.seek(0)
        said = notes.read().decode(errors="replace")
    time = used.ru_utime + used.ru_stime
    # clasp catches the signal of the limit and ends by itself.
    ended = not os.WIFSIGNALED(status) and time < limit
    return said, time, used.ru_maxrss / 1024, ended


def text_of(name, room):
    """The path of a program's text in a folder, made where it isn't there."""
    path = f"{room}/{name}.aspif"
    if not os.path.exists(path):
        with open(path, "wb") as it:
            it.write(PROGRAMS[name][1]())
    return path


def tail_of(output):
    with open(output, "rb") as text:
        text.seek(max(0, os.path.getsize(output) - 4000))
        return text.read().decode(errors="replace")


def number(pattern, text):
    found = re.search(pattern, text)
    return int(found[1]) if found else None


def result_of(text):
    """Returns the number of models, or the cost of the optimum."""
    costs = re.findall(r"Optimization\s*:((?: -?\d+)+)", text)
    return costs[-1].strip() if costs else number(r"Models\s*: (\d+)", text)


SIDES = ("aspenum", "nearest", "default")


def once_more(words, path, output, limit, known):
    """A run once more: what it says, if it took less time than the one that is known."""
    again = run(words, path, output, limit)
    return again if again[3] and again[1] < known[1] else known


def measured(program, name, room, limit, runs=1):
    """A row: for each side the seconds, conflicts and memory, and whether it ended; what the sides that ended said must agree."""
    path, row, said = text_of(name, room), {"name": name, "half": PROGRAMS[name][0]}, []
    quiet = ["-q"] if name.startswith("free") else []
    commands = dict(zip(SIDES, ([program, "--stats"], [*CLASP, *quiet], DEFAULT)))
    outputs = {side: f"{room}/{name}.{side}" for side in SIDES}
    limits = {side: min(limit, NEAREST_LIMIT) if side == "nearest" else limit for side in SIDES}
    found = {side: run(commands[side], path, outputs[side], limits[side]) for side in SIDES}
    for side in [side for _ in range(runs - 1) for side in (SIDES[0], SIDES[2])]:
        found[side] = once_more(commands[side], path, outputs[side], limit, found[side])
    for side in SIDES:
        notes, time, memory, ended = found[side]
        text = tail_of(outputs[side])
        os.remove(outputs[side])
        # Stopped by the limit, clasp ends by itself just below it, and says so.
        ended = ended and "INTERRUPTED" not in text
        conflicts = number(r"Conflicts\s*: (\d+)", text) if side != "aspenum" else number(r"Conflicts: (\d+)", notes)
        row[side] = {"time": time if ended else limits[side], "conflicts": conflicts, "memory": memory, "ended": ended}
        if ended:
            said.append(result_of(text))
    row["same"] = "-" if len(said) < 2 else "yes" if len(set(said)) == 1 and said[0] is not None else "NO"
    return row


def mean(rows, other, what, least):
    """The geometric mean of ours by the other's; of conflicts over the programs that both ended."""
    pairs = [(it["aspenum"], it[other]) for it in rows]
    if what == "conflicts":
        pairs = [(a, b) for a, b in pairs if a["ended"] and b["ended"] and None not in (a[what], b[what])]
    logs = [math.log(max(a[what], least) / max(b[what], least)) for a, b in pairs]
    return math.exp(sum(logs) / len(logs)) if logs else float("nan")


def cells(row):
    """What is shown of a row: a limit that was met has a ">", a number that isn't known a "-"."""
    sides = [row[it] for it in SIDES]
    return [
        row["name"], row["half"],
        *(f"{'' if it['ended'] else '> '}{it['time']:.2f}" for it in sides),
        *("-" if it["conflicts"] is None else f"{it['conflicts']:,}" for it in sides),
        *(f"{it['memory']:.0f}" for it in sides), row["same"],
    ]


def line(texts, markdown):
    if markdown:
        return "| " + " | ".join(texts) + " |"
    return f"{texts[0]:18} {texts[1]:8} " + " ".join(f"{it:>{width}}" for it, width in zip(texts[2:], (8, 8, 8, 10, 10, 10, 7, 7, 7, 4)))


def means(rows):
    halves = [half for half in (*HALVES, "small") if any(it["half"] == half for it in rows)]
    for half in (*halves, *(["all"] if len(halves) > 1 else [])):
        some = [it for it in rows if half in (it["half"], "all")]
        ended = [f"{sum(it[side]['ended'] for it in some)} {side}" for side in SIDES]
        print(f"{half}: {len(some)} programs, ended: {', '.join(ended)}")
        for other in SIDES[1:]:
            time, conflicts = mean(some, other, "time", 0.01), mean(some, other, "conflicts", 1)
            print(f"  geometric mean by {other}: time {time:.2f}, conflicts {conflicts:.2f}")


def kept(row):
    """A row as it is saved: seconds to a thousandth, memory in whole MB."""
    sides = {side: {**row[side], "time": round(row[side]["time"], 3), "memory": round(row[side]["memory"])} for side in SIDES}
    return {**row, **sides}


def main():
    words = argparse.ArgumentParser()
    words.add_argument("--program", default=f"{HERE}/../build/aspenum")
    words.add_argument("--limit", type=int, default=60, help="seconds of processor time for each run; 'nearest' has 20 at most")
    words.add_argument("--jobs", type=int, default=1, help="programs at the same time")
    words.add_argument("--runs", type=int, default=1, help="how often aspenum and clasp's default run, in turn")
    words.add_argument("--half", choices=HALVES)
    words.add_argument("--small", action="store_true", help="the small programs too, which are in neither half")
    words.add_argument("--markdown", action="store_true")
    words.add_argument("--texts", help="a folder that keeps the grounded texts")
    saving.add_options(words)
    words.add_argument("--workers", type=int, help="how work divides among so many threads, in place of all else")
    words.add_argument("names", nargs="*")
    given = words.parse_args()
    if given.workers:
        with tempfile.TemporaryDirectory() as temporary:
            room = given.texts or temporary
            os.makedirs(room, exist_ok=True)
            found = workers.table(given.program, given.workers, given.runs, lambda name: text_of(name, room), temporary, given.names, given.markdown)
        saving.save(given, {"workers": given.workers, "runs": given.runs, "clasp": saving.clasp()}, found)
        return 0
    halves = [given.half] if given.half else [*HALVES, *(["small"] if given.small else [])]
    names = given.names or [name for name, (half, _) in PROGRAMS.items() if half in halves]
    heads = ["program", "half", *SIDES, "conflicts", *SIDES[1:], "MB", *SIDES[1:], "same"]
    print(line(heads, given.markdown))
    if given.markdown:
        print("|" + "---|" * len(heads))
    rows = []
    with tempfile.TemporaryDirectory() as temporary, ThreadPoolExecutor(given.jobs) as pool:
        room = given.texts or temporary
        os.makedirs(room, exist_ok=True)
        for row in pool.map(lambda name: measured(given.program, name, room, given.limit, given.runs), names):
            rows.append(row)
            print(line(cells(row), given.markdown), flush=True)
    means(rows)
    about = {"clasp": saving.clasp(), "limit": given.limit, "runs": given.runs, "at once": given.jobs}
    saving.save(given, about, [kept(it) for it in rows])
    return 1 if any(it["same"] == "NO" for it in rows) else 0


if __name__ == "__main__":
    sys.exit(main())
