"""How work divides among threads: what bench/solve.py --workers shows.

The conflicts of the busiest worker, by those of one worker alone, say how the search divides whatever else the machine does. A
thread's processor time is read from /proc a hundred times a second while the program runs, so that of a thread that ended
since is known to some 10 milliseconds. The busiest thread bounds how soon a run can end, whatever else the machine does: on
idle processors the time by the clock comes near it. clasp runs with as many threads beside it, which compete or split the search."""
import os
import re
import subprocess
import time

TICKS = os.sysconf("SC_CLK_TCK")

# What many workers are judged by: enumerations first. Each is a name of programs.py, or make-N: all colourings of a ring of N nodes.
NAMES = (
    "cycle-18", "make-18", "queens-12", "subsets-22", "latin-8-20", "configuration-a", "pack-24x3", "pigeons-10", "cover-60",
    "sat-250", "sat-300-b", "slide-3x4-20", "timetable-b", "tour-20", "robots-8",
)
PARTS = ("busiest", "of 1 worker's")


def of_thread(stat):
    """A thread's number, and its processor time in seconds."""
    number, _, rest = stat.partition(" (")
    fields = rest.rpartition(")")[2].split()
    return int(number), (int(fields[11]) + int(fields[12])) / TICKS


def look(pid, times):
    """Notes what each thread of the process took so far."""
    try:
        for thread in os.listdir(f"/proc/{pid}/task"):
            with open(f"/proc/{pid}/task/{thread}/stat") as file:
                number, seconds = of_thread(file.read())
            times[number] = max(seconds, times.get(number, 0))
    except OSError:
        pass


def run(words, path, room):
    """Seconds of the processor and by the clock, those of the busiest thread, what was told, and the text's last lines."""
    times, began, ended = {}, time.monotonic(), 0
    with open(path, "rb") as text, open(f"{room}/output", "w+b") as out, open(f"{room}/notes", "w+b") as notes:
        process = subprocess.Popen(words, stdin=text, stdout=out, stderr=notes)
        while not ended:
            look(process.pid, times)
            time.sleep(0.01)
            ended, _, used = os.wait4(process.pid, os.WNOHANG)
        clock = time.monotonic() - began
        notes.seek(0)
        out.seek(max(0, os.path.getsize(out.name) - 200))
        return used.ru_utime + used.ru_stime, clock, max(times.values()), notes.read().decode(), out.read().decode(errors="replace")


def twice(said, tail):
    """How many answers of an enumeration were delivered more than once, by those that there are; of an optimum nothing is known."""
    models = re.search(r"Models: (\d+)", tail)
    if "Optimization:" in tail or not models or models[1] == "0":
        return "-"
    delivered = sum(int(it) for it in re.findall(r"^Worker \d+: .*answers (\d+)", said, re.M))
    return f"{100 * (delivered / int(models[1]) - 1):.1f} %"


def result(tail):
    """What runs with any number of workers must agree on: cost and number of models."""
    return re.findall(r"^(?:Optimization|Models):.*", tail, re.M)


def conflicts(said):
    """Conflicts of a run, and of its busiest worker."""
    all_of = int(re.search(r"^Conflicts: (\d+)", said, re.M)[1])
    return all_of, max((int(it) for it in re.findall(r"^Worker \d+: conflicts (\d+)", said, re.M)), default=all_of)


def of_clasp(path, room, threads):
    """Seconds by the clock of clasp's threads, which write no answers."""
    return run(["clasp", "-n", "0", "-q", "-t", threads], path, room)[1]


def once(program, words, path, room, workers):
    """One worker beside so many, once."""
    one, one_clock, _, alone, tail = run([program, *words, "--stats"], path, room)
    all_of, clock, busiest, said, same = run([program, *words, "--stats", "--workers", str(workers)], path, room)
    if not result(tail) or result(tail) != result(same):
        raise SystemExit(f"{path}: {result(tail)} with one worker, {result(same)} with {workers}")
    found = {"one": one, "one by the clock": one_clock, "all": all_of, "all by the clock": clock, "busiest": busiest,
             "conflicts": conflicts(alone)[0], "busiest's conflicts": conflicts(said)[1], "twice": twice(said, same)}
    if path != os.devnull:
        found |= {"clasp": of_clasp(path, room, str(workers)), "clasp split": of_clasp(path, room, f"{workers},split")}
    return found


def measured(program, words, path, room, workers, runs):
    """A row: means of so many runs in turn; of answers found twice what the last run tells."""
    rows = [once(program, words, path, room, workers) for _ in range(runs)]
    return {key: it if key == "twice" else round(sum(row[key] for row in rows) / runs, 3) for key, it in rows[-1].items()}


def heads(workers):
    return ("program", "1 worker", "by the clock", f"{workers} workers", "by the clock", *PARTS, "conflicts of 1", *PARTS, f"clasp -t {workers}", "split", "answers twice")


def cells(row):
    """A row of the table as it is shown."""
    seconds = lambda *keys: (f"{row[it]:.2f}" if it in row else "-" for it in keys)
    part = lambda some, whole: f"{row[some] / row[whole]:.2f}" if row[whole] else "-"
    counts = (f"{row[it]:,.0f}" for it in ("conflicts", "busiest's conflicts"))
    return [row["name"], *seconds("one", "one by the clock", "all", "all by the clock", "busiest"), part("busiest", "one"),
            *counts, part("busiest's conflicts", "conflicts"), *seconds("clasp", "clasp split"), row["twice"]]


def table(program, workers, runs, path_of, room, names, markdown):
    """Prints a line for each program and returns the rows; `path_of` gives the path of its text, and what runs write stands in
    the folder `room`."""
    line = (lambda it: "| " + " | ".join(it) + " |") if markdown else (lambda it: f"{it[0]:14}" + "".join(f"{cell:>16}" for cell in it[1:]))
    print(line(heads(workers)))
    if markdown:
        print("|" + "---|" * len(heads(workers)))
    rows = []
    for name in names or NAMES:
        ring = re.fullmatch(r"make-(\d+)", name)
        words, path = (["--make", ring[1], "--mode", "enum"], os.devnull) if ring else ([], path_of(name))
        rows.append({"name": name, **measured(program, words, path, room, workers, runs)})
        print(line(cells(rows[-1])), flush=True)
    return rows
