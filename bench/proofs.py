#!/usr/bin/env python3
"""What proofs cost: seconds of the processor in the program and peak memory to solve, to solve with --proof, and to check, and
the proof's lines and megabytes. The proof goes to a file, which the checker reads behind the program.

    proofs.py PROGRAM CHECKER [--workers N] [--runs N] [NAME ..]     programs of programs.py; those below where none is named

Of several runs the least is told (1). With --workers the program solves with so many; a NAME with a number behind `:`, as
pigeons-12:2000000, has this budget of conflicts."""
import argparse
import math
import os
import resource
import subprocess
import tempfile

from programs import PROGRAMS

NAMES = (
    "sat-250", "pigeons-9", "queens-11", "cycle-21", "configuration-a", "pack-22x3", "cover-60", "tour-20", "timetable-a", "trust-50",
    "sat-250-b", "pigeons-10", "pack-24x3", "cover-65", "timetable-b", "control-60", "slide-3x3-22", "subsets-22", "paint-22", "latin-8-20",
)
SECONDS = 3600


def limit():
    resource.setrlimit(resource.RLIMIT_CPU, (SECONDS, SECONDS))
    resource.setrlimit(resource.RLIMIT_AS, (12_000_000_000, 12_000_000_000))


def run(words, given, written, room):
    """Seconds in the program, or None where it was ended, and megabytes. What it writes goes behind what the file has."""
    with open(given, "rb") as source, open(written, "ab") as sink:
        timed = ["/usr/bin/time", "-o", f"{room}/took", "-f", "%U %M", *words]
        subprocess.run(timed, stdin=source, stdout=sink, stderr=subprocess.DEVNULL, preexec_fn=limit)
    with open(f"{room}/took") as file:
        *signals, figures = file.read().splitlines()
    seconds, kilobytes = figures.split()
    return None if signals and "signal" in signals[0] else float(seconds), int(kilobytes) / 1000


def fresh(room, name, text):
    path = f"{room}/{name}"
    with open(path, "wb") as file:
        file.write(text)
    return path


def measure(program, checker, budget, text, room):
    """What solving, solving with --proof and checking take, what is said, and the proof's lines and bytes."""
    given = fresh(room, "program", text)
    solved = run([*program, *budget], given, os.devnull, room)
    both = fresh(room, "both", text)
    recorded = run([*program, *budget, "--proof"], given, both, room)
    said = fresh(room, "said", b"")
    checked = run([checker], both, said, room)
    with open(both, "rb") as file:
        lines = sum(part.count(b"\n") for part in iter(lambda: file.read(1 << 20), b"")) - text.count(b"\n")
    with open(said) as file:
        return (solved, recorded, checked), file.read().strip() or "nothing", lines, os.path.getsize(both) - len(text)


def least(figures):
    """The least seconds and megabytes of several runs, each for itself. None where one was ended."""
    seconds, megabytes = zip(*figures)
    return None if None in seconds else min(seconds), min(megabytes)


def mean(ratios):
    return math.exp(sum(map(math.log, ratios)) / len(ratios)) if ratios else 0


def main():
    parser = argparse.ArgumentParser(description=__doc__.splitlines()[0])
    parser.add_argument("program")
    parser.add_argument("checker")
    parser.add_argument("--workers", default="1")
    parser.add_argument("--runs", type=int, default=1)
    parser.add_argument("names", nargs="*", default=NAMES)
    told = parser.parse_intermixed_args()
    recording, checking = [], []
    print("| program | half | solve | with `--proof` | check | MB solve | MB `--proof` | MB check | lines | MB of proof | says |")
    print("|---|---|---|---|---|---|---|---|---|---|---|")
    with tempfile.TemporaryDirectory() as room:
        for word in told.names:
            name, _, conflicts = word.partition(":")
            half, make = PROGRAMS[name]
            text, budget = make(), ["--budget", conflicts] if conflicts else []
            runs = [measure([told.program, "--workers", told.workers], told.checker, budget, text, room) for _ in range(told.runs)]
            took = [least(figures) for figures in zip(*(it[0] for it in runs))]
            _, said, lines, size = runs[-1]
            seconds = [f"{it:.2f}" if it is not None else f"> {SECONDS}" for it, _ in took]
            megabytes = [f"{it:.1f}" for _, it in took]
            print("|", " | ".join([word, half, *seconds, *megabytes, f"{lines:,}", f"{size / 1e6:.1f}", said]), "|", flush=True)
            solved, recorded, checked = (it for it, _ in took)
            if solved and solved > 0.1:
                recording += [recorded / solved] if recorded else []
                checking += [checked / solved] if checked else []
    print(f"with --proof {mean(recording):.2f} times the time to solve, checking {mean(checking):.2f} times, at most "
          f"{max(checking, default=0):.2f} (geometric means, from 0.1 s on)")


main()
