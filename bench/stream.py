#!/usr/bin/env python3
"""Answers as they come: an enumeration with --stream, without it, and by clasp -n 0, each writing to a pipe that is read at once.

usage: bench/stream.py [--program PROGRAM] [--workers N] [--texts FOLDER] [--markdown] [NAME..]

For each side: the seconds by the clock until the first answer is out, all seconds of processors, or with several workers by the clock,
and the greatest memory in MB. It asserts nothing but that the bytes with the option and without it are the same. What doesn't end in
120 seconds of a processor for each worker is shown with ">". NAME is a program of programs.py, or free-N: N free atoms."""
import argparse
import hashlib
import os
import resource
import shutil
import subprocess
import sys
import tempfile
import time

from programs import PROGRAMS

LIMIT = 120
NAMES = ["free-20", "free-22", "free-24", "queens-11", "cycle-18", "latin-8-20", "subsets-24", "routes-6x6"]


def free(count):
    outputs = "".join(f"4 {len(f'a({atom})')} a({atom}) 1 {atom}\n" for atom in range(1, count + 1))
    return f"asp 1 0 0\n1 1 {count} {' '.join(map(str, range(1, count + 1)))} 0 0\n{outputs}0\n"


def text_of(name, folder):
    """The file of a program's ground text, which is made where it isn't there."""
    path = os.path.join(folder, f"{name}.aspif")
    if not os.path.exists(path):
        if name.startswith("free-"):
            with open(path, "w", encoding="utf-8") as file:
                file.write(free(int(name.removeprefix("free-"))))
        else:
            with open(path, "wb") as file:
                file.write(PROGRAMS[name][1]())
    return path


def measured(words, path, workers):
    """The seconds to the first answer, all of the processors or by the clock, the memory in MB, whether it ended, and a sum of the bytes."""
    def limited():
        resource.setrlimit(resource.RLIMIT_CPU, (LIMIT * workers, LIMIT * workers))

    with open(path, "rb") as text:
        begun = time.monotonic()
        run = subprocess.Popen(words, stdin=text, stdout=subprocess.PIPE, stderr=subprocess.DEVNULL, preexec_fn=limited)
    first, total, before = None, hashlib.sha256(), b""
    while piece := os.read(run.stdout.fileno(), 1 << 16):
        if first is None and b"Answer: 1\n" in before + piece:
            first = time.monotonic() - begun
        before = piece[-16:]
        total.update(piece)
    _, status, usage = os.wait4(run.pid, 0)
    ended = os.WIFEXITED(status)
    seconds = usage.ru_utime + usage.ru_stime if workers == 1 else time.monotonic() - begun
    return first, seconds, usage.ru_maxrss / 1024, ended, total.hexdigest()


def row(name, program, folder, workers):
    path, count = text_of(name, folder), str(workers)
    held = [program, "--mode", "enum", "--workers", count]
    commands = [[*held, "--stream"], held, *([["clasp", "-n", "0", "-t", count]] if shutil.which("clasp") else [])]
    sides = [measured(words, path, workers) for words in commands]
    same = "yes" if sides[0][4] == sides[1][4] else "NO" if sides[0][3] and sides[1][3] else "-"
    cells = [f"{first:.2f} {'' if ended else '> '}{seconds:.2f} {memory:.0f}" if first is not None else f"- {'' if ended else '> '}{seconds:.2f} {memory:.0f}" for first, seconds, memory, ended, _ in sides]
    return [name, *" ".join(cells).replace("> ", ">").split(), same]


def main():
    parser = argparse.ArgumentParser(description=__doc__, formatter_class=argparse.RawDescriptionHelpFormatter)
    parser.add_argument("--program", default="build/aspenum")
    parser.add_argument("--workers", type=int, default=1)
    parser.add_argument("--texts")
    parser.add_argument("--markdown", action="store_true")
    parser.add_argument("names", nargs="*")
    given = parser.parse_args()
    with tempfile.TemporaryDirectory() as room:
        folder = given.texts or room
        os.makedirs(folder, exist_ok=True)
        head = ["program", *(f"{side} {what}" for side in ("stream", "held", "clasp") for what in ("first", "s", "MB")), "same"]
        print("| " + " | ".join(head) + " |\n|" + "---|" * len(head) if given.markdown else " ".join(head))
        wrong = False
        for name in given.names or NAMES:
            cells = row(name, os.path.abspath(given.program), folder, given.workers)
            wrong |= cells[-1] == "NO"
            print("| " + " | ".join(cells) + " |" if given.markdown else " ".join(f"{it:>10}" for it in cells), flush=True)
    sys.exit(1 if wrong else 0)


main()
