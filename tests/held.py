#!/usr/bin/env python3
"""Holds the line on answers held to what no contract says: that it comes while the run goes on, as soon as it is due, and once.

    held.py PROGRAM

Of 6,400 atoms 21 are free, so an answer takes 32 bytes and 100 words: 1,290,556 take more than 1 GB, and one less doesn't. The run
is ended two seconds after its line has come, so it takes a minute of a processor and 1.2 GB, and writes no answer. A run that holds
few answers, or none until its end, has no such line."""
import subprocess
import sys
import time

ATOMS, FREE = 6400, 21
LINE = "aspenum: {} answers held until the end take more than 1 GB; --stream writes each as soon as it can\n"


def program(atoms, free):
    """A choice of all, of which only the first are free."""
    barred = "".join(f"1 0 0 0 1 {atom}\n" for atom in range(free + 1, atoms + 1))
    return f"asp 1 0 0\n1 1 {atoms} {' '.join(map(str, range(1, atoms + 1)))} 0 0\n{barred}0\n"


def line_of(words):
    """The first line that such a run writes to standard error, and what follows it within two seconds; whether it goes on then."""
    run = subprocess.Popen([sys.argv[1], *words], stdin=subprocess.PIPE, stdout=subprocess.PIPE, stderr=subprocess.PIPE, text=True)
    try:
        run.stdin.write(program(ATOMS, FREE))
        run.stdin.close()
        first = run.stderr.readline()
        time.sleep(2)
        on = run.poll() is None
    finally:
        run.kill()
    rest = run.stderr.read()
    written = run.stdout.read()
    run.wait()
    return first, rest, on and not written


def main():
    faults = []
    due = (1 << 30) // (32 + ATOMS // 8) + 1
    first, rest, on = line_of([])
    if (first, rest, on) != (LINE.format(due), "", True):
        faults.append(f"{first!r}, then {rest!r}, while the run went on: {on}")
    few = subprocess.run([sys.argv[1]], input=program(200, 10), capture_output=True, text=True, timeout=60)
    if few.stderr or few.returncode != 30:
        faults.append(f"of 1,024 answers: {few.stderr!r}, status {few.returncode}")
    for fault in faults:
        print(f"failed: held: {fault}")
    print(f"held: {len(faults)} faults")
    sys.exit(1 if faults else 0)


main()
