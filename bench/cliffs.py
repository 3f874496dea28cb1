#!/usr/bin/env python3
"""Families of inputs on which time or memory once grew faster than the input, beside clasp: a row of a table for each.

    cliffs.py [--markdown] [PROGRAM [NAME..]]      build/aspenum, the families of FAMILIES

Seconds of a processor and megabytes of single runs, size by size; clasp as it comes. A run has 60 seconds: what doesn't end is
shown as ">60", and no greater size of it is tried.
"""
import os
import resource
import subprocess
import sys
import tempfile

LIMIT = 60
HEADS = ("family", "size", "seconds", "clasp", "MB", "clasp")


def to(count):
    return range(1, count + 1)


def rule(head, *body):
    return f"1 0 {f'1 {head}' if head else 0} 0 {len(body)}" + "".join(f" {it}" for it in body)


def choice(atoms):
    return f"1 1 {len(atoms)} {' '.join(map(str, atoms))} 0 0"


def at_least(bound, lits):
    """No answer has so many of the literals."""
    return f"1 0 0 1 {bound} {len(lits)}" + "".join(f" {it} 1" for it in lits)


def shown(atoms):
    return [f"4 {len(f'a{it}')} a{it} 1 {it}" for it in atoms]


def one_out(n):
    return [choice(to(n)), at_least(2, [-it for it in to(n)]), *shown(to(n))]


def exactly_one(n):
    return [choice(to(n)), at_least(2, to(n)), rule(0, *(-it for it in to(n))), *shown(to(n))]


def pairs(n):
    triples = [(i, i + 1, i + 2) for i in range(1, 3 * n, 3)]
    return [*(it for a, b, c in triples for it in (rule(a, -b), rule(b, -a), rule(c, a), rule(c, b))), *shown(to(3 * n))]


def free(_):
    return [choice(to(1000))]


def way(width, length):
    cells, at = width * length, lambda x, y: x * width + y + 1
    near = [(at(x, y), at(u, v)) for x in range(length) for y in range(width) for u, v in ((x + 1, y), (x, y + 1)) if u < length and v < width]
    steps = [it for a, b in near for it in (rule(cells + b, cells + a, a), rule(cells + a, cells + b, b))]
    return [choice(to(cells)), rule(cells + 1), *steps, rule(0, -2 * cells)]


def complements(n):
    both = " ".join(f"{it} -2 {n + it} -3" for it in to(n))
    return [choice(to(n)), *(rule(n + it, -it) for it in to(n)), f"2 0 {2 * n} {both}"]


def derived(n):
    return [choice(to(12)), *(rule(12 + it, it % 12 + 1) for it in to(n)), *shown(to(12))]


def chain(n):
    return [choice([1]), *(rule(it + 1, it) for it in to(n))]


def all_assumed(n):
    """All of n atoms are assumed, and no answer has all of them: each assumption is part of the core."""
    return [choice(to(n)), rule(0, *to(n)), f"6 {n} {' '.join(map(str, to(n)))}"]


# Of each family how it is made, the sizes, our options by the size, and clasp's, None where it has no such thing.
FAMILIES = {
    "at most one of n out, cautious": (one_out, (500, 1000, 2000, 4000), lambda n: ("--mode", "cautious"), ("-e", "cautious", "-n", "0", "-q1")),
    "n pairs, cautious": (pairs, (1000, 2000, 4000), lambda n: ("--mode", "cautious"), ("-e", "cautious", "-n", "0", "-q1")),
    "n pairs, cautious, 4 workers": (pairs, (1000, 2000, 4000), lambda n: ("--mode", "cautious", "--workers", "4"), ("-e", "cautious", "-n", "0", "-q1", "-t", "4")),
    "exactly one of n, brave": (exactly_one, (500, 1000, 2000, 4000), lambda n: ("--mode", "brave"), ("-e", "brave", "-n", "0", "-q1")),
    "1,000 free atoms in n parts": (free, (10000, 20000, 40000, 100000), lambda n: ("--split", str(n)), None),
    "a way through n cells, square": (lambda n: way(round(n**0.5), round(n**0.5)), (2000, 4000, 8000, 16000), lambda n: ("--models", "1"), ("-n", "1")),
    "a way through n cells, 4 wide": (lambda n: way(4, n // 4), (2000, 4000, 8000, 16000), lambda n: ("--models", "1"), ("-n", "1")),
    "n atoms and complements": (complements, (20, 24, 1000, 16000), lambda n: (), ("-n", "0")),
    "4,096 answers, n derived": (derived, (12500, 25000, 50000), lambda n: ("--models", "4096"), ("-n", "4096")),
    "4,096 answers, n derived, no limit": (derived, (12500, 25000, 50000), lambda n: (), ("-n", "0")),
    "1,000 answers, n derived": (derived, (50000, 100000, 200000), lambda n: ("--models", "1000"), ("-n", "1000")),
    "chain of 100,000, n workers": (lambda n: chain(100000), (1, 4, 16, 64), lambda n: ("--workers", str(n)), None),
    "no answer has the n assumptions": (all_assumed, (20000, 40000, 80000, 160000), lambda n: (), ("-n", "0", "-q")),
}


def measured(words, path):
    """Seconds and megabytes of a run, or none where it doesn't end in time."""
    def limits():
        resource.setrlimit(resource.RLIMIT_CPU, (LIMIT, LIMIT + 1))

    with open(path, "rb") as text, open(f"{path}.out", "wb") as out:
        process = subprocess.Popen(words, stdin=text, stdout=out, stderr=subprocess.DEVNULL, preexec_fn=limits)
        _, status, used = os.wait4(process.pid, 0)
    return None if os.WIFSIGNALED(status) else (used.ru_utime + used.ru_stime, used.ru_maxrss / 1024)


def rows(program, options, sizes, make, room):
    """For each size what a program took, until one doesn't end."""
    found = []
    for size in sizes:
        path = f"{room}/text"
        with open(path, "w", encoding="ascii") as text:
            text.write("\n".join(["asp 1 0 0", *make(size), "0"]) + "\n")
        found.append(measured([program, *options(size)], path))
        if found[-1] is None:
            break
    return found


def cells(name, program, room):
    make, sizes, ours, theirs = FAMILIES[name]
    found = [rows(program, ours, sizes, make, room), rows("clasp", lambda _: theirs, sizes, make, room) if theirs else []]
    seconds = [" ".join(f">{LIMIT}" if it is None else f"{it[0]:.2f}" for it in side) for side in found]
    memory = [" ".join("-" if it is None else f"{it[1]:.0f}" for it in side) for side in found]
    return [name, " ".join(f"{size:,}" for size in sizes), *seconds, *memory]


def main():
    words = sys.argv[1:]
    markdown = words[:1] == ["--markdown"]
    words = words[markdown:]
    program = os.path.realpath(words[0] if words else "build/aspenum")
    line = (lambda it: "| " + " | ".join(it) + " |") if markdown else (lambda it: "".join(f"{cell:36}" for cell in it))
    print(line(HEADS))
    if markdown:
        print("|" + "---|" * len(HEADS))
    with tempfile.TemporaryDirectory() as room:
        for name in words[1:] or FAMILIES:
            print(line(cells(name, program, room)), flush=True)


main()
