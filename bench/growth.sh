#!/bin/sh
# How time and memory of a built program grow with the size of a text: sizes doubled four times, one row a kind of text.
# usage: bench/growth.sh [--markdown] [--save FILE [--revision TEXT] [--machine TEXT]] [PROGRAM [BASE [KIND..]]]
# with python3 at hand: BASE is the first size (4000). With --save the figures are kept for docs/pictures, in
# bench/figures/growth.json.
# Each kind has four answers at most, or one optimum, or one answer is asked for; of the last three the consequences are sought.
# Seconds of processor time, 20 of them a run at most: what doesn't end is shown as ">20", and no greater size of it is tried. A doubling that takes 3 times
# as long or more, or the limit, is flagged with "!", unless it ends within 0.1 seconds, where the clock is too coarse. It asserts
# nothing: it is outside the gate.
set -eu
exec env PYTHONPATH="$(dirname "$0")" PYTHONDONTWRITEBYTECODE=1 python3 - "$@" <<'PY'
import argparse, math, os, resource, subprocess, sys, tempfile

import saving

LIMIT = 20
words = argparse.ArgumentParser(prog="bench/growth.sh")
words.add_argument("--markdown", action="store_true")
saving.add_options(words)
words.add_argument("program", nargs="?", default="build/aspenum")
words.add_argument("base", nargs="?", type=int, default=4000)
words.add_argument("kinds", nargs="*")
given = words.parse_args()
program, base, only, markdown = os.path.realpath(given.program), given.base, given.kinds, given.markdown
if not os.access(program, os.X_OK):
    sys.exit(f"no program {program}: make builds it")
SIZES = [base << step for step in range(5)]


def rule(head, *body):
    return f"1 0 {'1 %d' % head if head else '0'} 0 {len(body)}" + "".join(f" {it}" for it in body)


def choice(atoms):
    return f"1 1 {len(atoms)} {' '.join(map(str, atoms))} 0 0"


def weight(head, bound, lits):
    return f"1 0 {'1 %d' % head if head else '0'} 1 {bound} {len(lits)}" + "".join(f" {it} 1" for it in lits)


def minimise(priority, lits, by=1):
    return f"2 {priority} {len(lits)}" + "".join(f" {it} {by}" for it in lits)


def to(n):
    return range(1, n + 1)


def weight_body(n):
    g, half = n + 1, n // 2
    return [choice([g]), choice(range(half + 1, n + 1)), *(rule(i, g) for i in to(half)), rule(0, -g), weight(0, half + 1, to(n))]


def bound(n):
    return [choice(to(n)), rule(0, *(-i for i in to(n))), minimise(0, to(n))]


def maximised(n):
    return [choice(to(n)), minimise(0, [-i for i in to(n)])]


def supports(n):
    a, g = n + 1, n + 2
    return [choice(to(n)), choice([g]), *(rule(a, i) for i in to(n)), *(rule(0, i, g) for i in to(n - 1)), rule(0, -g), rule(0, -a)]


def unfounded(n):
    c, s, at = n + 1, n + 2, lambda i: i % n + 1
    return [choice([c, s]), *(weight(at(i), 2, [at(i + 1), at(7 * i), -c]) for i in range(n)), rule(1, s)]


def priorities(n):
    rows = [range(p * 100 + 1, p * 100 + 101) for p in range(n // 100)]
    return [choice(to(n)), *(rule(0, -row[0]) for row in rows), *(minimise(p, row) for p, row in enumerate(rows))]


def complements(n):
    half = n // 2
    both = " ".join(f"{half + i} -3 {i} -2" for i in to(half))
    return [*(choice([i]) for i in to(half)), *(rule(half + i, -i) for i in to(half)), f"2 0 {2 * half} {both}"]


def negative(n):
    return [choice(to(n)), minimise(0, to(n), -1)]


def chain(n):
    return [choice([1]), *(rule(i + 1, i) for i in to(n - 1))]


def ring(n):
    return [choice([n + 1]), rule(1, n + 1), rule(1, n), *(rule(i + 1, i) for i in to(n - 1))]


def two_ways(n):
    return [choice([n + 1]), rule(n // 2, n + 1), *(rule(i + 1, i) for i in to(n - 1)), *(rule(i, i + 1) for i in to(n - 1))]


def lattice(n):
    side = math.isqrt(n)
    at = lambda x, y: x * side + y + 1
    near = [(at(x, y), at(u, v)) for x in range(side) for y in range(side) for u, v in ((x + 1, y), (x, y + 1)) if u < side and v < side]
    return [choice([side * side + 1]), rule(1, side * side + 1), *(rule(a, b) for p, q in near for a, b in ((p, q), (q, p)))]


def way(n):
    """A way through a grid of 4 by n / 4 cells: its atoms are n cells that are entered, and n that are left."""
    length, at = n // 4, lambda x, y: x * 4 + y + 1
    near = [(at(x, y), at(u, v)) for x in range(length) for y in range(4) for u, v in ((x + 1, y), (x, y + 1)) if u < length and v < 4]
    steps = [it for a, b in near for it in (rule(n + b, n + a, a), rule(n + a, n + b, b))]
    return [choice(range(1, 4 * length + 1)), rule(n + 1), *steps, rule(0, -(n + 4 * length))]


def one_out(n):
    return [*(choice([i]) for i in to(n)), weight(0, 2, [-i for i in to(n)])]


def exactly_one(n):
    return [choice(to(n)), weight(0, 2, to(n)), rule(0, *(-i for i in to(n)))]


def pairs(n):
    triples = [(i, i + 1, i + 2) for i in range(1, n - 1, 3)]
    return [it for a, b, c in triples for it in (rule(a, -b), rule(b, -a), rule(c, a), rule(c, b))]


KINDS = {
    "weight body, half implied": weight_body, "n - 1 items by the bound": bound, "free atoms maximised": maximised,
    "items minimised at -1": negative, "atoms and complements": complements,
    "priorities of 100 items": priorities, "atom with n supports": supports,
    "unfounded weight bodies": unfounded, "chain": chain, "ring": ring, "chain of both ways": two_ways, "lattice of both ways": lattice,
    "a way through a grid": way,
    "at most one of n out": one_out, "one of a pair": pairs, "exactly one of n": exactly_one,
}
ONE = {"a way through a grid"}
MODES = {"at most one of n out": "cautious", "one of a pair": "cautious", "exactly one of n": "brave"}


def run(path, mode, limit):
    def limits():
        resource.setrlimit(resource.RLIMIT_CPU, (LIMIT, LIMIT + 1))
        resource.setrlimit(resource.RLIMIT_AS, (6 << 30, 6 << 30))

    with open(path, "rb") as text:
        process = subprocess.Popen([program, "--mode", mode, *limit], stdin=text, stdout=subprocess.DEVNULL, stderr=subprocess.DEVNULL, preexec_fn=limits)
        _, status, used = os.wait4(process.pid, 0)
    return used.ru_utime + used.ru_stime, used.ru_maxrss / 1024, status


def row(make, path, mode, limit):
    """For each size the seconds, whether it ended, and the memory; and the status of a run that has no answer."""
    found = {"seconds": [], "ended": [], "memory": []}
    for size in SIZES:
        with open(path, "w") as out:
            out.write("\n".join(["asp 1 0 0", *make(size), "0"]) + "\n")
        time, most, status = run(path, mode, limit)
        stopped = os.WIFSIGNALED(status)
        if not stopped and os.WEXITSTATUS(status) not in (30, 20, 11, 10):
            return {**found, "status": os.WEXITSTATUS(status)}
        found["seconds"].append(LIMIT if stopped else round(time, 3))
        found["ended"].append(not stopped)
        found["memory"].append(round(most))
        if stopped:
            break
    return found


def cells(found):
    """What is shown of a row: the seconds, the factor by the size before with its flag, and the memory."""
    times = [f"{it:.2f}" if ended else f">{LIMIT}" for it, ended in zip(found["seconds"], found["ended"])]
    factors = []
    for before, time, ended in zip(found["seconds"], found["seconds"][1:], found["ended"][1:]):
        factor = time / max(before, 0.01)
        flag = "!" if not ended or (factor >= 3 and time >= 0.1) else ""
        factors.append(f"{'' if ended else '>'}{factor:.1f}{flag}")
    refused = [f"status {found['status']}"] if "status" in found else []
    return [" ".join([*times, *refused]), " ".join(factors), " ".join(map(str, found["memory"]))]


def line(cells):
    if markdown:
        return "| " + " | ".join(cells) + " |"
    return f"{cells[0]:26} {cells[1]:34} {cells[2]:30} {cells[3]}"


sizes = ", ".join(f"{it:,}" for it in SIZES)
print(line(["text", f"seconds at n = {sizes}" if markdown else "seconds", "factors", "MB"]))
if markdown:
    print("|---|---|---|---|")
rows = []
with tempfile.TemporaryDirectory() as room:
    for name, make in KINDS.items():
        if only and name not in only:
            continue
        rows.append({"name": name, **row(make, f"{room}/text", MODES.get(name, "auto"), ["--models", "1"] if name in ONE else [])})
        print(line([name, *cells(rows[-1])]), flush=True)
saving.save(given, {"sizes": SIZES, "limit": LIMIT}, rows)
PY
