#!/bin/sh
# Many answers and large programs, beside clasp as it comes: processor time (user and system) and the greatest memory, with all output
# to a file on both sides.
# usage: bench/large.sh [--markdown] [--texts FOLDER] [PROGRAM [NAME..]], with python3, GNU time and gringo at hand, and clasp if it is there.
# A text that stands in FOLDER isn't made again. 60 seconds of processor time and 6 GB a run: what doesn't end is shown with ">".
# It asserts nothing but that both sides tell the same number of answers: it is outside the gate.
set -eu
markdown=
texts=
while :; do
    case "${1:-}" in
    --markdown) markdown=1; shift ;;
    --texts) texts=$(realpath -m "$2"); shift 2 ;;
    *) break ;;
    esac
done
program=$(realpath "${1:-build/aspenum}")
test -x "$program" || { echo "no program $program: make builds it" >&2; exit 1; }
[ $# -eq 0 ] || shift
here=$(dirname "$(realpath "$0")")
export PYTHONPATH="$here" PYTHONDONTWRITEBYTECODE=1 MARKDOWN=$markdown TEXTS=$texts
exec python3 - "$program" "$@" <<'PY'
import os, random, re, resource, shutil, subprocess, sys, tempfile

from programs import PROGRAMS

LIMIT = 60
program, only = sys.argv[1], sys.argv[2:]
markdown, texts = bool(os.environ["MARKDOWN"]), os.environ["TEXTS"]


def rule(head, *body):
    return f"1 0 {'1 %d' % head if head else '0'} 0 {len(body)}" + "".join(f" {it}" for it in body)


def choice(atoms):
    return f"1 1 {len(atoms)} {' '.join(map(str, atoms))} 0 0"


def shown(atom, text):
    return f"4 {len(text)} {text} 1 {atom}"


def to(n):
    return range(1, n + 1)


def free(n):
    return [choice(to(n)), *(shown(i, f"a({i})") for i in to(n))]


def triples(n):
    """n free atoms in threes, the third one exactly where the others differ: 4 of 8 ways each."""
    threes = [(i, i + 1, i + 2) for i in range(1, n + 1, 3)]
    barred = [(a, -b, -c) for a, b, c in threes] + [(-a, b, -c) for a, b, c in threes] + [(a, b, c) for a, b, c in threes] + [(-a, -b, c) for a, b, c in threes]
    return [*free(n), *(rule(0, *it) for it in barred)]


def equals(n, free_atoms):
    """n atoms, each behind the first free_atoms as the one free_atoms before it: 2 ^ free_atoms answers."""
    return [*free(n), *(it for i in range(free_atoms + 1, n + 1) for it in (rule(0, i, free_atoms - i), rule(0, -i, i - free_atoms)))]


def facts(n):
    return [*(rule(i) for i in to(n))]


def facts_shown(n):
    return [*facts(n), *(shown(i, f"a({i})") for i in to(n))]


def wide(free_atoms, n):
    """2 ^ free_atoms answers of n facts each, all of them shown."""
    return [choice(range(n + 1, n + free_atoms + 1)), *facts_shown(n + free_atoms)[:n], *(shown(i, f"a({i})") for i in to(n + free_atoms))]


def chain(n):
    return [choice([1]), *(rule(i + 1, i) for i in to(n - 1))]


def ring(n):
    return [choice([n + 1]), rule(1, n + 1), rule(1, n), *(rule(i + 1, i) for i in to(n - 1))]


def grid(side):
    """What is reached from a corner of a grid, with a rule for each of its edges both ways: 4 side (side - 1) rules."""
    at = lambda x, y: x * side + y + 1
    near = [(at(x, y), at(u, v)) for x in range(side) for y in range(side) for u, v in ((x + 1, y), (x, y + 1)) if u < side and v < side]
    start = side * side + 1
    return [choice([start]), rule(1, start), *(rule(b, a) for p, q in near for a, b in ((p, q), (q, p)))]


def weight(n):
    """A weight rule whose body has n literals over free atoms, half of them enough; all but one hold."""
    head, held = n + 1, to(n - 1)
    return [choice([n]), *(rule(i) for i in held), f"1 0 1 {head} 1 {n // 2} {n} " + " ".join(f"{it} 1" for it in to(n))]


def rules(megabytes):
    """Random rules over 999,999 atoms, refused by an assumption of an atom that no head has."""
    choose, size, counted, lines = random.Random(1), 0, 0, []
    while size < megabytes * 1_000_000 and counted < 16_700_000:
        body = [choose.randint(1, 999_998) * choose.choice((1, -1)) for _ in range(choose.randint(0, 5))]
        lines.append(rule(choose.randint(1, 999_998), *body))
        size, counted = size + len(lines[-1]) + 1, counted + 1 + len(body)
    return [*lines, "6 1 999999"]


def text_of(lines):
    return lambda: ("\n".join(["asp 1 0 0", *lines(), "0"]) + "\n").encode()


def without_end(make):
    """The text without its end statement: it is read to its end and then refused."""
    def text():
        whole = make()
        assert whole.endswith(b"\n0\n")
        return whole[:-2]

    return text


REACH = """node(1..n). { in(X,Y) : Y = X+1..X+5, Y <= n } :- node(X). reach(1). reach(Y) :- reach(X), in(X,Y).
pair(X,Y) :- in(X,Y), not reach(X). #show in/2. #show reach/1. #show pair/2."""


def reached(n):
    return lambda: subprocess.run(["gringo", "-c", f"n={n}", "-"], input=REACH.encode(), capture_output=True, check=True).stdout


def coloured(n):
    """The ring that --make gives, without its costs."""
    at, pairs = lambda node, colour: 3 * node + colour, ((1, 2), (1, 3), (2, 3))
    return [choice(to(3 * n)), *(it for i in range(n) for it in (rule(0, *(-at(i, c) for c in (1, 2, 3))), *(rule(0, at(i, c), at(i, d)) for c, d in pairs))),
            *(rule(0, at(i, c), at((i + 1) % n, c)) for i in range(n) for c in (1, 2, 3))]


# name: what both are given, the options of each, and how often it is run where a run is short
QUIET = (["--make", "20", "--mode", "enum"], ["-n", "0", "-q"])
ALL, ONE = ([], ["-n", "0"]), (["--models", "1"], ["-n", "1"])
READ = ([], ["--pre=aspif"])
BRAVE, CAUTIOUS = ((["--mode", mode], ["-n", "0", "-q1", "-e", mode]) for mode in ("brave", "cautious"))
ROWS = {
    "free-20": (text_of(lambda: free(20)), ALL),
    "triples-30": (text_of(lambda: triples(30)), ALL),
    "ring, 20 nodes": (text_of(lambda: coloured(20)), QUIET),
    "queens-10": (PROGRAMS["queens-10"][1], ALL),
    "cycle-18": (PROGRAMS["cycle-18"][1], ALL),
    "latin-8-20": (PROGRAMS["latin-8-20"][1], ALL),
    "latin-8-20-b": (PROGRAMS["latin-8-20-b"][1], ALL),
    "wide-12": (text_of(lambda: wide(12, 10_000)), ALL),
    "brave, 200": (text_of(lambda: free(200)), BRAVE, 50),
    "brave, 2^40": (text_of(lambda: equals(200, 40)), BRAVE, 50),
    "cautious, 2^40": (text_of(lambda: equals(200, 40)), CAUTIOUS, 50),
    "brave, 2000": (text_of(lambda: free(2_000)), BRAVE, 10),
    "gringo, read": (without_end(reached(80_000)), READ),
    "rules, read": (without_end(text_of(lambda: rules(100))), READ),
    "gringo": (reached(20_000), ONE),
    "rules": (text_of(lambda: rules(100)), ALL),
    "facts": (text_of(lambda: facts(1_000_000)), ALL),
    "facts, shown": (text_of(lambda: facts_shown(500_000)), ALL),
    "chain": (text_of(lambda: chain(300_000)), ALL),
    "ring": (text_of(lambda: ring(300_000)), ALL),
    "grid": (text_of(lambda: grid(500)), ALL),
    "weight": (text_of(lambda: weight(999_999)), ALL),
}


def run(words, path, output, room, times):
    """Runs the words so often, and returns what is told at the end, the processor time of one run in seconds, the greatest memory in MB, the bytes written,
    and whether it ended."""
    def limits():
        resource.setrlimit(resource.RLIMIT_CPU, (LIMIT, LIMIT + 1))
        resource.setrlimit(resource.RLIMIT_AS, (6 << 30, 6 << 30))

    # short runs one after the other, since time tells hundredths of a second
    all_runs = words if times == 1 else ["sh", "-c", f'for each in $(seq {times}); do "$@" < {path}; done', "sh", *words]
    with open(path, "rb") as text, open(output, "wb") as out:
        status = subprocess.run(["/usr/bin/time", "-o", f"{room}/took", "-f", "%U %S %M", *all_runs], stdin=text, stdout=out, stderr=subprocess.DEVNULL, preexec_fn=limits).returncode
    took = open(f"{room}/took").read().split("\n")[-2].split()
    size, time = os.path.getsize(output) // times, (float(took[0]) + float(took[1])) / times
    if words[0] == program and time < LIMIT and status != (65 if path.endswith("-read.aspif") else 30) and status not in (10, 11, 20):
        raise SystemExit(f"{path}: status {status}")
    with open(output, "rb") as text:
        text.seek(max(0, size * times - 40_000))
        said = text.read().decode(errors="replace")
    os.remove(output)
    return said, time, int(took[2]) / 1024, size, time < LIMIT


def told_by(said):
    """How many answers there are, or how many atoms are consequences."""
    known = re.search(r"^Consequences:((?: \d+)*)$", said, re.M)
    if known:
        return str(len(known[1].split()))
    found = re.search(r"^Consequences *: (\d+)", said, re.M) or re.search(r"^Models *: (\d+)", said, re.M)
    return found and found[1]


def cells(name, room):
    make, options, times = (*ROWS[name], 1)[:3]
    path = f"{texts or room}/{re.sub('[^a-z0-9]+', '-', name)}.aspif"
    if not os.path.exists(path):
        with open(path, "wb") as it:
            it.write(make())
    row, told, numbers = [name, f"{os.path.getsize(path) / 1e6:.1f}"], [], []
    for words in ([program, *options[0]], *([["clasp", *options[1]]] if shutil.which("clasp") else [])):
        said, time, memory, written, ended = run(words, path, f"{room}/out", room, times)
        if ended:
            told.append(told_by(said))
        numbers.append((time, memory))
        row += [f"{'' if ended else '>'}{time:.{2 if times == 1 else 4}f}", f"{memory:.0f}", f"{written / 1e6:.1f}"]
    if len(numbers) == 2:
        row += [f"{mine / max(theirs, least):.2f}" for mine, theirs, least in zip(*numbers, (0.01 / times, 1))]
    row.append({1: "yes", 2: "NO"}[len(set(told))] if len(told) == 2 and None not in told else "-")
    if not texts:
        os.remove(path)
    return row


def line(cells):
    return "| " + " | ".join(cells) + " |" if markdown else f"{cells[0]:16}" + "".join(f"{it:>9}" for it in cells[1:])


if texts:
    os.makedirs(texts, exist_ok=True)
print(line(["program", "MB in", "seconds", "MB", "MB out", "clasp s", "clasp MB", "MB out", "time by", "memory by", "same"]))
if markdown:
    print("|---" * 11 + "|")
with tempfile.TemporaryDirectory() as room:
    for name in ROWS:
        if not only or name in only:
            print(line(cells(name, room)), flush=True)
PY
