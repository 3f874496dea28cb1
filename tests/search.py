#!/usr/bin/env python3
"""Holds the search to what no contract says: that it raises activities, minimises what it learns, decides as what it learnt asks
for, and drops nogoods.

    search.py PROGRAM [--measure]

Each program is made here: a cheapest choice with recursion through counts, random 3-SAT, and pigeons. Within
the units of its row the built program must come to its end. The first two take more without activities or minimising, the third
where a variable is always decided as it was last: each row says what each took when it was written, beside what the whole search
took. Programs as small as these take no more without restarts, so all counts of --stats are compared too: with one worker they are
the same in each run. The first answer of the row of free costs is an optimum where each atom is first decided to cost less. Two rows ask by name, and take more where atoms are sought that no output needs. --measure prints what
PROGRAM counts: after a change of the search the rows are to be written anew.

With two and four workers the counts differ from run to run, but where no worker was stopped the main thread does nothing, so the
numbers of the workers' lines add up to those of the run, of which a contract pins the conflicts; and of an enumeration the answers
that the workers found are the models, each found once. What one worker solves before it has met 500 conflicts, found 64 answers or
made 2,000 steps without a conflict is one path, on which the others did nothing; what takes longer is split.

Two more must end within an address space: a search wants more that drops nothing it learns (pigeons), or drops what weight
bodies give only at the restarts of the schedule, which get rarer (knapsack)."""
import random
import re
import resource
import subprocess
import sys


def cheapest_trust(people, vouching, needed, seed):
    """The fewest people to ask, so that all are trusted: who is asked, and who is vouched for by enough that are trusted."""
    choose = random.Random(seed)
    asked, trusted = (list(range(first, first + people)) for first in (1, people + 1))
    lines = ["asp 1 0 0", f"1 1 {people} {' '.join(map(str, asked))} 0 0"]
    for it in range(people):
        friends = choose.sample([other for other in range(people) if other != it], vouching)
        lines.append(f"1 0 1 {trusted[it]} 0 1 {asked[it]}")
        lines.append(f"1 0 1 {trusted[it]} 1 {needed} {vouching} {' '.join(f'{trusted[other]} 1' for other in friends)}")
        lines.append(f"1 0 0 0 1 -{trusted[it]}")
    lines.append(f"2 0 {people} {' '.join(f'{it} 1' for it in asked)}")
    return ("\n".join([*lines, "0"]) + "\n").encode()


def random_sat(atoms, ratio, seed):
    choose = random.Random(seed)
    lines = ["asp 1 0 0", f"1 1 {atoms} {' '.join(map(str, range(1, atoms + 1)))} 0 0"]
    for _ in range(int(atoms * ratio)):
        chosen = choose.sample(range(1, atoms + 1), 3)
        lines.append("1 0 0 0 3 " + " ".join(str(it * choose.choice((1, -1))) for it in chosen))
    return ("\n".join([*lines, "0"]) + "\n").encode()


def switched_sat(atoms, ratio, count, seed):
    """So many random instances of 3-SAT over the same atoms, each behind an atom of its own that switches it on, and a query for each, with that one on alone."""
    choose = random.Random(seed)
    switches = range(atoms + 1, atoms + 1 + count)
    lines = ["asp 1 0 0", f"1 1 {atoms + count} {' '.join(map(str, range(1, atoms + 1 + count)))} 0 0"]
    for switch in switches:
        for _ in range(int(atoms * ratio)):
            chosen = choose.sample(range(1, atoms + 1), 3)
            lines.append(f"1 0 0 0 4 {switch} " + " ".join(str(it * choose.choice((1, -1))) for it in chosen))
    return "\n".join([*lines, "0"]) + "\n", [[it if it == on else -it for it in switches] for on in switches]


def pigeons(count):
    """So many pigeons, and one hole fewer."""
    holes = count - 1
    places = [[1 + it * holes + hole for hole in range(holes)] for it in range(count)]
    lines = ["asp 1 0 0", f"1 1 {count * holes} {' '.join(map(str, range(1, count * holes + 1)))} 0 0"]
    lines += [f"1 0 0 0 {holes} {' '.join(f'-{place}' for place in row)}" for row in places]
    lines += [f"1 0 0 0 2 {one} {two}" for at, row in enumerate(places) for other in places[:at] for one, two in zip(other, row)]
    return ("\n".join([*lines, "0"]) + "\n").encode()


def knapsack(items, limits, seed):
    """The dearest of so many items that stay within half of each of so many sizes."""
    choose = random.Random(seed)
    lines = ["asp 1 0 0", f"1 1 {items} {' '.join(map(str, range(1, items + 1)))} 0 0"]
    for _ in range(limits):
        sizes = [choose.randint(10, 60) for _ in range(items)]
        lines.append(f"1 0 0 1 {sum(sizes) // 2 + 1} {items} {' '.join(f'{it} {size}' for it, size in enumerate(sizes, 1))}")
    lines.append(f"2 0 {items} {' '.join(f'{it} {-choose.randint(10, 60)}' for it in range(1, items + 1))}")
    return ("\n".join([*lines, "0"]) + "\n").encode()


def free_costs(atoms, seed):
    """Atoms that nothing binds, each with a cost or a gain: the first answer is an optimum where each is first decided to cost less."""
    choose = random.Random(seed)
    costs = [choose.choice((1, -1)) * choose.randint(1, 9) for _ in range(atoms)]
    lines = ["asp 1 0 0", f"1 1 {atoms} {' '.join(map(str, range(1, atoms + 1)))} 0 0"]
    lines.append(f"2 0 {atoms} {' '.join(f'{it} {cost}' for it, cost in enumerate(costs, 1))}")
    return ("\n".join([*lines, "0"]) + "\n").encode()


def way(width, length):
    """Cells that are chosen; a cell is reached from a chosen neighbour, and the last one has to be."""
    cells, at = width * length, lambda x, y: x * width + y + 1
    near = [(at(x, y), at(u, v)) for x in range(length) for y in range(width) for u, v in ((x + 1, y), (x, y + 1)) if u < length and v < width]
    steps = [f"1 0 1 {cells + to} 0 2 {cells + by} {by}" for one, two in near for by, to in ((one, two), (two, one))]
    lines = ["asp 1 0 0", f"1 1 {cells} {' '.join(map(str, range(1, cells + 1)))} 0 0", f"1 0 1 {cells + 1} 0 0", *steps, f"1 0 0 0 1 -{2 * cells}"]
    return ("\n".join([*lines, "0"]) + "\n").encode()


def pairs(count):
    """Of each two atoms one holds, and so does what follows from either."""
    lines = ["asp 1 0 0"]
    for it in range(1, 3 * count, 3):
        lines += [f"1 0 1 {it} 0 1 -{it + 1}", f"1 0 1 {it + 1} 0 1 -{it}", f"1 0 1 {it + 2} 0 1 {it}", f"1 0 1 {it + 2} 0 1 {it + 1}"]
    return ("\n".join([*lines, "0"]) + "\n").encode()


def with_outputs(text, atoms):
    """The program with an output for each of these atoms."""
    lines = "".join(f"4 {len(f'x{atom}')} x{atom} 1 {atom}\n" for atom in atoms)
    return text.removesuffix(b"0\n") + lines.encode() + b"0\n"


# the options of a row, where it has any
WORDS = {"a way through a grid": ["--models", "1"], "200 pairs": ["--mode", "cautious"], "200 pairs, two by name": ["--mode", "cautious", "--names"],
         "3-SAT of 150, five by name": ["--mode", "brave", "--names"]}

# a program, what its last lines must be, units, and what is counted; conflicts when it was written: the whole search, without
# restarts, without activities, without minimising
ROWS = [
    # 1,937; 1,431; 4,679; 3,304
    ("trust of 26", cheapest_trust(26, 6, 4, 3), 30, b"Optimization: 4\nOPTIMUM FOUND\nModels: 1\n", 2500,
     "Conflicts 1937, Leaves 1, Log 0, Decisions 2156, Propagated 15188, Restarts 6, Kept 2074, Dropped 1488, Atoms 52, Bodies 79, Loops 1"),
    # 3,434; 2,237; 7,375; 4,672
    ("3-SAT of 200", random_sat(200, 4.8, 2), 20, b"UNSATISFIABLE\nModels: 0\n", 4000,
     "Conflicts 3434, Leaves 1, Log 0, Decisions 3977, Propagated 158531, Restarts 7, Kept 2404, Dropped 1030, Atoms 200, Bodies 961, Loops 0"),
    # 6,296; with the last values more than it meets in 12 seconds
    ("pigeons of 9", pigeons(9), 20, b"UNSATISFIABLE\nModels: 0\n", 7000,
     "Conflicts 6296, Leaves 1, Log 0, Decisions 7083, Propagated 91848, Restarts 8, Kept 3331, Dropped 2965, Atoms 72, Bodies 298, Loops 0"),
    # no conflicts; with the dearer values first 1,212 decisions
    ("40 free costs", free_costs(40, 1), 30, b"OPTIMUM FOUND\nModels: 1\n", 10,
     "Conflicts 0, Leaves 1, Log 0, Decisions 40, Propagated 1, Restarts 0, Kept 1, Dropped 0, Atoms 40, Bodies 1, Loops 0"),
    # 1; with all bodies false first 100
    ("a way through a grid", way(4, 100), 11, b"LIMIT REACHED\nModels: 1+\n", 10,
     "Conflicts 1, Leaves 1, Log 0, Decisions 798, Propagated 1590, Restarts 0, Kept 2, Dropped 0, Atoms 799, Bodies 402, Loops 1"),
    # 199 and 599 decisions; without the way down from an answer 40,202 decisions
    ("200 pairs", pairs(200), 30, b"CONSEQUENCES FOUND\n", 250,
     "Conflicts 199, Leaves 1, Log 0, Decisions 599, Propagated 1201, Restarts 0, Kept 199, Dropped 0, Atoms 600, Bodies 800, Loops 0"),
    # no conflicts and 200 decisions; where all atoms are sought 199 and 599
    ("200 pairs, two by name", with_outputs(pairs(200), (1, 3)), 30, b"Consequences: x3\nCONSEQUENCES FOUND\n", 10,
     "Conflicts 0, Leaves 1, Log 0, Decisions 200, Propagated 403, Restarts 0, Kept 0, Dropped 0, Atoms 600, Bodies 800, Loops 0"),
    # 225; where all atoms are sought 1,503
    ("3-SAT of 150, five by name", with_outputs(random_sat(150, 3.8, 3), range(1, 6)), 30, b"Consequences: x1 x2 x3 x4 x5\nCONSEQUENCES FOUND\n", 300,
     "Conflicts 225, Leaves 1, Log 0, Decisions 370, Propagated 9841, Restarts 1, Kept 225, Dropped 0, Atoms 150, Bodies 571, Loops 0"),
]

# a program, what its status and last lines must be
SMALL = [
    ("pigeons of 9", pigeons(9), 20, b"UNSATISFIABLE\nModels: 0\n"),
    ("knapsack of 22", knapsack(22, 3, 1), 30, b"OPTIMUM FOUND\nModels: 1\n"),
]
ROOM = 6500 * 1024  # bytes of address space

# a program for several workers, whether it is an enumeration, and whether it is split; conflicts of one worker
CREWS = [
    ("trust of 24", cheapest_trust(24, 6, 4, 3), False, True),
    ("3-SAT of 200", random_sat(200, 4.8, 2), True, True),
    ("12 free atoms", f"asp 1 0 0\n1 1 12 {' '.join(map(str, range(1, 13)))} 0 0\n0\n".encode(), True, True),
    # no conflict, and one answer
    ("3,000 free costs", free_costs(3000, 1), False, True),
    # 284, 187, 155
    ("trust of 16", cheapest_trust(16, 6, 4, 3), False, False),
    ("3-SAT of 100", random_sat(100, 4.8, 2), True, False),
    ("pigeons of 6", pigeons(6), True, False),
]
COUNT = re.compile(r"(\w+): (\d+)")
WORKER = re.compile(r"Worker (\d+): conflicts (\d+), decisions (\d+), propagated (\d+), restarts (\d+), answers (\d+), kept (\d+), dropped (\d+)")


def run(program, words, text, prepare=None):
    ran = subprocess.run([program, "--stats", *words], input=text, capture_output=True, timeout=120, preexec_fn=prepare)
    return ran.returncode, ran.stdout, ran.stderr.decode().splitlines()


def counts_of(notes):
    return {it[1]: int(it[2]) for it in map(COUNT.fullmatch, notes) if it}


def told(counts):
    return ", ".join(f"{name} {number}" for name, number in counts.items())


def crew_faults(written, notes, workers, enumerates, splits):
    """What is wrong with the lines of so many workers."""
    lines = [[int(it) for it in line.groups()] for line in map(WORKER.fullmatch, notes) if line]
    if [line[0] for line in lines] != list(range(1, workers + 1)):
        yield "the workers' lines: " + "; ".join(notes)
        return
    counts = counts_of(notes)
    sums = [sum(column) for column in zip(*lines)]
    for name, added in zip(("Conflicts", "Decisions", "Propagated", "Restarts", "Answers", "Kept", "Dropped"), sums[1:]):
        if name != "Answers" and counts.get(name) != added:
            yield f"{name} {counts.get(name)}, of the workers {added}"
    models = int(re.search(rb"Models: (\d+)", written)[1])
    if enumerates and sums[5] != models or sums[5] < models:
        yield f"{models} models, of the workers {sums[5]}"
    busy = sum(1 for line in lines if any(line[1:]))
    if splits and counts["Leaves"] == 1:
        yield "one path"
    if not splits and (counts["Leaves"], busy) != (1, 1):
        yield f"{counts['Leaves']} paths of {busy} workers, wanted one of one"


def main():
    program = sys.argv[1]
    passed = failed = 0

    def judge(name, faults):
        nonlocal passed, failed
        if faults:
            failed += 1
            print(f"failed: {name}: {'; '.join(faults)}")
        else:
            passed += 1

    for name, text, wanted, ending, units, counted in ROWS:
        if "--measure" in sys.argv[2:]:
            print(f"{name}: {told(counts_of(run(program, WORDS.get(name, []), text)[2]))}, of {units} units")
            continue
        status, written, notes = run(program, ["--budget", str(units), *WORDS.get(name, [])], text)
        counts = told(counts_of(notes))
        ended = status == wanted and written.endswith(ending)
        judge(name, ([] if ended else [f"status {status}"]) + ([] if counts == counted else [f"{counts}, wanted {counted}"]))
    for name, text, wanted, ending in SMALL:
        status, written, _ = run(program, [], text, lambda: resource.setrlimit(resource.RLIMIT_AS, (ROOM, ROOM)))
        judge(name, [] if status == wanted and written.endswith(ending) else [f"status {status} with {ROOM} bytes"])
    for name, text, enumerates, splits in CREWS:
        for workers in (2, 4):
            _, written, notes = run(program, ["--workers", str(workers)], text)
            judge(f"{name}, {workers} workers", list(crew_faults(written, notes, workers, enumerates, splits)))
    print(f"search: {passed} programs solved, {failed} failed")
    sys.exit(1 if failed else 0)


if __name__ == "__main__":
    main()
