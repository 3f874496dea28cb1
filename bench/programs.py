"""The programs by which speed is judged: small seeded generators over the encodings of lp/, and the table of them all."""
import os
import random
import subprocess

import shipped

HERE = os.path.dirname(os.path.abspath(__file__))


def grounded(name, facts="", **constants):
    """What gringo writes for the encoding, with these facts and constants."""
    def text():
        words = [it for key, value in constants.items() for it in ("-c", f"{key}={value}")]
        return subprocess.run(["gringo", *words, f"{HERE}/lp/{name}.lp", "-"], input=facts.encode(), capture_output=True, check=True).stdout

    return text


def facts(name, rows):
    return " ".join(f"{name}({','.join(map(str, row))})." for row in rows) + "\n"


def sat(atoms, seed, ratio):
    """Random clauses of three literals, `ratio` of them an atom."""
    def text():
        choose = random.Random(seed)
        lines = ["asp 1 0 0", f"1 1 {atoms} {' '.join(map(str, range(1, atoms + 1)))} 0 0"]
        for _ in range(int(atoms * ratio)):
            chosen = choose.sample(range(1, atoms + 1), 3)
            lines.append("1 0 0 0 3 " + " ".join(str(it * choose.choice((1, -1))) for it in chosen))
        return ("\n".join([*lines, "0"]) + "\n").encode()

    return text


def free_atoms(atoms):
    return lambda: f"asp 1 0 0\n1 1 {atoms} {' '.join(map(str, range(1, atoms + 1)))} 0 0\n0\n".encode()


def arcs(nodes, degree, seed):
    """So many edges from each node of a directed graph."""
    choose = random.Random(seed)
    return [(x, y) for x in range(1, nodes + 1) for y in choose.sample([y for y in range(1, nodes + 1) if y != x], degree)]


def cycle(nodes, degree, seed):
    return grounded("cycle", facts("edge", arcs(nodes, degree, seed)))


def tour(nodes, degree, seed):
    choose = random.Random(seed)
    at = [(choose.randint(0, 60), choose.randint(0, 60)) for _ in range(nodes)]
    far = lambda x, y: abs(at[x][0] - at[y][0]) + abs(at[x][1] - at[y][1])
    near = lambda x: sorted((y for y in range(nodes) if y != x), key=lambda y: far(x, y))[:degree]
    pairs = {(x, y) for x in range(nodes) for y in [*near(x), (x + 1) % nodes]}
    return grounded("tour", facts("cost", sorted((x + 1, y + 1, far(x, y)) for x, y in pairs)))


def slide(width, height, moves, steps, seed):
    """The goal is `moves` steps at random from the start; plans have `steps`."""
    choose, cells = random.Random(seed), list(range(width * height))
    start, hole, last = list(cells), 0, None
    for _ in range(moves):
        x, y = hole % width, hole // width
        near = [c + r * width for c, r in ((x + 1, y), (x - 1, y), (x, y + 1), (x, y - 1)) if 0 <= c < width and 0 <= r < height]
        to = choose.choice([it for it in near if it != last])
        start[hole], start[to], last, hole = start[to], start[hole], hole, to
    return grounded("slide", facts("start", ((it, cell) for cell, it in enumerate(start))) + facts("goal", zip(cells, cells)), w=width, h=height, n=steps)


def robots(width, height, count, steps, seed):
    choose, cells = random.Random(seed), range(width * height)
    walls = set(choose.sample(cells, width * height // 8))
    free = [it for it in cells if it not in walls]
    near = [(p, q) for p in free for q in free if abs(p % width - q % width) + abs(p // width - q // width) == 1]
    ends = lambda name: facts(name, enumerate(choose.sample(free, count)))
    return grounded("robots", facts("near", near) + ends("start") + ends("goal"), n=steps)


def configuration(slots, parts, seed):
    choose = random.Random(seed)
    every = [(s, s * parts + p) for s in range(slots) for p in range(parts)]
    names = [it for _, it in every]
    gives = [(p, r, choose.randint(0, 20)) for p in names for r in range(3)]
    takes = [(p, r, choose.randint(1, 20)) for p in names for r in range(2)]
    pairs = {tuple(sorted(choose.sample(names, 2))) for _ in range(slots * parts)}
    price = [(p, 5 + sum(v for q, _, v in gives if q == p) // 2 + choose.randint(0, 12)) for p in names]
    return grounded("configuration", facts("part", every) + facts("gives", gives) + facts("takes", takes) + facts("conflict", sorted(pairs)) + facts("price", price)
                    + facts("needs", ((r, slots * 12) for r in range(3))) + facts("limit", ((r, slots * 10) for r in range(2))))


def pack(items, limits, seed):
    choose = random.Random(seed)
    weights = [(i, d, choose.randint(5, 40)) for i in range(items) for d in range(limits)]
    values = [(i, sum(w for j, _, w in weights if j == i) // limits + choose.randint(0, 15)) for i in range(items)]
    bounds = [(d, sum(w for _, e, w in weights if e == d) // 2) for d in range(limits)]
    return grounded("pack", facts("item", values) + facts("weight", weights) + facts("limit", bounds))


def cover(sets, elements, size, seed):
    choose = random.Random(seed)
    has = [(s, e) for s in range(sets) for e in choose.sample(range(elements), size)]
    return grounded("cover", facts("has", has) + facts("price", ((s, choose.randint(3, 9)) for s in range(sets))))


def timetable(courses, rooms, slots, teachers, seed):
    choose = random.Random(seed)
    given = [(c, choose.randint(10, 60), choose.randrange(teachers)) for c in range(courses)]
    clash = [(c, d, choose.randint(1, 9)) for c in range(courses) for d in range(c) if choose.random() < 0.4]
    dislikes = [(t, choose.randint(1, slots)) for t in range(teachers) for _ in range(2)]
    return grounded("timetable", facts("course", given) + facts("room", ((r, choose.randint(20, 50)) for r in range(rooms))) + facts("clash", clash) + facts("dislikes", sorted(set(dislikes))), n=slots)


def paint(nodes, edges, colours, seed):
    choose = random.Random(seed)
    pairs = {tuple(sorted(choose.sample(range(nodes), 2))) for _ in range(edges)}
    return grounded("paint", facts("edge", sorted(pairs)) + facts("cost", ((x, c, choose.randint(1, 9)) for x in range(nodes) for c in range(colours))))


def control(companies, holders, seed):
    choose = random.Random(seed)
    owns, offer = [], []
    for y in range(companies):
        left = 100
        for z in choose.sample([z for z in range(companies) if z != y], holders):
            share = choose.randint(5, 20)
            if share <= left:
                owns.append((z, y, share))
                left -= share
        if left > 5:
            offer.append((y, min(left, choose.randint(25, 60)), choose.randint(3, 20)))
    wanted = choose.sample(range(companies), companies // 3)
    barred = [it for it in range(companies) if it not in wanted][:1]
    return grounded("control", facts("owns", owns) + facts("offer", offer) + facts("wanted", ((it,) for it in wanted)) + facts("barred", ((it,) for it in barred)))


def trust(people, degree, bound, seed):
    choose = random.Random(seed)
    vouches = [(y, x) for x in range(people) for y in choose.sample([y for y in range(people) if y != x], degree)]
    each = [(it,) for it in range(people)]
    return grounded("trust", facts("person", each) + facts("vouches", vouches) + facts("wanted", each), k=bound)


def latin(size, kept, seed):
    """A Latin square by shifts, shuffled, of which `kept` fields are given."""
    choose = random.Random(seed)
    rows, columns, values = (choose.sample(range(1, size + 1), size) for _ in range(3))
    fields = [(x + 1, y + 1, values[(rows[x] + columns[y]) % size]) for x in range(size) for y in range(size)]
    return grounded("latin", facts("given", choose.sample(fields, kept)), n=size)


def subsets(items, members, share, seed):
    choose = random.Random(seed)
    weights = [choose.randint(20, 60) for _ in range(items)]
    return grounded("subsets", facts("weight", enumerate(weights)), k=members, s=sum(weights) * share // 100)


def routes(width, height, keys, steps, seed):
    choose, cells = random.Random(seed), range(width * height)
    near = [(p, q) for p in cells for q in cells if abs(p % width - q % width) + abs(p // width - q // width) == 1]
    return grounded("routes", facts("near", near) + facts("key", ((it,) for it in choose.sample(cells, keys))) + f"start(0). goal({width * height - 1}).", n=steps)


def logistics(places, trucks, packages, steps, seed):
    choose = random.Random(seed)
    roads = {(p, choose.randrange(p)) for p in range(1, places)} | {tuple(choose.sample(range(places), 2)) for _ in range(places // 2)}
    roads |= {(q, p) for p, q in roads}
    at = [(f"t{it}", choose.randrange(places)) for it in range(trucks)]
    given = [(f"p{it}", *choose.sample(range(places), 2)) for it in range(packages)]
    return grounded("logistics", facts("road", sorted(roads)) + facts("truck", at) + facts("room", ((it, 2) for it, _ in at)) + facts("package", given), n=steps)


def schedule(jobs, resources, steps, seed):
    choose = random.Random(seed)
    each = [(j, choose.randint(1, 6)) for j in range(jobs)]
    use = [(j, r, choose.randint(1, 6)) for j in range(jobs) for r in range(resources)]
    after = {(j, choose.randrange(max(0, j - 8), j)) for j in range(2, jobs) for _ in range(choose.randint(0, 2))}
    return grounded("schedule", facts("job", each) + facts("use", use) + facts("limit", ((r, 10) for r in range(resources))) + facts("after", sorted(after)), n=steps)


def auction(bids, goods, bidders, seed):
    choose = random.Random(seed)
    wants = [choose.sample(range(goods), choose.randint(2, 5)) for _ in range(bids)]
    bid = [(b, choose.randrange(bidders), len(it) * 10 + choose.randint(-8, 8)) for b, it in enumerate(wants)]
    needs = sorted({tuple(choose.sample(range(bids), 2)) for _ in range(bids // 10)})
    return grounded("auction", facts("bid", bid) + facts("wants", ((b, g) for b, it in enumerate(wants) for g in it)) + facts("atmost", ((it, 4) for it in range(bidders))) + facts("needs", needs))


def diagnosis(inputs, gates, outputs, runs, faults, seed):
    """A random circuit in which some gates give the wrong value, and what its last wires had in some runs."""
    choose = random.Random(seed)
    wires = inputs + gates
    gate = [(g, choose.choice(("and", "or", "xor", "nand")), *choose.sample(range(max(0, g - 3 * inputs), g), 2)) for g in range(inputs, wires)]
    wrong, given, seen = set(choose.sample(range(inputs, wires), faults)), [], []
    for run in range(runs):
        on = [choose.randint(0, 1) for _ in range(inputs)]
        given += ((run, wire, value) for wire, value in enumerate(on))
        for g, kind, a, b in gate:
            value = {"and": on[a] & on[b], "or": on[a] | on[b], "xor": on[a] ^ on[b], "nand": 1 - (on[a] & on[b])}[kind]
            on.append(value ^ (g in wrong))
        seen += ((run, wire, on[wire]) for wire in range(wires - outputs, wires))
    return grounded("diagnosis", facts("gate", gate) + facts("input", given) + facts("seen", seen))


HALVES = ("tuned", "held out")

# Which half a program is in is never changed. Each of the first 17 families has programs in both. The others are numbered as they
# were written down, before any run: a family's number is its first seed, and families with odd numbers are tuned on.
PROGRAMS = {
    "sat-250": ("tuned", sat(250, 14, 4.5)),
    "sat-250-b": ("held out", sat(250, 12, 4.6)),
    "sat-300": ("tuned", sat(300, 13, 5.2)),
    "sat-300-b": ("held out", sat(300, 15, 5.2)),
    "pigeons-9": ("tuned", grounded("pigeon", n=9)),
    "pigeons-10": ("held out", grounded("pigeon", n=10)),
    "queens-11": ("tuned", grounded("queens", n=11)),
    "queens-12": ("held out", grounded("queens", n=12)),
    "cycle-21": ("tuned", cycle(21, 4, 4)),
    "cycle-18": ("held out", cycle(18, 5, 2)),
    "slide-3x3-22": ("tuned", slide(3, 3, 60, 22, 4)),
    "slide-3x4-20": ("held out", slide(3, 4, 40, 20, 2)),
    "robots-7": ("tuned", robots(5, 4, 3, 7, 2)),
    "robots-8": ("held out", robots(5, 4, 3, 8, 3)),
    "configuration-a": ("tuned", configuration(10, 5, 1)),
    "configuration-b": ("held out", configuration(10, 5, 2)),
    "pack-22x3": ("tuned", pack(22, 3, 5)),
    "pack-24x3": ("held out", pack(24, 3, 1)),
    "cover-60": ("tuned", cover(60, 40, 5, 1)),
    "cover-65": ("held out", cover(65, 45, 5, 3)),
    "tour-20": ("tuned", tour(20, 5, 4)),
    "tour-22": ("held out", tour(22, 4, 1)),
    "timetable-a": ("tuned", timetable(14, 3, 6, 7, 1)),
    "timetable-b": ("held out", timetable(13, 3, 5, 6, 5)),
    "paint-20": ("tuned", paint(20, 44, 4, 1)),
    "paint-22": ("held out", paint(22, 46, 4, 2)),
    "control-60": ("tuned", control(60, 5, 4)),
    "control-64": ("held out", control(64, 4, 8)),
    "trust-36": ("tuned", trust(36, 6, 4, 3)),
    "trust-50": ("held out", trust(50, 5, 3, 2)),
    "latin-8-20": ("tuned", latin(8, 20, 1)),
    "latin-8-20-b": ("held out", latin(8, 20, 2)),
    "subsets-24": ("tuned", subsets(24, 6, 25, 2)),
    "subsets-22": ("held out", subsets(22, 8, 35, 1)),
    "routes-6x6": ("tuned", routes(6, 6, 3, 20, 1)),
    "routes-7x5": ("held out", routes(7, 5, 3, 20, 3)),
    # Families 1 to 10, by others' encodings.
    "fifteen-18": ("tuned", shipped.fifteen(4, 4, 40, 18, 1)),
    "fifteen-18-b": ("tuned", shipped.fifteen(4, 4, 44, 18, 21)),
    "hanoi-8": ("held out", shipped.hanoi(4, 8, 32)),
    "hanoi-9": ("held out", shipped.hanoi(4, 9, 39)),
    "solitaire-26": ("tuned", shipped.solitaire(26, 8, 3)),
    "solitaire-24": ("tuned", shipped.solitaire(24, 8, 23)),
    "ricochet-7": ("held out", shipped.ricochet(7, 4)),
    "ricochet-7-b": ("held out", shipped.ricochet(7, 24)),
    "colours-140": ("tuned", shipped.colouring(140, 630, 4, 5)),
    "colours-140-b": ("tuned", shipped.colouring(140, 640, 4, 25)),
    "vertices-70": ("held out", shipped.vertices(70, 210, 6)),
    "vertices-72": ("held out", shipped.vertices(72, 214, 26)),
    "primes-10": ("tuned", shipped.primes(10, 400, 7)),
    "primes-9": ("tuned", shipped.primes(9, 220, 27)),
    "negation-11": ("held out", shipped.negation(11)),
    "negation-12": ("held out", shipped.negation(12)),
    "attacks-11": ("tuned", shipped.attacks(11)),
    "attacks-12": ("tuned", shipped.attacks(12)),
    "interpreted-queens": ("held out", shipped.interpreted("queens", n=11)),
    "interpreted-cycle": ("held out", shipped.interpreted("cycle", facts("edge", arcs(17, 5, 10)))),
    # Families 11 to 14, by encodings of lp/.
    "logistics-9": ("tuned", logistics(9, 2, 4, 11, 11)),
    "schedule-26": ("held out", schedule(26, 3, 52, 12)),
    "auction-95": ("tuned", auction(95, 45, 14, 13)),
    "diagnosis-250": ("held out", diagnosis(30, 250, 16, 8, 8, 14)),
    # Small ones, in neither half.
    "colouring-12": ("small", grounded("color", n=12, k=3, m=5)),
    "hamilton-7": ("small", grounded("ham", n=7)),
    "hamilton-8": ("small", grounded("ham", n=8)),
    "knapsack-18": ("small", grounded("knap", n=18)),
    "pigeons-8": ("small", grounded("pigeon", n=8)),
    "queens-8": ("small", grounded("queens", n=8)),
    "queens-10": ("small", grounded("queens", n=10)),
    "spanning-12": ("small", grounded("span", n=12)),
    "spanning-14": ("small", grounded("span", n=14)),
    "sat-200": ("small", sat(200, 2, 4.8)),
    "free-20": ("small", free_atoms(20)),
}
