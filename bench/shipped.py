"""Programs over the encodings that Debian's package of gringo 5.4.1 ships as examples: others wrote these, and they aren't chosen
for what aspenum does with them. Instances are made here by seeds, since those of the package are few or have millions of answers.

Most of the encodings are for a run in several shots: parts with parameters, grounded for one step after the other. `called` writes
out the parts as clasp would ground them up to a last step, so that gringo makes one program of them."""
import os
import random
import re
import subprocess

HERE = os.path.dirname(os.path.abspath(__file__))
FOLDER = "/usr/share/doc/gringo/examples"


def shipped(name):
    with open(f"{FOLDER}/{name}", encoding="utf-8") as file:
        return file.read()


def grounded(text, *words):
    return subprocess.run(["gringo", "--warn=none", *words, "-"], input=text.encode(), capture_output=True, check=True).stdout


def parts(text):
    """Each part's parameters and rules, by its name."""
    lines = "\n".join(it for it in text.splitlines() if not it.startswith("#include"))
    pieces = re.split(r"^#program (\w+)(?:\(([^)]*)\))?\.", "#program base.\n" + lines, flags=re.M)
    found = {}
    for name, parameters, rules in zip(pieces[1::3], pieces[2::3], pieces[3::3]):
        names, before = found.get(name, (parameters.split(",") if parameters else [], ""))
        found[name] = (names, before + rules)
    return found


def called(text, calls):
    """The base, and the rules of each part that is called with its values for its parameters."""
    found = parts(text)
    rules = [found["base"][1]]
    for name, *values in calls:
        parameters, part = found[name]
        for parameter, value in zip(parameters, values):
            part = re.sub(rf"\b{parameter}\b", str(value), part)
        rules.append(part)
    return "\n".join(rules)


def stepped(name, steps, facts):
    """An encoding of plans, for so many steps."""
    def text():
        encoding = shipped(name)
        checks = [("check", at) for at in range(steps + 1)] if "check" in parts(encoding) else []
        return grounded(called(encoding, [*(("step", at) for at in range(1, steps + 1)), *checks]) + f"\nquery({steps}).\n{facts}")

    return text


def fifteen(width, height, moves, steps, seed):
    """The sliding puzzle, from `moves` at random before its goal, in just so many steps."""
    choose, cells = random.Random(seed), [(x, y) for x in range(1, height + 1) for y in range(1, width + 1)]
    at, hole, last = {cell: tile for tile, cell in enumerate(cells)}, cells[0], None
    for _ in range(moves):
        to = choose.choice([it for it in cells if abs(it[0] - hole[0]) + abs(it[1] - hole[1]) == 1 and it != last])
        at[hole], at[to], last, hole = at[to], at[hole], hole, to
    starts = " ".join(f"in({x},{y},{tile})." for (x, y), tile in at.items() if tile)
    goals = " ".join(f"go({x},{y},{tile})." for tile, (x, y) in enumerate(cells) if tile)
    return stepped("clingo/15puzzle/encoding.lp", steps, f"{starts} {goals} dim((1..{height},1..{width})).")


def hanoi(pegs, disks, steps):
    names = "abcdef"[:pegs]
    return stepped("gringo/toh/tohE.lp", steps, f"peg({';'.join(names)}). disk(1..{disks}). init_on(1..{disks},a). goal_on(1..{disks},{names[-1]}).")


def solitaire(stones, steps, seed):
    """A board of peg solitaire with so many stones, reached backwards from one stone in the middle; jumps at the same time are allowed."""
    choose, ways = random.Random(seed), ((1, 0), (-1, 0), (0, 1), (0, -1))
    field = {(x, y) for x in range(-3, 4) for y in range(-3, 4) if abs(x) <= 1 or abs(y) <= 1}
    on = {(0, 0)}
    while len(on) < stones:
        free = field - on
        back = [((x, y), (x + dx, y + dy), (x + 2 * dx, y + 2 * dy)) for x, y in sorted(on) for dx, dy in ways]
        back = [it for it in back if it[1] in free and it[2] in free]
        if back:
            stone, over, came = choose.choice(back)
            on = on - {stone} | {over, came}
        else:
            on = {(0, 0)}
    facts = " ".join([*(f"field({x},{y})." for x, y in sorted(field)), *(f"stone({x},{y})." for x, y in sorted(on))])
    return stepped("clingo/solitaire/solitaire.lp", steps, facts + " dir(west,-1,0). dir(east,1,0). dir(north,0,-1). dir(south,0,1). goal(0,0).")


def ricochet(steps, seed):
    """Robots that slide until something stops them, on the package's board of 16 by 16: which robot goes where, and where all begin, by the seed."""
    def text():
        choose = random.Random(seed)
        board = "\n".join(it for it in shipped("clingo/robots/board.lp").splitlines() if not it.startswith("initial_pos"))
        robot, x, y = choose.choice(re.findall(r"^available_target\((\w+)\s*,\s*\w+\s*,\s*(\d+)\s*,\s*(\d+)\)", board, re.M))
        cells = [(x, y) for x in range(1, 17) for y in range(1, 17) if not (x in (8, 9) and y in (8, 9))]
        places = " ".join(f"pos({robot},{x},{y},0)." for robot, (x, y) in zip(("red", "green", "blue", "yellow"), choose.sample(cells, 4)))
        calls = [("state", 0), *(it for at in range(1, steps + 1) for it in (("trans", at), ("state", at))), ("check", steps)]
        return grounded(f"{called(shipped('clingo/robots/robots.lp'), calls)}\n{board}\ntarget({robot},{x},{y}). {places} horizon({steps}).")

    return text


def graph(nodes, edges, seed):
    """So many edges of a random graph, each once."""
    choose, pairs = random.Random(seed), set()
    while len(pairs) < edges:
        pairs.add(tuple(sorted(choose.sample(range(1, nodes + 1), 2))))
    return " ".join(f"edge({x},{y})." for x, y in sorted(pairs))


def colouring(nodes, edges, colours, seed):
    def text():
        calls = [*(("object", it, 1) for it in range(1, nodes + 1)), *(("horizon", it, 1) for it in range(1, colours + 1)), ("expand", 1)]
        encoding = shipped("clingo/expansion/GraphColouring/encodings/encoding.lp")
        return grounded(f"{called(encoding, calls)}\n{graph(nodes, edges, seed)}")

    return text


def vertices(nodes, edges, seed):
    """The least vertex cover. What asks Python for the graph is left out, and facts give it."""
    def text():
        rules = "\n".join(it for it in shipped("clingo/cover/cover.lp").splitlines() if "@" not in it)
        return grounded(f"{rules}\nvertex(1..{nodes}). {graph(nodes, edges, seed)}")

    return text


def primes(atoms, models, seed):
    """All prime implicants of a random Boolean function with so many models."""
    def text():
        chosen = random.Random(seed).sample(range(2 ** atoms), models)
        facts = (f"model({it}). " + " ".join(f"true({it},{atom})." for atom in range(1, atoms + 1) if model >> (atom - 1) & 1) for it, model in enumerate(chosen, 1))
        return grounded(shipped("gringo/prime-implicants/encoding.lp") + "\n".join(facts))

    return text


def negation(size):
    """All placements of queens, by loops through negation alone."""
    return lambda: grounded(re.sub(r"\b10\b", str(size), shipped("gringo/queens/queens2.lp")))


def attacks(size):
    """All placements of queens, by attacks that are handed on from field to field."""
    return lambda: grounded(called(shipped("clingo/incqueens/incqueens.lp"), [("board", it) for it in range(1, size + 1)]))


def interpreted(name, facts="", **constants):
    """An encoding of lp/ as facts, under the package's interpreter for programs without disjunction."""
    def text():
        with open(f"{HERE}/lp/{name}.lp", encoding="utf-8") as file:
            told = grounded(file.read() + facts, "--output=reify", *(it for key, value in constants.items() for it in ("-c", f"{key}={value}")))
        return grounded(shipped("reify/meta.lp") + told.decode())

    return text
