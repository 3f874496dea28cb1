"""speed.svg: the processor time of each program beside clasp's, on scales of powers, from bench/figures/solve.json."""
import json
import math

from canvas import Canvas, width_of

LEFT, TOP, SIDE = 68, 104, 470
BESIDE = LEFT + SIDE + 38
LABELS = 6
RATIOS = {0.5: "1/2", 1: "1", 2: "2"}
HALVES = {"tuned": ("tuned", "blue"), "held out": ("held out", "orange"), "small": ("small", "soft")}


def mean_of(ratios):
    return math.exp(sum(map(math.log, ratios)) / len(ratios))


def ratio(row):
    """Ours by clasp's, as bench/solve.py reckons its means: what is below a hundredth counts as one."""
    return max(row["aspenum"]["time"], 0.01) / max(row["default"]["time"], 0.01)


class Scale:
    """The same seconds to the right and upwards, as powers of ten."""

    def __init__(self, seconds):
        self.low, self.high = max(min(seconds), 0.01) / 1.4, max(seconds) * 1.4

    def part(self, seconds):
        return SIDE * math.log(max(seconds, self.low) / self.low) / math.log(self.high / self.low)

    def at(self, x, y):
        return LEFT + self.part(x), TOP + SIDE - self.part(y)

    def ticks(self):
        return [it for power in range(-3, 4) for it in (10.0**power, 2 * 10.0**power, 5 * 10.0**power) if self.low < it < self.high]


def meets(a, b):
    return a[0] < b[2] and b[0] < a[2] and a[1] < b[3] and b[1] < a[3]


def place_label(name, x, y, taken, lines):
    """Where a point's name stands: the first place around it that meets least of what is there, and no line where it can be."""
    wide, best = width_of(name, 12), None
    places = [(x + 9, y + 4, "start"), (x - 9, y + 4, "end"), (x, y - 9, "middle"), (x, y + 19, "middle"),
              (x + 7, y - 8, "start"), (x - 7, y - 8, "end"), (x + 7, y + 16, "start"), (x - 7, y + 16, "end")]
    for at_x, at_y, anchor in places:
        left = at_x - {"start": 0, "middle": wide / 2, "end": wide}[anchor]
        box = (left, at_y - 11, left + wide, at_y + 3)
        inside = LEFT < box[0] and box[2] < LEFT + SIDE and TOP < box[1] and box[3] < TOP + SIDE
        met = 2 * sum(meets(box, it) for it in taken) + any(meets(box, it) for it in lines) + (0 if inside else 100)
        if best is None or met < best[0]:
            best = met, (at_x, at_y, anchor), box
    return best[1:]


def mark(it, x, y, half, ended):
    """A point: round where it was tuned on, a triangle where it was held out; hollow where a side met the limit."""
    colour = HALVES[half][1]
    how = {"class": colour} if ended else {"class": f"{colour}-line page"}
    if half == "held out":
        it.add("path", how["class"], d=f"M{x:.1f} {y - 5.5:.1f}L{x + 5.2:.1f} {y + 4:.1f}L{x - 5.2:.1f} {y + 4:.1f}Z")
    else:
        it.add("circle", how["class"], cx=x, cy=y, r=4.3)


def frame(it, scale):
    for tick in scale.ticks():
        x, y = scale.at(tick, tick)
        it.line(x, TOP, x, TOP + SIDE, "grid")
        it.line(LEFT, y, LEFT + SIDE, y, "grid")
        it.text(x, TOP + SIDE + 18, f"{tick:g}", anchor="middle", classes="soft")
        it.text(LEFT - 8, y + 4, f"{tick:g}", anchor="end", classes="soft")
    it.add("rect", "edge", x=LEFT, y=TOP, width=SIDE, height=SIDE, fill="none")
    it.text(LEFT + SIDE / 2, TOP + SIDE + 40, "clasp, seconds", 13, anchor="middle")
    it.text(24, TOP + SIDE / 2, "aspenum, seconds", 13, anchor="middle", turn=True)
    for by, text in RATIOS.items():
        low, high = (scale.low / min(by, 1), scale.high / max(by, 1))
        (x1, y1), (x2, y2) = scale.at(low, low * by), scale.at(high, high * by)
        it.line(x1, y1, x2, y2, "line", 1.5 if by == 1 else 1, None if by == 1 else "5 4")
        if by > 1:
            it.text(x2, TOP - 7, text, anchor="middle", classes="soft")
        else:
            it.text(LEFT + SIDE + 7, y2 + (4 if by < 1 else -1), text, classes="soft")


def points(it, scale, rows):
    places = [scale.at(row["default"]["time"], row["aspenum"]["time"]) for row in rows]
    taken = [(x - 6, y - 6, x + 6, y + 6) for x, y in places]
    along = [scale.low * 1.02**step for step in range(1000) if scale.low * 1.02**step < scale.high]
    lines = [(x - 1, y - 1, x + 1, y + 1) for by in RATIOS for x, y in (scale.at(it, it * by) for it in along)]
    for row, (x, y) in zip(rows, places):
        mark(it, x, y, row["half"], row["aspenum"]["ended"] and row["default"]["ended"])
    far = sorted(range(len(rows)), key=lambda at: -abs(math.log(ratio(rows[at]))))[:LABELS]
    for at in far:
        (x, y, anchor), box = place_label(rows[at]["name"], *places[at], [it for other, it in enumerate(taken) if other != at], lines)
        taken.append(box)
        it.text(x, y, rows[at]["name"], 12, anchor=anchor)


def beside(it, about, rows):
    """The column to the right: what the points mean, and what they come to."""
    y = TOP + 12
    halves = [half for half in HALVES if any(row["half"] == half for row in rows)]
    for half in halves:
        mark(it, BESIDE + 6, y - 4, half, True)
        it.text(BESIDE + 20, y, f"{half}: {sum(row['half'] == half for row in rows)} programs", 13)
        y += 22
    if any(not (row["aspenum"]["ended"] and row["default"]["ended"]) for row in rows):
        y = it.lines(BESIDE, y, ["hollow: a side met the limit"], 12, classes="soft") + 5
    y = it.lines(BESIDE, y + 2, ["The search was tuned on one", "half; the other was held out."], 12, classes="soft") + 16
    y = it.lines(BESIDE, y, ["aspenum's time by clasp's,", "geometric mean"], 13, 18, bold=True) + 4
    for half in (*halves, *(["all"] if len(halves) > 1 else [])):
        it.text(BESIDE, y, half, 13)
        it.text(BESIDE + 120, y, f"{mean_of([ratio(row) for row in rows if half in (row['half'], 'all')]):.2f}", 13, anchor="end")
        y += 20
    less = sum(row["aspenum"]["time"] < row["default"]["time"] for row in rows)
    most = max(rows, key=ratio)
    times = f"{ratio(most):.1f} times" if most["aspenum"]["ended"] else f"over {ratio(most):.1f} times"
    said = ["Below the line 1 aspenum takes", f"less time than clasp: on {less} of", f"these {len(rows)} programs. At most it", f"takes {times} clasp's time."]
    y = it.lines(BESIDE, y + 14, said, 12) + 14
    often = f"the least of {about['runs']} runs in turn" if about["runs"] > 1 else "one run each"
    how = ["Seconds of the processor, one", f"worker, {often},", f"limit {about['limit']} s. clasp as it comes,", "asked for all answers, writing", "none; aspenum writes each."]
    y = it.lines(BESIDE, y, how, 12, classes="soft") + 14
    it.lines(BESIDE, y, ["The programs were chosen here:", "bench/README.md names them."], 12, classes="soft")


def picture():
    with open("bench/figures/solve.json", encoding="utf-8") as file:
        found = json.load(file)
    about, rows = found["about"], found["rows"]
    it = Canvas(800, TOP + SIDE + 58, f"Processor time beside {about['clasp']}", f"A point for each of {len(rows)} programs: clasp's processor time to the right, aspenum's upwards, both on logarithmic scales.")
    it.heading(f"{about['date']}; {about['machine']}; {about['revision']}")
    scale = Scale([row[side]["time"] for row in rows for side in ("aspenum", "default")])
    frame(it, scale)
    points(it, scale, rows)
    beside(it, about, rows)
    return it
