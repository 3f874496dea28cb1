"""growth.svg: the time of each kind of input as its size doubles, from bench/figures/growth.json."""
import json
import math

from canvas import Canvas, number

LEFT, TOP, WIDE, HIGH = 68, 112, 470, 420
STEP = 17
LOOPS = ("chain", "ring", "lattice", "unfounded")


class Scale:
    """Sizes to the right, as powers of two, and seconds upwards, as powers of ten."""

    def __init__(self, sizes, seconds):
        self.sizes = sizes
        self.low, self.high = max(min(seconds), 0.01) / 1.5, max(seconds) * 1.5

    def at(self, size, seconds):
        across = math.log(size / self.sizes[0]) / math.log(self.sizes[-1] / self.sizes[0])
        up = math.log(max(seconds, self.low) / self.low) / math.log(self.high / self.low)
        return LEFT + 10 + (WIDE - 20) * across, TOP + HIGH - HIGH * up

    def ticks(self):
        return [it for power in range(-3, 3) for it in (10.0**power, 2 * 10.0**power, 5 * 10.0**power) if self.low < it < self.high]


def frame(it, scale):
    for size in scale.sizes:
        x, _ = scale.at(size, scale.low)
        it.line(x, TOP, x, TOP + HIGH, "grid")
        it.text(x, TOP + HIGH + 18, f"{size:,}", anchor="middle", classes="soft")
    for tick in scale.ticks():
        _, y = scale.at(scale.sizes[0], tick)
        it.line(LEFT, y, LEFT + WIDE, y, "grid")
        it.text(LEFT - 8, y + 4, f"{tick:g}", anchor="end", classes="soft")
    it.add("rect", "edge", x=LEFT, y=TOP, width=WIDE, height=HIGH, fill="none")
    it.text(LEFT + WIDE / 2, TOP + HIGH + 40, "size n of the input", 13, anchor="middle")
    it.text(24, TOP + HIGH / 2, "seconds of the processor", 13, anchor="middle", turn=True)


def guide(it, scale, power, name):
    """How a time would grow with a power of the size, from the lowest corner until it leaves the frame."""
    first, last = scale.sizes[0], scale.sizes[-1]
    begin = scale.low * 1.15
    end = min(last, first * (scale.high / begin) ** (1 / power))
    (x1, y1), (x2, y2) = scale.at(first, begin), scale.at(end, begin * (end / first) ** power)
    it.line(x1, y1, x2, y2, "line", 1.5, "6 4")
    if power > 1:
        it.text(x2 - 28, y2 + 16, name, 12, classes="soft", anchor="end")
    else:
        it.text(x2 - 8, y2 + 38, name, 12, classes="soft", anchor="end")


def spread(wanted):
    """Places as near to those that are wanted as a label's height between them allows, from the top down."""
    order, placed, y = sorted(range(len(wanted)), key=lambda at: wanted[at]), {}, TOP + 6
    for at in order:
        y = placed[at] = max(y, wanted[at])
        y += STEP
    limit = TOP + HIGH - 2
    for at in reversed(order):
        limit = placed[at] = min(limit, placed[at])
        limit -= STEP
    return [placed[at] for at in range(len(wanted))]


def curves(it, sizes, rows, scale):
    places = [[scale.at(size, seconds) for size, seconds in zip(sizes, row["seconds"])] for row in rows]
    beside = spread([points[-1][1] for points in places])
    for row, points, y in zip(rows, places, beside):
        colour = "orange" if row["name"].startswith(LOOPS) else "blue"
        it.path("M" + "L".join(f"{number(a)} {number(b)}" for a, b in points), f"{colour}-line", 1.6)
        for x, at in points:
            it.add("circle", colour, cx=x, cy=at, r=2.5)
        x, at = points[-1]
        it.line(x + 4, at, LEFT + WIDE + 22, y, "line", 0.7)
        ended = "" if all(row["ended"]) else " (met the limit)"
        it.text(LEFT + WIDE + 27, y + 4, row["name"] + ended, 12, classes=colour)


def picture():
    with open("bench/figures/growth.json", encoding="utf-8") as file:
        found = json.load(file)
    about, rows = found["about"], [it for it in found["rows"] if it["seconds"]]
    title = f"Growth: {len(rows)} kinds of input, sizes {about['sizes'][0]:,} to {about['sizes'][-1]:,}"
    it = Canvas(800, TOP + HIGH + 58, title, "A line for each kind of input: its size to the right, the processor time upwards, both on logarithmic scales.")
    it.heading(f"{about['date']}; {about['machine']}; {about['revision']}", "Single runs. A line as steep as 'linear' takes twice the time for twice the size.")
    scale = Scale(about["sizes"], [seconds for row in rows for seconds in row["seconds"]])
    frame(it, scale)
    guide(it, scale, 1, "linear")
    guide(it, scale, 2, "quadratic")
    curves(it, about["sizes"], rows, scale)
    for at, (colour, what) in enumerate((("blue", "bodies, costs"), ("orange", "loops, chains"))):
        it.line(LEFT + 18, TOP + 20 + 20 * at, LEFT + 38, TOP + 20 + 20 * at, f"{colour}-line", 2)
        it.text(LEFT + 46, TOP + 24 + 20 * at, what, 12)
    return it
