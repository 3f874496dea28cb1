"""workers.svg: one worker and several as bars, from bench/figures/workers.json."""
import json

from canvas import Canvas

LEFT, WIDE, ROW, BAR = 150, 500, 40, 13
WORDS = {2: "two", 3: "three", 4: "four", 6: "six", 8: "eight"}


def bar(it, y, seconds, most, colour):
    it.add("rect", colour, x=LEFT, y=y, width=max(WIDE * seconds / most, 1), height=BAR, rx=2)
    it.text(LEFT + WIDE * seconds / most + 6, y + 11, f"{seconds:.2f}", 12, classes="soft")


def picture():
    with open("bench/figures/workers.json", encoding="utf-8") as file:
        found = json.load(file)
    about, rows = found["about"], found["rows"]
    many = WORDS.get(about["workers"], str(about["workers"]))
    most = max(max(row["one"], row["busiest"]) for row in rows)
    it = Canvas(800, 0, f"One worker and {many}: seconds of the processor", f"For each program the processor seconds of one worker alone, and of the busiest of {many}.")
    y = it.heading(f"{about['date']}; {about['machine']}; {about['revision']}", "The busiest worker bounds how soon a run can end: on idle processors the time by the clock comes near it.")
    for at, (colour, what) in enumerate((("blue", "one worker alone"), ("orange", f"the busiest of {many}"))):
        it.add("rect", colour, x=LEFT + 190 * at, y=y + 4, width=24, height=BAR, rx=2)
        it.text(LEFT + 190 * at + 32, y + 15, what, 13)
    it.text(780, y + 15, "busiest by one", 12, anchor="end", classes="soft")
    top = y + 36
    it.height = top + ROW * len(rows) + 10
    for at, row in enumerate(rows):
        y = top + ROW * at
        it.line(20, y - 5, 780, y - 5, "grid")
        it.text(LEFT - 10, y + 19, row["name"], 13, anchor="end")
        bar(it, y, row["one"], most, "blue")
        bar(it, y + BAR + 2, row["busiest"], most, "orange")
        it.text(780, y + 19, f"{row['busiest'] / row['one']:.2f}" if row["one"] else "-", 13, anchor="end")
    return it
