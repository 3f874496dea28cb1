"""rooms.svg: the house as ten rooms, each above those that it stands on, from crates.txt."""
from canvas import Canvas, wrapped
from house import arrows_of, rooms_of

TOP, GAP, EDGE = 92, 28, 12
# where each room stands: its left edge, its width, and its floor from the top
PLACES = {
    9: (20, 520, 0), 10: (564, 216, 0),
    7: (216, 324, 1),
    6: (216, 564, 2),
    8: (20, 172, 3), 3: (216, 190, 3), 4: (430, 160, 3), 5: (614, 166, 3),
    2: (20, 760, 4),
    1: (20, 760, 5),
}


class Room:
    """A room with its lines of text; `top` and `height` are its floor's."""

    def __init__(self, number, name, crates):
        self.left, self.width, self.floor = PLACES[number]
        title, _, about = name.partition(": ")
        inner = self.width - 2 * EDGE
        names = " ".join(crate.removeprefix("asp_") for crate in crates)
        self.number, self.title = number, wrapped(f"{number} {title}", 14, inner, bold=True)
        self.about, self.crates = wrapped(about, 12, inner), wrapped(names, 12, inner)

    def high(self):
        return 20 + 18 * len(self.title) + 17 * (len(self.about) + len(self.crates))

    def draw(self, it):
        it.box(self.left, self.top, self.width, self.height)
        y = it.lines(self.left + EDGE, self.top + 23, self.title, 14, 18, bold=True)
        y = it.lines(self.left + EDGE, y, self.about, 12, 17, classes="soft")
        it.lines(self.left + EDGE, y + 3, self.crates, 12, 17, classes="blue")


def stacked(rooms):
    """Gives each floor the height that its highest room needs; answers the place below the lowest floor."""
    top = TOP
    for floor in range(1 + max(it.floor for it in rooms)):
        beside = [it for it in rooms if it.floor == floor]
        for it in beside:
            it.top, it.height = top, max(other.high() for other in beside)
        top += beside[0].height + GAP
    return top - GAP


def arrow(it, upper, lower, rooms):
    """From a room straight down to one below it; where another room lies between, the places above are wrong."""
    begin, end = upper.top + upper.height, lower.top
    x = (max(upper.left, lower.left) + min(upper.left + upper.width, lower.left + lower.width)) / 2
    across = {room.number for room in rooms if room.left < x < room.left + room.width}
    between = [room.number for room in rooms if room.number in across and begin < room.top < end]
    if between or not {upper.number, lower.number} <= across or end < begin:
        raise SystemExit(f"no arrow goes from room {upper.number} straight down to room {lower.number}: PLACES of tools/pictures/rooms.py")
    it.arrow([(x, begin), (x, end)])


def picture():
    found = rooms_of()
    rooms = [Room(*it) for it in found]
    by_number = {room.number: room for room in rooms}
    it = Canvas(800, stacked(rooms) + 20, "The house: ten rooms", "Each room stands on those that its arrows reach, and on what these stand on.")
    it.heading("Each room stands on those that its arrows reach, and on what these stand on.", "Blue: its crates, without asp_.")
    for upper, below in arrows_of(found).items():
        for lower in sorted(below):
            arrow(it, by_number[upper], by_number[lower], rooms)
    for room in rooms:
        room.draw(it)
    return it
