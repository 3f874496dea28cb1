"""run.svg: one run, from the bytes read to the bytes written. docs/ARCHITECTURE.md has its steps in words."""
from canvas import Canvas, wrapped

EDGE = 12


class Part:
    """A box with a title, what happens in it, and the crates that do it."""

    def __init__(self, it, left, top, width, height, title, about, crates, classes="room edge"):
        self.left, self.top, self.right, self.below = left, top, left + width, top + height
        self.middle = left + width / 2
        it.box(left, top, width, height, classes)
        it.text(left + EDGE, top + 22, title, 14, bold=True)
        y = it.lines(left + EDGE, top + 40, wrapped(about, 12, width - 2 * EDGE), 12, 16, classes="soft")
        y = it.lines(left + EDGE, y + 2, wrapped(crates, 12, width - 2 * EDGE), 12, 16, classes="blue")
        if y - 16 > top + height - 5:
            raise SystemExit(f"run.svg: '{title}' is too low for its words")


def between(it, left, right, y):
    it.arrow([(left.right, y), (right.left, y)])


def preparation(it, top):
    width, gap = 166, 32
    told = (
        ("1 Arguments", "options, or the first fault", "cli"),
        ("2 Read", "a program, or the first fault with its line", "text read"),
        ("3 Settle", "facts and copies are set aside", "settle equal"),
        ("4 Compile", "variables for atoms and bodies", "vars"),
    )
    parts = [Part(it, 20 + (width + gap) * at, top, width, 98, *it_) for at, it_ in enumerate(told)]
    for left, right in zip(parts, parts[1:]):
        between(it, left, right, top + 49)
    it.text(parts[1].middle, top - 32, "bytes of standard input", 12, anchor="middle", classes="soft")
    it.arrow([(parts[1].middle, top - 24), (parts[1].middle, top)])
    return parts[-1]


def search(it, top):
    it.box(20, top, 760, 324, "orange-room edge")
    it.text(236, top + 26, "5 Search: under the cube of a leaf, until no leaf is open", 14, bold=True)
    y = top + 54
    board = Part(it, 36, y, 148, 254, "Board", "the assumptions as a leaf; answers, best cost, budget, journal", "path core book crew", "page edge")
    propagate = Part(it, 270, y, 212, 100, "Propagate", "nogoods, weight bodies, cost bound, unfounded sets", "store weight bound source propagate", "page edge")
    decide = Part(it, 568, y, 196, 100, "Decide", "restart if it is time; give a variable a value", "order state", "page edge")
    learn = Part(it, 270, y + 136, 212, 80, "Learn", "a nogood; pay a unit; jump back", "analyze", "page edge")
    check = Part(it, 568, y + 136, 196, 80, "Check", "is the set stable?", "stable", "page edge")
    it.arrow([(board.right, y + 36), (propagate.left, y + 36)])
    it.text((board.right + propagate.left) / 2, y + 28, "a cube", 12, anchor="middle", classes="soft")
    it.arrow([(propagate.right, y + 40), (decide.left, y + 40)])
    it.text((propagate.right + decide.left) / 2, y + 32, "no conflict", 12, anchor="middle", classes="soft")
    it.arrow([(decide.left, y + 74), (propagate.right, y + 74)])
    it.text((propagate.right + decide.left) / 2, y + 90, "a value", 12, anchor="middle", classes="soft")
    it.arrow([(330, propagate.below), (330, learn.top)])
    it.text(322, propagate.below + 22, "conflict", 12, anchor="end", classes="soft")
    it.arrow([(420, learn.top), (420, propagate.below)])
    it.text(428, propagate.below + 22, "go on", 12, classes="soft")
    it.arrow([(decide.middle, decide.below), (decide.middle, check.top)])
    it.text(decide.middle + 8, decide.below + 22, "none left", 12, classes="soft")
    it.arrow([(learn.left, learn.top + 32), (board.right, learn.top + 32)])
    it.text((board.right + learn.left) / 2, learn.top + 24, "leaf closed", 12, anchor="middle", classes="soft")
    it.arrow([(check.middle, check.below), (check.middle, check.below + 20), (board.right, check.below + 20)])
    it.text((learn.right + check.left) / 2, check.below + 14, "an answer", 12, anchor="middle", classes="soft")
    return board


def delivery(it, top, board):
    width = 214
    sort = Part(it, 20, top, width, 82, "6 Sort", "rows of bits; the report", "rows crew_laws")
    show = Part(it, 20 + width + 40, top, width, 82, "7 Print", "the results, or the proof", "print buffer proof")
    it.arrow([(board.middle, board.below), (board.middle, top)])
    between(it, sort, show, top + 41)
    it.arrow([(show.right, top + 41), (show.right + 40, top + 41)])
    it.text(show.right + 50, top + 45, "bytes of standard output", 12, classes="soft")


def picture():
    it = Canvas(800, 706, "One run, from bytes to bytes", "Arguments, reading, settling, compiling, the search with its loop, sorting and printing.")
    it.heading("Blue: the crates that do it, without asp_. asp_top joins the steps.")
    top = 120
    last = preparation(it, top)
    board = search(it, top + 138)
    it.arrow([(last.middle, last.below), (last.middle, top + 118), (board.middle, top + 118), (board.middle, board.top)])
    delivery(it, top + 138 + 324 + 22, board)
    return it
