"""threads.svg: what several workers share: the board and the log, each under its lock, and the lanes."""
from canvas import Canvas, wrapped

EDGE, SHARED = 12, 92
WORKERS = ((20, "1"), (290, "2"), (560, "n"))
WIDE = 220


def part(it, left, top, width, height, title, about, crates, classes="room edge"):
    it.box(left, top, width, height, classes)
    it.text(left + EDGE, top + 23, title, 14, bold=True)
    y = it.lines(left + EDGE, top + 42, wrapped(about, 12, width - 2 * EDGE), 12, 16, classes="soft")
    y = it.lines(left + EDGE, y + 2, wrapped(crates, 12, width - 2 * EDGE), 12, 16, classes="blue")
    if y - 16 > top + height - 5:
        raise SystemExit(f"threads.svg: '{title}' is too low for its words")


def lock(it, x, y):
    """A padlock with its lower left corner there."""
    it.path(f"M{x + 3} {y - 10}V{y - 14}A5 5 0 0 1 {x + 13} {y - 14}V{y - 10}", "line", 2)
    it.add("rect", "soft", x=x, y=y - 10, width=16, height=11, rx=2)


def shared(it, top, below):
    """The board and the log, with a line from each to every worker, whose top is at `below`."""
    part(it, 20, top, 470, SHARED, "Board, under a lock", "A tree of cubes: each leaf is open, held by a worker, or closed. Answers, best cost, units of the budget; a journal of every event.", "path core book, in a vault", "blue-room edge")
    lock(it, 458, top + 24)
    part(it, 520, top, 260, SHARED, "Log, under another lock", "Short learnt nogoods that every search of the program may use.", "log, in a vault", "orange-room edge")
    lock(it, 748, top + 24)
    to_board, to_log = below - 38, below - 20
    it.path(f"M70 {to_board}H600", "blue-line", 1.5)
    it.path(f"M190 {to_log}H730", "orange-line", 1.5)
    it.arrow([(250, to_board), (250, top + SHARED)], "blue-line", "blue")
    it.arrow([(660, to_log), (660, top + SHARED)], "orange-line", "orange")
    for left, _ in WORKERS:
        it.arrow([(left + 50 - 10 * (left > 500), to_board), (left + 50 - 10 * (left > 500), below)], "blue-line", "blue")
        it.arrow([(left + 170, to_log), (left + 170, below)], "orange-line", "orange")


def lanes(it, workers_below, top):
    """Below each worker its lane, from which the others take."""
    for at, (left, name) in enumerate(WORKERS):
        lane, wide = left + 76, 120
        it.box(lane, top, wide, 26, "room edge")
        for leaf in range(3):
            it.add("rect", "soft", x=lane + 62 + 18 * leaf, y=top + 7, width=12, height=12, rx=2)
        it.text(lane + 8, top + 17, f"lane {name}", 12)
        it.arrow([(lane + 60, workers_below), (lane + 60, top)])
        it.text(lane + 66, workers_below + 22, "offers", 12, classes="soft")
        if at + 1 < len(WORKERS):
            x = WORKERS[at + 1][0] + 36
            it.arrow([(lane + wide, top + 13), (x, top + 13), (x, workers_below)], dashes="4 3")
            it.text(x - 6, workers_below + 22, "takes", 12, classes="soft", anchor="end")


def picture():
    it = Canvas(800, 536, "Board, lock and workers", "The main thread, the board and the log under their locks, the workers, and the lanes between them.")
    it.heading("What a run of several workers shares. Blue words: the crates, without asp_.")
    part(it, 20, 76, 760, 72, "Main thread", "Splits the root for the workers, starts them, is one of them, joins them, and works off what is left open.", "team crew")
    it.arrow([(250, 148), (250, 172)])
    it.arrow([(650, 148), (650, 172)])
    shared(it, 172, 320)
    for left, name in WORKERS:
        part(it, left, 320, WIDE, 84, f"Worker {name}", "A thread, with a search and propagators of its own.", "worker search propagators")
    lanes(it, 404, 446)
    said = ("A lane is a queue without a lock (pool): a worker offers the half of its path that it gives away,",
            "and any other may take it. The board decides whose a leaf is: a lane only hints.")
    it.lines(20, 498, said, 12, 17, classes="soft")
    return it
