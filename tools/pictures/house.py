"""What crates.txt says: the rooms by their headings, their crates, and which rooms a room needs below it."""
import re


def rooms_of(path="crates.txt"):
    """Yields of each heading, `# NUMBER NAME`, the number, the name, and of each crate below it what it stands on."""
    rooms = []
    with open(path, encoding="utf-8") as file:
        for line in file:
            heading = re.match(r"# (\d+) (.*)", line)
            head, _, below = line.partition("#")[0].partition(":")
            if heading:
                rooms.append((int(heading[1]), heading[2].strip(), {}))
            elif head.strip():
                rooms[-1][2][head.split()[0]] = below.split()
    return rooms


def arrows_of(rooms):
    """Each room with those that it stands on, but for those that these stand on already."""
    room_of = {crate: number for number, _, crates in rooms for crate in crates}
    below = {number: {room_of[it] for deps in crates.values() for it in deps if it in room_of} - {number} for number, _, crates in rooms}
    upwards = [(number, it) for number in below for it in below[number] if it >= number]
    if upwards:
        raise SystemExit(f"crates.txt: rooms stand on later ones: {upwards}")

    def all_below(number):
        return below[number].union(*(all_below(it) for it in below[number]))

    return {number: {it for it in below[number] if not any(it in all_below(other) for other in below[number])} for number in below}
