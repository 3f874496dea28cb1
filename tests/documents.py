#!/usr/bin/env python3
"""Holds the documents to the crates.

    documents.py [--list]     --list prints each bracketed name of docs/PROMISES.md with what it was found to be

- The table of crates in docs/ARCHITECTURE.md, whose rows begin with a crate's name, has each crate of crates.txt once. What
  its second column names are crates that this one stands on, each by its name with or without `asp_`, and all others that
  it stands on lie below those.
- The rooms of docs/ARCHITECTURE.md, headings that begin with a number, are the headings of crates.txt, in their order, and
  each crate's row is in its own room.
- A name in square brackets in docs/PROMISES.md is a clause, a definition or a field of a crate that its line names, or a
  definition of a crate below that one. A line names crates by their names, `asp_..`, or by a function or type of theirs
  between backquotes, as `Store::propagate`; one that does neither stands for the crates that the heading above names.
- Each crate has a README.md.
- What claims.py says: promises, the rules of CONTRIBUTING.md, definitions, and long blocks of text.
- README.md is short, and links and paths of all pages lead somewhere (pages.py).
"""
import os
import re
import sys

sys.dont_write_bytecode = True
from claims import wrong_claims  # noqa: E402
from pages import wrong_pages  # noqa: E402

CRATE = re.compile(r"\basp_[a-z0-9_]+\b")
# brackets that no link's address follows
BRACKETS = re.compile(r"\[([^\[\]]*)\](?!\()")
NAME = r"[\w']+"
KINDS = ("clause", "definition", "field")
# a heading and a crate of crates.txt
ROOM, CRATE_LINE = r"# (\d+ .*)", r"(asp_\w+)"


def text_of(path):
    with open(path, encoding="utf-8") as file:
        return file.read()


def crates_txt():
    """Returns, of each crate, what it stands on."""
    deps = {}
    for line in text_of("crates.txt").split("\n"):
        head, _, below = line.partition("#")[0].partition(":")
        if head.strip():
            deps[head.split()[0]] = below.split()
    return deps


def below(crate, deps):
    found = set()
    for it in deps.get(crate, []):
        found |= {it} | below(it, deps)
    return found


# ---- docs/ARCHITECTURE.md
def table_rows(path):
    """Yields the cells of each row of a table that begins with a crate's name, with the line's number."""
    for number, line in enumerate(text_of(path).split("\n"), 1):
        cells = [it.strip() for it in line.strip().strip("|").split("|")]
        first = cells[0].strip("`*")
        if line.startswith("|") and CRATE.fullmatch(first):
            yield number, first, cells[1:]


def wrong_architecture(path, deps):
    seen = {}
    for number, crate, cells in table_rows(path):
        at = f"{path}:{number}: {crate}"
        if crate not in deps:
            yield f"{at} isn't in crates.txt"
            continue
        if crate in seen:
            yield f"{at} has a row in line {seen[crate]} already"
        seen[crate] = number
        words = re.findall(r"\w+", cells[0]) if len(cells) > 1 else []
        named = {it if it in deps[crate] else f"asp_{it}" for it in words}
        for it in sorted(named - set(deps[crate])):
            yield f"{at} doesn't stand on {it}"
        covered = named.union(*(below(it, deps) for it in named))
        for it in deps[crate] if len(cells) > 1 else []:
            if it in deps and it not in covered:
                yield f"{at} stands on {it} too"
    for crate in deps:
        if crate not in seen:
            yield f"{path}: no row for {crate}"


def rooms_of(text, heading, crate):
    """Returns the headings of a text in their order, and of each crate the heading above it."""
    rooms, room_of = [], {}
    for line in text.split("\n"):
        head, found = re.match(heading, line), re.match(crate, line)
        if head:
            rooms.append(head[1].strip())
        elif found and rooms:
            room_of.setdefault(found[1], rooms[-1])
    return rooms, room_of


def wrong_rooms(path):
    rooms, room_of = rooms_of(text_of("crates.txt"), ROOM, CRATE_LINE)
    ours, ours_of = rooms_of(text_of(path), r"#+ (\d+ .*)", r"\| *`?(asp_\w+)")
    if not rooms or rooms != ours:
        yield f"{path}: its rooms are {ours}, those of crates.txt {rooms}"
    for crate, room in room_of.items():
        if ours_of.get(crate) != room:
            yield f"{path}: {crate} is in the room '{ours_of.get(crate)}', in crates.txt in '{room}'"


# ---- docs/PROMISES.md
class Names:
    """What a crate's files name: `kinds` of each clause, definition and field, its functions and types; `others` are the
    names of definitions and fields outside of proofs."""

    def __init__(self, crate):
        self.kinds, self.items, self.others = {}, set(), set()
        for part, ending in (("src", ".rt"), ("specs", ".antt"), ("proofs", ".antt")):
            for at, _, files in os.walk(f"crates/{crate}/{part}"):
                for file in sorted(files):
                    if file.endswith(ending):
                        (self.read_code if ending == ".rt" else self.read_definitions)(f"{at}/{file}")

    def add(self, name, kind, path):
        """Notes what a name is, where it isn't noted already as something that comes first in KINDS."""
        if kind != "clause" and "/proofs/" not in path:
            self.others.add(name)
        old = self.kinds.get(name)
        if not old or KINDS.index(kind) < KINDS.index(old[0]):
            self.kinds[name] = kind, os.path.relpath(path, "crates")

    def is_clause_alone(self, name):
        return self.kinds.get(name, ("",))[0] == "clause" and name not in self.others

    def read_code(self, path):
        text = text_of(path)
        for name in re.findall(rf"^\s*(?:requires|ensures)\*?\s+({NAME})\s*\{{", text, re.M):
            self.add(name, "clause", path)
        for name in re.findall(rf"^\s*(?:pub(?:\([a-z ]+\))?\s+)?(?:ghost\s+)?({NAME}):\s", text, re.M):
            self.add(name, "field", path)
        for name in re.findall(rf"^\s*ghost\s+({NAME})\s*[:=]", text, re.M):
            self.add(name, "field", path)
        self.items |= set(re.findall(r"\b(?:fn|struct|enum|trait|type)\s+(\w+)", text))

    def read_definitions(self, path):
        text = text_of(path)
        head = r"(?:(?:pub|abbrev|unfoldable|opaque|data|record|private)\s+)*"
        for name in re.findall(rf"^{head}({NAME})(?=[\s:({{,])", text, re.M):
            self.add(name, "definition", path)
        # a record's fields, one in a line or all in one
        for name in re.findall(rf"(?:^\s+|[{{;]\s*)(?:pub\s+)?({NAME})\s*:\s", text, re.M):
            self.add(name, "field", path)


def promised(path):
    """Yields the number of each line that has names in brackets, those names, the line, and the heading above it."""
    heading = ""
    for number, line in enumerate(text_of(path).split("\n"), 1):
        if line.startswith("#"):
            heading = line
        names = []
        for inside in BRACKETS.findall(line):
            names += re.findall(NAME, inside)
        if names:
            yield number, names, line, heading


def crates_of(line, heading, known):
    """Returns the crates that a line is about."""
    outside = BRACKETS.sub("", line)
    named = {it for it in CRATE.findall(outside) if it in known}
    if named:
        return named
    paths = [path.split("::") for path in re.findall(r"`(\w+(?:::\w+)*)`", outside)]
    by_item = {crate for crate, names in known.items() for path in paths if names.items.issuperset(path)}
    return by_item or {it for it in CRATE.findall(heading) if it in known}


def meaning_of(name, crates, known, deps):
    """Returns what a name is in one of these crates, or in a crate below them where it is a definition."""
    found = [known[it].kinds[name] for it in crates if name in known[it].kinds]
    lower = sorted(set().union(*(below(it, deps) for it in crates)) & set(known))
    found += [it for it in (known[crate].kinds.get(name) for crate in lower) if it and it[0] == "definition"]
    return min(found, key=lambda it: KINDS.index(it[0]), default=None)


def wrong_promises(path, deps, known, told):
    for number, names, line, heading in promised(path):
        crates = sorted(crates_of(line, heading, known))
        for name in names:
            found = meaning_of(name, crates, known, deps)
            if found:
                told.append((number, name, *found))
            elif crates:
                yield f"{path}:{number}: [{name}] is no clause, definition or field of {', '.join(crates)}"
            else:
                yield f"{path}:{number}: [{name}] stands in a line that names no crate"


def main():
    os.chdir(os.path.dirname(os.path.dirname(os.path.realpath(__file__))))
    deps, told = crates_txt(), []
    known = {crate: Names(crate) for crate in deps}
    _, rooms = rooms_of(text_of("crates.txt"), ROOM, CRATE_LINE)
    wrong = [
        *wrong_architecture("docs/ARCHITECTURE.md", deps),
        *wrong_rooms("docs/ARCHITECTURE.md"),
        *wrong_promises("docs/PROMISES.md", deps, known, told),
        *wrong_claims(deps, promised, crates_of, known, rooms),
        *(f"crates/{it}/README.md is missing" for it in deps if not os.path.isfile(f"crates/{it}/README.md")),
        *wrong_pages(),
    ]
    if "--list" in sys.argv[1:]:
        for number, name, kind, path in told:
            print(f"docs/PROMISES.md:{number}: [{name}] is a {kind} of {path}")
    for line in wrong:
        print(line)
    kinds = [kind for _, _, kind, _ in told]
    counts = ", ".join(f"{kinds.count(it)} {it}s" for it in KINDS)
    print(f"documents: {len(deps)} crates, {len(told)} names in brackets ({counts}), {len(wrong)} wrong")
    sys.exit(1 if wrong else 0)


if __name__ == "__main__":
    main()
