#!/usr/bin/env python3
"""Compares what two revisions promise: the clauses of each public function, and each definition that clauses are made of.

usage: tools/clauses.py [--renames FILE] [--new] [--counts] OLD NEW [CRATE..]

Each name of OLD is turned by the renames first. It prints, by crate, what differs: of a function the clauses that only one
revision has, of a definition (specs/, what an `impl` or a struct says by `ghost`) its text in both. What NEW alone has is
listed under --new; it takes nothing from what OLD promised. The table at the end counts, and has a column for what may have
become weaker: an `ensures` that is gone, a `requires` that came, a definition that changed, whatever is gone. Whether a changed
text says less is for a reader to judge. The status is 1 where something may.

A line of FILE is 'OLD NEW', a word or a path of words and what it is now, or 'CRATE: OLD NEW', for what that crate's own files
say (its name as it was); '#' starts a comment. Later lines read what earlier ones made.
"""
import argparse
import collections
import re
import subprocess
import sys

CLAUSE = re.compile(r"(requires|ensures|ghost)(\*?)(?: ([\w']+))?:? ?(?:= )?\{")
FUNCTION = re.compile(r"(pub )?(?:const )?(?:unsafe )?fn (\w+)")
BLOCK = re.compile(r"(pub )?(?:unsafe )?(impl|trait|struct|enum|mod)\b(.*)")
DEFINED = re.compile(r"(?:(?:pub|abbrev|unfoldable|record|data) )*([^\s:({]+)")
COLUMNS = ("same", "differ", "gone", "new")


def git(*words):
    return subprocess.run(["git", *words], check=True, stdout=subprocess.PIPE).stdout


def files_of(revision, crates):
    """Yields a crate, a path in it, and the file's text, of each file that says what is promised."""
    paths = []
    for path in git("ls-tree", "-r", "--name-only", revision, "crates/").decode().split("\n"):
        parts = path.split("/")
        if len(parts) > 3 and (not crates or parts[1] in crates) and (parts[2], path.rpartition(".")[2]) in (("src", "rt"), ("specs", "antt")):
            paths.append(path)
    asked = "".join(f"{revision}:{path}\n" for path in paths).encode()
    given = subprocess.run(["git", "cat-file", "--batch"], check=True, input=asked, stdout=subprocess.PIPE).stdout
    at = 0
    for path in paths:
        end = given.index(b"\n", at)
        size = int(given[at:end].split()[-1])
        yield path.split("/")[1], path.split("/", 2)[2], given[end + 1 : end + 1 + size].decode()
        at = end + size + 2


def renamer(file):
    """Returns what turns the text of a crate's file into today's words."""
    lines = []
    for line in open(file, encoding="utf-8") if file else ():
        crate, colon, rest = line.partition("#")[0].partition(": ")
        words = (rest if colon else crate).split()
        if len(words) == 2:
            lines.append((crate.strip() if colon else None, re.compile(rf"(?<![\w']){re.escape(words[0])}(?![\w'])"), words[1]))

    def renamed(crate, text):
        for only, old, new in lines:
            if only in (None, crate):
                text = old.sub(lambda _, new=new: new, text)
        return text

    return renamed


def plain(text):
    return " ".join(text.split())


def braced(lines, at, start):
    """Returns the text between braces that opens at a place of a line, and the line that closes it. Braces in quotes are text."""
    text, depth, place = [], 0, start
    while at < len(lines):
        outside = re.sub(r'"(\\.|[^"\\])*"', lambda quoted: "_" * len(quoted[0]), lines[at])
        for i in range(place, len(lines[at])):
            depth += {"{": 1, "}": -1}.get(outside[i], 0)
            if depth == 0:
                return plain("".join(text) + lines[at][place + (not text) : i]), at
        text.append(lines[at][place + (not text) :] + " ")
        at, place = at + 1, 0
    return plain("".join(text)), at


def promises(text):
    """Yields each public function of a file with its clauses, and what else its `ghost` items state. A name's parts are the
    modules, types and traits that it stands in."""
    lines, inside, at = text.split("\n"), [], 0
    while at < len(lines):
        line, indent = lines[at].strip(), len(lines[at]) - len(lines[at].lstrip())
        if line:
            inside = [it for it in inside if it[0] < indent or (it[0] == indent and line != "}" and not BLOCK.match(line) and not FUNCTION.match(line))]
        function, block, clause = FUNCTION.match(line), BLOCK.match(line), CLAUSE.match(line)
        if function:
            is_public = bool(function[1]) or any(kind == "trait" for _, kind, _ in inside)
            clauses, at = clauses_from(lines, at, indent)
            # (a method of a trait's impl has its own clauses in place of the trait's)
            is_public = is_public or clauses and any(kind == "impl" and " for " in name for _, kind, name in inside)
            if is_public and not any(name == "tests" for _, _, name in inside):
                yield "fn", (*(name for _, _, name in inside), function[2]), clauses
        elif block and (line.endswith("{") or line.endswith("where")):
            head = plain(re.sub(r"^<[^>]*>|\b(requires|where)\b.*|\{$", "", block[3].strip()))
            inside.append((indent, block[2], head))
        elif clause and clause[1] == "ghost" and inside and inside[-1][0] + 4 == indent:
            body, at = braced(lines, at, lines[at].index("{", indent))
            yield "ghost", (*(name for _, _, name in inside), f"ghost {clause[3] or ''}".strip()), [body]
        at += 1


def clauses_from(lines, at, indent):
    """Returns a function's clauses, from its first line on, and the last line that was read."""
    clauses, head = [], True
    while at < len(lines):
        line, found = lines[at], CLAUSE.match(lines[at].strip())
        if found:
            start = line.index("{", line.index(found[1]))
            body, at = braced(lines, at, start)
            clauses.append((found[1] + found[2], found[3] or "", body))
            head = False
            if lines[at].rstrip().endswith(";"):
                break
        elif line.rstrip().endswith(";") or line.startswith(" " * indent + "{") or (head and line.rstrip().endswith(("{", "{}"))):
            break
        at += 1
    return clauses, at


def definitions(text):
    """Yields the definitions of a file of specs/, each with its text."""
    name, rows = None, []
    for line in text.split("\n"):
        line = line.split(" -- ")[0].rstrip() if not line.startswith("--") else ""
        if not line or re.match(r"(pub )?(use|mod|open) ", line):
            continue
        if DEFINED.match(line):
            found = DEFINED.match(line)[1]
            if found != name:
                if name:
                    yield name, plain(" ".join(rows))
                name, rows = found, []
        rows.append(line)
    if name:
        yield name, plain(" ".join(rows))


def promised(revision, crates, renamed):
    """Returns what a revision promises: by kind, crate and name, the clauses or the text."""
    found = {}
    for crate, path, text in files_of(revision, crates):
        text = renamed(crate, text)
        crate, module = renamed(crate, crate), renamed(crate, re.sub(r"^\w+/|\.\w+$", "", path)).replace("/", "::")
        if path.startswith("specs/"):
            for name, body in definitions(text):
                found["definition", crate, f"{module}.{name}"] = [body]
        else:
            for kind, names, clauses in promises(text):
                found[kind, crate, "::".join((module, *names))] = clauses
    return found


def matched(old, new):
    """Returns, for each key of the old, the key of the new that stands for it, or None: the same one, or the only one left of
    the same kind with the same last words, in its crate or else in any."""
    found = {key: key for key in old if key in new}
    for is_near in (lambda a, b: a[1] == b[1], lambda a, b: True):
        for parts in (2, 1):
            rest = collections.defaultdict(list)
            taken = set(found.values())
            for key in new:
                if key not in taken:
                    rest[key[0], tail(key, parts)].append(key)
            for key in old:
                if key not in found:
                    fit = [it for it in rest[key[0], tail(key, parts)] if is_near(key, it) and it not in found.values()]
                    if len(fit) == 1:
                        found[key] = fit[0]
    return {key: found.get(key) for key in old}


def tail(key, parts):
    return tuple(re.split(r"::|\.", key[2])[-parts:])


def told(kind, clause):
    if kind != "fn":
        return clause
    word, name, body = clause
    return f"{word}{' ' + name if name else ''} {{ {body} }}"


def differences(kind, old, new):
    """Returns the lines that tell how the two differ, and whether the new may be weaker."""
    gone, came = [it for it in old if it not in new], [it for it in new if it not in old]
    if kind != "fn":
        return [f"- {it}" for it in gone] + [f"+ {it}" for it in came], bool(gone)
    # (a clause's name says nothing)
    bodies = lambda clauses: {(word, body) for word, _, body in clauses}
    was, is_now = bodies(old), bodies(new)
    weaker = any(word[0] != "r" for word, _ in was - is_now) or any(word[0] != "e" for word, _ in is_now - was)
    lines = [f"- {told(kind, it)}" for it in gone] + [f"+ {told(kind, it)}" for it in came]
    return lines, weaker


def main():
    parser = argparse.ArgumentParser(description=__doc__, formatter_class=argparse.RawDescriptionHelpFormatter)
    parser.add_argument("--renames")
    parser.add_argument("--new", action="store_true")
    parser.add_argument("--counts", action="store_true")
    parser.add_argument("old")
    parser.add_argument("new_revision", metavar="new")
    parser.add_argument("crates", nargs="*")
    given = parser.parse_args()
    old, new = promised(given.old, [], renamer(given.renames)), promised(given.new_revision, [], lambda _, text: text)
    pairs = matched(old, new)
    rows, seen = collections.defaultdict(collections.Counter), collections.defaultdict(list)
    for key, to in pairs.items():
        crate = (to or key)[1]
        lines, weaker = differences(key[0], old[key], new[to]) if to else (["- (gone)", *(f"- {told(key[0], it)}" for it in old[key])], True)
        state = "gone" if not to else "differ" if lines else "same"
        rows[crate][key[0] == "fn", state] += 1
        rows[crate]["weaker"] += weaker
        if lines:
            moved = f" (was {key[1]} {key[2]})" if to and to != key else ""
            seen[crate].append((f"{key[0]} {(to or key)[2]}{moved}{': may be weaker' if weaker else ''}", lines))
    for key in new.keys() - set(pairs.values()):
        rows[key[1]][key[0] == "fn", "new"] += 1
        if given.new:
            seen[key[1]].append((f"{key[0]} {key[2]}: new", [f"+ {told(key[0], it)}" for it in new[key]]))
    names = [it for it in sorted(rows) if not given.crates or it in given.crates]
    for crate in names if not given.counts else ():
        if seen[crate]:
            print(f"== {crate}")
        for head, lines in sorted(seen[crate]):
            print("\n    ".join([f"{head}", *lines]))
    show(names, rows)
    sys.exit(1 if any(rows[it]["weaker"] for it in names) else 0)


def show(names, rows):
    print(f"{'':20}{'public functions':^28}{'definitions':^28}{'may be':>8}")
    print(f"{'crate':20}{''.join(f'{it:>7}' for it in COLUMNS * 2)}{'weaker':>8}")
    total = collections.Counter()
    for crate in names:
        total.update(rows[crate])
        print(f"{crate:20}{''.join(f'{rows[crate][is_fn, it]:7}' for is_fn in (True, False) for it in COLUMNS)}{rows[crate]['weaker']:8}")
    print(f"{'sum':20}{''.join(f'{total[is_fn, it]:7}' for is_fn in (True, False) for it in COLUMNS)}{total['weaker']:8}")


if __name__ == "__main__":
    main()
