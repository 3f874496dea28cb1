#!/usr/bin/env python3
"""Finds what nobody uses in crates/: imported names in contracts and proofs, `let`s of proofs, and lemmas that nothing cites.

    unused.py            lists them; ends with 1 where there are any
    unused.py --write    takes them out, and what they alone used (run it until it says 0; `rt fmt` lays the files out)

It goes by names, over all files: what has the name of something that is used counts as used. A `let` stays where the text that
it stands in calls a tactic, which may look at all that is in scope. Laws in a file Examples.antt are cited by nobody on purpose.
"""
import glob
import os
import re
import sys

TOKEN = re.compile(r"[^\s(){}\[\],;.:]+")
USE = re.compile(r"^\s*(?:ghost )?use (\S+?)\.\{([^}]*)\};?$")
SIGNATURE = re.compile(r"^(?:pub )?([^\s:(){}\[\],;.]+) :")
LET = re.compile(r"^\s*let ([A-Za-z_][^\s(){}\[\],;.:]*)\s*[:=]")
TACTICS = re.compile(r"\b(?:auto|search|by|simp|assumption|tactic|ground|grind|omega|cc|decide|conv)\b")


def code_of(line):
    """Returns a line without its comment."""
    return re.split(r"(?:^|\s)(?://|--)", line, maxsplit=1)[0]


def is_used(name, code, tokens):
    """Whether a name, or each part of an operator, stands in the code."""
    own = name.split(" as ")[-1].strip()
    if "◌" in own or own == "[]":
        return all(part in code for part in own.split("◌") if part)
    return own in tokens


def without_imports(lines):
    """Returns the lines without names that are imported and stand nowhere else, and says which."""
    rest = [code_of(line) for line in lines if not re.match(r"^\s*(?:pub )?(?:ghost )?(?:pub )?use ", line)]
    code = "\n".join(rest)
    tokens = set(TOKEN.findall(code))
    kept, gone = [], []
    for line in lines:
        found = USE.match(line)
        if not found:
            kept.append(line)
            continue
        names = [name.strip() for name in found[2].split(",")]
        used = [name for name in names if is_used(name, code, tokens)]
        gone += [name for name in names if name not in used]
        if len(used) == len(names):
            kept.append(line)
        elif used:
            kept.append(line[: found.start(2)] + ", ".join(used) + line[found.end(2) :])
    return kept, gone


def let_end(lines, start):
    """Returns the last line of the `let` that begins a line, or None where another begins before."""
    for at in range(start, len(lines)):
        if at > start and LET.match(lines[at]):
            return None
        if re.search(r"\bin$", lines[at].rstrip()):
            # (a line with two of them stays as it is)
            return at if len(re.findall(r"\blet\b", "\n".join(lines[start : at + 1]))) == 1 else None
    return None


def without_let(lines):
    """Returns a declaration without its first `let` that nothing after it names, and that name; or None where each is used."""
    for start, line in enumerate(lines):
        found = LET.match(line)
        end = let_end(lines, start) if found else None
        if end is None or end + 1 == len(lines):
            continue
        if found[1] not in TOKEN.findall("\n".join(lines[end + 1 :])):
            return lines[:start] + lines[end + 1 :], found[1]
    return None


def without_lets(lines):
    """Returns the lines of a proof file without `let`s that nothing names, and says which."""
    kept, gone = [], []
    for part in "\n".join(lines).split("\n\n"):
        own = part.split("\n")
        while not TACTICS.search(part) and (less := without_let(own)):
            own = less[0]
            gone.append(less[1])
        kept.append("\n".join(own))
    return "\n\n".join(kept).split("\n"), gone


def is_lemma_file(path):
    """Whether a file has lemmas that others cite."""
    name = os.path.basename(path)
    return "/proofs/" in path and name not in ("Answers.antt", "Invariants.antt", "Proof.antt", "Examples.antt", "Lib.antt")


def blocks_of(lines):
    """Returns the parts of a lemma file as (name or None, first line, line after the last), a lemma with the comment before it."""
    blocks, start, name = [], 0, None
    for at, line in enumerate(lines):
        found = SIGNATURE.match(line)
        if found and found[1] != name:
            first = at
            while first > start and lines[first - 1].startswith("--") and not lines[first - 1].startswith("-- ----"):
                first -= 1
            blocks.append((name, start, first))
            start, name = first, found[1]
        elif name and line.strip() and line[0] not in " )]}|" and not line.startswith(name) and not found:
            # (another declaration, or a heading)
            blocks.append((name, start, at))
            start, name = at, None
    blocks.append((name, start, len(lines)))
    return [block for block in blocks if block[1] < block[2]]


def dead_lemmas(files):
    """Returns the names of lemmas that nothing cites but such lemmas, with their files."""
    where, citing, roots = {}, {}, set()
    for path, lines in files.items():
        code = [code_of(line) if not re.match(r"^\s*(?:pub )?(?:ghost )?use ", line) else "" for line in lines]
        for name, start, end in blocks_of(lines) if is_lemma_file(path) else [(None, 0, len(lines))]:
            tokens = set(TOKEN.findall("\n".join(code[start:end])))
            if name is None:
                roots |= tokens
            else:
                where.setdefault(name, set()).add(path)
                citing[name] = citing.get(name, set()) | (tokens - {name})
    live, work = set(), list(roots)
    while work:
        name = work.pop()
        if name in where and name not in live:
            live.add(name)
            work += citing[name]
    return {name: where[name] for name in where if name not in live}


def without_lemmas(lines, dead):
    """Returns the lines of a lemma file without these lemmas."""
    kept = []
    for name, start, end in blocks_of(lines):
        if name not in dead:
            kept += lines[start:end]
    return kept


def main():
    write = sys.argv[1:] == ["--write"]
    if sys.argv[1:] and not write:
        sys.exit(__doc__)
    os.chdir(os.path.join(os.path.dirname(os.path.abspath(__file__)), ".."))
    paths = glob.glob("crates/*/src/**/*.rt", recursive=True) + glob.glob("crates/*/specs/**/*.antt", recursive=True)
    paths += glob.glob("crates/*/proofs/**/*.antt", recursive=True) + glob.glob("tests/calls/*.try")
    files = {path: open(path).read().split("\n") for path in sorted(paths)}
    old = dict(files)
    said = []
    for name, places in sorted(dead_lemmas(files).items()):
        for path in sorted(places):
            said.append(f"{path}: lemma {name}")
            files[path] = without_lemmas(files[path], {name})
    for path in sorted(files):
        lets = []
        if "/proofs/" in path:
            files[path], lets = without_lets(files[path])
        files[path], imports = without_imports(files[path])
        said += [f"{path}: let {name}" for name in lets] + [f"{path}: import {name}" for name in imports]
    if write:
        for path in files:
            if files[path] != old[path]:
                open(path, "w").write(re.sub(r"\n{3,}", "\n\n", "\n".join(files[path])).rstrip() + "\n")
    print("\n".join(said + [f"unused: {len(said)} names"]))
    sys.exit(0 if write or not said else 1)


main()
