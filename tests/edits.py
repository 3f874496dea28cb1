#!/usr/bin/env python3
"""What tests/edits.sh needs of rt.

    edits.py libraries COPY NAME..     gives a copy of the repository the libraries that `rt ci` proved of the same files,
                                       from those that it left in the clone PROVED where the environment names one
    edits.py applied COPY NAME..       says which edits of these crates can't be applied to their files
    edits.py together COPY NAME..      tries the edits of a crate by one check of all functions that they change, at most one
                                       edit a function, and takes away those that are refused in theirs, RT_JOBS crates
                                       side by side
    edits.py functions COPY NAME..     the same by a check for each edit of the one function that it changes
    edits.py untried COPY NAME..       prints those of these crates whose edits aren't all known to be refused of their files
    edits.py tried COPY TOLD NAME..    notes in edits/TRIED the crates of which each edit was refused, by what was told

A library is taken from what `rt ci` keeps beside the kit, by the sum of all that it was proved from, or from a clone in
which `rt ci` ran and whose files are the same. Where rt has another form than the one that this script knows, nothing is
taken: rt proves the libraries again then, which costs time alone.
"""
import concurrent.futures
import datetime
import filecmp
import glob
import hashlib
import importlib.machinery
import importlib.util
import os
import re
import shutil
import sys
import tempfile

sys.dont_write_bytecode = True


def load_rt():
    file = os.path.realpath(shutil.which("rt"))
    loader = importlib.machinery.SourceFileLoader("rt", file)
    rt = importlib.util.module_from_spec(importlib.util.spec_from_loader("rt", loader))
    loader.exec_module(rt)
    return rt


def crates_of(copy):
    """Returns rt and the crates of a copy, lowest first, which keep what is in their out/."""
    rt = load_rt()
    rt.Crate.allowed = rt.handles_of(copy)
    try:
        return rt, rt.crates_of(copy)
    except TypeError:
        # (an older rt moves each out/ to a folder that it is given)
        with tempfile.TemporaryDirectory() as aside:
            crates = rt.crates_of(copy, aside)
            for name in os.listdir(aside):
                shutil.move(f"{aside}/{name}", f"{copy}/crates/{name}/out")
        return rt, crates


def below_of(crates, names):
    """Returns the crates below those of these names, lowest first."""
    below = {dep for crate in crates if crate.name in names for dep in crate.below()}
    return [crate for crate in crates if crate in below]


def stamp(crate):
    """Says that the library is made of these files, which `rt ci` leaves out and the other commands ask for."""
    with open(f"{crate.folder}/out/rlib/stamp", "w", encoding="utf-8") as file:
        file.write(crate.stamp())


def give(copy, names):
    """Yields the crates below these, and whether each was kept."""
    rt, crates = crates_of(copy)
    kept = rt.Kept(crates)
    lacking = set()
    for crate in below_of(crates, names):
        if lacking.isdisjoint(crate.below()) and kept.give(crate, False, kept.key(crate)):
            kept.is_built(crate)
            stamp(crate)
            yield crate.name, True
        else:
            lacking.add(crate)
            yield crate.name, False


def sources(folder):
    return {
        os.path.relpath(f"{at}/{file}", folder)
        for part in ("src", "specs", "proofs")
        for at, _, files in os.walk(f"{folder}/{part}")
        for file in files
    }


def is_same(one, other):
    """Whether two folders of a crate have the same sources."""
    names = sources(one)
    return names == sources(other) and all(filecmp.cmp(f"{one}/{it}", f"{other}/{it}", shallow=False) for it in names)


def give_from(proved, copy, names):
    """Yields the crates below these, and whether the clone in which `rt ci` ran has a library of the same files."""
    _, crates = crates_of(copy)
    lacking, taken = set(), []
    for crate in below_of(crates, names):
        old = f"{proved}/crates/{crate.name}"
        is_there = lacking.isdisjoint(crate.below()) and os.path.isdir(f"{old}/out/rlib") and is_same(old, crate.folder)
        if is_there:
            shutil.copytree(f"{old}/out/rlib", f"{crate.folder}/out/rlib", dirs_exist_ok=True)
            taken.append(crate)
        else:
            lacking.add(crate)
        yield crate.name, is_there
    for crate in taken:
        stamp(crate)


def libraries(copy, names):
    proved = os.environ.get("PROVED")
    try:
        found = list(give_from(proved, copy, names) if proved else give(copy, names))
    except (AttributeError, KeyError, OSError, TypeError) as error:
        print(f"edits: the libraries are proved again, since this rt keeps them otherwise ({error!r})", flush=True)
        return 0
    lacking = [name for name, is_kept in found if not is_kept]
    if lacking:
        print(f"edits: no rt ci proved {', '.join(lacking)} as they stand, so rt proves them now", flush=True)
    return 0


def applied(copy, names):
    rt, count, bad = load_rt(), 0, 0
    for name in names:
        for edit in edits_of(copy, name):
            why = rt.read_edit(edit, f"{copy}/crates/{name}")[1]
            count += 1
            if why:
                bad += 1
                print(f"{name}/{os.path.basename(edit)}: {why}")
    print(f"{count} edits, {bad} can't be applied")
    return 1 if bad else 0


def indent_of(line):
    return len(line) - len(line.lstrip())


def type_name(text, params, trait):
    """Returns a type as rt names it before one of its functions: of an impl of a trait with what it is made of."""
    words = [it for it in re.findall(r"'?\w+", text.split(" where ")[0]) if not it.startswith("'")]
    own = re.findall(r"'?\w+", params)
    if not trait:
        return words[0]
    name = "".join(it[0].upper() + it[1:] for it in words if it not in own)
    return f"Tuple{len(words)}{name}" if text.startswith("(") else name


def name_of(parts):
    """Returns a function's name as `rt check --only` takes it: of a method its type's and its own, since the type may stand
    in another module than the method."""
    return "::".join(parts[-2:] if len(parts) > 1 and parts[-2][:1].isupper() else parts)


def functions_in(path, text):
    """Yields each function of a file by its name, with its first and its last line, counted from 1."""
    module = [it for it in path[len("src/") : -len(".rt")].split("/") if it not in ("lib", "main")]
    owner, begun = [], []
    for number, line in enumerate(text.split("\n"), 1):
        head = re.match(r"\s*(?:pub(?:\([a-z ]+\))?\s+)?fn\s+(\w+)", line)
        block = re.match(r"impl(<.*?>)?\s+(?:(\w+)\S*\s+for\s+)?([^{]+)|(?:pub\s+)?trait\s+(\w+)", line)
        if block:
            owner = [f"{block[4] or type_name(block[3], block[1] or '', block[2])}{block[2] or ''}"]
        if head:
            begun.append((indent_of(line), number, name_of(module + owner + [head[1]])))
        elif begun and line.strip() == "}" and indent_of(line) == begun[-1][0]:
            _, first, name = begun.pop()
            yield first, number, name
        if line.startswith("}"):
            owner = []


def function_at(path, text, number):
    """Returns the innermost function that a line of the file is of, or None."""
    found = [(first, name) for first, last, name in functions_in(path, text) if first <= number <= last]
    return max(found)[1] if found else None


def function_of(path, old, new):
    """Returns the function in which two texts of the file begin to differ, or None."""
    lines = zip(old.split("\n"), new.split("\n"))
    at = next((number for number, both in enumerate(lines, 1) if both[0] != both[1]), None)
    return at and function_at(path, old, at)


# (what only says that a proof file names what the edit took away isn't a refusal)
ONLY_NAMES = re.compile(r"has no field|is not in scope|has no `|was not admitted")


def faults_in(told):
    """Returns the lines of a check's words that say what isn't proved, but for names that the edit took away."""
    lines = re.findall(r"^(?:note: )?\S+:\d+:\d+: .*(?:it is not proved|error: ).*", told, re.M)
    return [it for it in lines if not ONLY_NAMES.search(it)]


def told_of(line, room):
    """Returns the function that a line of a check's words speaks of, or None."""
    at = re.match(r"(?:note: )?(?:\./)?(src|proofs)/(\S+?):(\d+):\d+: ", line)
    if not at:
        return None
    if at[1] == "proofs":
        return name_of(at[2].split("/")[:-1])
    with open(f"{room}/src/{at[2]}", encoding="utf-8") as file:
        return function_at(f"src/{at[2]}", file.read(), int(at[3]))


def plant(rt, crate, edits, room):
    """Puts edits into a copy of a crate, one a function at most. Returns those that went in, by function, and the others."""
    for part in ("src", "specs", "proofs"):
        if os.path.isdir(f"{crate.folder}/{part}"):
            shutil.copytree(f"{crate.folder}/{part}", f"{room}/{part}")
    planted, left = {}, []
    for edit in edits:
        texts, why = rt.read_edit(edit, room)
        path, new = next(iter(texts.items())) if not why and len(texts) == 1 else ("", "")
        function = None
        if path.endswith(".rt"):
            with open(f"{room}/{path}", encoding="utf-8") as file:
                function = function_of(path, file.read(), new)
        if not function or function in planted:
            left.append(edit)
            continue
        with open(f"{room}/{path}", "w", encoding="utf-8") as file:
            file.write(new)
        planted[function] = edit, path
    return planted, left


def refused_together(rt, crate, edits):
    """Returns the edits that a check with all of them refuses in the functions that they change, each with what it says."""
    refused = []
    while edits:
        with tempfile.TemporaryDirectory() as room:
            planted, edits = plant(rt, crate, edits, room)
            if not planted:
                break
            texts = {}
            for _, path in planted.values():
                with open(f"{room}/{path}", encoding="utf-8") as file:
                    texts[path] = file.read()
            flags = ["--jobs", "1", *(word for function in planted for word in ("--only", function))]
            told = rt.checked(crate, texts, flags, None).stdout
            # (an error with a name in brackets is one of reading: then nothing was tried)
            if re.search(r"\berror\[[\w-]+\]", told):
                continue
            said = {}
            for line in faults_in(told):
                said.setdefault(told_of(line, room), line)
            refused += [(edit, said[function]) for function, (edit, _) in planted.items() if function in said]
    return refused


def is_refused(rt, crate, edit):
    """Whether a check of the function that the edit changes refuses it, and what that says."""
    texts, why = rt.read_edit(edit, crate.folder)
    if why or len(texts) != 1:
        return False, ""
    (path, new), = texts.items()
    with open(f"{crate.folder}/{path}", encoding="utf-8") as file:
        function = path.endswith(".rt") and function_of(path, file.read(), new)
    if not function:
        return False, ""
    told = rt.checked(crate, texts, ["--jobs", "1", "--only", function], None)
    lines = faults_in(told.stdout)
    # (fewer are proved than were checked, and the text was read: an error with a name in brackets is one of reading)
    is_unproved = re.search(r"^only=(\d+) proved=(?!\1$)", told.stdout, re.M)
    is_read = not re.search(r"\berror\[[\w-]+\]", told.stdout)
    return told.returncode == 1 and is_read and bool(is_unproved and lines), "".join(lines[:1])


def edits_of(copy, name):
    return sorted(glob.glob(f"{copy}/crates/{name}/must-fail/*.edit"))


def say_refused(crate, edit, told):
    os.remove(edit)
    print(f"edits: {crate.name}/{os.path.basename(edit)}: refused, as it must be: {told[:160]}", flush=True)


# A line for each crate whose edits were all refused: its name, the sum of its files and edits, how many they are, and the day.
TRIED = os.path.join(os.path.dirname(os.path.dirname(os.path.abspath(__file__))), "edits", "TRIED")


def sum_of(folder, name):
    """Returns the sum of a crate's sources and of its edits, in whichever folder these are."""
    files = {it: f"{folder}/crates/{name}/{it}" for it in sources(f"{folder}/crates/{name}")}
    files |= {os.path.basename(it): it for it in edits_in(folder, name)}
    total = hashlib.sha256()
    for label, file in sorted(files.items()):
        with open(file, "rb") as content:
            total.update(f"{label}\n".encode() + hashlib.sha256(content.read()).digest())
    return total.hexdigest()[:16]


def edits_in(folder, name):
    return glob.glob(f"{folder}/edits/{name}/*.edit") + glob.glob(f"{folder}/crates/{name}/must-fail/*.edit")


def tried_lines():
    """Returns the lines of edits/TRIED, by crate."""
    try:
        with open(TRIED, encoding="utf-8") as file:
            return {line.split()[0]: line for line in file if line.strip() and not line.startswith("#")}
    except FileNotFoundError:
        return {}


def untried(folder, names):
    """Prints the crates of which edits/TRIED has no line with the sum of their files as they stand."""
    lines = tried_lines()
    print(" ".join(name for name in names if lines.get(name, "x x").split()[1] != sum_of(folder, name)))
    return 0


def tried(folder, told, *names):
    """Notes the crates of which so many edits were refused as they have."""
    with open(told, encoding="utf-8") as file:
        words = file.read()
    lines = tried_lines()
    for name in names:
        count = len({os.path.basename(it) for it in edits_in(folder, name)})
        refused = re.findall(rf"^(?:rt: must-fail|edits:) {name}/\S+\.edit: refused, as it must be", words, re.M)
        if count and len(set(refused)) == count:
            lines[name] = f"{name} {sum_of(folder, name)} {count} {datetime.date.today()}\n"
    with open(TRIED, "w", encoding="utf-8") as file:
        file.write("# crate, sum of its sources and edits, how many edits, and the day on which each of them was refused (tests/edits.sh)\n")
        file.writelines(lines[name] for name in sorted(lines))
    return 0


def side_by_side(rt, call, items):
    rt.rtlib.guarded()
    with concurrent.futures.ThreadPoolExecutor(int(os.environ.get("RT_JOBS", "1"))) as pool:
        list(pool.map(call, items))


def together(copy, names):
    rt, found = crates_of(copy)
    crates = {it.name: it for it in found}

    def one(name):
        for edit, told in refused_together(rt, crates[name], edits_of(copy, name)):
            say_refused(crates[name], edit, told)

    side_by_side(rt, one, names)
    return 0


def functions(copy, names):
    rt, found = crates_of(copy)
    crates = {it.name: it for it in found}

    def one(of):
        refused, told = is_refused(rt, *of)
        if refused:
            say_refused(*of, told)

    side_by_side(rt, one, [(crates[name], edit) for name in names for edit in edits_of(copy, name)])
    return 0


def main():
    command, copy, names = sys.argv[1], os.path.realpath(sys.argv[2]), sys.argv[3:]
    os.chdir(copy)
    commands = {"libraries": libraries, "applied": applied, "together": together, "functions": functions, "untried": untried}
    sys.exit(tried(copy, *names) if command == "tried" else commands[command](copy, names))


if __name__ == "__main__":
    main()
