"""Checks of what pages claim, and of their length, that tests/documents.py calls.

- docs/PROMISES.md has ten promises, `### 1.` to `### 10.`, each with a clause in brackets and with what it doesn't say; and
  each crate that has a clause with a name stands in it. A row of its index is about a crate of the room above it.
- A clause in brackets is one of a function that its line names, where the line names functions of the clause's crate.
- CONTRIBUTING.md names exactly the functions that have more parameters than its rule allows.
- The third column of docs/DEFINITIONS.md names files of definitions, items or definitions of the row's crates.
- The README.md of bench/, tests/ and tools/ names each script there.
- No block of text of PAGES is long: see MOST. None has the words of PLAIN.
"""
import os
import re

PAGES = (
    "CONTRIBUTING.md", "CHANGELOG.md", "bench/README.md", "bench/HISTORY.md", "docs/DECISIONS.md", "docs/DEFINITIONS.md",
    "docs/GATE.md", "docs/PROMISES.md", "docs/PROOF_COST.md", "edits/README.md", "tests/README.md", "tools/README.md",
)
# the most words of a paragraph or an item of a list, and of a table's cell
MOST = {"block": 80, "cell": 45}
PARAMETERS = 8
# words that a reader stops at, and what to write
PLAIN = {"want of memory": "memory is short", "but for": "except", "behind": "after"}


def text_of(path):
    with open(path, encoding="utf-8") as file:
        return file.read()


def sources(crate):
    for at, _, files in os.walk(f"crates/{crate}/src"):
        for file in sorted(files):
            if file.endswith(".rt"):
                yield f"{at}/{file}"


# ---- docs/PROMISES.md
def wrong_ten(path):
    parts = re.split(r"^#{2,3} ", text_of(path), flags=re.M)[1:]
    numbered = [part for part in parts if re.match(r"\d+\. ", part)]
    numbers = [int(part.split(".")[0]) for part in numbered]
    if numbers != list(range(1, 11)):
        yield f"{path}: ten promises are wanted, there are {numbers}"
    for number, part in zip(numbers, numbered):
        clause = re.search(r"^- \*\*Clause:\*\*.*\[", part, re.M)
        for found, what in ((clause, "clause"), ("- **Not said:**" in part, "line on what isn't said")):
            if not found:
                yield f"{path}: promise {number} has no {what}"


def wrong_crates(path, deps):
    text = text_of(path)
    for crate in deps:
        named = any(re.search(r"^\s*ensures\s+\w+\s*\{", text_of(it), re.M) for it in sources(crate))
        if named and not re.search(rf"\b{crate}\b", text):
            yield f"{path}: {crate} has clauses with names, and no row"


def wrong_index(path, room_of):
    """A row of the index is about a crate of the room that it stands under."""
    heading = ""
    for number, line in enumerate(text_of(path).split("\n"), 1):
        if line.startswith("#"):
            heading = line.lstrip("# ")
        crate = re.search(r"\basp_\w+", line.partition(" | ")[2])
        if line.startswith("| ") and crate and room_of.get(crate[0], heading) != heading:
            yield f"{path}:{number}: {crate[0]} is of the room {room_of[crate[0]]}, not of {heading}"


def wrong_names(path, known):
    """What a row or a line on clauses names between backquotes is an item, a clause or a definition of a crate that it names."""
    for number, line in enumerate(text_of(path).split("\n"), 1):
        cell = line.partition(" | ")[2] if line.startswith("| ") else line.partition("- **Clause:**")[2]
        crates = [it for it in re.findall(r"\basp_\w+", cell) if it in known]
        for name in re.findall(r"`(\w+(?:::\w+)*)`", re.sub(r"\[[^\[\]]*\]", "", cell)) if crates else []:
            parts = name.split("::")
            if not any(all(it in known[crate].items or it in known[crate].kinds for it in parts) for crate in crates):
                yield f"{path}:{number}: `{name}` is nothing of {', '.join(crates)}"


def clauses_by_function(crate):
    """Returns the names of clauses that each function of a crate has, by the function's name."""
    found = {}
    for path in sources(crate):
        function = None
        for line in text_of(path).split("\n"):
            head = re.match(r"\s*(?:pub(?:\([a-z ]+\))?\s+)?(?:ghost\s+)?(?:const\s+)?fn\s+(\w+)", line)
            if head:
                function = head.group(1)
                found.setdefault(function, set())
            label = re.match(r"\s*(?:requires|ensures)\*?\s+([\w']+)\s*\{", line)
            if label and function:
                found[function].add(label.group(1))
    return found


def wrong_functions(path, promised, crates_of, known):
    """A clause is one of a function that its line names."""
    by_crate = {crate: clauses_by_function(crate) for crate in known}
    for number, names, line, heading in promised(path):
        crates = crates_of(line, heading, known)
        named = {it.split("::")[-1] for it in re.findall(r"`(\w+(?:::\w+)*)`", line)}
        for name in names:
            homes = [it for it in crates if name in known[it].kinds]
            if not all(known[it].is_clause_alone(name) for it in homes):
                continue
            functions = {(it, function) for it in homes for function in by_crate[it] if function in named}
            if functions and not any(name in by_crate[it][function] for it, function in functions):
                yield f"{path}:{number}: [{name}] is no clause of {', '.join(sorted(it for _, it in functions))}"


# ---- CONTRIBUTING.md
def parameters_of(text, at):
    """Returns how many parameters a function has, `self` not counted, whose name ends at this place."""
    depth = 0
    while at < len(text) and (text[at] != "(" or depth):
        depth += (text[at] == "<") - (text[at] == ">" and text[at - 1] != "-")
        at += 1
    parts, depth = [""], 0
    for place in range(at, len(text)):
        sign = text[place]
        depth += (sign in "([{<") - (sign in ")]}" or (sign == ">" and text[place - 1] != "-"))
        if not depth:
            break
        if sign == "," and depth == 1:
            parts.append("")
        elif place > at:
            parts[-1] += sign
    return sum(1 for it in parts if it.strip() and not re.fullmatch(r"\s*(?:&(?:'\w+\s+)?)?(?:mut\s+)?self\s*", it))


def wrong_parameters(path, deps):
    item = next((it for it in text_of(path).split("\n") if "**Parameters.**" in it), "")
    told = item.partition("still break this rule:")[2].partition(". `tests/")[0]
    allowed = set()
    for names, crate in re.findall(r"((?:`\w+`(?:, | and )?)+) of (asp_\w+)", told):
        allowed |= {(crate, name) for name in re.findall(r"`(\w+)`", names)}
    found = set()
    for crate in deps:
        for source in sources(crate):
            text = text_of(source)
            for head in re.finditer(r"\bfn\s+(\w+)", text):
                if parameters_of(text, head.end()) > PARAMETERS:
                    found.add((crate, head.group(1)))
    for crate, name in sorted(found - allowed):
        yield f"{path}: {name} of {crate} has more than {PARAMETERS} parameters, and isn't named there"
    for crate, name in sorted(allowed - found):
        yield f"{path}: {name} of {crate} has no more than {PARAMETERS} parameters, or isn't there"


# ---- docs/DEFINITIONS.md
def wrong_definitions(path, known):
    """What the third column of a row names is a file of definitions, an item or a definition of a crate of its row or heading."""
    heading = ""
    for number, line in enumerate(text_of(path).split("\n"), 1):
        if line.startswith("#"):
            heading = line
        cells = line.split(" | ")
        if not line.startswith("|") or len(cells) != 4 or cells[2].startswith(("-", "Defined")):
            continue
        crates = [it for it in re.findall(r"\basp_\w+", cells[2]) or re.findall(r"\basp_\w+", heading) if it in known]
        for name in re.findall(r"`([^`]+)`", cells[2]):
            if not any(is_there(crate, name, known) for crate in crates):
                yield f"{path}:{number}: {name} is no file, item or definition of {', '.join(crates)}"


def is_there(crate, name, known):
    files = (f"crates/{crate}/specs/{name}.antt", f"crates/{crate}/{name}")
    return any(os.path.isfile(it) for it in files) or name in known[crate].items or name in known[crate].kinds


# ---- long blocks
def blocks(text):
    """Yields the number of its first line, the kind and the text of each paragraph, item and cell."""
    kept, begun, fenced = [], 0, False
    for number, line in enumerate([*text.split("\n"), ""], 1):
        fence = line.startswith("```")
        fenced ^= fence
        plain = not (fence or fenced or line.startswith(("#", "|", "    ")) or not line.strip())
        if kept and (not plain or re.match(r"\s*(?:[-*]|\d+\.) ", line)):
            yield begun, "block", " ".join(kept)
            kept = []
        if plain:
            begun = begun if kept else number
            kept.append(line)
        elif line.startswith("|") and not fenced:
            for cell in line.strip("|").split(" | "):
                yield number, "cell", cell


def wrong_blocks(path):
    for number, kind, text in blocks(text_of(path)):
        words = len(text.split())
        if words > MOST[kind]:
            yield f"{path}:{number}: a {kind} of {words} words, at most {MOST[kind]}: {text[:40]}.."


# ---- scripts
def unlisted(folder):
    """Each script of a folder is named by the folder's README.md."""
    text = text_of(f"{folder}/README.md")
    for file in sorted(os.listdir(folder)):
        if file.endswith((".sh", ".py")) and not re.search(rf"`{re.escape(file)}[` ]", text):
            yield f"{folder}/README.md: {file} isn't named"


def hard_words(path):
    for number, line in enumerate(text_of(path).split("\n"), 1):
        for words, plain in PLAIN.items():
            if re.search(rf"\b{words}\b", line):
                yield f"{path}:{number}: '{words}': write '{plain}' or the like"


def wrong_claims(deps, promised, crates_of, known, rooms):
    yield from wrong_ten("docs/PROMISES.md")
    room_of = {crate: re.sub(r"^\d+ |:.*", "", room) for crate, room in rooms.items()}
    yield from wrong_index("docs/PROMISES.md", room_of)
    yield from wrong_names("docs/PROMISES.md", known)
    yield from wrong_crates("docs/PROMISES.md", deps)
    yield from wrong_functions("docs/PROMISES.md", promised, crates_of, known)
    yield from wrong_parameters("CONTRIBUTING.md", deps)
    yield from wrong_definitions("docs/DEFINITIONS.md", known)
    for folder in ("bench", "tests", "tools"):
        yield from unlisted(folder)
    for path in PAGES:
        if not os.path.isfile(path):
            yield f"{path} is missing"
            continue
        yield from wrong_blocks(path)
        yield from hard_words(path)
