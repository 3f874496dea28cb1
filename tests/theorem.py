#!/usr/bin/env python3
"""Makes docs/THEOREM.md of the crates' definitions: what a run that finished has read and written, on one page.

    theorem.py            says whether the page is as the crates are; ends with 1 where it isn't
    theorem.py --write    makes its parts anew

The page has parts that are made here, each between the lines `<!-- theorem: NAME -->` and `<!-- theorem: end -->`; what
stands outside is written by hand. The parts:

    clauses       the clause WHOLE of `run` and of `run_alone`, as it is in crates/asp_top/src/runs.rt
    definitions   each definition to which it unfolds, except those of BOXES, file by file: a definition comes before those
                  that it uses. Each has its sentence, the comment above it, or that of SENTENCES where the file has none
    boxes         what isn't unfolded, with the place and the size of each
    types         the types of which the definitions speak, with their fields
    words         what the definitions take from the library of the language
    size          how many definitions there are, and how many lines they take

A definition, a type or a word without a sentence is an error, and so is a sentence for what isn't there.
"""
import os
import re
import sys

PAGE = "docs/THEOREM.md"
SOURCE = "crates/asp_top/src/runs.rt"
CLAUSE = "whole"
FUNCTIONS = ("run_alone", "run")
START = ("asp_top", "Whole", "IsWhole")
# The page is to be read in half an hour: so many lines of equations and fields, of 200 characters or less, are the most. Signatures come
# besides.
MOST_LINES = 135

# What isn't unfolded: a sentence for each.
BOXES = {
    ("asp_read", "Outcome", "outcome"): "the reading of aspif: the program that a text says, or why it is refused: its first fault with the line's number, or that it is "
    "too long. See docs/DEFINITIONS.md",
    ("asp_smodels", "Outcome", "smodels_outcome"): "the reading of the format of smodels, in the same way",
    ("asp_make", "Ring", "ring"): "the program that `--make n` makes in place of one that is read: a colouring of a ring of n nodes",
    ("asp_json", "Json", "json_with"): "the results as JSON: `json_with p r texts brief` has the program's answers `r.answers`, or else the best one, or of consequences these texts, and what is said of them",
    ("asp_cli", "Given", "words_give"): "what the arguments of the command line say: `options` with their values, help, the version, or what is wrong with them",
    ("asp_cli", "Given", "options"): "that the arguments are options, with these values",
}

# Sentences for definitions that have no comment.
SENTENCES = {
    ("asp_model", "Texts", "ended_line"): "the bytes and a line feed",
    ("asp_model", "Consequences", "consequences"): "brave: what is in some of the sets; cautious: what is in each",
    ("asp_model", "Costs", "priorities"): "the different priorities, the greatest first",
    ("asp_model", "Models", "head_atoms"): "the atoms of a head",
    ("asp_model", "Models", "is_never"): "whether the rule is a constraint",
    ("asp_model", "Reduct", "reduct"): "the reduct of the rules by S",
    ("asp_model", "Sets", "Atoms"): "a set of atoms: their numbers, ascending",
    ("asp_model", "Holding", "is_negative"): "whether the literal is the absence of an atom",
    ("asp_model", "Holding", "atom_of"): "the atom of a literal",
    ("asp_model", "Holding", "body_atoms"): "the atoms of a body",
}

# The types that are shown, in the order of reading.
TYPES = [
    ("asp_top", "src/status.rt", ["Status"]),
    ("asp_cli", "src/lib.rt", ["Options", "Form", "Format"]),
    ("asp_model", "src/results.rt", ["Mode", "Reasoning", "End"]),
    ("asp_model", "src/program.rt", ["Program", "Rule", "Head", "Body", "Minimize", "Output", "External", "ExternalValue"]),
    ("asp_read", "src/fault.rt", ["ReadError"]),
]

# What the definitions take from the library of the language.
WORDS = {
    "ℕ": "the natural numbers; a byte is one below 256",
    "ℤ": "the integers: `pos n` is n, `negsuc n` is -(n + 1)",
    "Bool": "`true` or `false`, with `not`, `&&` and `||`",
    "List": "lists: `[]` is the empty one, `x ∷ xs` begins with x, `++` joins two",
    "Option": "`None` or `Some x`",
    "Ok": "a result that isn't an error; `Result A E` is the type of an `Ok` of an A, or an error of E",
    "is_some": "whether there is a value",
    "IfSome": "`IfSome o P`: where o is `Some x`, P holds of x",
    "≡": "`a ≡ b`: they are equal",
    "==": "whether two numbers are equal; `nat_eq` and `int_eq` are the same",
    "if": "`if b then x else y`",
    "zero": "0; `suc n` is n + 1",
    "length": "how long a list is",
    "map": "`map f xs`: f of each",
    "filter": "`filter f xs`: those of which f is true, in their order",
    "take": "`take n xs`: the first n of xs, or all where there are fewer",
    "flat_map": "`flat_map f xs`: the lists that f gives, one after another",
    "fold": "`fold f b xs`: from b on, each x makes `f b x` of what was there",
    "list_any": "whether the function is true of some of the list",
    "list_all": "whether it is true of each",
    "Contains": "`Contains xs x`: x is in the list",
    "pointwise": "`pointwise f xs ys`: both have the same length, and f is true of each two at one place",
    "slice_cmp": "compares two lists at the first place where they differ, by the function that is given",
    "int_cmp": "compares two integers",
    "is_lt": "whether a comparison says that the first comes before",
    "nat_lt": "whether a number is smaller; `int_lt` the same of integers, `int_le` smaller or equal",
    "+": "the sum; of integers `+ℤ`, and the difference `-ℤ`",
    "codes": "the bytes of a text",
    "decimal": "the digits of a number; `signed_decimal` of an integer",
    "join_with_byte": "`join_with_byte b xs`: the lists, with the byte b between them",
    "Appends": "`Appends held held' text`: where the sink tells what it held before, `held`, it tells afterwards that it holds this and then the text",
}
# Other names for the same words.
SAME = {
    "Result": "Ok", "◌≡◌": "≡", "◌==◌": "==", "◌+◌": "+", "◌+ℤ◌": "+", "◌-ℤ◌": "+", "if◌then◌else◌": "if", "suc": "zero", "[]": "List", "◌∷◌": "List", "◌++◌": "List",
    "true": "Bool", "false": "Bool", "not": "Bool", "◌&&◌": "Bool", "◌||◌": "Bool", "None": "Option", "Some": "Option", "pos": "ℤ", "negsuc": "ℤ",
    "nat_eq": "==", "int_eq": "==", "int_lt": "nat_lt", "int_le": "nat_lt", "signed_decimal": "decimal",
}

TOKEN = re.compile(r"[^\s(){}\[\],;.:]+|\[\]")


def text_of(path):
    with open(path, encoding="utf-8") as file:
        return file.read()


class Definition:
    """A definition: its lines, the comment above it, and the names in it."""

    def __init__(self, key, comment):
        self.key, self.comment, self.lines = key, comment, []

    def names(self):
        """Yields the names in it, and those of operators by their places."""
        for token in TOKEN.findall("\n".join(self.lines)):
            yield token
            yield f"◌{token}◌"
        if any(re.search(r"\bif\b", it) for it in self.lines):
            yield "if◌then◌else◌"

    def shown(self):
        """Returns the lines without the words that say from where it can be used."""
        return [re.sub(r"^(\s*)(?:(?:abbrev|pub|unfoldable) )+", r"\1", line.replace("pub record", "record")) for line in self.lines]

    def signatures(self):
        return 0 if self.lines[0].lstrip("pub ").startswith("record") else 1


class File:
    """A file of specs: its first comment, its definitions, and from where it has its names."""

    def __init__(self, crate, name):
        self.crate, self.name, self.about = crate, name, ""
        self.definitions, self.imports, self.modules = {}, {}, {}
        self.read(text_of(f"crates/{crate}/specs/{name}.antt").split("\n"))

    def read(self, lines):
        comment, current = [], None
        for line in lines:
            use = re.match(r"(?:pub )?use (\S+?)\.\{(.*)\}\s*$", line)
            alias = re.match(r"use (\S+) as (\w+)\s*$", line)
            head = re.match(r"(?:(?:pub|abbrev|record|data|unfoldable) )*([^\s(){}\[\],;.:]+)", line)
            if use:
                for it in use.group(2).split(","):
                    name, _, other = it.strip().partition(" as ")
                    self.imports[other or name] = use.group(1), name
                comment = []
            elif alias:
                self.modules[alias.group(2)] = alias.group(1)
            elif line.startswith("-- "):
                if not self.definitions and not self.imports and not self.about:
                    self.about = line[3:]
                comment, current = [*comment, line[3:]] if not line.startswith("-- ----") else [], None
            elif not line.strip():
                comment, current = [], None
            elif line[0].isspace() or (current and line.startswith("}")):
                self.definitions[current].lines.append(line)
            elif head and head.group(1) not in ("infixl", "infixr", "mod", "unfolding"):
                current = head.group(1)
                if current not in self.definitions:
                    self.definitions[current] = Definition((self.crate, self.name, current), comment)
                self.definitions[current].lines.append(line)
                comment = []


class Specs:
    def __init__(self):
        self.files = {}
        self.words, self.types = {}, set()

    def file(self, crate, name):
        if (crate, name) not in self.files:
            self.files[crate, name] = File(crate, name)
        return self.files[crate, name]

    def place(self, path):
        """Returns the crate and the file of a module's path, where it is one of the specs of this repository."""
        parts = path.split(".")
        if parts[:1] == ["Rattle"] and parts[1].startswith("asp_") and parts[2] == "specs":
            return parts[1], ".".join(parts[3:])
        return None

    def used(self, key):
        """Returns the definitions that one uses, in the order of their names in it; notes its words and types."""
        file = self.file(*key[:2])
        found = []
        for name in file.definitions[key[2]].names():
            if name in file.definitions:
                found.append((*key[:2], name))
            elif name in file.imports:
                path, own = file.imports[name]
                place = self.place(path)
                if place is None:
                    self.words.setdefault(own, key)
                elif place[1].startswith("declared."):
                    self.types.add((place[0], place[1].split(".")[-2] if path.endswith("TheVariants") else own))
                else:
                    found.append((*place, own))
            elif name in file.modules:
                crate, rest = self.place(file.modules[name])
                self.types.add((crate, rest.replace(".TheVariants", "").split(".")[-1]))
        return [it for it in dict.fromkeys(found) if it != key]

    def closure(self, start, boxes):
        """Returns each definition to which this one unfolds, with those that it uses."""
        uses, work = {}, [start]
        while work:
            key = work.pop()
            if key not in uses and key not in boxes:
                uses[key] = self.used(key)
                work += uses[key]
        return uses


def ordered(start, uses):
    """Returns the nodes to which these lead, each before those that it uses; else those of one crate together, in the order
    in which they are met."""
    met = {}
    work = list(start)
    for node in work:
        if node not in met:
            met[node] = list(uses(node))
            work += met[node]
    out = []
    while len(out) < len(met):
        users = {it for node in met if node not in out for it in met[node]}
        ready = [node for node in met if node not in out and node not in users]
        out.append(next((node for node in ready if out and node[0] == out[-1][0]), ready[0]))
    return out


def sentence_of(specs, key, wrong):
    file = specs.file(*key[:2])
    comment = file.definitions[key[2]].comment
    if comment and key in SENTENCES:
        wrong.append(f"{key[0]} {key[1]}: {key[2]} has a comment, and a sentence in tests/theorem.py too")
    if not comment and key not in SENTENCES:
        wrong.append(f"{key[0]} {key[1]}: {key[2]} has no comment, and no sentence in tests/theorem.py")
    return comment or [SENTENCES.get(key, "")]


def part_definitions(specs, uses, wrong):
    keys = ordered([START], lambda key: [it for it in uses[key] if it in uses])
    files = ordered([START[:2]], lambda file: list(dict.fromkeys(it[:2] for key in keys if key[:2] == file for it in uses[key] if it in uses and it[:2] != file)))
    out = []
    for crate, name in files:
        here = [key for key in keys if key[:2] == (crate, name)]
        out += [f"### `crates/{crate}/specs/{name}.antt`", "", "```text"]
        for key in here:
            out += [f"-- {line}" for line in sentence_of(specs, key, wrong)]
            out += [*specs.file(crate, name).definitions[key[2]].shown(), ""]
        out[-1:] = ["```", ""]
    return out[:-1], files


def part_size(specs, uses, files, wrong):
    all_of = [specs.file(*key[:2]).definitions[key[2]] for key in uses]
    lines = sum(len(it.lines) for it in all_of)
    signatures = sum(it.signatures() for it in all_of)
    if lines - signatures > MOST_LINES:
        wrong.append(f"the definitions take {lines - signatures} lines of equations and fields, {MOST_LINES} at most are to be read")
    return [f"The clause unfolds to {len(uses)} definitions in {len(files)} files: {lines - signatures} lines of equations and fields, and {signatures} lines that say a definition's type."]


def part_clauses(wrong):
    out = []
    for name in FUNCTIONS:
        head = re.search(rf"^pub fn {name}\b.*?^\{{", text_of(SOURCE), re.M | re.S)
        clause = head and re.search(rf"^    ensures {CLAUSE} \{{.*?\}}$(?=\n    \w|\n\{{)", head.group(0), re.M | re.S)
        if clause:
            out += [f"Of `{name}`:", "", "```text", *(re.sub(r"^    ", "", it) for it in clause.group(0).split("\n")), "```", ""]
        else:
            wrong.append(f"{SOURCE}: {name} hasn't the clause {CLAUSE}")
    return out[:-1]


def part_boxes(specs, wrong):
    out = ["| Box | What it is | Its definitions |", "|---|---|---|"]
    for key, sentence in BOXES.items():
        if key[2] in specs.file(*key[:2]).definitions:
            count = len(specs.closure(key, ()))
            size = f"{count}, from `crates/{key[0]}/specs/{key[1]}.antt` on"
        elif any(re.match(rf"\s+{key[2]} :", line) for it in specs.file(*key[:2]).definitions.values() for line in it.lines):
            size = f"a case of a type in `crates/{key[0]}/specs/{key[1]}.antt`"
        else:
            wrong.append(f"BOXES: there is no {' '.join(key)}")
            continue
        out.append(f"| `{key[2]}` | {sentence} | {size} |")
    return out


def items_of(body):
    """Yields the fields or cases of a type, each with its comment."""
    comment = []
    for line in body.split("\n"):
        line = line.strip()
        if line.startswith("///"):
            comment.append(line[3:].strip())
        elif line and not line.startswith(("#", "//")):
            yield re.sub(r"^pub ", "", line).rstrip(","), " ".join(comment)
            comment = []


def part_types(types, wrong):
    out = ["| Type | Field or case | What it is |", "|---|---|---|"]
    listed = {(crate, name) for crate, _, names in TYPES for name in names}
    wrong += [f"TYPES: {' '.join(it)} is missing" for it in sorted(types - listed)]
    for crate, path, names in TYPES:
        text = text_of(f"crates/{crate}/{path}")
        for name in names:
            found = re.search(rf"^pub (?:struct|enum) {name} \{{\n(.*?)^\}}", text, re.M | re.S)
            if not found:
                wrong.append(f"TYPES: there is no {crate} {name}")
                continue
            shown = f"`{name}`"
            for item, sentence in items_of(found.group(1)):
                out.append(f"| {shown} | `{item}` | {sentence} |")
                shown = ""
    return out


def part_words(words, wrong):
    used = {SAME.get(it, it) for it in words}
    wrong += [f"WORDS: {it} of {' '.join(words[it])} is missing" for it in sorted(words) if SAME.get(it, it) not in WORDS]
    wrong += [f"WORDS: {it} isn't used" for it in WORDS if it not in used]
    return ["| Word | What it is |", "|---|---|", *(f"| `{it}` | {sentence} |".replace("`||`", "`\\|\\|`") for it, sentence in WORDS.items() if it in used)]


def parts(wrong):
    specs = Specs()
    uses = specs.closure(START, BOXES)
    words, types = dict(specs.words), set(specs.types)
    wrong += [f"SENTENCES: the clause doesn't unfold to {' '.join(it)}" for it in SENTENCES if it not in uses]
    definitions, files = part_definitions(specs, uses, wrong)
    return {
        "size": part_size(specs, uses, files, wrong),
        "clauses": part_clauses(wrong),
        "definitions": definitions,
        "boxes": part_boxes(specs, wrong),
        "types": part_types(types, wrong),
        "words": part_words(words, wrong),
    }


def filled(page, made, wrong):
    """Returns the page with these parts."""
    for name, lines in made.items():
        between = rf"(<!-- theorem: {name} -->\n).*?(<!-- theorem: end -->)"
        if len(re.findall(between, page, re.S)) != 1:
            wrong.append(f"{PAGE} has no part {name}, or two")
            continue
        page = re.sub(between, lambda it: it.group(1) + "\n" + "\n".join(lines) + "\n\n" + it.group(2), page, flags=re.S)
    return page


def main():
    if sys.argv[1:] not in ([], ["--write"]):
        sys.exit(__doc__)
    os.chdir(os.path.dirname(os.path.dirname(os.path.realpath(__file__))))
    wrong = []
    made = parts(wrong)
    page = text_of(PAGE)
    new = filled(page, made, wrong)
    if not wrong and sys.argv[1:]:
        with open(PAGE, "w", encoding="utf-8") as file:
            file.write(new)
    elif not wrong and new != page:
        wrong.append(f"{PAGE} isn't as the crates are: tests/theorem.py --write makes it anew")
    for line in wrong:
        print(line)
    print(f"theorem: {made['size'][0]}" if not wrong else f"theorem: {len(wrong)} wrong")
    sys.exit(1 if wrong else 0)


if __name__ == "__main__":
    main()
