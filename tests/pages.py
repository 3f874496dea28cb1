"""Holds the pages to themselves: README's length, and what pages name.

`wrong_pages()` yields a line for each fault:
- README.md has more than 120 lines, or a sentence of more than 30 words (a cell of a table is a sentence or more; what is
  between backquotes counts as a word);
- a link of a page, or a picture, leads to no file, or to no heading of a page;
- a path between backquotes that begins with a folder of the repository is none of its files or folders;
- README's figures of speed aren't those of bench/figures/solve.json;
- the usage, the page of help and the manual's SYNOPSIS and OPTIONS haven't the same options in the same order.
"""
import glob
import json
import math
import os
import re

LINES, WORDS = 120, 30
PAGES = ["*.md", "docs/*.md", "bench/*.md", "packaging/*.md", "examples/**/*.md", "tests/*.md", "edits/*.md", "crates/*/README.md"]
LINK = re.compile(r"!?\[[^\[\]]*\]\(([^()\s]+)\)")
FOLDERS = ("bench", "bin", "completion", "crates", "docs", "edits", "examples", "man", "packaging", "tests", "tools")
PATH = re.compile(rf"(?:{'|'.join(FOLDERS)})/[\w./-]*")


def text_of(path):
    with open(path, encoding="utf-8") as file:
        return file.read()


def prose(text):
    """Yields the lines of a page that are in no block of code, with their numbers."""
    inside = False
    for number, line in enumerate(text.split("\n"), 1):
        if line.startswith("```"):
            inside = not inside
        elif not inside:
            yield number, line


def sentences(line):
    line = re.sub(r"`[^`]*`", "code", line.replace("\\|", "/"))
    line = re.sub(r"!?\[([^\[\]]*)\]\([^()]*\)", r"\1", line)
    for part in line.split("|"):
        yield from re.split(r"(?<=[.?!])\W*\s", part)


def long_parts(path):
    text = text_of(path)
    lines = text.count("\n")
    if lines > LINES:
        yield f"{path}: {lines} lines, more than {LINES}"
    for number, line in prose(text):
        for sentence in sentences(line):
            words = re.findall(r"[\w'.,-]*\w[\w'.,-]*", sentence)
            if len(words) > WORDS:
                yield f"{path}:{number}: a sentence of {len(words)} words, more than {WORDS}: {' '.join(words[:6])} .."


def anchors(path):
    """Returns the names by which a page's headings are linked to."""
    found = set()
    for _, line in prose(text_of(path)):
        if line.startswith("#"):
            title = re.sub(r"[^\w\- ]", "", line.lstrip("#").strip().lower())
            found.add(title.replace(" ", "-"))
    return found


def wrong_links(path):
    folder = os.path.dirname(path)
    for number, line in prose(text_of(path)):
        for link in LINK.findall(re.sub(r"`[^`]*`", "", line)):
            if re.match(r"[a-z]+:", link):
                continue
            file, _, anchor = link.partition("#")
            at = os.path.normpath(os.path.join(folder, file)) if file else path
            if not os.path.exists(at):
                yield f"{path}:{number}: no {at} for the link {link}"
            elif anchor and at.endswith(".md") and anchor not in anchors(at):
                yield f"{path}:{number}: no heading of {at} for the link {link}"


def wrong_paths(path):
    for number, line in prose(text_of(path)):
        for code in re.findall(r"`([^`]*)`", line):
            name = code.split()[0].rstrip(".,") if code.split() else ""
            if PATH.fullmatch(name) and not re.search(r"/[A-Z]+(/|$)", name) and not os.path.exists(name):
                yield f"{path}:{number}: `{name}` isn't there"


def speed_in(path):
    """Returns how many programs were timed, and the mean, the least and the greatest part that aspenum took of clasp's time."""
    rows = [it for it in json.loads(text_of(path))["rows"] if it["aspenum"]["ended"] and it["default"]["ended"]]
    parts = [it["aspenum"]["time"] / it["default"]["time"] for it in rows]
    mean = math.exp(sum(map(math.log, parts)) / len(parts))
    return f"{len(rows)}", f"{mean:.2f}", f"{min(parts):.1f}", f"{max(parts):.1f}"


def wrong_speed(path, figures):
    said = re.search(r"On the (\d+) programs .* is ([\d.]+) of clasp.* from ([\d.]+) to ([\d.]+)\.", text_of(path))
    if not said:
        yield f"{path}: no sentence on the speed beside clasp"
    elif said.groups() != speed_in(figures):
        yield f"{path}: the speed beside clasp is said as {said.groups()}, in {figures} it is {speed_in(figures)}"


def option_lists(texts, manual):
    """Returns the options of the usage, of the page of help and of two parts of the manual, in their order there."""
    code, page = text_of(texts), text_of(manual).replace("\\-", "-")
    synopsis, options = page.partition(".SH OPTIONS")[::2]
    usage = re.findall(r"\[(--[a-z-]+)", code.split("USAGE")[1].split(";")[0]) + ["--help", "--version"]
    return {
        "the usage": usage,
        "the page of help": re.findall(r"^\\x20 (?:-\w, )?(--[a-z-]+)", code, re.M),
        "the manual's SYNOPSIS": re.findall(r"--[a-z-]+", synopsis.split(".SH DESCRIPTION")[0]),
        "the manual's OPTIONS": re.findall(r"^\.TP\n.*?(--[a-z-]+)", options.split(".SH INPUT")[0], re.M),
    }


def wrong_options(texts, manual):
    found = option_lists(texts, manual)
    for name, options in found.items():
        if options != found["the usage"]:
            yield f"{manual}, {texts}: {name} has {' '.join(options)}, the usage {' '.join(found['the usage'])}"


def wrong_pages():
    yield from long_parts("README.md")
    yield from wrong_speed("README.md", "bench/figures/solve.json")
    yield from wrong_options("crates/asp_cli/src/texts.rt", "man/aspenum.1")
    for pattern in PAGES:
        for path in sorted(glob.glob(pattern, recursive=True)):
            yield from wrong_links(path)
            yield from wrong_paths(path)
