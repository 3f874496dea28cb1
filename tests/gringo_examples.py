#!/usr/bin/env python3
"""Runs gringo's own examples (Debian: /usr/share/doc/gringo/examples) through aspenum and clasp, and compares.

usage: tests/gringo_examples.py PROGRAM [SECONDS] [--smodels]     (PROGRAM may have words behind it: "build/aspenum --workers 4")

With --smodels gringo writes the format of smodels, and aspenum and clasp read it. Each encoding is grounded alone, and together with each other file of its folder or of the folder's instances; a pair that
gringo refuses, or that says nothing, is left out. Of each grounding it is told whether aspenum refuses it and why, whether
both give the same (the number of models, or the cost of the optimum), or which of them took longer than the limit."""
import collections
import glob
import os
import re
import subprocess
import sys
import tempfile

ROOT = "/usr/share/doc/gringo/examples"
SMODELS = "--smodels" in sys.argv


def run(words, text, seconds):
    try:
        done = subprocess.run(words, stdin=open(text, "rb"), capture_output=True, timeout=seconds)
        return done.returncode, done.stdout, done.stderr.decode(errors="replace")
    except subprocess.TimeoutExpired:
        return None, b"", ""


def result_of(text):
    tail = text[-2000:].decode(errors="replace")
    costs = re.findall(r"Optimization\s*:((?: -?\d+)+)", tail)
    found = re.search(r"Models\s*: (\d+)", tail)
    return costs[-1].strip() if costs else found and found[1]


def pairs():
    files = sorted(glob.glob(f"{ROOT}/**/*.lp", recursive=True))
    for file in files:
        yield [file]
    for file in files:
        if re.search(r"encoding|cover.lp|world|queens|pigeon|hanoi|solitaire", file):
            here = os.path.dirname(file)
            others = glob.glob(f"{here}/*.lp") + glob.glob(f"{os.path.dirname(here)}/instances/*.lp")
            for other in sorted(others):
                if other != file:
                    yield [file, other]


def verdict(program, files, seconds, room):
    text = f"{room}/text"
    with open(text, "wb") as out:
        # One example writes pages of documentation into the folder that it runs in.
        try:
            ground = subprocess.run(["gringo", "--warn=none", *["--output=smodels"] * SMODELS, *files], cwd=room, stdout=out, stderr=subprocess.DEVNULL, timeout=seconds)
        except subprocess.TimeoutExpired:
            return "gringo takes too long"
    if ground.returncode != 0:
        return "gringo refuses it"
    code, ours, notes = run([*program.split(), *["--format=smodels"] * SMODELS], text, seconds)
    if code == 65:
        return "refused: " + re.sub(r".*line \d+(, field \d+)?: ", "", notes.strip())
    _, theirs, _ = run(["clasp", "-n", "0", "--trans-ext=all"], text, seconds)
    if not theirs or result_of(theirs) is None:
        return "clasp takes too long" if code is None else "clasp takes too long, aspenum not"
    if code is None:
        return "aspenum takes too long"
    return "same" if result_of(ours) == result_of(theirs) else f"DIFFERS: {result_of(ours)} and {result_of(theirs)}"


def main():
    words = [word for word in sys.argv[1:] if word != "--smodels"]
    program, seconds = words[0], float(words[1]) if len(words) > 1 else 10
    counts = collections.Counter()
    with tempfile.TemporaryDirectory() as room:
        for files in pairs():
            said = verdict(program, files, seconds, room)
            counts[said] += 1
            if said not in ("gringo refuses it", "same"):
                print(said, *[os.path.relpath(it, ROOT) for it in files], flush=True)
    for said, count in counts.most_common():
        print(f"{count:5} {said}")
    return any(it.startswith("DIFFERS") for it in counts)


if __name__ == "__main__":
    sys.exit(main())
