#!/usr/bin/env python3
"""Reads with Python's json what the program writes with --output json, and holds it to what it writes as text, with --names.

    json_output.py PROGRAM [COUNT [SEED]]

The programs are those of rows.txt that are answered, and COUNT (200) random small ones, each with an output of bytes that JSON
escapes, in each mode, with --opt-all, --quiet and --models."""
import json
import random
import subprocess
import sys
from os.path import abspath, dirname, join

HERE = dirname(abspath(__file__))
ANSWERED = (1, 10, 11, 20, 30)
APART = ("--make", "--proof", "--split", "--output", "--outf", "-h", "--help", "--version", "--queries", "--stream")
ODD = 'q"u\\o\t\x01\x1f\x7f\u00e4 x'


def run(program, words, text):
    return subprocess.run([program, *words], input=text.encode("latin-1"), capture_output=True, timeout=120)


def lines_of(told, status, consequences):
    """The text that says what the JSON says."""
    witnesses = told["Call"][0].get("Witnesses", [])
    lines = []
    for number, witness in enumerate(witnesses, 1):
        lines += [f"Answer: {number}", " ".join(witness["Value"])]
    models = told["Models"]
    if "Costs" in models:
        lines.append("".join(["Optimization:", *(f" {cost}" for cost in models["Costs"])]))
    if "Consequences" in told:
        lines.append("".join(["Consequences:", *(f" {text}" for text in told["Consequences"])]))
    word = told["Result"]
    if models["More"] == "yes" and word != "UNKNOWN":
        word = "LIMIT REACHED" if status == 11 else "BUDGET SPENT"
    elif consequences and word == "SATISFIABLE":
        word = "CONSEQUENCES FOUND"
    lines.append(word)
    if not consequences:
        lines.append(f"Models: {models['Number']}" + ("+" if models["More"] == "yes" else ""))
    return "".join(line + "\n" for line in lines)


def faults(told, status):
    """What clasp's users expect of the JSON, and isn't so."""
    models, call = told["Models"], told["Call"]
    if len(call) != 1 or not told["Solver"].startswith("aspenum"):
        yield "Call or Solver"
    if "Witnesses" in call[0] and len(call[0]["Witnesses"]) != models["Number"]:
        yield "Number"
    if any(witness.get("Costs") != models.get("Costs") for witness in call[0].get("Witnesses", [])):
        yield "Costs"
    if (models["More"] == "no") != (status in (20, 30)):
        yield "More"
    if ("Optimum" in models) != ("Costs" in models):
        yield "Optimum"
    if "Optimum" in models and (models["Optimum"] == "yes") != (status in (11, 30)):
        yield "Optimum"
    for word in ("Brave", "Cautious"):
        if models.get(word, "yes" if status in (20, 30) else "unknown") != ("yes" if status in (20, 30) else "unknown"):
            yield word
    if "Optimum" in models and models["Optimal"] != (models["Number"] if models["Optimum"] == "yes" else 0):
        yield "Optimal"


def differs(program, words, text):
    """What is wrong with a program's JSON, if anything; None where its text is none of answers."""
    plain = run(program, words if "--names" in words else ["--names", *words], text)
    if plain.returncode not in ANSWERED:
        return None
    made = run(program, ["--output", "json", *words], text)
    if made.returncode != plain.returncode or made.stderr != plain.stderr:
        return f"status {made.returncode}, {plain.returncode}"
    told = json.loads(made.stdout.decode("latin-1"))
    said = lines_of(told, plain.returncode, any(word in ("brave", "cautious") for word in " ".join(words).replace("=", " ").split()))
    if said != plain.stdout.decode("latin-1"):
        return f"{said!r} {plain.stdout!r}"
    return ", ".join(faults(told, plain.returncode))


def rows():
    for line in open(join(HERE, "rows.txt")):
        _, words, text, _ = line.rstrip("\n").split("~")
        given = words.split()
        if not any(word.split("=")[0] in APART for word in given):
            yield given, text.encode().decode("unicode_escape")


def random_programs(count, seed):
    sys.path.insert(0, HERE)
    from compare import made
    choose = random.Random(seed)
    asked = (["--mode", "enum"], [], ["--opt-all"], ["--mode", "brave"], ["--mode", "cautious"], ["--quiet"], ["--models", "2"], ["--opt-all", "--models", "1"])
    for number in range(count):
        source = made(choose, False).source
        odd = f"4 {len(ODD)} {ODD} 1 1\n"
        yield asked[number % len(asked)], source.rstrip("\n").removesuffix("\n0") + "\n" + odd + "0\n"


def main():
    program = abspath(sys.argv[1])
    count, seed = (int(word) for word in (sys.argv[2:] + ["200", "1"][len(sys.argv) - 2:]))
    tried = wrong = 0
    for words, text in [*rows(), *random_programs(count, seed)]:
        found = differs(program, words, text)
        tried += found is not None
        if found:
            wrong += 1
            print(f"json: {words} {text!r}: {found}")
    print(f"json: {tried} tried, {wrong} wrong")
    sys.exit(1 if wrong or tried < count else 0)


if __name__ == "__main__":
    main()
