#!/usr/bin/env python3
"""Has two checkers judge the same proofs: aspcheck, and second_checker.py, which was written by the manual alone. Where what they
write or their statuses differ, this fails.

    second.py PROGRAM CHECKER [COUNT [SEED]]

The proofs are those that the program writes of the texts of rows.txt that are solved, of the examples, of 60 random programs
and of 10 with conflicts: of all answers, of an optimum, of all optima, of two answers or optima, and of what a budget of two
conflicts finds; COUNT (200) of these in which something was changed; and those of checks.txt. Each of the answers YES, PART, NO
with each reason, and a refusal has to come once. Of the changes some have to be in lines of sets that are found, and of these
some have to be right still and some wrong."""
import random
import sys
from collections import Counter
from concurrent.futures import ThreadPoolExecutor
from os import cpu_count
from os.path import abspath, dirname, join

from recorded import ENDED, KINDS, examples, random_clauses, random_programs, rows, run

SECOND = join(dirname(abspath(__file__)), "second_checker.py")
RIGHT = (0, 2)


def places(fields):
    """Where a line has atoms, literals or names, each with the place of the field that counts it."""
    found, count = [], 2 if fields[0] in (b"o", b"l") else 1
    while fields[0] in (b"a", b"f", b"o", b"l", b"c") and count < len(fields):
        end = count + int(fields[count]) + 1
        found += [(at, count) for at in range(count + 1, end)]
        count = end
    return found


def changed(proof, choose):
    """The proof with a line dropped, doubled or moved, with an atom, a literal or a name dropped or changed, with another place,
    or with another byte; and the kind of that line."""
    lines = proof.rstrip(b"\n").split(b"\n")
    parts = range(2, len(lines) - 1)
    lists = [at for at in parts if places(lines[at].split(b" "))]
    placed = [at for at in parts if lines[at][:1] in (b"o", b"l")]
    way = choose.choice(("drop", "double", "move", "byte", "place", *["list"] * 6))
    if way == "list" and lists:
        place = choose.choice(lists)
        fields = lines[place].split(b" ")
        at, count = choose.choice(places(fields))
        number, way = int(fields[at]), choose.choice(("shorten", "sign", "next", "far"))
        fields[at] = b"%d" % (-number if way == "sign" else number + (1000 if way == "far" else 1))
        if way == "shorten":
            fields[count] = b"%d" % (int(fields[count]) - 1)
            del fields[at]
        line, lines[place] = lines[place], b" ".join(fields)
    elif way == "place" and placed:
        place = choose.choice(placed)
        line, fields = lines[place], lines[place].split(b" ")
        fields[1] = choose.choice((b"0", b"1", b"2", b"4294967295", b"4294967296"))
        lines[place] = b" ".join(fields)
    elif way == "byte" or not parts:
        place = choose.randrange(len(lines))
        line, at = lines[place], choose.randrange(len(lines[place]))
        lines[place] = line[:at] + bytes([choose.choice(b" -012afp\n")]) + line[at + 1:]
    else:
        line = lines[choose.choice(parts)]
        if way != "double":
            lines.remove(line)
        if way != "drop":
            lines.insert(choose.randrange(2, len(lines)), line)
    return b"\n".join(lines) + b"\n", line[:1]


def checks():
    """The programs of checks.txt with their proofs, each with its format."""
    for line in open(join(dirname(SECOND), "checks.txt"), encoding="utf-8"):
        _, words, _, _, text = line.rstrip("\n").split("~")
        if words.replace("=", " ") in ("", "--format aspif", "--format smodels"):
            form, source = "smodels" if "smodels" in words else "aspif", text.encode().decode("unicode_escape").encode("latin-1")
            yield form, source, b"", None


def main():
    program, checker = sys.argv[1:3]
    count, seed = (int(word) for word in (sys.argv[3:] + ["200", "1"][len(sys.argv) - 3:]))
    choose = random.Random(seed)
    programs = [*rows(), *examples(), *random_programs(60, seed), *random_clauses(10, seed)]
    texts = [(form, text, kind) for form, text in programs for kind in KINDS]

    def proof_of(case):
        form, text, kind = case
        ran = run([program, "--format", form, *kind, "--proof"], text)
        return [(form, text, ran.stdout, None)] if ran.returncode in ENDED else []

    def judged(case):
        form, text, proof, _ = case
        ran = [run([*words, "--format", form], text + proof) for words in ([checker], [sys.executable, SECOND])]
        return case, [(it.returncode, it.stdout) for it in ran], ran[1].stderr

    with ThreadPoolExecutor(cpu_count()) as pool:
        proofs = [it for its in pool.map(proof_of, texts) for it in its]
        chosen = choose.choices(proofs, [len(it[2]) ** 0.5 for it in proofs], k=count)
        wrong = [(form, text, *changed(proof, choose)) for form, text, proof, _ in chosen]
        failed, said, found = 0, Counter(), Counter({"right": 0, "wrong": 0})
        for (form, text, proof, kind), (first, second), error in pool.map(judged, [*proofs, *wrong, *checks()]):
            said[first[1].decode().strip().rpartition(" ")[0] or first[1].decode().strip() or "refused"] += 1
            if kind == b"f":
                found["right" if first[0] in RIGHT else "wrong"] += 1
            if first != second:
                failed += 1
                print(f"failed: {form}: aspcheck {first}, second_checker {second} {error.decode()}\n{(text + proof).decode('latin-1')}")
    missing = {"YES", "PART", "refused", *(f"NO {reason}" for reason in range(1, 9))} - set(said)
    missing |= {f"{it} with a line f that was changed" for it in found if not found[it]}
    if missing:
        failed += 1
        print(f"failed: no proof came to {', '.join(sorted(missing))}")
    print(f"second: {len(proofs)} proofs and {len(wrong)} changed ones, of which {sum(found.values())} in a set that is found "
          f"({found['right']} right still), judged twice: {', '.join(f'{it} {said[it]}' for it in sorted(said))}; {failed} failed")
    sys.exit(1 if failed else 0)


main()
