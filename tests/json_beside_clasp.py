#!/usr/bin/env python3
"""Reads clasp's JSON and the program's by the same lines, on a program of each class of bench/programs.py, and compares.

    json_beside_clasp.py PROGRAM [SECONDS]

Of each class it takes the first program that both end within SECONDS (20) of time. It needs clasp and gringo."""
import json
import subprocess
import sys
from os.path import abspath, dirname, join

sys.dont_write_bytecode = True
sys.path.insert(0, join(dirname(abspath(__file__)), "..", "bench"))
from programs import PROGRAMS


def read(words, text, seconds):
    """What a script for clasp's JSON takes from it: the result, and the answers, or the last one's cost."""
    told = json.loads(subprocess.run(words, input=text, capture_output=True, timeout=seconds).stdout)
    witnesses, models = told["Call"][0].get("Witnesses", []), told["Models"]
    if "Costs" in models:
        return told["Result"], models["More"], models["Optimum"], models["Costs"], witnesses[-1]["Costs"]
    return told["Result"], models["More"], models["Number"], sorted(sorted(it["Value"]) for it in witnesses)


def main():
    program, seconds = sys.argv[1], float((sys.argv[2:] or ["20"])[0])
    done, failed = {}, 0
    for name, (_, made) in PROGRAMS.items():
        kind = name.split("-")[0]
        if kind in done:
            continue
        text = made()
        try:
            theirs, ours = (read(words, text, seconds) for words in (["clasp", "--outf=2", "-n", "0"], [program, "--outf=2", "-n", "0"]))
        except subprocess.TimeoutExpired:
            continue
        done[kind] = theirs == ours
        if theirs != ours:
            failed += 1
            print(f"failed: {name}: clasp {str(theirs)[:200]}, here {str(ours)[:200]}")
    slow = sorted({name.split("-")[0] for name in PROGRAMS} - set(done))
    print(f"json_beside_clasp: {len(done) - failed} classes read alike, {failed} failed; too slow: {' '.join(slow) or 'none'}")
    sys.exit(1 if failed or len(done) < 10 else 0)


main()
