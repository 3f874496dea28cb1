"""Keeps what was measured, for the pictures: bench/figures/*.json, a row a line, and above them when, where and of what.

The date, the machine and the revision are those of the moment and of this clone. A program that isn't the clone's own is named
by `--revision`, a machine that has to be named otherwise by `--machine`."""
import json
import os
import subprocess
import time

BEGAN = time.time()
MONTHS = ("January", "February", "March", "April", "May", "June", "July", "August", "September", "October", "November", "December")


def said(*words):
    try:
        return subprocess.run(words, capture_output=True, text=True, cwd=os.path.dirname(os.path.abspath(__file__))).stdout.strip()
    except OSError:
        return ""


def revision():
    changed = ", changed" if said("git", "status", "--porcelain", "../crates", "../crates.txt") else ""
    return f"revision {said('git', 'rev-parse', '--short=8', 'HEAD')}{changed}"


def machine():
    with open("/proc/cpuinfo", encoding="utf-8") as file:
        models = [line.partition(":")[2].strip() for line in file if line.startswith("model name")]
    return ", ".join([f"{os.cpu_count()} processors", *models[:1]]).replace("(R)", "").replace("(TM)", "")


def clasp():
    return said("clasp", "--version").partition("\n")[0].replace("version ", "")


def day():
    """The day, and the times by the clock from the script's beginning to now."""
    then, now = time.localtime(BEGAN), time.localtime()
    return f"{then.tm_mday} {MONTHS[then.tm_mon - 1]} {then.tm_year}, {time.strftime('%H:%M', then)} to {time.strftime('%H:%M', now)}"


def add_options(words):
    """The options of a script that keeps its figures."""
    words.add_argument("--save", help="a file for the figures, from which tools/pictures/make.py draws")
    words.add_argument("--revision", help="what the program was built from, if not from this clone as it is")
    words.add_argument("--machine", help="the machine in other words than its own")


def save(given, about, rows):
    """Writes the file that was asked for, if one was."""
    if not given.save:
        return
    head = {"date": day(), "machine": given.machine or machine(), "revision": given.revision or revision(), **about}
    lines = ",\n".join(f"  {json.dumps(row)}" for row in rows)
    with open(given.save, "w", encoding="utf-8") as file:
        file.write('{\n"about": ' + json.dumps(head) + ',\n"rows": [\n' + lines + "\n]\n}\n")
