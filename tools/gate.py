#!/usr/bin/env python3
"""Runs a command and tells what the checks that it starts take of the processors, by crate and kind.

    gate.py [--save FILE] COMMAND..      for example gate.py rt ci --anew
    gate.py --show FILE                  prints the table of an earlier run once more

Each process below the command is looked at twice a second in /proc; what is not seen of those that ended meanwhile is
told as a line of its own. A check is one of a crate's proof, of its tests, or of an edit that must fail; all that a check
starts counts for it. The table is in processor seconds.
"""
import json
import os
import subprocess
import sys
import tempfile
import time

KINDS = ("proofs", "tests", "edits")
TICKS = os.sysconf("SC_CLK_TCK")
EVERY = 0.5


def stat_of(pid):
    """Returns a process's parent, start, own time and the time of its children that ended, in seconds."""
    with open(f"/proc/{pid}/stat") as file:
        fields = file.read().rpartition(")")[2].split()
    user, system, of_children, and_system = (int(it) / TICKS for it in fields[11:15])
    return int(fields[1]), fields[19], user + system, of_children + and_system


def check_of(pid):
    """Returns the crate and the kind of the check that a process is, or None where it is none."""
    with open(f"/proc/{pid}/cmdline", "rb") as file:
        words = file.read().decode(errors="replace").split("\0")
    if "--crate-name" not in words[:-1]:
        return None
    crate = words[words.index("--crate-name") + 1]
    if os.readlink(f"/proc/{pid}/cwd").startswith(f"{tempfile.gettempdir()}/rt-edit-"):
        return crate, "edits"
    return crate, "tests" if "--test" in words else "proofs"


class Sampler:
    """What the processes below one of them took so far: `checks` by process, with its crate and kind, `others` the rest."""

    def __init__(self, root):
        self.root, self.checks, self.others, self.all = root, {}, {}, 0.0

    def look(self):
        stats = {}
        for name in os.listdir("/proc"):
            if name.isdigit():
                try:
                    stats[int(name)] = stat_of(name)
                except (OSError, IndexError):
                    pass
        if self.root in stats:
            self.all = stats[self.root][2] + stats[self.root][3]
        for pid, (_, start, own, _) in stats.items():
            line = self.line_to_root(pid, stats)
            if line is None:
                continue
            check = next((it for it in map(self.known, line, [stats[at][1] for at in line]) if it), None)
            if check:
                self.others.pop((pid, start), None)
                self.checks[pid, start] = (check, own)
            else:
                self.others[pid, start] = own

    def line_to_root(self, pid, stats):
        """Returns the process and those above it up to the root, which is left out, or None where it is not below the root."""
        line = []
        while pid != self.root:
            line.append(pid)
            pid = stats[pid][0] if pid in stats else 0
            if pid == 0:
                return None
        return line or None

    def known(self, pid, start):
        if (pid, start) in self.checks:
            return self.checks[pid, start][0]
        try:
            return check_of(pid)
        except OSError:
            return None

    def table(self):
        rows = {}
        for (crate, kind), own in self.checks.values():
            row = rows.setdefault(crate, dict.fromkeys(KINDS, 0.0))
            row[kind] += own
        return rows


def measure(words):
    began = time.monotonic()
    ran = subprocess.Popen(words)
    sampler = Sampler(ran.pid)
    ended = False
    while not ended:
        try:
            sampler.look()
            # (a process that ended is kept in /proc until its parent asks)
            ended = os.waitid(os.P_PID, ran.pid, os.WEXITED | os.WNOHANG | os.WNOWAIT) is not None
            if ended:
                sampler.look()
            else:
                time.sleep(EVERY)
        except KeyboardInterrupt:
            ended = True
    found = {
        "rows": sampler.table(),
        "others": sum(sampler.others.values()),
        "all": sampler.all,
        "clock": time.monotonic() - began,
        "processors": len(os.sched_getaffinity(0)),
    }
    return ran.wait(), found


def deps_of(file):
    """Returns, of each crate, those of the repository that it stands on."""
    deps = {}
    with open(file, encoding="utf-8") as lines:
        for line in lines:
            head, _, below = line.partition("#")[0].partition(":")
            if head.strip():
                deps[head.split()[0]] = below.split()
    return {crate: [it for it in below if it in deps] for crate, below in deps.items()}


def chain_of(deps, rows):
    """Returns the time of the longest chain of proofs, each of which waits for those below it, with the tests at its end."""
    proof, whole = {}, {}
    none = dict.fromkeys(KINDS, 0.0)

    def length(crate):
        if crate not in proof:
            below = max((length(it) for it in deps[crate]), default=0.0)
            row = rows.get(crate, none)
            proof[crate] = below + row["proofs"]
            whole[crate] = below + max(row["proofs"], row["tests"])
        return proof[crate]

    for crate in deps:
        length(crate)
    return max(whole.values(), default=0.0)


def show(found, deps):
    rows = found["rows"]
    sums = dict.fromkeys(KINDS, 0.0)
    print(f"\n{'crate':20}{'proofs':>9}{'tests':>9}{'edits':>9}{'sum':>9}   (processor seconds)")
    for crate in sorted(rows, key=lambda it: -sum(rows[it].values())):
        row = rows[crate]
        print(f"{crate:20}" + "".join(f"{row[it]:9.0f}" for it in KINDS) + f"{sum(row.values()):9.0f}")
        for kind in KINDS:
            sums[kind] += row[kind]
    checks = sum(sums.values())
    print(f"{'sum':20}" + "".join(f"{sums[it]:9.0f}" for it in KINDS) + f"{checks:9.0f}")
    print(f"{'in minutes':20}" + "".join(f"{sums[it] / 60:9.1f}" for it in KINDS) + f"{checks / 60:9.1f}")
    lost = max(0.0, found["all"] - checks - found["others"])
    print(f"Beside the checks: {found['others'] / 60:.1f} minutes of rt, linkers and runs, {lost / 60:.1f} not seen.")
    whole = checks + found["others"] + lost
    print(f"On two processors: {whole / 120:.0f} minutes, if neither waits; the longest chain of proofs takes {chain_of(deps, rows) / 60:.0f}.")
    print(f"Here: {found['clock'] / 60:.0f} minutes by the clock, on {found['processors']} processors.")


def main():
    words = sys.argv[1:]
    if words[:1] == ["--show"] and len(words) == 2:
        with open(words[1], encoding="utf-8") as file:
            found, status = json.load(file), 0
    else:
        save = words[1] if words[:1] == ["--save"] else None
        words = words[2:] if save else words
        if not words:
            sys.exit(__doc__)
        status, found = measure(words)
        if save:
            with open(save, "w", encoding="utf-8") as file:
                json.dump(found, file, indent=1)
    show(found, deps_of("crates.txt"))
    sys.exit(status)


if __name__ == "__main__":
    main()
