#!/usr/bin/env python3
"""Holds --stream to what no contract says: that answers come while the search goes on.

    stream.py PROGRAM

Of 2^40 answers the first 1,000 are read, and the pipe is closed: they are the right ones, and the run ends with 74.
Programs with few answers and many have the same bytes and status with the option and without, also where the budget is spent.
With --models N the first N answers are written, and no others: of 2^40 in less than ten seconds, of a program with few answers exactly
the head of the whole list, and where the budget is spent before N at most of those that were found.
Where no budget is given all this holds of four workers, too.
All this holds of optima too, with --opt-all: of programs whose answers all cost the same, and of some where one in four does."""
import os
import subprocess
import sys
import time

from search import random_sat

PROGRAM = os.path.abspath(sys.argv[1])
SECONDS = 120


def free(count):
    """So many free atoms, and so 2^count answers."""
    outputs = "".join(f"4 {len(f'a{atom}')} a{atom} 1 {atom}\n" for atom in range(1, count + 1))
    return f"asp 1 0 0\n1 1 {count} {' '.join(map(str, range(1, count + 1)))} 0 0\n{outputs}0\n"


def priced(count):
    """So many free atoms, and two more of which one costs 1 and one has to hold: 2^(count+1) optima among 3 * 2^count answers."""
    atoms = range(1, count + 3)
    outputs = "".join(f"4 {len(f'a{atom}')} a{atom} 1 {atom}\n" for atom in atoms)
    pair = f"1 0 0 0 2 -{count + 1} -{count + 2}\n2 0 2 {count + 1} 1 {count + 2} 1\n"
    return f"asp 1 0 0\n1 1 {count + 2} {' '.join(map(str, atoms))} 0 0\n{pair}{outputs}0\n"


def priced_line(count, number):
    """The texts of the optimum with this number, from 0 on, of that program."""
    one = f"a{count + 1}" if number % 2 else f"a{count + 2}"
    return " ".join([*line(count, number // 2).split(), one])


ENUM = ("--mode", "enum")
BY_FOUR = ("--mode", "enum", "--workers", "4")
OPTIMA = ("--mode", "opt", "--opt-all")


def line(count, number):
    """The texts of the answer with this number, from 0 on, of so many free atoms: the greatest atom changes first."""
    return " ".join(f"a{atom}" for atom in range(1, count + 1) if number >> (count - atom) & 1)


def first(text, mode, count):
    """The first so many lines of a run whose reader then ends, and its status."""
    with subprocess.Popen([PROGRAM, *mode, "--stream"], stdin=subprocess.PIPE, stdout=subprocess.PIPE, stderr=subprocess.DEVNULL) as run:
        run.stdin.write(text.encode())
        run.stdin.close()
        lines = [run.stdout.readline().decode().rstrip("\n") for _ in range(count)]
        run.stdout.close()
        return lines, run.wait(SECONDS)


def same(text, *words):
    """Whether a run writes the same with --stream and without it."""
    runs = [subprocess.run([PROGRAM, *words, *more], input=text.encode(), capture_output=True, timeout=SECONDS) for more in ([], ["--stream"])]
    return runs[0].stdout == runs[1].stdout and runs[0].returncode == runs[1].returncode


def run(text, *words):
    """What a stream writes, and its status."""
    done = subprocess.run([PROGRAM, "--stream", *words], input=text.encode(), capture_output=True, timeout=SECONDS)
    return done.stdout.decode(), done.returncode


def run_lines(text, *words):
    """The texts of the answers of a stream, and the lines behind them."""
    lines = [it for it in run(text, *words)[0].splitlines() if not it.startswith("Optimization:")]
    return [*lines[1:-2:2], *lines[-2:]]


def answer_lines(lines):
    """The lines of answers with these texts."""
    return "".join(f"Answer: {number}\n{answer}\n" for number, answer in enumerate(lines, 1))


def limited(text, mode, whole, count, limit):
    """What is wrong with the first answers of a program that has so many, written whole like this, or nothing."""
    wanted, status = whole, 30
    if count >= limit:
        lines = whole.splitlines()
        kept = [*lines[: 2 * limit], *(it for it in lines if it.startswith("Optimization:"))]
        wanted, status = "".join(it + "\n" for it in kept) + f"LIMIT REACHED\nModels: {limit}+\n", 11
    if run(text, *mode, "--models", str(limit)) != (wanted, status):
        yield f"{' '.join(mode)} --models {limit} of {count} answers writes others, or ends otherwise"


def limit_faults(mode, program, texts, cost, exponent):
    """What is wrong with limits of such programs: of so many free atoms they have 2^(count + exponent) answers with these texts."""
    began = time.monotonic()
    given = run(program(40), *mode, "--models", "5")
    if time.monotonic() - began > 10:
        yield f"{' '.join(mode)}: the first 5 answers took more than ten seconds"
    if given != (answer_lines(texts(40, number) for number in range(5)) + f"{cost}LIMIT REACHED\nModels: 5+\n", 11):
        yield f"{' '.join(mode)}: the first 5 answers are others, or the run ends otherwise"
    for count, limits in ((0, (1, 2)), (1, (1, 2, 3)), (10, (1, 2, 63, 64, 65, 66, 100, 1000, 1023, 1024, 1025)), (13, (1, 70, 4097, 8191, 8192, 8193))):
        whole = run(program(count), *mode)[0]
        for limit in limits:
            yield from limited(program(count), mode, whole, 2 ** (count + exponent), limit)


def spent_faults(text, mode, whole):
    """What is wrong with limits of a program whose budget is spent: these are the texts of all its answers."""
    for limit in (1, 3, 10, 10000):
        lines = run_lines(text, *mode, "--budget", "40", "--models", str(limit))
        found, end = lines[:-2], lines[-2:]
        if end == ["LIMIT REACHED", f"Models: {limit}+"]:
            if found != whole[:limit]:
                yield f"{' '.join(mode)} --models {limit} with a budget writes other answers than the first"
        elif end != ["BUDGET SPENT", f"Models: {len(found)}+"] or len(found) > limit:
            yield f"{' '.join(mode)} --models {limit} with a budget ends otherwise"
        rest = iter(whole)
        if not all(answer in rest for answer in found):
            yield f"{' '.join(mode)} --models {limit} with a budget writes what isn't an answer, or not in the order"


def budget_faults(text, mode):
    """What is wrong where the budget is spent."""
    if not same(text, *mode, "--budget", "0"):
        yield f"{' '.join(mode)}: other bytes with a budget of 0"
    whole, spent = (run_lines(text, *mode, *words) for words in ([], ["--budget", "40"]))
    rest = iter(whole)
    if not all(answer in rest for answer in spent[:-2]) or spent[-2:] != ["BUDGET SPENT", f"Models: {len(spent) - 2}+"]:
        yield f"{' '.join(mode)}: a run whose budget was spent writes other answers, or ends otherwise"
    yield from spent_faults(text, mode, whole[:-2])


def mode_faults(mode, program, texts, cost, exponent):
    """What is wrong with streams of such programs."""
    lines, status = first(program(40), mode, 2000)
    wanted = [it for number in range(1000) for it in (f"Answer: {number + 1}", texts(40, number))]
    if lines != wanted:
        yield f"{' '.join(mode)}: the first answers are others"
    if status != 74:
        yield f"{' '.join(mode)}: a run whose reader ended ends with {status}"
    for count in (0, 1, 10, 13):
        if not same(program(count), *mode):
            yield f"{' '.join(mode)}: other bytes of {count} free atoms"
    yield from limit_faults(mode, program, texts, cost, exponent)


def faults():
    yield from mode_faults(ENUM, free, line, "", 0)
    yield from mode_faults(BY_FOUR, free, line, "", 0)
    yield from mode_faults(OPTIMA, priced, priced_line, "Optimization: 1\n", 1)
    text = random_sat(60, 4.0, 5).decode()
    yield from budget_faults(text, ENUM)
    yield from budget_faults(text, OPTIMA)
    for seed in range(3):
        if not same(random_sat(24, 2.5, seed).decode(), *BY_FOUR):
            yield f"{' '.join(BY_FOUR)}: other bytes of random clauses, seed {seed}"
    if not same("asp 1 0 0\n1 0 1 1 0 1 -1\n2 0 1 1 1\n0\n", *OPTIMA):
        yield "other bytes of a program without an optimum"


def main():
    found = list(faults())
    for fault in found:
        print(f"failed: {fault}")
    print(f"stream: {len(found)} faults")
    sys.exit(1 if found else 0)


main()
