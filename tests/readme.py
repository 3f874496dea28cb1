#!/usr/bin/env python3
"""Runs the commands of a document and compares what they print.

    readme.py PROGRAM DOCUMENT [CHECKER]

A command is a line `$ COMMAND`, and what it prints, standard error included, is below it: in a page of markdown in a
block of text that a line of three backquotes and the word `text` opens, in a manual page between .nf and .fi. A page's
commands run at the top of the repository, where PROGRAM is build/aspenum and CHECKER build/aspcheck; those of a manual page in
examples/, where they are aspenum and aspcheck. aspground is that of bin/. Commands that call gringo (as aspground does) or clasp
run only where that is there, and those that call the checker only where one is named.

In a page's tables each command between backquotes that calls aspenum or aspground runs too, with examples/timetable as x.lp, as
x.aspif and as standard input, and has to end with a status below 33. Where the grounder that it names isn't there, x.aspif stands for
what it would write.
"""
import os
import re
import shutil
import subprocess
import sys
import tempfile


def blocks(text):
    inside = False
    for line in text.split("\n"):
        if line.startswith("```"):
            inside = line == "```text"
        elif inside:
            yield line


def unfilled(text):
    """Yields the lines of a manual page between .nf and .fi as they are shown."""
    inside = False
    for line in text.split("\n"):
        if line in (".nf", ".fi"):
            inside = line == ".nf"
        elif inside and not line.startswith("."):
            yield re.sub(r"\\f[A-Z]", "", line.replace("\\-", "-").replace("\\&", "").replace("\\e", "\\"))


def commands(lines):
    command, printed = None, []
    for line in lines:
        if line.startswith("$ "):
            if command:
                yield command, printed
            command, printed = line[2:], []
        elif command:
            printed.append(line)
    if command:
        yield command, printed


def table_commands(text):
    """Yields the commands between backquotes in the rows of a page's tables that call aspenum or aspground, by that name."""
    for line in text.split("\n"):
        if line.startswith("|"):
            for code in re.findall(r"`([^`]+)`", line.replace("\\|", "|")):
                if re.search(r"(^|\| )asp(enum|ground)( |$)", code):
                    yield code


def table_fault(command, program):
    """Returns what is wrong with how a table's command ends, or nothing."""
    if not can_run(command, "") and command.startswith("aspground"):
        return ""
    with tempfile.TemporaryDirectory() as folder:
        os.symlink(os.path.abspath(program), f"{folder}/aspenum")
        os.symlink(os.path.abspath("bin/aspground"), f"{folder}/aspground")
        for ending in ("lp", "aspif"):
            shutil.copy(f"examples/timetable.{ending}", f"{folder}/x.{ending}")
        grounder, _, solver = command.rpartition(" | aspenum")
        if grounder and not shutil.which(grounder.split()[0]):
            command = f"cat x.aspif | aspenum{solver}"
        with open(f"{folder}/x.aspif", "rb") as given:
            ran = subprocess.run(
                ["bash", "-c", command],
                cwd=folder,
                env=dict(os.environ, PATH=f"{folder}:{os.environ['PATH']}"),
                stdin=given,
                stdout=subprocess.DEVNULL,
                stderr=subprocess.PIPE,
                timeout=60,
            )
    return f"status {ran.returncode} {ran.stderr.decode().strip()}" if ran.returncode >= 33 else ""


def can_run(command, checker):
    tools = [tool for tool in ("gringo", "clasp") if re.search(rf"\b{tool}\b", command.split("build/aspenum")[0])]
    if re.search(r"\baspground\b", command):
        tools.append("gringo")
    return all(map(shutil.which, tools)) and (checker or not re.search(r"\baspcheck\b", command))


def printed_by(command, program, checker, folder):
    """Returns the lines that a command prints where `aspenum` and `build/aspenum` are the program, and so for the checker."""
    with tempfile.TemporaryDirectory() as bin:
        os.symlink(os.path.abspath(program), f"{bin}/aspenum")
        os.symlink(os.path.abspath("bin/aspground"), f"{bin}/aspground")
        if checker:
            os.symlink(os.path.abspath(checker), f"{bin}/aspcheck")
        ran = subprocess.run(
            ["bash", "-c", command.replace("build/asp", "asp")],
            cwd=folder,
            env=dict(os.environ, PATH=f"{bin}:{os.environ['PATH']}"),
            stdout=subprocess.PIPE,
            stderr=subprocess.STDOUT,
            timeout=60,
        )
    return ran.stdout.decode().split("\n")[:-1]


def main():
    program, document, checker = [*sys.argv[1:], None][:3]
    failed = passed = 0
    with open(document, encoding="utf-8") as file:
        text = file.read()
    is_manual = re.search(r"\.\d$", document)
    lines = unfilled(text) if is_manual else blocks(text)
    for command, printed in commands(lines):
        if not can_run(command, checker):
            continue
        given = printed_by(command, program, checker, "examples" if is_manual else ".")
        if given == printed:
            passed += 1
        else:
            failed += 1
            print(f"failed: {command}\n  wanted {printed}\n  given  {given}")
    for command in [] if is_manual else table_commands(text):
        fault = table_fault(command, program)
        failed, passed = failed + bool(fault), passed + (not fault)
        if fault:
            print(f"failed: {command}\n  {fault}")
    print(f"{document}: {passed} commands passed, {failed} failed")
    sys.exit(1 if failed or not passed else 0)


main()
