#!/usr/bin/env python3
"""Tries the files of completion/ in real shells, each on a terminal of its own.

    completion.py [SHELL ..]     bash, bash-completion (bash with that package loaded), zsh, fish; all that are there by default

A line is typed, and the key for completion pressed twice: what the shell shows has to hold the wanted words, and none of
the unwanted ones. The options are those of the page of help, in crates/asp_cli/src/texts.rt.
"""
import fcntl
import os
import pty
import re
import select
import shutil
import signal
import struct
import sys
import tempfile
import termios
import time

HERE = os.path.dirname(os.path.abspath(__file__))
FILES = os.path.join(os.path.dirname(HERE), "completion")
HELP = os.path.join(HERE, "../crates/asp_cli/src/texts.rt")
with open(HELP, encoding="utf-8") as page:
    OPTIONS = re.findall(r"^\\x20 (?:-[a-z], )?(--[a-z-]+)", page.read(), re.M)
VALUES = ["auto", "enum", "opt", "brave", "cautious"]
PACKAGE = "/usr/share/bash-completion/bash_completion"

# what is typed, what is shown or filled in, and what isn't
ROWS = [
    ("aspenum --", OPTIONS, []),
    ("aspenum --stats --", ["--mode", "--budget", "--workers", "--make", "--progress"], ["--help", "--version", "--stats "]),
    ("aspenum --progress --", ["--mode", "--stats"], ["--help", "--version", "--progress "]),
    ("aspenum --proof --", ["--mode", "--workers", "--opt-all"], ["--help", "--version", "--proof ", "--split", "--output", "--quiet"]),
    ("aspenum --output json --", ["--mode", "--quiet"], ["--help", "--output ", "--proof", "--split", "--make"]),
    ("aspenum --make 5 --", ["--mode", "--stats"], ["--help", "--output", "--make "]),
    ("aspenum --output ", ["text", "json"], ["--stats", "README"]),
    ("aspenum --log ", ["blocks", "row"], ["--stats", "README"]),
    ("aspenum --output=j", ["--output=json"], ["text"]),
    ("aspenum --opt-all --", ["--mode", "--models", "--quiet", "--proof"], ["--help", "--version", "--opt-all ", "--split"]),
    ("aspenum --stream --", ["--mode", "--models", "--quiet"], ["--help", "--version", "--stream ", "--split", "--queries"]),
    ("aspenum --names --", ["--mode", "--proof", "--quiet"], ["--help", "--version", "--names ", "--split"]),
    ("aspenum -q --", ["--mode", "--models", "--opt-all"], ["--help", "--version", "--proof", "--quiet", "--split"]),
    ("aspenum --split 4 --", ["--make", "--format"], ["--help", "--version", "--proof", "--split ", "--mode", "--models", "--log", "--stats"]),
    ("aspenum --stats -n 3 --", ["--mode", "--workers", "--quiet"], ["--help", "--models", "--split"]),
    ("aspenum -e ", VALUES, ["--stats", "README"]),
    ("aspenum -t ", ["16", "64"], ["--stats", "README"]),
    ("aspenum --workers ", ["16", "64"], ["--stats", "README"]),
    ("aspenum --mode enum --", ["--budget", "--stats"], ["--help", "--mode "]),
    ("aspenum --mode=enum --", ["--budget", "--stats"], ["--help", "--mode "]),
    ("aspenum --mode ", VALUES, ["--stats", "README"]),
    ("aspenum --mode=", VALUES, ["--stats", "README"]),
    ("aspenum --mode e", ["enum"], ["auto"]),
    ("aspenum --format ", ["aspif", "smodels"], ["--stats", "README"]),
    ("aspenum --format=", ["aspif", "smodels"], ["--stats", "README"]),
    ("aspenum --format=s", ["--format=smodels"], ["aspif"]),
    ("aspenum --format smodels --", ["--mode", "--split", "--proof"], ["--help", "--format "]),
    ("aspenum --mode=o", ["--mode=opt"], ["auto"]),
    ("aspenum --stats --mo", ["--mode"], ["--make"]),
    ("true | aspenum --bu", ["--budget"], ["--mode"]),
    ("aspenum < file_for_", ["file_for_completion"], ["--mode"]),
    ("aspground file_for_", ["file_for_completion"], ["--mode"]),
    ("aspground x.lp file_for_", ["file_for_completion"], ["--mode"]),
    ("aspground x.lp --he", ["--help"], ["--mode"]),
    ("aspground x.lp -- --", ["--mode", "--models", "--stats"], ["file_for_completion"]),
    ("aspground x.lp -- --stats --mo", ["--mode"], ["--make"]),
    ("aspcheck --", ["--format", "--help", "--version"], ["README"]),
    ("aspcheck --format ", ["aspif", "smodels"], ["--help", "README"]),
    ("aspcheck --format=s", ["smodels"], ["aspif"]),
    ("aspcheck < file_for_", ["file_for_completion"], ["--format"]),
    ("aspground -- --mode ", VALUES, ["--stats", "README"]),
    ("aspground x.lp -- --mode=o", ["--mode=opt"], ["auto"]),
]

STARTS = {
    "bash": (["bash", "--norc", "--noprofile", "-i"], "source {files}/aspenum.bash"),
    "bash-completion": (["bash", "--norc", "--noprofile", "-i"], "XDG_DATA_HOME={data}; source " + PACKAGE),
    "zsh": (["zsh", "-f", "-i"], "fpath=({files} $fpath); autoload -Uz compinit; compinit -u -D; unsetopt menu_complete auto_menu; LISTMAX=1000; setopt no_list_beep"),
    "fish": (["fish", "--no-config", "-i"], "set -g fish_autosuggestion_enabled 0; source {files}/aspenum.fish"),
}
ESCAPES = re.compile(r"\x1b\[[0-9;?>=]*[a-zA-Z]|\x1b[()][A-Z0-9]|\x1b[=>]|\x1b\][^\x07\x1b]*(?:\x07|\x1b\\)|[\r\x07\x0e\x0f]")


class Shell:
    """A shell on a terminal."""

    def __init__(self, command, folder):
        self.process, self.terminal = pty.fork()
        if self.process == 0:
            os.chdir(folder)
            os.environ.update(TERM="xterm", COLUMNS="400", LINES="60", HOME=folder, PS1="$ ")
            os.execvp(command[0], command)
        fcntl.ioctl(self.terminal, termios.TIOCSWINSZ, struct.pack("HHHH", 60, 400, 0, 0))

    def type(self, text):
        os.write(self.terminal, text.encode())

    def shown(self, quiet=0.5, most=30.0, until=b""):
        """Returns what is written until it holds this and has been quiet for a while."""
        out, end = b"", time.monotonic() + most
        while time.monotonic() < end:
            if not select.select([self.terminal], [], [], quiet)[0]:
                if until in out:
                    break
                continue
            try:
                out += os.read(self.terminal, 65536)
            except OSError:
                break
            # fish asks the terminal for its kind, and waits for an answer
            if b"\x1b[c" in out or b"\x1b[0c" in out:
                os.write(self.terminal, b"\x1b[?62;c")
                out = out.replace(b"\x1b[c", b"").replace(b"\x1b[0c", b"")
        return ESCAPES.sub("", out.decode(errors="replace"))

    def close(self):
        os.kill(self.process, signal.SIGKILL)
        os.close(self.terminal)
        os.waitpid(self.process, 0)


def tried(name):
    command, start = STARTS[name]
    failed = 0
    with tempfile.TemporaryDirectory() as folder:
        data = os.path.join(folder, "data")
        os.makedirs(f"{data}/bash-completion/completions")
        shutil.copy(f"{FILES}/aspenum.bash", f"{data}/bash-completion/completions/aspenum")
        os.symlink("aspenum", f"{data}/bash-completion/completions/aspground")
        open(f"{folder}/file_for_completion", "w").close()
        open(f"{folder}/README", "w").close()
        os.makedirs(f"{folder}/bin")
        os.symlink("aspenum", f"{data}/bash-completion/completions/aspcheck")
        for program in ("aspenum", "aspground", "aspcheck"):
            os.symlink("/bin/true", f"{folder}/bin/{program}")
        for line, wanted, unwanted in ROWS:
            shell = Shell(command, folder)
            shell.shown(1.0)
            for it in ("PATH=" + f"{folder}/bin:$PATH" if name != "fish" else f"set -gx PATH {folder}/bin $PATH", start.format(files=FILES, data=data)):
                # the shell is ready for more when it has said so, however busy the machine is
                shell.type(it + "; echo rea''dy\r")
                shell.shown(0.5, until=b"ready")
            shell.type(line)
            shell.shown(0.4)
            # the line as it was typed is not shown again, but what is added and listed
            shell.type("\t")
            given = line + shell.shown(0.6)
            shell.type("\t")
            given += shell.shown(0.6)
            shell.close()
            added = given[len(line):].replace(line, "")
            wrong = [it for it in wanted if it not in given] + [f"not {it}" for it in unwanted if re.search(r"(?<![\w-])" + re.escape(it.strip()) + r"(?![\w-])", added)]
            if wrong:
                failed += 1
                print(f"failed: {name}: {line!r}: {wrong}; shown: {added!r}")
    print(f"completion: {name}: {len(ROWS) - failed} passed, {failed} failed")
    return failed


def main():
    there = lambda it: shutil.which(STARTS[it][0][0]) and (it != "bash-completion" or os.path.exists(PACKAGE))
    names = sys.argv[1:] or list(filter(there, STARTS))
    sys.exit(1 if sum(tried(it) for it in names) else 0)


main()
