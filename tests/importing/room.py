"""Scratch directories in which the importer runs, and counts of what was as expected."""

from __future__ import annotations

import contextlib
import json
import os
import pty
import shutil
import signal
import subprocess
import sys
import tempfile
import time
from typing import Any, Callable, Dict, List, NamedTuple, Optional, Tuple

import common

TEXTS = os.path.join(common.TOP, "tests", "import.d")
# The program in a clone. COMPLGEN_IMPORT names another, such as the packed file of a release.
IMPORTER = [os.environ["COMPLGEN_IMPORT"]] if "COMPLGEN_IMPORT" in os.environ else [sys.executable, "-m", "importer"]
LONGEST = 300
# A number of seconds by which the sleeping processes of this run are found.
SLEEP = f"98765.{os.getpid()}"
MOST_FAULTS = 10
JOBS = len(os.sched_getaffinity(0))

Node = Dict[str, Any]


class Imported(NamedTuple):
    """What a run of the importer gives: its status, the tree it prints, its output, and its messages."""

    status: int
    tree: Optional[Node]
    out: bytes
    messages: bytes


class Room:
    """A scratch directory with programs, and counts of what was as expected."""

    def __init__(self, part: str, again: str = "") -> None:
        self.part, self.good, self.bad = part, 0, 0
        # The command that repeats the part, for a message.
        self.again = f"\n    again: {again}" if again else ""
        self.path = os.path.realpath(tempfile.mkdtemp(prefix="import."))
        self.bin, self.data, self.temporary, self.home = (
            self.folder(name) for name in ("bin", "data", "temporary", "home"))
        self.log = os.path.join(self.path, "log")
        self.proved = proved_program()
        self.complgen = self.proved or self.accepting()

    def folder(self, name: str) -> str:
        """Makes a directory."""
        path = os.path.join(self.path, name)
        os.mkdir(path)
        return path

    def accepting(self) -> str:
        """Makes a program that stands for `complgen check`, and accepts each tree."""
        path = os.path.join(self.folder("stub"), "complgen")
        common.write(path, "#!/bin/sh\n")
        os.chmod(path, 0o755)
        return path

    # ---- programs

    def script(self, name: str, *lines: str) -> None:
        """Makes a program that writes its words into the log, and then does what the lines say."""
        path = os.path.join(self.bin, name)
        common.write(path, "\n".join(["#!/bin/sh", f"echo {name} \"$@\" >>'{self.log}'", *lines, ""]))
        os.chmod(path, 0o755)

    def printing(self, name: str, folder: str) -> None:
        """Makes a program that prints the text of the directory that its words name, and an answer to `__complete`, if
        there is one."""
        self.script(name, f"at='{folder}'", 'if [ "$1" = __complete ]; then exec cat -- "$at/answer.txt"; fi', "for word do", '    case $word in -*) break ;; esac', "    at=$at/$word",
                    "done", 'cat -- "$at/help.txt"')

    def logged(self) -> List[str]:
        """Returns the lines in the log since the last call."""
        if not os.path.exists(self.log):
            return []
        with open(self.log, encoding="utf-8") as file:
            lines = file.read().splitlines()
        os.unlink(self.log)
        return lines

    # ---- runs

    def environment(self, **variables: str) -> Dict[str, str]:
        """Returns the environment of the importer."""
        return {"PATH": self.bin + ":" + os.environ["PATH"], "HOME": self.home, "XDG_DATA_HOME": self.data,
                "XDG_DATA_DIRS": self.home, "FPATH": self.home, "TMPDIR": self.temporary, "COMPLGEN": self.complgen, "PYTHONPATH": common.TOP,
                "PYTHONDONTWRITEBYTECODE": "1", **variables}

    def start(self, *words: str) -> "subprocess.Popen[bytes]":
        """Starts the importer."""
        return subprocess.Popen([*IMPORTER, *words], env=self.environment(), cwd=self.path, stdin=subprocess.DEVNULL,
                                stdout=subprocess.PIPE, stderr=subprocess.PIPE)

    def run(self, *words: str, **variables: str) -> Tuple[int, str, str]:
        """Runs the importer. Returns its status, its output and its messages."""
        ran = subprocess.run([*IMPORTER, *words], env=self.environment(**variables), cwd=self.path, timeout=LONGEST,
                             stdin=subprocess.DEVNULL, stdout=subprocess.PIPE, stderr=subprocess.PIPE)
        self.expect(f"{words}: what stays in the scratch directory", [], os.listdir(self.temporary))
        return ran.returncode, ran.stdout.decode(), ran.stderr.decode()

    def run_on_terminal(self, *words: str, **variables: str) -> Tuple[int, str]:
        """Runs the importer as the leader of a terminal. Returns its status and what it writes there."""
        program, terminal = pty.fork()
        if program == 0:
            os.chdir(self.path)
            os.execvpe(IMPORTER[0], [*IMPORTER, *words], self.environment(**variables))
        written = written_to(terminal)
        return os.WEXITSTATUS(os.waitpid(program, 0)[1]), written

    def import_texts(self, place: str, name: str = "app") -> Imported:
        """Has the importer read a text, or a directory of texts, and print the tree."""
        ran = subprocess.run([*IMPORTER, "--texts", place, name], env=self.environment(), cwd=self.path, timeout=LONGEST,
                             stdin=subprocess.DEVNULL, stdout=subprocess.PIPE, stderr=subprocess.PIPE)
        tree = json.loads(ran.stdout.decode()) if ran.returncode == 0 else None
        return Imported(ran.returncode, tree, ran.stdout, ran.stderr)

    # ---- results

    def place(self, name: str) -> str:
        """Returns the path of a tree file."""
        return os.path.join(self.data, "complgen", name + ".json")

    def tree(self, name: str) -> Node:
        """Returns the tree of a program."""
        with open(self.place(name), encoding="utf-8") as file:
            found: Node = json.load(file)
        return found

    def names(self, name: str) -> Optional[List[str]]:
        """Returns the names of a program's own options, or `None` without a tree file."""
        return sorted(option_names(self.tree(name))) if os.path.exists(self.place(name)) else None

    def expect(self, what: object, expected: object, got: object) -> None:
        """Counts a comparison. If it fails, prints it."""
        if got == expected:
            self.good += 1
        else:
            self.fault(f"{what}:\n    expected {expected!r}\n    got      {got!r}")

    def fault(self, what: str) -> None:
        """Counts something that is wrong, and prints the first of them."""
        self.bad += 1
        if self.bad <= MOST_FAULTS:
            print(f"  {self.part}, {what}{self.again}", flush=True)
        elif self.bad == MOST_FAULTS + 1:
            print(f"  {self.part}: further exceptions are not printed", flush=True)

    def fails(self, message: str, *words: str, **variables: str) -> None:
        """Expects this message alone, and status 1."""
        self.expect(words, (1, "", f"complgen-import: {message}\n"), self.run(*words, **variables))

    def end(self) -> None:
        """Ends what still sleeps, and removes the directory."""
        for process in sleeping():
            os.kill(process, signal.SIGKILL)
        shutil.rmtree(self.path)


def proved_program() -> Optional[str]:
    """Returns the path of the proved program complgen, or `None` if it is not built."""
    path = common.default_program("complgen")
    return path if os.access(path, os.X_OK) else None


def write_bytes(path: str, data: bytes) -> None:
    """Writes a file, and makes its directory."""
    os.makedirs(os.path.dirname(path), exist_ok=True)
    with open(path, "wb") as file:
        file.write(data)


def written_to(terminal: int) -> str:
    """Returns what is written to a terminal until its last user closes it."""
    written = b""
    with contextlib.suppress(OSError):
        for data in iter(lambda: os.read(terminal, 65536), b""):
            written += data
    os.close(terminal)
    return written.decode()


def sleeping() -> List[int]:
    """Returns the processes that sleep for the seconds of the programs here."""
    found = []
    for process in filter(str.isdigit, os.listdir("/proc")):
        with contextlib.suppress(OSError), open(f"/proc/{process}/cmdline", "rb") as file:
            found += [int(process)] if SLEEP.encode() in file.read().split(b"\0") else []
    return found


def left_sleeping() -> List[int]:
    """Returns the processes that still sleep after a while. One that was killed may be there for a moment."""
    end = time.monotonic() + 60
    while sleeping() and time.monotonic() < end:
        time.sleep(0.05)
    return sleeping()


# ---- what a tree says

def option_names(node: Node) -> List[str]:
    """Returns the names of the options of a command, with their hyphens."""
    return [name for it in node.get("args", []) for name in names_of(it)]


def names_of(argument: Node) -> List[str]:
    """Returns the names of an option, the short ones first, or none for a positional."""
    shorts = [argument["short"]] if "short" in argument else []
    longs = [argument["long"]] if "long" in argument else []
    shorts += argument.get("visible_short_aliases", [])
    longs += argument.get("visible_aliases", [])
    return ["-" + it for it in shorts] + ["--" + it for it in longs]


def rows(node: Node, path: List[str]) -> List[str]:
    """Returns what a tree says, in the form of the files `expected`."""
    found = [", ".join([" ".join(path), *node.get("visible_aliases", [])])] if len(path) > 1 else []
    found += [f"{' '.join(path)}: {row(argument)}" for argument in node.get("args", [])]
    for child in node.get("subcommands", []):
        found += rows(child, [*path, child["name"]])
    return found


def row(argument: Node) -> str:
    """Returns what a tree says of an argument, as one line."""
    words = names_of(argument) or [f"[{argument['id']}]"]
    words += number_of_values(argument)
    words += [it["name"] for it in argument.get("possible_values", [])]
    words += [argument["value_hint"]] if "value_hint" in argument else []
    words += ["asked"] if "values_from" in argument else []
    return " ".join(words + (["global"] if argument.get("global") else []))


def number_of_values(argument: Node) -> List[str]:
    """Returns the number of values of an argument, as `=1`, or nothing for a flag."""
    if argument.get("action") in ("SetTrue", "Count"):
        return []
    least, most = argument.get("num_args", [max(len(argument.get("value_names", [])), 1)] * 2)
    return [f"={least}" if least == most else f"={least}..{'' if most is None else most}"]


Part = Callable[[Room, Any], None]
