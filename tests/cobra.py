#!/usr/bin/env python3
"""Imports programs of Debian that use Cobra, and compares what shells offer with the programs' own completions.

    tests/cobra.py [--shells bash,zsh,fish,elvish] [--only PROGRAM].. [--verbose]

The programs are hcloud, hugo and gh, as Debian's packages hcloud-cli, hugo and gh have them. `complgen-import --walk`
makes their tree files, which are not changed. hcloud asks a server on this machine, which this script runs in the place
of its cloud. So its values depend on the words typed: `hcloud server remove-label servers-a ` offers the labels of that
server.

Each line of LINES is typed into each shell, which has loaded what `COMPLETE=SHELL complgen` writes. Two things must hold:

- what is offered is exactly what the program answers to `__complete` and these words, by the rules of
  [docs/LIVE.md](../docs/LIVE.md#programs-that-use-cobra), which `wanted` states once more;
- it is what the same shell offers, and inserts, if it has loaded the program's own script, but for the rows of
  [docs/DIFFERENCES.md](../docs/DIFFERENCES.md#what-differs-from-cobras-own-scripts) that are listed with the line. Each
  listed row has to show. Cobra has no script for Elvish. In bash, the package bash-completion is needed.

Nothing that is typed may run.

A program or a shell that is not installed is skipped, with a line that names it. The script prints a line for each
exception, and for each shell. The status is 0 if there is none.
"""

from __future__ import annotations

import argparse
import http.server
import json
import os
import shutil
import subprocess
import sys
import threading
from typing import Any, List, NamedTuple, Optional, Sequence, Set, Tuple

sys.path.append(os.path.join(os.path.dirname(os.path.realpath(__file__)), "..", "tools"))
import common
from shells import BASH_COMPLETION, SHELLS, Shell, TreeScratch, fish_hides_dots, started, write

# The words that import each program, and those before the name of a shell that print its own script.
PROGRAMS = {"hcloud": ([], ["completion"]), "hugo": ([], ["completion"]), "gh": (["--cobra"], ["completion", "-s"])}
LONGEST = 300
ERROR, NO_PATHS, EXTENSIONS, DIRECTORIES = 1, 4, 8, 16
FILES = ("notes.txt", "site.toml", "sub/in", "themes/one/it", "themes/two/it")
# The names in the directory of the shells: files, and directories.
PLACES = {"notes.txt": False, "site.toml": False, "sub": True, "themes": True}


class Line(NamedTuple):
    """What is typed, and the rows of docs/DIFFERENCES.md that show there, as `74` or, in some shells alone, `70 fish`."""

    text: str
    rows: Tuple[str, ...] = ()


LINES = (
    # values that the server knows
    Line("hcloud server describe ", ("74",)),
    Line("hcloud server describe servers-"),
    Line("hcloud server describe servers-b"),
    Line("hcloud server describe no"),
    # labels of the server that was typed
    Line("hcloud server remove-label servers-a ", ("74",)),
    Line("hcloud server remove-label servers-a t"),
    Line("hcloud server remove-label servers-b n"),
    # values of options
    Line("hcloud server create --location "),
    Line("hcloud server create --location=locations-"),
    Line("hcloud server metrics --type "),
    Line("hcloud server metrics --type=c"),
    Line("hcloud server update servers-a --name ", ("76 bash zsh",)),
    Line("hcloud server list -o i"),
    Line("hcloud --poll-interval 5s context use t"),
    # directories, and files with an extension
    Line("hugo --config ", ("68 bash zsh",)),
    Line("hugo --config=s"),
    Line("hugo --source ", ("70 fish", "76 bash zsh")),
    Line("hugo server --source=s", ("70 fish",)),
    Line("hugo --theme ", ("69 bash zsh", "70 fish")),
    Line("hugo --baseURL n"),
    # no space after a value, values with a space, and an error
    Line("gh issue list --json n", ("71 fish",)),
    Line("gh issue list --json number,t", ("71 fish",)),
    Line("gh issue close --reason ", ("75 bash",)),
    Line("gh issue close --reason n", ("75 bash",)),
    Line("gh search repos --match n"),
    Line("gh search repos --language $(touch-hit) --match n", ("63 bash zsh fish",)),
    Line("gh pr create --reviewer ", ("70 bash fish",)),
)


# ---- what a program answers

class Answer(NamedTuple):
    """What a program prints for `__complete`: values, and the directive."""

    values: List[str]
    directive: int


def answer_of(scratch: TreeScratch, words: Sequence[str]) -> Answer:
    """Asks a program for its completions of words."""
    ran = subprocess.run([words[0], "__complete", *words[1:]], env=scratch.environment, cwd=scratch.here,
                         stdin=subprocess.DEVNULL, stdout=subprocess.PIPE, stderr=subprocess.DEVNULL, timeout=LONGEST,
                         check=False)
    *lines, last = ran.stdout.decode().splitlines()
    return Answer([line.partition("\t")[0] for line in lines if not line.startswith("_activeHelp_ ")], int(last[1:]))


def wanted(answer: Answer, word: str, hides_dots: bool) -> Set[str]:
    """Returns what live completion offers for the last word, in a shell that may hide names that begin with a dot."""
    option, sign, typed = word.rpartition("=") if word.startswith("--") else ("", "", word)
    values, directive = answer
    if directive & ERROR:
        found = []
    elif directive & (EXTENSIONS | DIRECTORIES) or not (values or directive & NO_PATHS):
        found = [it for it, is_folder in PLACES.items() if is_folder or not directive & DIRECTORIES]
        found += [] if typed or hides_dots or directive & EXTENSIONS else ["."]
    else:
        found = [it for it in values if not it.startswith("-")]
    return {option + sign + it for it in found if it.startswith(typed)}


# ---- the cloud

class Cloud(http.server.BaseHTTPRequestHandler):
    """Stands for the cloud of hcloud. Of each kind there are two, and the first has labels."""

    def do_GET(self) -> None:  # pylint: disable=invalid-name
        kind = self.path.partition("?")[0].rpartition("/")[2]
        found = [{"id": 1, "name": f"{kind}-a", "labels": {"env": "x", "team": "y"}}, {"id": 2, "name": f"{kind}-b"}]
        pages = {"page": 1, "per_page": 50, "previous_page": None, "next_page": None, "last_page": 1, "total_entries": 2}
        self.send_response(200)
        self.send_header("Content-Type", "application/json")
        self.end_headers()
        self.wfile.write(json.dumps({kind: found, "meta": {"pagination": pages}}).encode())

    def log_message(self, format: str, *args: Any) -> None:  # pylint: disable=redefined-builtin
        pass


def cloud() -> http.server.ThreadingHTTPServer:
    """Starts the server, on a port that is free."""
    server = http.server.ThreadingHTTPServer(("127.0.0.1", 0), Cloud)
    threading.Thread(target=server.serve_forever, daemon=True).start()
    return server


SETTINGS = """active_context = "one"
[[contexts]]
  name = "one"
  token = "none"
[[contexts]]
  name = "two"
  token = "none"
"""


# ---- the test

class Trial:
    """Compares, and counts what differs."""

    def __init__(self, scratch: TreeScratch, names: List[str], is_verbose: bool) -> None:
        self.scratch, self.is_verbose, self.bad = scratch, is_verbose, 0
        self.lines = [line for line in LINES if line.text.split(" ")[0] in names]
        self.names, self.known = names, os.listdir(scratch.here)

    def differ(self, what: str) -> None:
        self.bad += 1
        print(f"  {what}", flush=True)

    def imported(self, name: str) -> str:
        """Imports a program. Returns the line that the importer prints."""
        words = [os.path.join(common.TOP, "complgen-import"), "--walk", "--seconds", "60", "--out-dir", self.scratch.trees]
        ran = subprocess.run([*words, *PROGRAMS[name][0], name], env={**self.scratch.environment, "COMPLGEN": os.path.join(
            self.scratch.bin, "complgen")}, stdout=subprocess.PIPE, stderr=subprocess.PIPE, timeout=LONGEST, check=False)
        if ran.returncode or b" come from " not in ran.stdout:
            sys.exit(f"{name}: {ran.stdout.decode()}{ran.stderr.decode()}status {ran.returncode}")
        return ran.stdout.decode().strip()

    def shell(self, name: str) -> str:
        """Compares one shell. Returns how many lines were compared with the programs' own scripts."""
        # fish would add the scripts of the packages to all that it has loaded.
        setup = "set fish_complete_path" if name == "fish" else ""
        own = started(name, self.scratch, self.own_scripts(name), setup) if self.has_own_scripts(name) else None
        with started(name, self.scratch, self.scratch.written(name), setup) as terminal:
            for line in self.lines:
                if "$(" not in line.text or name != "elvish":
                    self.line(terminal, line, own)
        if own:
            own.close()
        return f"{len(self.lines) if own else 0} of {len(self.lines)} lines also with the programs' own scripts"

    def has_own_scripts(self, shell: str) -> bool:
        return shell in ("zsh", "fish") or (shell == "bash" and os.path.exists(BASH_COMPLETION))

    def own_scripts(self, shell: str) -> str:
        """Returns the scripts that the programs print, as a shell loads them."""
        texts = [f"source {BASH_COMPLETION}\n"] if shell == "bash" else []
        for name in self.names:
            ran = subprocess.run([name, *PROGRAMS[name][1], shell], env=self.scratch.environment, stdout=subprocess.PIPE,
                                 check=True)
            texts += [ran.stdout.decode(), f"compdef _{name} {name}\n" if shell == "zsh" else ""]
        return "\n".join(texts)

    def line(self, terminal: Shell, line: Line, own: Optional[Shell]) -> None:
        """Types a line into a shell with the imported programs, and into one with the programs' own scripts."""
        *words, word = line.text.split(" ")
        found = offers(terminal, line.text)
        hides_dots = terminal.name == "fish" and fish_hides_dots()
        expected = wanted(answer_of(self.scratch, [*words, word]), word, hides_dots)
        what = f"{terminal.name}: {line.text!r}"
        options = {it for it in found if it.startswith("-")} if not word else set()
        if found - options != expected:
            self.differ(f"{what}: offered {sorted(found)}, not {sorted(expected)}")
        line_after = inserted(terminal, line.text)
        ran = self.scratch.marks(self.scratch.here, self.known)
        if ran:
            self.differ(f"{what}: {ran}")
        if self.is_verbose:
            print(f"  {what}: {sorted(found - options)}, and {len(options)} options", flush=True)
        if own:
            self.own_line(what, line, (found, line_after), own)

    def own_line(self, what: str, line: Line, found: Tuple[Set[str], str], own: Shell) -> None:
        """Compares with what a program's own script offers. If a single word is offered, it is also inserted."""
        theirs = offers(own, line.text), inserted(own, line.text)
        rows = [row for row in line.rows if " " not in row or own.name in row.split(" ")]
        ran = self.scratch.marks(self.scratch.here, self.known)
        is_same = not ran and found[0] == theirs[0] and (len(found[0]) != 1 or found[1] == theirs[1])
        if is_same is bool(rows):
            self.differ(f"{what}: {found} here, {theirs} by its own script, {ran or 'nothing ran'}; rows {rows or 'none'}")


def offers(terminal: Shell, text: str) -> Set[str]:
    """Returns what a shell offers. Some end a directory in a slash."""
    return {it.rstrip("/") for it in terminal.offered(text)}


def inserted(terminal: Shell, text: str) -> str:
    """Returns the command line after a Tab."""
    line = terminal.inserted(text) or ""
    terminal.clear()
    return line


def installed(names: Sequence[str]) -> List[str]:
    """Returns the programs that are installed. A line names each of the others."""
    missing = [name for name in names if not shutil.which(name)]
    for name in missing:
        print(f"{name}: skipped, because it is not installed", flush=True)
    return [name for name in names if name not in missing]


def main() -> int:
    parser = argparse.ArgumentParser(usage=common.usage(__doc__))
    parser.add_argument("--shells", type=lambda text: text.split(","), default=SHELLS)
    parser.add_argument("--only", action="append", choices=PROGRAMS)
    parser.add_argument("--verbose", action="store_true")
    options = parser.parse_args()
    complgen = common.program("complgen")
    names = installed(options.only or list(PROGRAMS))
    if not names:
        return 0
    with TreeScratch(complgen) as scratch:
        settings, server = os.path.join(scratch.path, "cli.toml"), cloud()
        write(settings, SETTINGS)
        for name in FILES:
            write(os.path.join(scratch.here, name), "")
        scratch.environment.update(HCLOUD_CONFIG=settings, HCLOUD_ENDPOINT=f"http://127.0.0.1:{server.server_port}/v1")
        scratch.script("touch-hit", f"#!/bin/sh\n: >'{scratch.ran}'\n")
        trial = Trial(scratch, names, options.verbose)
        for name in names:
            print(trial.imported(name), flush=True)
        for shell in installed(options.shells):
            before, compared = trial.bad, trial.shell(shell)
            print(f"{shell}: {compared}, {trial.bad - before} differences", flush=True)
    print(f"{trial.bad} differences")
    return 1 if trial.bad else 0


if __name__ == "__main__":
    sys.exit(main())
