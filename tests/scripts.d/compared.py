"""Types a line into a shell that has loaded a script, and compares what happens with the model."""

from __future__ import annotations

import json
import os
import re
import subprocess
from typing import Dict, List, NamedTuple, Optional, Tuple

import in_bash
import in_elvish
import in_fish
import in_zsh
import model
import shells

RULES = {"bash": in_bash, "zsh": in_zsh, "fish": in_fish, "elvish": in_elvish}
OUTCOMES = ("as expected", "listed difference", "unexplained")
# The shells that keep the order of a script.
ORDERED = ("bash", "elvish")
# The row of docs/DIFFERENCES.md about hidden names.
HIDDEN = 37


class Seen(NamedTuple):
    """What a shell did at a Tab: the words that it offered, the command line after it, and the descriptions."""

    offered: List[str]
    line: Optional[str]
    texts: Dict[str, str]


class Outcome(NamedTuple):
    """How a line ends, by a name of `OUTCOMES`, what is not as expected, the rows of docs/DIFFERENCES.md that it shows,
    and whether further words were allowed."""

    name: str
    told: str
    rows: Tuple[int, ...]
    is_open: bool


def scratch_with_files() -> shells.Scratch:
    """Returns a scratch directory with the files, the program, the host and the `sudo` of the model."""
    scratch = shells.Scratch()
    for name in (model.FILE, model.PROGRAM, model.HIDDEN, model.INNER):
        shells.write(os.path.join(scratch.here, name), "")
    os.chmod(os.path.join(scratch.here, model.PROGRAM), 0o755)
    for name in (model.BIN, model.COMMAND, "sudo"):
        scratch.script(name, "#!/bin/sh\n")
    shells.write(os.path.join(scratch.home, ".ssh", "known_hosts"), f"{model.HOST} ssh-rsa AAAA\n")
    model.folder_of_programs = scratch.bin
    return scratch


def root_of(path: str) -> model.Node:
    with open(path, encoding="utf-8") as file:
        return model.built(json.load(file))


def script_of(complgen: str, shell: str, tree: str) -> str:
    words = [complgen, "script", "--shell", shell, "--bin", model.BIN, tree]
    return subprocess.run(words, stdout=subprocess.PIPE, check=True).stdout.decode()


def version_of(name: str) -> str:
    flag = "-version" if name == "elvish" else "--version"
    text = subprocess.run([name, flag], stdout=subprocess.PIPE, check=True).stdout.decode()
    found = re.search(r"\d+(\.\d+)+", text)
    return found[0] if found else text


def seen(shell: shells.Shell, line: model.Line) -> Seen:
    """Types a line and presses Tab. Then the command line is empty."""
    if isinstance(shell, shells.Elvish):
        shells.unlink(shell.offers)
        after = (shell.tab(line.text)[0] or "").lstrip(shell.listed)
        offered = shell.offers_of(line.text, after)
    else:
        offered = shell.offered(line.text)
        after = shell.inserted(line.text) or ""
    shell.clear()
    texts = {}
    if shell.name == "fish" and os.path.exists(shell.offers):
        rows = [row.partition("\t") for row in shells.read(shell.offers).splitlines()]
        texts = {name: text for name, _, text in rows}
    return Seen(offered, after, texts)


def bare(words: List[str], line: model.Line) -> List[str]:
    """Returns words without the option before a `=` of the line, and without a `/` or `=` at the end, each once."""
    before = line.current[:line.current.find("=") + 1] if line.current.startswith("--") else ""
    without = [word[len(before):] if word.startswith(before) else word for word in words]
    return [word for word in dict.fromkeys(word.rstrip("/=") for word in without) if word]


def fault(name: str, line: model.Line, wanted: model.Expected, found: Seen) -> str:
    """Returns what is not as expected in the shell of this name, or an empty text."""
    offered, expected = bare(found.offered, line), bare(wanted.words, line)
    more, less = sorted(set(offered) - set(expected)), sorted(set(expected) - set(offered))
    if less or more and not wanted.more:
        return f"offers more {more[:9]}, less {less[:9]}"
    if name in ORDERED and offered != expected and model.FILE not in expected:
        return f"offers {offered[:9]}, not in the order {expected[:9]}"
    if found.line not in (wanted.line, wanted.other_line) and not wanted.more:
        return f"the line becomes {found.line!r}, not {wanted.line!r}"
    for name, text in found.texts.items():
        if wanted.texts.get(name) is not None and wanted.texts[name] != text:
            return f"describes {name!r} as {text!r}, not as {wanted.texts[name]!r}"
    return ""


def tried(shell: shells.Shell, root: model.Node, line: model.Line, version: str) -> Outcome:
    """Types a line, and once more if it is not as expected."""
    wanted, told = RULES[shell.name].expected(root, line, version), ""
    rows = wanted.rows + ((HIDDEN,) if root.hidden_names() & set(wanted.words) else ())
    for _ in range(2):
        told = fault(shell.name, line, wanted, seen(shell, line))
        if not told:
            return Outcome("listed difference" if rows else "as expected", "", rows, wanted.more)
    return Outcome("unexplained", told, rows, wanted.more)
