#!/usr/bin/env python3
"""Draws the pictures of the pages from sessions of real shells.

    tools/demo.py [--write | --check]

- docs/demo.svg, of the README: a tree file of ten lines, and what bash, zsh and fish show for it when a user types
  `app --color=` and Tab.
- docs/file-name.svg, of docs/SECURITY.md: what bash and zsh do with `app x` and Tab in a directory with the file
  `x$(touch hit)`.

It starts the shells in a pseudo terminal, with the registration that `complgen` writes, and draws their screens. So
the pictures show what the shells printed. Grey texts at the right are added: they show which keys followed.

Without an option, it prints the screens. --write draws the pictures. --check compares the pictures with new sessions,
and ends with status 1 if they differ. A picture that other versions of the shells drew is not compared. It needs the
proved `complgen`, bash, zsh and fish. tests/shells.py runs the shells.
"""

from __future__ import annotations

import argparse
import functools
import html
import os
import re
import subprocess
import sys
import time
from typing import Any, Callable, Dict, List, NamedTuple, Optional, Sequence, Tuple, Type

sys.path.append(os.path.join(os.path.dirname(os.path.realpath(__file__)), "..", "tests"))
import common
import shells

ROWS, COLUMNS = 16, 48
FILE = "x$(touch hit)"
TREE = """{"name": "app", "args": [
  {"id": "color", "long": "color",
   "help": "When to use colours",
   "possible_values": [
     {"name": "auto", "help": "On a terminal"},
     {"name": "always", "help": "Into files too"},
     {"name": "never", "help": "Not at all"}]},
  {"id": "file",
   "help": "What to read",
   "value_hint": "AnyPath"}]}
"""
VALUES = ("auto", "always", "never")
# The parts of a text of a terminal: a control sequence, a command to the terminal, a short escape, a control
# character, other text.
PARTS = re.compile(
    r"\x1b\[(?P<words>[?>]?[\d;]*)(?P<final>[@-~])|\x1b\][^\x07\x1b]*(?:\x07|\x1b\\)|\x1b[=>]|\x1b[()].|"
    r"(?P<control>[\x00-\x1f\x7f])|(?P<text>[^\x00-\x1f\x7f]+)")
# An escape that is cut off at the end of a text.
UNFINISHED = re.compile(r"\x1b(?:\[[?>]?[\d;]*|\][^\x07\x1b]*\x1b?|[()])?\Z")


class Typed(NamedTuple):
    """What was typed into a row of the screen."""

    row: int
    text: str


class Session(NamedTuple):
    """The lines of a screen, and what was typed."""

    lines: List[str]
    typed: List[Typed]


# ---- a terminal

class Screen:
    """The part of a terminal that the shells use. It refuses all other sequences."""

    def __init__(self) -> None:
        self.row, self.column, self.rest = 0, 0, b""
        self.cells = [[" "] * COLUMNS for _ in range(ROWS)]

    def lines(self) -> List[str]:
        """Returns the lines, up to the last one with text."""
        lines = ["".join(row).rstrip() for row in self.cells]
        while lines and not lines[-1]:
            lines.pop()
        return lines

    def feed(self, data: bytes) -> None:
        """Shows what a shell prints."""
        text = (self.rest + data).decode("utf-8", "replace")
        unfinished = UNFINISHED.search(text)
        self.rest = unfinished.group().encode() if unfinished else b""
        for part in PARTS.finditer(UNFINISHED.sub("", text)):
            if part["text"]:
                self.put(part["text"])
            elif part["control"]:
                self.control(part["control"])
            elif part["final"]:
                self.sequence(part["final"], part["words"])

    def put(self, text: str) -> None:
        for letter in text:
            if self.column == COLUMNS:
                self.row, self.column = self.row + 1, 0
            self.cells[self.row][self.column] = letter
            self.column += 1

    def control(self, sign: str) -> None:
        if sign == "\r":
            self.column = 0
        elif sign == "\n":
            self.row += 1
            if self.row == ROWS:
                raise ValueError("the picture has too few rows")
        elif sign == "\b":
            self.column = max(self.column - 1, 0)
        elif sign not in "\x07\x00":
            raise ValueError(f"a control character that this terminal does not know: {sign!r}")

    def sequence(self, final: str, words: str) -> None:
        if final in "hlm" or words[:1] in ("?", ">"):  # modes and colours
            return
        number = int(words.partition(";")[0] or 0)
        known: Dict[str, Callable[[int], None]] = {
            "A": lambda rows: self.move(-(rows or 1), 0), "B": lambda rows: self.move(rows or 1, 0),
            "C": lambda cells: self.move(0, cells or 1), "D": lambda cells: self.move(0, -(cells or 1)),
            "G": lambda column: self.move(0, (column or 1) - 1 - self.column),
            "H": lambda _: self.move(-self.row, -self.column), "J": self.erase_rows, "K": self.erase_cells,
            "P": self.delete, "@": self.insert,
        }
        if final not in known or final == "H" and words not in ("", "1;1"):
            raise ValueError(f"a sequence that this terminal does not know: {words}{final}")
        known[final](number)

    def move(self, rows: int, cells: int) -> None:
        self.row = min(max(self.row + rows, 0), ROWS - 1)
        self.column = min(max(self.column + cells, 0), COLUMNS - 1)

    def erase_cells(self, kind: int) -> None:
        begin, end = ((self.column, COLUMNS), (0, self.column + 1), (0, COLUMNS))[kind]
        self.cells[self.row][begin:end] = [" "] * (end - begin)

    def erase_rows(self, kind: int) -> None:
        if kind == 0:
            self.erase_cells(0)
        for row in range(0 if kind else self.row + 1, ROWS):
            self.cells[row] = [" "] * COLUMNS

    def delete(self, number: int) -> None:
        row, number = self.cells[self.row], number or 1
        row[self.column:] = row[self.column + number:] + [" "] * number
        del row[COLUMNS:]

    def insert(self, number: int) -> None:
        row = self.cells[self.row]
        row[self.column:self.column] = [" "] * (number or 1)
        del row[COLUMNS:]


# ---- the sessions

class Shown(shells.Shell):
    """A shell whose screen is kept."""

    # The prompt, the command that sets it, and how many Tabs list values.
    prompt = ""
    prompt_line = ""
    tabs = 1
    screen: Optional[Screen] = None

    def begin(self) -> None:
        """Clears the screen, and sets the prompt."""
        self.screen = Screen()
        self.typed: List[Typed] = []
        self.settle(0.3)
        self.send(f"{self.prompt_line}; printf '\\033[H\\033[2J'\r")
        self.expect(lambda lines: lines == [self.prompt.rstrip()])

    def read(self, seconds: float) -> bool:
        before = len(self.seen)
        is_read = super().read(seconds)
        if is_read and self.screen:
            self.screen.feed(self.seen[before:])
        return is_read

    def lines(self) -> List[str]:
        return self.screen.lines() if self.screen else []

    def expect(self, holds: Callable[[List[str]], bool]) -> None:
        """Waits until something holds of the lines of the screen, and the shell prints no more."""
        end = time.monotonic() + shells.LONGEST
        while not holds(self.lines()) or self.read(0.3):
            if time.monotonic() > end:
                raise shells.Ended(f"{self.name} shows something else:\n" + "\n".join(self.lines()))
            self.read(0.05)

    def type(self, text: str, tabs: int, shown: str = "") -> None:
        """Types a text at the prompt, and Tabs. Keeps the row of it, and that these Tabs follow what is shown."""
        self.send(text)
        self.expect(lambda lines: lines[-1] == self.prompt + text)
        self.typed.append(Typed(len(self.lines()) - 1, shown + " ".join(["[Tab]"] * tabs)))
        self.send("\t" * tabs)

    def colours(self) -> None:
        """Has the shell list values."""
        self.type("app --color=", self.tabs)
        self.expect(lambda lines: all(any(it in line for line in lines) for it in VALUES))

    def file(self) -> None:
        """Has the shell insert the name of the file, runs the command, and lists the directory."""
        self.type("app x", 1, "typed: app x ")
        line = f"{self.prompt}app x\\$\\(touch\\ hit\\)"
        self.expect(lambda lines: lines[-1] == line)
        self.send("\r")
        self.expect(lambda lines: lines[-2:] == [f"received: {FILE}", self.prompt.rstrip()])
        self.send("ls\r")
        self.expect(lambda lines: lines[-1] == self.prompt.rstrip() and lines[-3] == self.prompt + "ls")


class ShownBash(Shown, shells.Bash):
    """bash. It lists at the second Tab, and then shows the command line again."""

    prompt, prompt_line, tabs = "bash$ ", "PS1='bash$ '", 2


class ShownZsh(Shown, shells.Zsh):
    """zsh. It lists below the command line."""

    prompt, prompt_line = "zsh% ", "PS1='zsh%% '"


class ShownFish(Shown, shells.Fish):
    """fish. It lists below the command line."""

    prompt, prompt_line = "fish> ", "function fish_prompt; printf 'fish> '; end"


def session(kind: Type[Shown], play: Callable[[Any], None], complgen: str) -> Session:
    """Runs a session."""
    scratch = shells.TreeScratch(complgen)
    scratch.columns = COLUMNS
    with scratch:
        scratch.script("app", "#!/bin/sh\nprintf 'received: %s\\n' \"$@\"\n")
        os.unlink(os.path.join(scratch.bin, "touch"))  # the session has the system's
        shells.write(os.path.join(scratch.trees, "app.json"), TREE)
        shells.write(os.path.join(scratch.here, FILE), "")
        shell = kind(scratch, scratch.written(kind.name))
        with shell:
            shell.begin()
            play(shell)
        if os.listdir(scratch.here) != [FILE]:
            raise shells.Ended(f"{shell.name}: something ran: {os.listdir(scratch.here)}")
        return Session(shell.lines(), shell.typed)


def sessions(kinds: Sequence[Type[Shown]], play: Callable[[Any], None], complgen: str) -> List[Session]:
    """Runs the session of each shell, once more if a shell does not do what is expected."""
    found = []
    for kind in kinds:
        try:
            found.append(session(kind, play, complgen))
        except shells.Ended:
            found.append(session(kind, play, complgen))
    return found


# ---- the picture

LINE, MARGIN, LETTER = 19, 14, 7.85
LEFT = 14 + int(max(map(len, TREE.split("\n"))) * LETTER) + 14
RIGHT = 14 + int(COLUMNS * LETTER) + 14
HEAD = """<svg xmlns="http://www.w3.org/2000/svg" width="{width}" height="{height}" viewBox="0 0 {width} {height}" \
role="img">
<title>{title}</title>
<desc>{versions}</desc>
<style>
  text {{ font: 13px ui-monospace, "DejaVu Sans Mono", Menlo, Consolas, monospace; fill: #e6e6e6; white-space: pre }}
  .typed, .name {{ fill: #9aa0a6 }}
  .typed {{ text-anchor: end }}
</style>
"""


def picture(title: str, text: str, found: List[Session]) -> str:
    """Returns the picture of a file, and of screens at its right, one below the other."""
    x = LEFT + MARGIN if text else 0
    top, parts = 0, []
    for screen in found:
        height = 2 * MARGIN + LINE * len(screen.lines)
        parts.append(f'<rect x="{x}" y="{top}" width="{RIGHT}" height="{height}" rx="8" fill="#1f2328"/>')
        for at, line in enumerate(screen.lines):
            parts.append(text_at(x + MARGIN, base(top, at), line, ""))
        for row, typed in screen.typed:
            parts.append(text_at(x + RIGHT - MARGIN, base(top, row), typed, ' class="typed"'))
        top += height + MARGIN
    height = top - MARGIN
    if text:
        parts.append(f'<rect width="{LEFT}" height="{height}" rx="8" fill="#1f2328"/>')
        for at, line in enumerate(["app.json", "", *text.split("\n")]):
            parts.append(text_at(MARGIN, base(0, at), line, "" if at else ' class="name"'))
    head = HEAD.format(width=x + RIGHT, height=height, title=title, versions=versions())
    return head + "\n".join(parts) + "\n</svg>\n"


@functools.lru_cache(maxsize=None)
def versions() -> str:
    """Returns the versions of the shells, which may list in another way."""
    found = []
    for name in ("bash", "zsh", "fish"):
        text = subprocess.run([name, "--version"], stdout=subprocess.PIPE, check=True, text=True).stdout
        found.append(f"{name} {re.findall(r'[0-9]+(?:[.][0-9]+)+', text)[0]}")
    return ", ".join(found)


def pictures(complgen: str) -> Dict[str, Tuple[str, List[Session]]]:
    """Returns the pictures by their paths, each with its sessions."""
    shown = sessions((ShownBash, ShownZsh, ShownFish), Shown.colours, complgen)
    safe = sessions((ShownBash, ShownZsh), Shown.file, complgen)
    return {
        "docs/demo.svg": (picture("A tree file, and Tab in bash, zsh and fish", TREE, shown), shown),
        "docs/file-name.svg": (picture("A hostile file name in bash and zsh", "", safe), safe),
    }


def base(top: int, row: int) -> int:
    """Returns where a row of a screen stands in the picture."""
    return top + MARGIN + LINE * row + 15


def text_at(x: int, y: int, text: str, more: str) -> str:
    return f'<text x="{x}" y="{y}"{more} xml:space="preserve">{html.escape(text, quote=False)}</text>'


def main() -> int:
    parser = argparse.ArgumentParser(usage=common.usage(__doc__))
    way = parser.add_mutually_exclusive_group()
    way.add_argument("--write", action="store_true")
    way.add_argument("--check", action="store_true")
    options = parser.parse_args()
    differing = 0
    for name, (drawn, found) in pictures(common.program("complgen")).items():
        path = os.path.join(common.TOP, name)
        if options.write:
            shells.write(path, drawn)
            print(name)
            continue
        old = shells.read(path) if os.path.exists(path) else ""
        if options.check and old and f"<desc>{versions()}</desc>" not in old:
            print(f"{name} was drawn with other shells than {versions()}, so it is not compared")
            continue
        is_equal = old == drawn
        if not options.check or not is_equal:
            print("\n\n".join("\n".join(screen.lines) for screen in found))
        if options.check:
            print(f"{name} {'shows the sessions' if is_equal else 'differs: run tools/demo.py --write'}")
            differing += not is_equal
    return 1 if differing else 0


if __name__ == "__main__":
    sys.exit(main())
