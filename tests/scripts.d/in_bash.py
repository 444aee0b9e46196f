"""What bash offers with a script: the section on bash in docs/TEXTS.md, and the manual's Programmable Completion.

bash splits words at `=` and `:`, and such a sign is a word by itself. If the function offers nothing, bash completes
files (`-o bashdefault -o default`). It knows the script of a program by the name or a path to it, not behind `sudo`.
"""

from __future__ import annotations

import re
from typing import List, Tuple

from model import Expected, Json, Line, Node, after_tab, dashed, files, shown_values

# Rows of docs/DIFFERENCES.md.
BLANKS, HINTS_ARE_FILES, POSITIONALS, AFTER_EQUALS, HIDDEN_VALUES, BEHIND_DASHES, WORDS_SELECT = range(38, 45)
PATHS = ("Unknown", "Other", "AnyPath", "FilePath", "DirPath", "ExecutablePath")


def expected(root: Node, line: Line, version: str) -> Expected:
    words, current, previous = split(line)
    if line.before[0] == "sudo":
        found = files(current, hidden=True)
        return Expected(found, after_tab(line.text, current, found), ())
    node, level = root, 1
    rows: Tuple[int, ...] = ()
    for at, word in enumerate(words[1:]):
        below = node.child(word)
        if below:
            rows += (WORDS_SELECT,) if words[at] in option_names(node) else ()
            node, level = below, level + 1
    option = next((arg for arg in node.options if previous in dashed(arg)), None)
    if current.startswith("-") or len(words) == level or not option:
        found, ending = [word for word in offered(node) if word.startswith(current)], " "
        rows += rows_of_names(node, line, current, found)
    else:
        found, ending, more = values(option, current)
        rows += more
    if not found:
        found, ending = files(current, hidden=True), " "
    return Expected(found, after_tab(line.text, current, found, ending), rows)


def split(line: Line) -> Tuple[List[str], str, str]:
    """Returns the words before the current one, the current one, and the one before it."""
    words = [part for word in line.before for part in re.findall("[=:]+|[^=:]+", word)]
    parts = re.findall("[=:]+|[^=:]+", line.current)
    words += parts[:-1]
    if parts and parts[-1][0] in "=:":
        return words, "", words[-1]
    return words, parts[-1] if parts else "", words[-1]


def offered(node: Node) -> List[str]:
    """Returns the list `opts` of a command. Aliases come before the name."""
    shorts = [name for arg in node.args for name in reversed_names(arg) if len(name) == 2]
    longs = [name for arg in node.args for name in reversed_names(arg) if len(name) > 2]
    named = [part for arg in node.positionals for value in arg.get("possible_values", ())
             for part in value["name"].split()]
    return shorts + longs + named + node.child_names()


def reversed_names(arg: Json) -> List[str]:
    names = dashed(arg)
    shorts = [name for name in names if not name.startswith("--")]
    longs = [name for name in names if name.startswith("--")]
    return shorts[1:] + shorts[:1] + longs[1:] + longs[:1]


def option_names(node: Node) -> List[str]:
    return [name for arg in node.options for name in dashed(arg)]


def rows_of_names(node: Node, line: Line, current: str, found: List[str]) -> Tuple[int, ...]:
    rows = []
    if line.current.partition("=")[2] and line.current.startswith("--"):
        rows.append(AFTER_EQUALS)
    if "--" in line.before:
        rows.append(BEHIND_DASHES)
    if not node.children and not current.startswith("-"):
        rows.append(POSITIONALS)
    values_of_all = [value for arg in node.positionals for value in arg.get("possible_values", ())]
    hidden = {value["name"] for value in values_of_all if value.get("hide")}
    if hidden & set(found):
        rows.append(HIDDEN_VALUES)
    return tuple(rows)


def values(option: Json, current: str) -> Tuple[List[str], str, Tuple[int, ...]]:
    """Returns what is offered as the value of an option, what follows it, and the rows."""
    shown, hint = shown_values(option), option.get("value_hint", "Unknown")
    if shown is not None:
        parts = [part for value in shown for part in value["name"].split()]
        rows = (BLANKS,) if any(" " in value["name"] for value in shown) else ()
        return [part for part in parts if part.startswith(current)], " ", rows
    if hint == "DirPath":
        return files(current, only_directories=True), " ", ()
    if hint == "Other":
        return [current], "", ()
    found = files(current, hidden=True)
    if hint != "FilePath":
        found = [name.rstrip("/") for name in found]
    return found, " ", () if hint in PATHS else (HINTS_ARE_FILES,)
