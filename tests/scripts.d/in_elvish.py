"""What Elvish offers with a script: the section on Elvish in docs/TEXTS.md, and the reference of its editor.

The words up to the first one with a hyphen name a table. Elvish offers the words of that table that begin with the
current one. A Tab inserts their common beginning, or lists them if there is none, and adds no space. `sudo` completes
what is behind it. The script is registered for the name of the program, so a path to it completes files.
"""

from __future__ import annotations

import itertools
from typing import Tuple

from model import Expected, Line, Node, after_tab, dashed, files

# Rows of docs/DIFFERENCES.md.
AFTER_POSITIONALS, AFTER_OPTIONS, PATHS = 45, 46, 47


def expected(root: Node, line: Line, version: str) -> Expected:
    words = line.before[1:] if line.before[0] == "sudo" else line.before
    if "/" in words[0]:
        found = files(line.current)
        return Expected(found, after_tab(line.text, line.current, found, ""), (PATHS,))
    path = list(itertools.takewhile(lambda word: not word.startswith("-"), words[1:]))
    node = root.at(path)
    rows: Tuple[int, ...] = (AFTER_OPTIONS,) if len(path) < len(words) - 1 else ()
    if node is None:
        return Expected([], line.text, (*rows, AFTER_POSITIONALS))
    table = [name for arg in node.options + node.flags for name in dashed(arg)] + node.child_names()
    found = [name for name in table if name.startswith(line.current)]
    if not found and not line.current.startswith("-") or "=" in line.current:
        rows += (AFTER_POSITIONALS,) if "=" not in line.current else (AFTER_OPTIONS,)
    return Expected(found, after_tab(line.text, line.current, found, ""), rows)
