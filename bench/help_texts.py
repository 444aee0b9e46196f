"""Reads directories of help texts with the package `importer`, for the scripts that measure it.

A directory has the text of a program in `help.txt`, and that of a subcommand in `SUB/help.txt`. `capture_truths.py`
makes such directories. The variable IMPORTER names the directory of another package `importer`.
"""

from __future__ import annotations

import os
import re
import sys
import time
from typing import Any, Dict, Iterator, List, NamedTuple, Tuple

sys.path.append(os.path.join(os.path.dirname(os.path.realpath(__file__)), "..", "tools"))
import common

sys.path.insert(0, os.path.realpath(os.environ.get("IMPORTER") or common.TOP))
from importer.read import read_help
from importer.records import Dropped, HelpText
from importer.tree import tree_and_clashes, written

Node = Dict[str, Any]
Path = Tuple[str, ...]
PLAIN = re.compile(r"[A-Za-z0-9]+([-_][A-Za-z0-9]+)*")
TEXT_NAME = "help.txt"


class Imported(NamedTuple):
    """What a directory of help texts gives."""

    tree: Node
    file: bytes
    texts: int
    dropped: List[Dropped]
    seconds: float


def plain_name(name: str) -> str:
    """Returns a plain name for a program."""
    return re.sub(r"[^A-Za-z0-9]+", "-", name).strip("-") or "app"


def texts_in(folder: str, path: Path) -> Iterator[Tuple[Path, bytes]]:
    """Yields the help texts in a directory and below it, with the names that lead to each."""
    for place, folders, names in os.walk(folder):
        folders[:] = sorted(name for name in folders if PLAIN.fullmatch(name))
        below = os.path.relpath(place, folder)
        if TEXT_NAME in names:
            with open(os.path.join(place, TEXT_NAME), "rb") as file:
                yield (*path, *(() if below == "." else below.split(os.sep))), file.read()


def imported(folder: str, name: str) -> Imported:
    """Reads a directory. The seconds are those of the processor, without reading the files."""
    texts = dict(texts_in(folder, (name,)))
    start = time.process_time()
    said = {path: read_help(data, path) for path, data in texts.items()}
    tree = tree_and_clashes((name,), {(name,): HelpText(), **said})[0]
    file = written(tree)
    seconds = time.process_time() - start
    return Imported(tree, file, len(texts), [it for help_text in said.values() for it in help_text.dropped], seconds)
