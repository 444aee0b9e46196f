"""The help texts in a file, in a directory and those below it, or from the standard input."""

from __future__ import annotations

import contextlib
import os
import select
from typing import Dict, Iterator, List, Tuple

from importer.failures import Failure, stop_if_interrupted
from importer.programs import MOST_BYTES
from importer.read import read_help
from importer.records import HelpText, Path
from importer.text import is_plain

STANDARD_INPUT = "-"
TEXT_NAME = "help.txt"
MOST_FOLDERS, MOST_LEVELS = 2000, 16


def read_files(files: Dict[Path, str], one_hyphen: bool = False) -> Dict[Path, HelpText]:
    """Returns the help texts in some files. The text of a subcommand has its path."""
    return {path: read_help(file_bytes(file), path, one_hyphen) for path, file in files.items()}


def files_at(place: str, name: str) -> Dict[Path, str]:
    """Returns the file of each help text at a place."""
    if place == STANDARD_INPUT or not os.path.isdir(place):
        return {(name,): place}
    folders = folders_at(place, name)
    files = {path: os.path.join(folder, TEXT_NAME) for folder, path in folders}
    found = {path: file for path, file in files.items() if os.path.isfile(file)}
    if not found:
        raise Failure(f"{place}: help texts: none")
    return found


def folders_at(place: str, name: str) -> List[Tuple[str, Path]]:
    """Returns a directory and those with plain names below it. Links are not followed."""
    found: List[Tuple[str, Path]] = [(place, (name,))]
    # The list grows in the loop.
    for count, (folder, path) in enumerate(found, 1):
        if count > MOST_FOLDERS:
            raise Failure(f"{place}: help texts: more than 2,000 directories")
        if len(path) > MOST_LEVELS:
            raise Failure(f"{place}: help texts: more than 16 levels of directories")
        found += [(it.path, (*path, it.name)) for it in sorted(os.scandir(folder), key=lambda it: it.name)
                  if it.is_dir(follow_symlinks=False) and is_plain(it.name)]
    return found


def file_bytes(path: str) -> bytes:
    """Returns the bytes of a help text in a file."""
    try:
        with opened(path) as file:
            data = read_whole(file)
    except OSError:
        raise Failure(f"{path}: help text: unreadable") from None
    if len(data) > MOST_BYTES:
        raise Failure(f"{path}: help text: longer than 1 MiB")
    return data


@contextlib.contextmanager
def opened(path: str) -> Iterator[int]:
    """Opens a file. A pipe is opened without waiting for its writer, for which `read_whole` waits."""
    if path == STANDARD_INPUT:
        yield 0
        return
    file = os.open(path, os.O_RDONLY | os.O_NONBLOCK | os.O_CLOEXEC)
    try:
        yield file
    finally:
        os.close(file)


def read_whole(file: int) -> bytes:
    """Reads a file up to its end or to the limit. A signal ends it, also while it waits for input."""
    data = bytearray()
    while len(data) <= MOST_BYTES:
        stop_if_interrupted()
        if select.select([file], [], [], 0.1)[0]:
            part = os.read(file, 1 << 16)
            if not part:
                break
            data += part
    return bytes(data)
