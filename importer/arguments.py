"""The command line: which words it accepts, and what they mean."""

from __future__ import annotations

import argparse
import os
import re
from typing import Callable, List, NoReturn

from importer.failures import PROGRAM, write_out
from importer.text import shown
from importer.walk import MOST_DEPTH

EPILOG = """Start a new shell afterwards. Live completion has to be set up, in bash by this line in
~/.bashrc: source <(COMPLETE=bash complgen)"""


class Parser(argparse.ArgumentParser):
    """A parser whose messages have no control characters, because they repeat words of the command line."""

    def error(self, message: str) -> NoReturn:
        """Ends with a message and the status 2."""
        super().error(shown(message))

    def print_help(self, file: object = None) -> None:
        """Prints the help text."""
        write_out(self.format_help())


def parser() -> Parser:
    """Returns the parser of the command line."""
    made = Parser(prog=PROGRAM, allow_abbrev=False, formatter_class=argparse.RawDescriptionHelpFormatter,
                  description="Makes tree files for installed programs from their help texts.", epilog=EPILOG)
    made.add_argument("programs", nargs="+", metavar="PROGRAM",
                      help="a program on the PATH, or the path of one, with a plain name")
    add_reading(made)
    add_writing(made)
    return made


def add_reading(made: Parser) -> None:
    """Adds the options that say what is run and read."""
    what, add = made.add_mutually_exclusive_group(), made.add_argument
    what.add_argument("--walk", action="store_true",
                      help="also run each subcommand that the help text lists, with the same flag")
    what.add_argument("--texts", metavar="PATH",
                      help="run nothing: read the help text in this file or directory (- for the standard input), and "
                           "print the tree file. With --out-dir, --onto or --force, write it")
    what.add_argument("--undo", action="store_true", help="remove the tree files that complgen-import wrote")
    add("--depth", type=whole(1, MOST_DEPTH), default=4, metavar="N",
        help="with --walk: the greatest number of subcommands in a call (default: 4)")
    add("--jobs", type=whole(1, 256), default=len(os.sched_getaffinity(0)), metavar="N",
        help="with --walk: how many run at once (default: one for each processor)")
    add("--list", action="store_true", help="with --texts: only print the subcommands that have no help text there")
    add("--flag", default="--help", metavar="FLAG",
        help="the word that makes a program print its help text (default: --help)")
    add("--one-hyphen", action="store_true",
        help="read names such as -name as --name, for programs that accept both")
    add("--cobra", action="store_true",
        help="let the program complete its values itself at a Tab. It is run once with the words __complete and ''")
    add("--seconds", type=whole(1, 600), default=5, metavar="N", help="the time for each help text (default: 5)")
    add("--own-home", action="store_true", help="run programs with your home directory instead of an empty one")


def add_writing(made: Parser) -> None:
    """Adds the options that say what is written."""
    existing, add = made.add_mutually_exclusive_group(), made.add_argument
    existing.add_argument("--force", action="store_true",
                          help="replace a tree file that exists. With --undo, also remove one that you changed")
    existing.add_argument("--onto", action="store_true",
                          help="keep everything in a tree file that exists, and add what is new")
    add("--out-dir", metavar="DIR", help="the directory of the tree files (default: ~/.local/share/complgen)")
    add("--strict", action="store_true", help="write nothing if a line was dropped")
    add("--verbose", action="store_true", help="print each line that was dropped")


def whole(least: int, most: int) -> Callable[[str], int]:
    """Returns a parser of whole numbers in a range."""
    def number(text: str) -> int:
        if re.fullmatch("[0-9]{1,4}", text) and least <= int(text) <= most:
            return int(text)
        raise argparse.ArgumentTypeError(f"expected a whole number from {least} to {most}")
    return number


def joined(words: List[str]) -> List[str]:
    """Returns the words with the value of `--flag` joined to it, because it may begin with a hyphen."""
    if "--flag" not in words[:-1]:
        return words
    at = words.index("--flag")
    return [*words[:at], "--flag=" + words[at + 1], *words[at + 2:]]


def arguments(words: List[str]) -> argparse.Namespace:
    """Returns what the command line asks for. Ends with the status 2 if it does not accept the words."""
    made = parser()
    options = made.parse_args(joined(words))
    faults = {
        "--texts takes one PROGRAM": options.texts is not None and len(options.programs) > 1,
        "--list needs --texts": options.list and options.texts is None,
        "--undo and --onto exclude each other": options.undo and options.onto,
        "--cobra runs the program, which --texts and --undo do not": options.cobra and (
            options.texts is not None or options.undo),
        "the flag is empty": not options.flag,
    }
    for fault in (text for text, holds in faults.items() if holds):
        made.error(fault)
    return options
