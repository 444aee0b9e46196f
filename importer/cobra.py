"""Values that a program of Cobra computes itself, at a Tab.

Cobra gives each of its programs a hidden subcommand `__complete`, which prints the completions of the words after it,
and `:N` as its last line. A program is asked once whether it answers, and only if its help text has Cobra's form, or if
the caller says so: another program may act on these words.
"""

from __future__ import annotations

import os
import re
import shutil
from typing import List, Optional

from importer.failures import Failure, report
from importer.programs import Call, Limits, Program
from importer.records import HelpText
from importer.text import clean_lines
from importer.tree import Node
from importer.values import PATHS

# The last line of a help text of Cobra that lists subcommands, and one of these.
LAST_LINE = re.compile('Use "([^"]+)" for more information about a command[.]')
LAST_WORDS = " [command] --help"
SCRIPTS = "completion"
COMPLETE = "__complete"
DIRECTIVE = re.compile(rb":[0-9]{1,5}")
NO_DIRECTIVE = "its last line is not one such as :4"


def has_form(out: bytes, said: HelpText) -> bool:
    """Tells whether a help text has Cobra's form: its last line, and a subcommand that prints scripts."""
    last = LAST_LINE.fullmatch(clean_lines(out.rstrip().rpartition(b"\n")[2])[0])
    is_listed = any(SCRIPTS in command.names for command in said.commands)
    return last is not None and last[1].endswith(LAST_WORDS) and is_listed


def words_of(program: Program, home: str, limits: Limits, is_required: bool) -> Optional[List[str]]:
    """Asks a program whether it answers. Returns the words that a shell runs before the typed ones. If there is no
    answer, this fails if one is required, and else reports it."""
    call = Call([program.name, COMPLETE, ""], program.path, home, limits)
    reason = reason_of(call)
    if reason and is_required:
        raise Failure(f"{reason}; without --cobra, only the help text is used")
    if reason:
        report(f"{reason}; so no values come from {program.name} itself")
        return None
    if not is_found(program):
        report(f"{program.name}: at a Tab, it is looked up in PATH, which does not find {program.path}")
    return [program.name, COMPLETE]


def reason_of(call: Call) -> str:
    """Runs a program. Returns why what it prints is no answer, or an empty text."""
    try:
        call.texts()
    except Failure as failure:
        return str(failure)
    last = next((line for line in reversed(call.out.split(b"\n")) if line.strip()), b"")
    return "" if DIRECTIVE.fullmatch(last) else f"{call.title}: {NO_DIRECTIVE}"


def is_found(program: Program) -> bool:
    """Tells whether a shell that looks up the name of a program finds this one."""
    found = shutil.which(program.name)
    return found is not None and os.path.realpath(found) == os.path.realpath(program.path)


def add_source(node: Node, words: List[str]) -> None:
    """Makes these words the source of values of each argument below a command whose help text gives none. A hint of
    paths stays alone, because the shell completes these without the program."""
    for argument in filter(is_open, node.get("args", [])):
        argument.update(values_from=words, values_words=True, values_protocol="cobra")
    for child in node.get("subcommands", []):
        add_source(child, words)


def count(node: Node, words: List[str]) -> int:
    """Returns how many arguments below a command have this source."""
    return (sum(argument.get("values_from") == words for argument in node.get("args", []))
            + sum(count(child, words) for child in node.get("subcommands", [])))


def is_open(argument: Node) -> bool:
    """Tells whether an argument takes values, and the help text tells neither the values nor that they are paths."""
    return ("action" not in argument and "possible_values" not in argument
            and argument.get("value_hint") not in (*PATHS, "ExecutablePath"))
