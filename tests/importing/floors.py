"""Floors: the names of known programs, in the layouts of eight formats, of which so many have to be found.

`truth.json` in each directory of tests/import.d has the names of programs that use the format, as their parsers accept
them. Their texts are not kept. They are laid out here from the names, as the format does it, for a narrow terminal and
a wide one, with invented help texts. argparse itself prints its texts.
"""

from __future__ import annotations

import argparse
import json
import os
import textwrap
from typing import Any, Callable, Dict, Iterator, List, NamedTuple, Set, Tuple

from importing.room import Node, Room, TEXTS, names_of, number_of_values, write_bytes

WIDTHS = (80, 200)
ABOUTS = ("Keep what is there.", "Say more.", "The order of the parts, from the first to the last one that is left over.",
          "Which of them count, and how often each of them does.", "Do not ask.")
# The options that a layout adds itself.
OWN = {"-h", "--help"}


class Option(NamedTuple):
    """An option: its names, `=` or `[=` or nothing before the name of its value, and this name."""

    names: List[str]
    mark: str
    value: str

    def longs(self) -> List[str]:
        """Returns the long names."""
        return [name for name in self.names if name.startswith("--")]

    def number(self) -> List[str]:
        """Returns the number of values as a row of a tree has it."""
        return {"": [], "=": ["=1"], "[=": ["=0..1"]}[self.mark]


class Command(NamedTuple):
    """A command: the words that lead to it, its options, and its subcommands."""

    path: List[str]
    options: List[Option]
    children: List[str]


def option_of(text: str) -> Option:
    """Reads an option of a truth, as `-o --output =FILE`, `--color [=WHEN]` or `--fast/--safe`."""
    names, between, value = text.partition(" [=" if " [=" in text else " =")
    return Option(names.replace("/", " ").split(), between.strip(), value[:-1] if between == " [=" else value)


# ---- layouts

Layout = Callable[[Command, int], str]


def about(at: int) -> str:
    """Returns one of the invented help texts."""
    return ABOUTS[at % len(ABOUTS)]


def columns(heads: List[str], column: int, width: int, indent: str = "  ") -> Iterator[str]:
    """Yields heads with help texts in a column. The help text of a long head begins in the next line."""
    for at, head in enumerate(heads):
        lines = textwrap.wrap(about(at), max(width - column, 20))
        if len(head) > column - 2:
            yield indent + head
        else:
            yield f"{indent}{head:{column}}{lines.pop(0)}"
        yield from (indent + " " * column + line for line in lines)


def longest(heads: List[str]) -> int:
    """Returns the column behind the longest head."""
    return max(map(len, heads), default=0) + 2


def indented_pair(option: Option, between: str = ", ") -> str:
    """Returns the names of an option. A long name without a short one is indented as if there were one."""
    return (" " * len("-x" + between) if option.names[0].startswith("--") else "") + between.join(option.names)


def of_argparse(command: Command, width: int) -> str:
    """argparse."""
    os.environ["COLUMNS"] = str(width)
    parser = argparse.ArgumentParser(prog=" ".join(command.path), description="Does it.")
    for at, option in enumerate(command.options):
        values: Dict[str, Any] = {"metavar": option.value}
        if "|" in option.value:
            values = {"choices": option.value.split("|")}
        how = {"": {"action": "store_true"}, "=": values, "[=": {**values, "nargs": "?"}}[option.mark]
        parser.add_argument(*option.names, help=about(at), **how)
    if command.children:
        below = parser.add_subparsers(dest="command")
        for at, name in enumerate(command.children):
            below.add_parser(name, help=about(at))
    return parser.format_help()


def of_click(command: Command, width: int) -> str:
    """click: a negative flag follows after a slash, and long heads have their help text below."""
    heads = []
    for option in command.options:
        value = f" [{option.value}]" if "|" in option.value else f" {option.value}" if option.mark else ""
        is_pair = len(option.names) == 2 and not option.mark and option.names[0].startswith("--")
        heads.append((" / " if is_pair else ", ").join(option.names) + value)
    lines = [f"Usage: {' '.join(command.path)} [OPTIONS]" + (" COMMAND [ARGS]..." if command.children else ""), "",
             "  Does it.", "", "Options:", *columns([*heads, "--help"], min(longest(heads), 30), min(width, 80))]
    lines += ["", "Commands:", *columns(command.children, longest(command.children), width)] if command.children else []
    return "\n".join(lines) + "\n"


def of_clap(command: Command, width: int) -> str:
    """clap: help texts beside the options, or on a narrow terminal below them, as in long help texts."""
    heads = [indented_pair(option) + {"": "", "=": f" <{option.value}>", "[=": f"[=<{option.value}>]"}[option.mark]
             for option in command.options]
    lines = ["Does it.", "", f"Usage: {' '.join(command.path)} [OPTIONS]" + (" [COMMAND]" if command.children else "")]
    lines += ["", "Commands:", *columns(command.children, longest(command.children), width)] if command.children else []
    lines += ["", "Options:"]
    if width > 100:
        return "\n".join([*lines, *columns(heads, longest(heads), width)]) + "\n"
    return "\n".join([*lines, *(f"  {head}\n          {about(at)}\n" for at, head in enumerate(heads))])


def of_cobra(command: Command, width: int) -> str:
    """cobra: all help texts in one column, whatever the width."""
    heads = [indented_pair(option) + (f" {option.value}" if option.mark else "") for option in command.options]
    lines = ["Does it.", "", "Usage:", f"  {' '.join(command.path)} [flags]"]
    if command.children:
        lines += [f"  {' '.join(command.path)} [command]", "", "Available Commands:",
                  *columns(command.children, longest(command.children), 200)]
    lines += ["", "Flags:", *columns(heads, longest(heads), 200)] if heads else []
    return "\n".join([*lines, "", f'Use "{command.path[0]} [command] --help" for more information.', ""])


def of_getopt(command: Command, width: int) -> str:
    """GNU: values with `=` after the long name, and help texts in a column or below."""
    heads = []
    for option in command.options:
        value = {"": "", "=": f"={option.value}", "[=": f"[={option.value}]"}[option.mark]
        heads.append(indented_pair(option) + (value if option.longs() else value.replace("=", " ")))
    return "\n".join([f"Usage: {' '.join(command.path)} [OPTION]... [FILE]...", "Does it.", "",
                      *columns(heads, 27 if width < 100 else 36, width)]) + "\n"


def of_git(command: Command, width: int) -> str:
    """git: options in the usage of the program, and in a list for its commands."""
    if command.children:
        items = [" | ".join(option.names) + {"": "", "=": f" <{option.value}>", "[=": f"[=<{option.value}>]"}[option.mark]
                 for option in command.options]
        lines = wrapped(f"usage: {command.path[0]} ", [*(f"[{item}]" for item in items), "<command>", "[<args>]"], width)
        lines += ["", "These are common commands used in various situations:", "", "start a working area"]
        return "\n".join([*lines, *columns(command.children, 12, width, "   "), ""])
    heads = []
    for option in command.options:
        value = {"": "", "=": f" <{option.value}>", "[=": f"[=<{option.value}>]"}[option.mark]
        heads.append(", ".join(option.names) + value)
    return "\n".join([f"usage: {' '.join(command.path)} [<options>]", "", *columns(heads, 22, 200, "    "), ""])


def wrapped(head: str, items: List[str], width: int) -> List[str]:
    """Returns the lines of a usage, which break between two items alone."""
    lines = [head.rstrip()]
    for item in items:
        is_full = len(lines[-1]) + len(item) >= width
        lines += [" " * len(head) + item] if is_full else []
        lines[-1] += "" if is_full else f" {item}"
    return lines


def of_npm(command: Command, width: int) -> str:
    """npm: the names of the subcommands alone, in lines."""
    names = textwrap.wrap(", ".join(command.children), width - 20, initial_indent="    ", subsequent_indent="    ",
                          break_on_hyphens=False)
    return "\n".join([f"{command.path[0]} <command>", "", "Usage:", "", f"{command.path[0]} install        install all", "",
                      "All commands:", "", *names, "", "Specify configs in the ini-formatted file:", "    /etc/rc", ""])


def of_systemd(command: Command, width: int) -> str:
    """systemd: a space between the names, and commands with their values in two lists."""
    heads = []
    for option in command.options:
        head = ("   " if option.names[0].startswith("--") else "") + " ".join(option.names)
        heads.append(head + (("=" if option.longs() else " ") + option.value if option.mark else ""))
    entries = [name + ("", " UNIT...", " [PATTERN...]", " NAME VALUE")[at % 4] for at, name in enumerate(command.children)]
    middle = len(entries) // 2
    lines = [f"{command.path[0]} [OPTIONS...] COMMAND ...", "", "Does it.", "", "Unit Commands:",
             *columns(entries[:middle], 36, 200), "", "Other Commands:", *columns(entries[middle:], 36, 200), ""]
    return "\n".join([*lines, "Options:", *columns(heads, 23, 200), "", f"See the {command.path[0]}(1) man page.", ""])


LAYOUTS: Dict[str, Layout] = {"argparse": of_argparse, "click": of_click, "clap": of_clap, "cobra": of_cobra,
                              "getopt": of_getopt, "git": of_git, "npm": of_npm, "systemd": of_systemd}


# ---- the part

def try_floors(room: Room, options: Any) -> None:
    """For each format, at least so many names are found, and none that the truth lacks."""
    for name, layout in LAYOUTS.items():
        with open(os.path.join(TEXTS, name, "truth.json"), encoding="utf-8") as file:
            truth = json.load(file)
        for width in WIDTHS:
            found, total = 0, 0
            for program, commands in truth["programs"].items():
                counts = try_program(room, f"{name}, {width} columns, {program}", commands_of(program, commands), layout, width)
                found, total = found + counts[0], total + counts[1]
            room.expect(f"{name}, {width} columns: {found} of {total} names, and the floor is {truth['floor']}", True,
                        truth["floor"] <= found)


def commands_of(program: str, commands: Dict[str, List[str]]) -> List[Command]:
    """Returns the commands of a program with a text: itself, and those whose options are known."""
    below = [name for name in commands if name]
    return [Command([program, *filter(None, [name])], list(map(option_of, options)), [] if name else below)
            for name, options in commands.items() if options or not name]


def try_program(room: Room, what: str, commands: List[Command], layout: Layout, width: int) -> Tuple[int, int]:
    """Returns how many names of a program are found, and how many there are. Prints those that are missing."""
    place = os.path.join(room.path, "floor", commands[0].path[0], str(width))
    for command in commands:
        write_bytes(os.path.join(place, *command.path[1:], "help.txt"), layout(command, width).encode())
    tree = room.import_texts(place, commands[0].path[0]).tree or {}
    expected = {pair for command in commands for pair in true_pairs(command)}
    got = set(found_pairs(tree, [], set()))
    # A command without a text has what is global.
    with_text = {" ".join(command.path[1:]) for command in commands}
    missing = sorted(expected - got)
    more = sorted(pair for pair in got - expected if pair[0] in with_text and pair[1] not in OWN)
    if missing:
        print(f"  floors, {what}: missing {missing}")
    room.expect(f"{what}: names that are not true", [], more)
    return len(expected & got), len(expected)


Pair = Tuple[str, str]


def true_pairs(command: Command) -> Iterator[Pair]:
    """Yields the names of a truth, each with the command that has it. A name with a value has the number of values."""
    path = " ".join(command.path[1:])
    for option in command.options:
        yield from ((path, " ".join([name, *option.number()])) for name in option.names)
    yield from ((path, name) for name in command.children)


def found_pairs(node: Node, path: List[str], above: Set[str]) -> Iterator[Pair]:
    """Yields the names in a tree in the same form. `above` are the names that a command inherits."""
    own = {" ".join([name, *number_of_values(it)]) for it in node.get("args", []) for name in names_of(it)}
    shared = {" ".join([name, *number_of_values(it)]) for it in node.get("args", []) if it.get("global")
              for name in names_of(it)}
    yield from ((" ".join(path), name) for name in own | above)
    for child in node.get("subcommands", []):
        yield " ".join(path), child["name"]
        yield from found_pairs(child, [*path, child["name"]], above | shared)
