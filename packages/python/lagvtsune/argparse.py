"""Makes a tree file of a parser of argparse.

For any program, without a change of it:

    python3 -m lagvtsune.argparse borg > borg.json

This runs `borg --help`, and prints the tree file in the place of the help text. In a program of your own:

    lagvtsune.argparse.add(parser)              # before parser.parse_args()

gives it two hidden options:

    app --complgen-tree                         # prints the tree file
    app --complgen-values 'remove id'           # prints the values of the argument `id` of the command `remove`

The tree file names the second one, so that the values of a *completer* are offered at a Tab. A completer is an
attribute of an action, as argcomplete has it: a function that takes `prefix`, `action`, `parser` and `parsed_args`, and
returns values, or a dictionary of values and help texts. It does not learn what was typed.

    remove.add_argument("id").completer = lambda **_: {"n1": "Buy milk"}

An attribute `tree_keys` of an action has further keys for the tree file, such as `{"value_hint": "Url"}` or
`{"values_from": ["app", "ids"]}`.

SPDX-License-Identifier: MIT OR Apache-2.0
"""

from __future__ import annotations

import argparse
import inspect
import itertools
import pathlib
import re
from typing import Any, Dict, Iterable, List, NoReturn, Optional, Tuple

from lagvtsune.trees import (
    OWN_OPTIONS, TREE_OPTION, VALUES_OPTION, Answer, Node, program_name, text_of, warn, with_keys,
)

# The least and the greatest number of values. `None` has no greatest.
NUMBERS = {None: (1, 1), "?": (0, 1), "*": (0, None), "+": (1, None), argparse.REMAINDER: (0, None)}
FLAGS = {"_HelpAction": "Help", "_VersionAction": "Version", "_CountAction": "Count", "_AppendConstAction": "Count"}
# Names of values that stand for paths, because argparse has no type for these.
PATHS = re.compile(r"(file(name)?s?|(dir(ector(y|ies))?|folder)s?|paths?)$", re.IGNORECASE)
# A longer list of values, such as range(65536), is none that somebody reads.
MOST_VALUES = 256


def add(parser: argparse.ArgumentParser) -> None:
    """Adds the two hidden options to a parser."""
    answer = Answer()

    class Show(argparse.Action):
        """Prints what one of the options asks for."""

        def __call__(self, _: Any, __: Any, words: Any, option: Any = None) -> None:
            is_tree = option == TREE_OPTION
            answer.write(tree_file(parser) if is_tree else "".join(f"{it}\n" for it in values(parser, words)))
            parser.exit()

    hidden: Node = {"action": Show, "help": argparse.SUPPRESS, "default": argparse.SUPPRESS}
    parser.add_argument(TREE_OPTION, nargs=0, **hidden)
    parser.add_argument(VALUES_OPTION, **hidden)


def tree_file(parser: argparse.ArgumentParser, name: Optional[str] = None, short: bool = False) -> str:
    """Returns the text of a tree file.

    `name` is the name of the program, by default that of the parser. With `short`, the file lacks the keys that no
    Tab reads, and spaces. What a tree file cannot contain is left out, with a line on the standard error.
    """
    return text_of(_Exporter(parser, name or program_name(parser.prog.split()[0])).root(), short)


def values(parser: argparse.ArgumentParser, words: str) -> List[str]:
    """Returns the lines that the completer of an argument makes: a value, or a value, a tab and its help text.

    `words` are the path of subcommands, and then a name of the option or the `dest` of the positional.
    Raises `KeyError` if there is no such argument.
    """
    *path, name = words.split(" ")
    for word in path:
        parser = next(it.choices[word] for it in parser._actions if isinstance(it, argparse._SubParsersAction))
    action = {key: it for it in parser._actions for key in (it.option_strings or [it.dest])}[name]
    given = argparse.Namespace()
    found = action.completer(prefix="", action=action, parser=parser, parsed_args=given)  # type: ignore[attr-defined]
    pairs = found.items() if isinstance(found, dict) else ((it, "") for it in found)
    return [f"{value}\t{help}".rstrip() for value, help in pairs]


class _Exporter:
    """Describes the commands of a program."""

    def __init__(self, parser: argparse.ArgumentParser, name: str) -> None:
        self.parser, self.name = parser, name
        self.can_show_values = VALUES_OPTION in parser._option_string_actions
        self.unasked = 0

    def root(self) -> Node:
        made = self.command(self.parser, [self.name], [])
        if self.unasked:
            warn([self.name], f"values of completers are left out: {self.unasked} arguments, because the program does "
                 "not call lagvtsune.argparse.add")
        return made

    def command(self, parser: argparse.ArgumentParser, names: List[str], path: List[str], about: str = "") -> Node:
        """Returns a command: the parser's arguments and its subcommands. A further key is a line here."""
        text = _expanded(parser, parser.description)
        made: Node = {
            "names": names, "about": about or text.split("\n")[0], "long_about": text,
            "after_help": _expanded(parser, parser.epilog), "args": [], "subcommands": [],
        }
        for action in parser._actions:
            if isinstance(action, argparse._SubParsersAction):
                made["subcommands"] += self.subcommands(action, path)
                made["subcommand_required"] = action.required
            elif not set(OWN_OPTIONS).intersection(action.option_strings) and action.nargs != argparse.SUPPRESS:
                made["args"] += self.arguments(action, parser, path)
        return made

    def subcommands(self, action: Any, path: List[str]) -> List[Node]:
        """Returns the subcommands. A parser that has several names is one command with aliases."""
        lines = {it.dest: it.help for it in action._choices_actions}
        named: Dict[int, Tuple[argparse.ArgumentParser, List[str]]] = {}
        for name, parser in action.choices.items():
            named.setdefault(id(parser), (parser, []))[1].append(name)
        made = []
        for parser, names in named.values():
            about = lines.get(names[0])
            is_hidden = about == argparse.SUPPRESS or (names[0] not in lines and action.metavar is not None)
            text = "" if is_hidden else _expanded(parser, about)
            made.append({**self.command(parser, names, [*path, names[0]], text), "hide": is_hidden})
        return made

    def arguments(self, action: argparse.Action, parser: argparse.ArgumentParser, path: List[str]) -> List[Node]:
        """Returns the argument of an action, and a second one for `--no-name`. A further key is a line here."""
        is_hidden = action.help == argparse.SUPPRESS
        groups = [it._group_actions for it in parser._mutually_exclusive_groups if action in it._group_actions]
        headings = [it.title for it in parser._action_groups[2:] if action in it._group_actions]
        made = with_keys({
            "key": action, "id": action.dest, "help": "" if is_hidden else _help(action, parser), "hide": is_hidden,
            "help_heading": headings[0] if headings else None,
            "conflicts": [other for group in groups for it in group for other in (it, ("no", it))],
            **self.values(action, path),
        }, action)
        if not action.option_strings:
            return [made]
        if not isinstance(action, getattr(argparse, "BooleanOptionalAction", ())):
            return [{**made, "names": action.option_strings}]
        off = [it for it in action.option_strings if it.startswith("--no-")]
        on = [it for it in action.option_strings if it not in off]
        made["conflicts"] += [action, ("no", action)]
        return [{**made, "names": on}, {**made, "key": ("no", action), "names": off, "action": "SetFalse"}]

    def values(self, action: argparse.Action, path: List[str]) -> Node:
        """Returns the keys for the values of an argument."""
        if action.nargs == 0:
            return {"action": FLAGS.get(type(action).__name__, "SetTrue")}
        least, most = NUMBERS.get(action.nargs, (action.nargs, action.nargs))  # type: ignore[arg-type]
        names = _value_names(action)
        made: Node = {
            "num_args": [least, most], "value_names": names, "required": action.required and least != 0,
            "allow_hyphen_values": action.nargs == argparse.REMAINDER,
            "action": "Append" if isinstance(action, argparse._AppendAction) else None,
        }
        default = getattr(action.default, "value", action.default)
        if isinstance(default, (str, int, float)) and not isinstance(default, bool) and default != argparse.SUPPRESS:
            made["default_value"] = str(default)
        completer = getattr(action, "completer", None)
        listed = _choices(action, completer)
        if listed is not None:
            made["possible_values"] = listed
        elif completer is not None and not _is_of_paths(completer) and callable(completer):
            if self.can_show_values:
                name = action.option_strings[-1] if action.option_strings else action.dest
                made["values_from"] = [self.name, VALUES_OPTION, " ".join([*path, name])]
            else:
                self.unasked += 1
        else:
            made["value_hint"] = _hint(action, completer, names[0])
        return made


def _value_names(action: argparse.Action) -> List[str]:
    if isinstance(action.metavar, tuple):
        return list(action.metavar)
    return [action.metavar or (action.dest.upper() if action.option_strings else action.dest)]


def _choices(action: argparse.Action, completer: Any) -> Optional[List[Node]]:
    """Returns the possible values, if there are any."""
    choices: Any = action.choices
    if choices is None and type(completer).__name__ == "ChoicesCompleter":
        choices = completer.choices
    if not isinstance(choices, Iterable):
        return None
    listed = list(itertools.islice(choices, MOST_VALUES + 1))
    return [{"name": str(it)} for it in listed] if 0 < len(listed) <= MOST_VALUES else None


def _is_of_paths(completer: Any) -> bool:
    """Tells whether this is a completer of argcomplete for files or directories."""
    return type(completer).__name__ in ("FilesCompleter", "DirectoriesCompleter", "SuppressCompleter")


def _hint(action: argparse.Action, completer: Any, name: str) -> Optional[str]:
    """Returns the hint of a completer of argcomplete or shtab, of a type, or else of the name of the value."""
    kind = type(completer).__name__
    marks = str(getattr(action, "complete", ""))
    if kind == "DirectoriesCompleter" or "dirs" in marks or "_files -/" in marks:
        return "DirPath"
    if kind == "SuppressCompleter" or action.type in (int, float):
        return "Other"
    if isinstance(action.type, argparse.FileType) or kind == "FilesCompleter" or "_files" in marks:
        return "FilePath"
    is_path = action.type is open or (isinstance(action.type, type) and issubclass(action.type, pathlib.PurePath))
    found = PATHS.search(name)
    word = found[0].lower() if found else ""
    if word.startswith(("dir", "folder")):
        return "DirPath"
    return "FilePath" if word.startswith("file") else "AnyPath" if word or is_path else None


def _help(action: argparse.Action, parser: argparse.ArgumentParser) -> str:
    """Returns the help text as argparse prints it, with the default and the name of the program."""
    if not action.help:
        return ""
    try:
        return inspect.cleandoc(parser._get_formatter()._expand_help(action))
    except (KeyError, TypeError, ValueError):
        return inspect.cleandoc(action.help)


def _expanded(parser: argparse.ArgumentParser, text: Any) -> str:
    """Returns a text of a parser with the name of the program."""
    return inspect.cleandoc(str(text or "")).replace("%(prog)s", parser.prog)


def main() -> NoReturn:
    """Prints the tree file of the program that the words name."""
    from lagvtsune.running import Run  # pylint: disable=import-outside-toplevel

    run = Run("argparse", "Print the tree file of a program with argparse. This runs PROGRAM --help.")

    def end(parser: argparse.ArgumentParser, *_: Any) -> NoReturn:
        run.end(lambda: tree_file(parser, run.name, run.short))

    for name in ("format_help", "print_help"):
        setattr(argparse.ArgumentParser, name, end)
    run.start("--help")


if __name__ == "__main__":
    main()
