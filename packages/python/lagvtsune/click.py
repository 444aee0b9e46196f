"""Makes a tree file of a program of click, or of Typer, whose programs are click's.

For any program, without a change of it:

    python3 -m lagvtsune.click black > black.json

This runs `black` up to its parse, and prints the tree file instead. In a program of your own:

    lagvtsune.click.add(cli)                    # before cli(); for Typer: cli = typer.main.get_command(app)

gives it two hidden options:

    app --complgen-tree                         # prints the tree file
    app --complgen-values 'remove id'           # prints the values of the parameter `id` of the command `remove`

The tree file names the second one, so that the values of a parameter's `shell_complete` are offered at a Tab. It does
not learn what was typed.

An attribute `tree_keys` of a parameter has further keys for the tree file, such as `{"value_hint": "Url"}`.

SPDX-License-Identifier: MIT OR Apache-2.0
"""

from __future__ import annotations

import inspect
import re
from typing import Any, List, NoReturn, Optional

import click

from lagvtsune.trees import OWN_OPTIONS, TREE_OPTION, VALUES_OPTION, Answer, Node, text_of, warn, with_keys

FLAGS = {"help": "Help", "version": "Version"}
ABOUT_LENGTH = 200


def add(cli: click.Command) -> None:
    """Adds the two hidden options to a command or a group."""
    answer = Answer()

    def show(context: click.Context, _: click.Parameter, given: Any) -> None:
        if given:
            is_tree = given is True
            name = str(context.info_name)
            answer.write(tree_file(cli, name) if is_tree else "".join(f"{it}\n" for it in values(cli, given)))
            context.exit()

    cli.params.append(click.Option([TREE_OPTION], is_flag=True, hidden=True, is_eager=True, expose_value=False,
                                   callback=show))
    cli.params.append(click.Option([VALUES_OPTION], hidden=True, is_eager=True, expose_value=False, callback=show))


def tree_file(cli: click.Command, name: str, short: bool = False) -> str:
    """Returns the text of a tree file for the program of this name.

    With `short`, the file lacks the keys that no Tab reads, and spaces. What a tree file cannot contain is left out, with
    a line on the standard error.
    """
    return text_of(_Exporter(cli, name).root(), short)


def values(cli: click.Command, words: str) -> List[str]:
    """Returns the lines that a parameter's `shell_complete` makes: a value, or a value, a tab and its help text.

    `words` are the path of subcommands, and then a name of the option or the name of the argument.
    Raises `KeyError` if there is no such parameter.
    """
    *path, name = words.split(" ")
    command, context = cli, cli.make_context("app", [], resilient_parsing=True)
    for word in path:
        command = command.get_command(context, word)  # type: ignore[attr-defined]
        context = command.make_context(word, [], parent=context, resilient_parsing=True)
    params = {key: it for it in command.get_params(context) for key in (*it.opts, *it.secondary_opts)}
    found = params[name].shell_complete(context, "")
    return [f"{it.value}\t{it.help or ''}".rstrip() for it in found if it.type == "plain"]


class _Exporter:
    """Describes the commands of a program."""

    def __init__(self, cli: click.Command, name: str) -> None:
        self.cli, self.name = cli, name
        self.can_show_values = any(VALUES_OPTION in it.opts for it in cli.params)
        self.unasked = 0

    def root(self) -> Node:
        made = self.command(self.cli, _context(self.cli, self.name), [])
        if self.unasked:
            warn([self.name], f"values of shell_complete are left out: {self.unasked} parameters, because the program "
                 "does not call lagvtsune.click.add")
        return made

    def command(self, command: click.Command, context: click.Context, path: List[str]) -> Node:
        """Returns a command: its parameters and its subcommands. A further key is a line here."""
        return {
            "names": [context.info_name], "about": command.get_short_help_str(ABOUT_LENGTH),
            "long_about": _text(command.help), "after_help": _text(command.epilog), "hide": command.hidden,
            "arg_required_else_help": command.no_args_is_help,
            "subcommand_required": not getattr(command, "invoke_without_command", True),
            "args": [node for it in command.get_params(context) for node in self.arguments(it, context, path)],
            "subcommands": self.subcommands(command, context, path) if hasattr(command, "list_commands") else [],
        }

    def subcommands(self, group: Any, context: click.Context, path: List[str]) -> List[Node]:
        """Returns the subcommands. One that the group does not give is left out."""
        made = []
        for name in group.list_commands(context):
            try:
                child = group.get_command(context, name)
            except Exception as error:  # pylint: disable=broad-exception-caught
                warn([self.name, *path, name], f"left out: {type(error).__name__}: {error}")
                continue
            if child is None:
                warn([self.name, *path, name], "left out: the group lists it, but has no such command")
            else:
                made.append(self.command(child, _context(child, name, context), [*path, name]))
        return made

    def arguments(self, param: click.Parameter, context: click.Context, path: List[str]) -> List[Node]:
        """Returns the argument of a parameter, and a second one for the other side of `--on/--off`. A further key is a
        line here."""
        if param.opts[-1] in OWN_OPTIONS:
            return []
        made = with_keys({
            "key": param, "id": param.name, "required": param.required, "help": _text(getattr(param, "help", None)),
            "hide": getattr(param, "hidden", False), "help_heading": getattr(param, "rich_help_panel", None),
            **self.values(param, context, path),
        }, param)
        if isinstance(param, click.Argument):
            return [made]
        if not param.secondary_opts:
            return [{**made, "names": param.opts}]
        off = ("off", param)
        return [{**made, "names": param.opts, "conflicts": [off]},
                {**made, "key": off, "names": param.secondary_opts, "conflicts": [param], "action": "SetFalse"}]

    def values(self, param: click.Parameter, context: click.Context, path: List[str]) -> Node:
        """Returns the keys for the values of a parameter."""
        if getattr(param, "count", False):
            return {"action": "Count"}
        if getattr(param, "is_flag", False):
            return {"action": FLAGS.get(str(param.name), "Count" if param.multiple else "SetTrue"), "required": False}
        number = param.nargs if param.nargs > 0 else None
        is_optional = isinstance(param, click.Argument) and not param.required
        least = 0 if is_optional or getattr(param, "_flag_needs_value", False) else number or int(param.required)
        made: Node = {
            "num_args": [least, number], "action": "Append" if param.multiple else None,
            "value_names": _value_names(param, context, number or 1),
        }
        default = param.get_default(context, call=False)
        default = getattr(default, "value", default)
        if isinstance(default, (str, int, float)) and not isinstance(default, bool):
            made["default_value"] = str(default)
        own_type = type(param.type).shell_complete.__module__ not in ("click.types", "typer.core")
        if getattr(param, "_custom_shell_complete", None) or own_type:
            if self.can_show_values:
                made["values_from"] = [self.name, VALUES_OPTION, " ".join([*path, param.opts[-1]])]
            else:
                self.unasked += 1
        elif isinstance(param.type, click.Choice):
            made["possible_values"] = [{"name": str(getattr(it, "name", it))} for it in param.type.choices]
        elif not param.metavar or param.type is not click.STRING:  # the name of a text may tell more
            made["value_hint"] = _hint(param.type)
        return made


def _context(command: click.Command, name: str, parent: Optional[click.Context] = None) -> click.Context:
    """Returns a context, which knows the names of the help option."""
    return command.context_class(command, info_name=name, parent=parent, **command.context_settings)


def _value_names(param: click.Parameter, context: click.Context, number: int) -> List[str]:
    """Returns the names of the values as click prints them."""
    if isinstance(param, click.Argument):
        return [param.human_readable_name]
    if isinstance(param.type, click.Choice) and not param.metavar:
        return [str(param.name).upper()] * number
    takes_context = "ctx" in inspect.signature(param.make_metavar).parameters
    shown = param.make_metavar(*([context] if takes_context else []))
    names = re.sub(r"[][<>]|\.\.\.$", "", shown).split() or [str(param.name).upper()]
    return names if len(names) == number else names[:1] * number


def _hint(kind: click.ParamType) -> str:
    """Returns the hint of a type. click completes nothing for most of them."""
    if isinstance(kind, click.Path):
        return "AnyPath" if kind.file_okay and kind.dir_okay else "DirPath" if kind.dir_okay else "FilePath"
    if isinstance(kind, click.Tuple):
        return _hint(kind.types[0])
    return "FilePath" if isinstance(kind, click.File) else "Other"


def _text(text: Optional[str]) -> str:
    """Returns a text without the marks that click does not show: `\\b`, and all after `\\f`."""
    return inspect.cleandoc((text or "").split("\f")[0].replace("\b\n", ""))


def main() -> NoReturn:
    """Prints the tree file of the program that the words name."""
    from lagvtsune.running import Run  # pylint: disable=import-outside-toplevel

    run = Run("click", "Print the tree file of a program with click or Typer. This runs PROGRAM up to its parse.")

    def end(cli: click.Command, *_: Any, **__: Any) -> NoReturn:
        run.end(lambda: tree_file(cli, run.name, run.short))

    setattr(click.Command, "make_context", end)
    run.start()


if __name__ == "__main__":
    main()
