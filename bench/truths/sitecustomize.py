"""Writes down the parsers of a Python program, when it calls argparse, optparse or click.

`capture_truths.py` puts the directory of this file at the front of PYTHONPATH, so Python imports it before
the program. The file that TRUTHS names then gets the parser of the last call, as `import_truths.py`
describes it. Nothing else changes, so the program prints its help text as always.
"""

import argparse
import json
import optparse
import os

try:
    import click
except ImportError:
    click = None


def write(truth):
    with open(os.environ["TRUTHS"], "w", encoding="utf-8") as file:
        json.dump(truth, file)


def argparse_node(parser):
    options, hidden, commands, aliases = {}, [], {}, {}
    has_commands = False
    for action in parser._actions:
        for name in action.option_strings:
            options[name] = action.nargs not in (0, argparse.OPTIONAL, argparse.ZERO_OR_MORE)
            if action.help == argparse.SUPPRESS:
                hidden.append(name)
        if isinstance(action, argparse._SubParsersAction):
            has_commands = True
            shown = {choice.dest for choice in action._choices_actions}
            named = {}
            for name, child in action.choices.items():
                if id(child) in named:
                    aliases[name] = named[id(child)]
                    continue
                named[id(child)] = name
                commands[name] = argparse_node(child)
                if name not in shown:
                    commands[name]["unlisted"] = True
    return node(options, hidden, commands if has_commands else None, aliases, parser.format_help())


def optparse_node(parser):
    options, hidden = {}, []
    for container in [parser, *parser.option_groups]:
        for option in container.option_list:
            for name in option._short_opts + option._long_opts:
                options[name] = option.takes_value()
                if option.help == optparse.SUPPRESS_HELP:
                    hidden.append(name)
    return node(options, hidden, None, {}, parser.format_help())


def click_node(command, name, parent):
    context = click.Context(command, info_name=name, parent=parent, **command.context_settings)
    options, hidden = {}, []
    for parameter in command.get_params(context):
        if isinstance(parameter, click.Option):
            for option in [*parameter.opts, *parameter.secondary_opts]:
                options[option] = not (parameter.is_flag or parameter.count)
                if parameter.hidden:
                    hidden.append(option)
    commands = None
    if hasattr(command, "list_commands"):
        children = {child: command.get_command(context, child) for child in command.list_commands(context)}
        commands = {child: click_node(found, child, context) for child, found in children.items() if found}
    made = node(options, hidden, commands, {}, command.get_help(context))
    if command.hidden:
        made["unlisted"] = True
    return made


def node(options, hidden, commands, aliases, text):
    return {"options": options, "hidden": hidden, "commands": commands, "aliases": aliases, "text": text}


def watch(owner, method, before):
    """Calls `before` with the object and the arguments of each call of a method."""
    kept = getattr(owner, method)

    def called(self, *words, **named):
        try:
            before(self, *words, **named)
        except Exception:
            pass
        return kept(self, *words, **named)

    setattr(owner, method, called)


if "TRUTHS" in os.environ:
    outer = []

    def argparse_called(parser, *words, **named):
        # A parser with subcommands calls this method of the subcommand's parser, which is no new program.
        if not any(parser.prog.startswith(other.prog + " ") for other in outer):
            outer.append(parser)
            write({"format": "argparse", **argparse_node(parser)})

    def optparse_called(parser, *words, **named):
        write({"format": "optparse", **optparse_node(parser)})

    # A program may call one parser for a few options first, and print the help text of another.
    for method in ("parse_known_args", "print_help"):
        watch(argparse.ArgumentParser, method, argparse_called)
    for method in ("parse_args", "print_help"):
        watch(optparse.OptionParser, method, optparse_called)
    if click:
        watch(click.BaseCommand, "main", lambda command, *words, **named: write(
            {"format": "click", **click_node(command, os.environ["TRUTHS_NAME"], None)}))
