#!/usr/bin/env python3
"""Compares what the importer reads with what Python's own parsers accept.

    tests/import_parsers.py [--seed N] [--parsers N] [--show]

The script makes parsers of argparse and optparse at random, with invented names. Their help texts are what Python
prints, at 60, 80 and 200 columns. Each name that a parser accepts has to be found, and nothing else. The same holds for
the least and greatest numbers of values, the choices, the positional arguments and the subcommands.

The script prints a line for each of the two. --show prints what is wrong. The status is 0 if nothing is.
"""

from __future__ import annotations

import argparse
import collections
import optparse
import os
import random
import sys
from typing import Any, Counter, Dict, List, NamedTuple, Optional, Sequence, Tuple, Union

sys.path.append(os.path.join(os.path.dirname(os.path.realpath(__file__)), "..", "tools"))
import common
from importing.room import names_of

sys.path.insert(0, common.TOP)
from importer.read import read_help
from importer.tree import tree_and_clashes

Node = Dict[str, Any]
Arity = Tuple[int, Optional[int]]
WORDS = ("anvil barley cedar dapple ember fennel gravel hazel indigo juniper kettle lantern marrow nutmeg oriole "
         "pebble quince russet saffron thistle umber velvet willow yarrow zephyr").split()
WIDTHS = (60, 80, 200)

class Truth(NamedTuple):
    """What a parser accepts: numbers of values by names, choices by names, positional arguments and subcommands."""

    arity: Dict[str, Arity]
    choices: Dict[str, Sequence[str]]
    positionals: List[str]
    commands: List[str]


# ---- what a tree says

def truth_of_tree(tree: Node) -> Truth:
    """Returns what a tree file accepts."""
    found = Truth({}, {}, [], [child["name"] for child in tree.get("subcommands", [])])
    for arg in tree.get("args", []):
        names = names_of(arg)
        if not names:
            found.positionals.append(arg["id"])
        for name in names:
            found.arity[name] = arity(arg)
            found.choices[name] = [it["name"] for it in arg.get("possible_values", [])]
    return found


def arity(arg: Node) -> Arity:
    """Returns how many values an option of a tree has, at least and at most."""
    if arg.get("action") == "SetTrue":
        return 0, 0
    least, most = arg.get("num_args", [len(arg["value_names"])] * 2)
    return least, most


# ---- parsers of Python

class Maker:
    """Makes parsers at random. The same seed makes the same parsers."""

    def __init__(self, seed: int) -> None:
        self.chance = random.Random(seed)
        self.names: List[str] = []

    def fresh(self) -> str:
        """Returns a name that no other option of this parser has."""
        while True:
            name = "-".join(self.chance.sample(WORDS, self.chance.choice((1, 1, 2, 3))))
            if name not in self.names:
                self.names.append(name)
                return name

    def strings(self) -> List[str]:
        """Returns the names of an option: a long, a short, or both, in either order."""
        long = self.fresh()
        short = self.chance.choice(long[0] + long[0].upper())
        names = [] if short in self.names or self.chance.random() < 0.3 else [short]
        self.names += names
        both = ["-" + it for it in names] + (["--" + long] if not names or self.chance.random() < 0.9 else [])
        return both

    def sentence(self) -> str:
        """Returns a help text, which may be longer than a line."""
        words = self.chance.choices(WORDS, k=self.chance.choice((1, 3, 8, 25)))
        signs = self.chance.choice(("", ".", ", or not", " (default: 3)", "; see the page"))
        return " ".join(words) + signs

    def argparse(self) -> argparse.ArgumentParser:
        """Returns a parser of argparse."""
        self.names = ["h", "help"]
        parser = argparse.ArgumentParser("app", description=self.chance.choice((None, self.sentence())))
        holders: List[Any] = [parser, parser.add_argument_group(self.sentence().split(".")[0][:30])]
        for _ in range(self.chance.randint(1, 12)):
            self.add_option(self.chance.choice(holders))
        if self.chance.random() < 0.3:
            self.add_commands(parser)
        else:
            self.add_positionals(parser)
        return parser

    def add_option(self, holder: Any) -> None:
        """Adds a flag, or an option with values."""
        about = self.chance.choice((self.sentence(), None))
        kind = self.chance.choice(("flag", "one", "choices", "many"))
        if kind == "flag":
            holder.add_argument(*self.strings(), action="store_true", help=about)
        elif kind == "choices":
            holder.add_argument(*self.strings(), choices=self.chance.sample(WORDS, 3), help=about)
        else:
            count = self.chance.choice(("?", "*", "+", 2, 3)) if kind == "many" else None
            label = self.chance.choice((None, "FILE", "N"))
            holder.add_argument(*self.strings(), nargs=count, metavar=label, help=about)

    def add_positionals(self, parser: argparse.ArgumentParser) -> None:
        """Adds positional arguments. Only the last may have any number of values."""
        for _ in range(self.chance.randint(0, 2)):
            parser.add_argument(self.fresh().replace("-", "_"), help=self.sentence())
        if self.chance.random() < 0.3:
            parser.add_argument(self.fresh().replace("-", "_"), nargs=self.chance.choice("*+"), help=self.sentence())

    def add_commands(self, parser: argparse.ArgumentParser) -> None:
        """Adds subcommands."""
        commands = parser.add_subparsers(title=self.chance.choice((None, "commands")),
                                         metavar=self.chance.choice((None, "COMMAND")))
        for name in self.chance.sample(WORDS, self.chance.randint(1, 6)):
            commands.add_parser(name, help=self.sentence())

    def optparse(self) -> optparse.OptionParser:
        """Returns a parser of optparse."""
        self.names = ["h", "help"]
        parser = optparse.OptionParser(usage=self.chance.choice((None, "%prog [options] FILE")),
                                       description=self.chance.choice((None, self.sentence())))
        group = optparse.OptionGroup(parser, self.chance.choice(WORDS).title() + " Options", self.sentence())
        parser.add_option_group(group)
        for _ in range(self.chance.randint(1, 12)):
            self.add_to_optparse(self.chance.choice((parser, group)))
        return parser

    def add_to_optparse(self, holder: Union[optparse.OptionParser, optparse.OptionGroup]) -> None:
        """Adds a flag, or an option with values, to a parser of optparse."""
        about = self.chance.choice((self.sentence(), None))
        if self.chance.random() < 0.5:
            holder.add_option(*self.strings(), action="store_true", help=about)
        else:
            label = self.chance.choice((None, "FILE", "N"))
            holder.add_option(*self.strings(), type="string", metavar=label, help=about)


ANY = {"?": (0, 1), "*": (0, None), "+": (1, None), None: (1, 1)}


def truth_of_argparse(parser: argparse.ArgumentParser) -> Truth:
    """Returns what a parser of argparse accepts."""
    truth = Truth({}, {}, [], [])
    for action in parser._actions:
        if isinstance(action, argparse._SubParsersAction):
            truth.commands.extend(action.choices)
        elif not action.option_strings:
            truth.positionals.append(str(action.metavar or action.dest))
        for name in action.option_strings:
            count = action.nargs
            truth.arity[name] = ((count, count) if isinstance(count, int) else ANY[count])  # type: ignore[index]
            truth.choices[name] = list(action.choices or [])
    return truth


def truth_of_optparse(parser: optparse.OptionParser) -> Truth:
    """Returns what a parser of optparse accepts. Positional arguments are in the text of its usage alone."""
    truth = Truth({}, {}, ["FILE"] if parser.usage.endswith("FILE") else [], [])
    for option in [*parser.option_list, *(it for group in parser.option_groups for it in group.option_list)]:
        for name in [*option._short_opts, *option._long_opts]:  # type: ignore[attr-defined]
            count = option.nargs if option.takes_value() and option.nargs else 0
            truth.arity[name] = (count, count)
            truth.choices[name] = []
    return truth


# ---- the comparison

class Shares:
    """Counts of what was right, for each part."""

    def __init__(self, title: str, shown: bool) -> None:
        self.title, self.shown = title, shown
        self.right: Counter[str] = collections.Counter()
        self.all: Counter[str] = collections.Counter()

    def add(self, part: str, what: str, expected: Any, got: Any) -> None:
        """Counts one comparison."""
        self.all[part] += 1
        self.right[part] += expected == got
        if expected != got and self.shown:
            print(f"{self.title}: {part}: {what}: expected {expected}, got {got}")

    def compare(self, truth: Truth, text: str) -> None:
        """Compares a parser with what its help text gives."""
        found = truth_of_tree(tree_and_clashes(("app",), {("app",): read_help(text.encode(), ("app",))})[0])
        for name in {**truth.arity, **found.arity}:
            self.add("names", name, name in truth.arity, name in found.arity)
            if name in truth.arity and name in found.arity:
                self.add("arity", name, truth.arity[name], found.arity[name])
                self.add("choices", name, truth.choices[name], found.choices[name])
        self.add("positionals", "all", truth.positionals, found.positionals)
        self.add("commands", "all", truth.commands, found.commands)

    def is_whole(self) -> bool:
        """Prints the counts. Tells whether everything was right."""
        print(f"{self.title:<10}" + ", ".join(f"{part} {self.right[part]} of {self.all[part]}" for part in self.all))
        return self.right == self.all


def try_made(options: argparse.Namespace) -> bool:
    """Makes parsers, and compares them with what their help texts give."""
    formats = [Shares("argparse", options.show), Shares("optparse", options.show)]
    for number in range(options.parsers):
        os.environ["COLUMNS"] = str(WIDTHS[number % len(WIDTHS)])
        maker = Maker(options.seed * 100_000 + number)
        one = maker.argparse()
        formats[0].compare(truth_of_argparse(one), one.format_help())
        other = maker.optparse()
        formats[1].compare(truth_of_optparse(other), other.format_help())
    return all([it.is_whole() for it in formats])


def main() -> int:
    """Makes the parsers, and compares them."""
    parser = argparse.ArgumentParser(usage=common.usage(__doc__))
    parser.add_argument("--seed", type=int, default=1)
    parser.add_argument("--parsers", type=int, default=300)
    parser.add_argument("--show", action="store_true")
    return 0 if try_made(parser.parse_args()) else 1


if __name__ == "__main__":
    sys.exit(main())
