#!/usr/bin/env python3
"""Compares the tree files that two versions of the importer make from the same help texts.

    bench/import_beside.py make TEXTS TREES [--jobs N]
    bench/import_beside.py compare TEXTS BEFORE AFTER [--show KIND,..] [--formats] [--only NAME,..]

TEXTS has a directory for each program, with its help text (`help.txt`, and `SUB/help.txt` for a subcommand), for
example one that `capture_truths.py` made. `make` reads each with the package `importer`, that of this repository or
of the directory that the variable IMPORTER names, and writes TREES/NAME.json. It prints the processor seconds.
`compare` compares two such directories of trees.

For each command it compares what a shell offers, with the global options of the commands above:

- names: the names of options; `together`: which of them belong to the same option;
- arity: whether a name has values and how many, at least and at most; `labels`: the names of these values;
- possible: possible values by their names; `meanings`: their help texts;
- hints, helps, globals: of each name that both have;
- positionals, with their order; `repeated`: how many values they accept, their possible values, hints and help texts;
- commands, with their other names (`aliases`) and descriptions (`abouts`).

The table has a line for each of these: how many both have and say alike, how many only the first and only the second
directory has, and how many they say differently. With --formats there is a table for each format: that of
`truth.json`, or else the one that the text looks like. --show prints single findings, as `KIND: PROGRAM SUB: WHAT`
with the line of the text; `names-` shows what only the first directory has, `names+` what only the second has, and
`arity~` what differs. `lost` stands for every kind with `-` or `~`. The status is 0.
"""

from __future__ import annotations

import argparse
import collections
import concurrent.futures
import json
import os
import re
import sys
from typing import Any, Counter, Dict, Iterator, List, NamedTuple, Optional, Tuple

sys.path.append(os.path.join(os.path.dirname(os.path.realpath(__file__)), "..", "tools"))
import common
import help_texts

Node = Dict[str, Any]
# The parts of trees that are compared, in the order of the table.
KINDS = ("names", "together", "arity", "labels", "possible", "meanings", "hints", "helps", "globals",
         "positionals", "repeated", "commands", "aliases", "abouts")
# Words by which a text shows its format.
SIGNS = (("argparse", r"show this help message and exit"), ("click", r"Show this message and exit\."),
         ("clap", r"Print help|Prints help information"), ("cobra", r"(?m)^(Available Commands|Flags|Global Flags):"),
         ("git -h", r"(?m)^usage: git |^   or: git "), ("getopt of GNU", r"gnu\.org|GNU|util-linux|systemd"))


class Facts(NamedTuple):
    """What a tree says of one command: for each kind, the value of each name."""

    path: Tuple[str, ...]
    said: Dict[str, Dict[str, Any]]


class Finding(NamedTuple):
    """One difference between two trees. The sign is `-`, `+` or `~`."""

    kind: str
    sign: str
    path: Tuple[str, ...]
    name: str
    what: str


# ---- what a tree says

def all_facts(tree: Node) -> Iterator[Facts]:
    """Yields the facts of each command of a tree."""
    waiting: List[Tuple[Node, Tuple[str, ...], List[Node]]] = [(tree, (tree["name"],), [])]
    for node, path, inherited in waiting:
        own = node.get("args", [])
        yield facts_of(node, path, [*inherited, *own])
        shared = [*inherited, *(arg for arg in own if arg.get("global"))]
        waiting += [(child, (*path, child["name"]), shared) for child in node.get("subcommands", [])]


def facts_of(node: Node, path: Tuple[str, ...], args: List[Node]) -> Facts:
    """Returns the facts of a command with these arguments."""
    said: Dict[str, Dict[str, Any]] = {kind: {} for kind in KINDS}
    for arg in args:
        names = option_names(arg)
        add_option(said, arg, names) if names else add_positional(said, arg)
    for child in node.get("subcommands", []):
        said["commands"][child["name"]] = True
        said["aliases"][child["name"]] = sorted(child.get("visible_aliases", [])) or None
        said["abouts"][child["name"]] = child.get("about")
    said["abouts"][""] = node.get("about")
    return Facts(path, said)


def add_option(said: Dict[str, Dict[str, Any]], arg: Node, names: List[str]) -> None:
    """Adds what a tree says of an option to each of its names."""
    possible = arg.get("possible_values", [])
    for name in names:
        said["names"][name] = True
        said["together"][name] = sorted(names)
        said["arity"][name] = arity(arg)
        said["labels"][name] = arg.get("value_names")
        said["possible"][name] = [it["name"] for it in possible] or None
        said["meanings"][name] = {it["name"]: it["help"] for it in possible if it.get("help")} or None
        said["hints"][name] = arg.get("value_hint")
        said["helps"][name] = arg.get("help")
        said["globals"][name] = arg.get("global")


def add_positional(said: Dict[str, Dict[str, Any]], arg: Node) -> None:
    """Adds what a tree says of a positional argument."""
    said["positionals"][arg["id"]] = len(said["positionals"])
    values = [it["name"] for it in arg.get("possible_values", [])]
    said["repeated"][arg["id"]] = [arity(arg), values, arg.get("value_hint"), arg.get("help")]


def option_names(arg: Node) -> List[str]:
    """Returns the names of an option with their hyphens, and none for a positional argument."""
    shorts = [*arg.get("short", ""), *arg.get("visible_short_aliases", [])]
    longs = [*filter(None, [arg.get("long")]), *arg.get("visible_aliases", [])]
    return ["-" + it for it in shorts] + ["--" + it for it in longs]


def arity(arg: Node) -> List[Optional[int]]:
    """Returns how many values an argument has, at least and at most."""
    if arg.get("action") == "SetTrue":
        return [0, 0]
    return arg.get("num_args", [len(arg.get("value_names", [""]))] * 2)


# ---- the comparison

class Table:
    """Counts of the kinds, and single findings."""

    def __init__(self) -> None:
        self.counts: Dict[str, Counter[str]] = {kind: collections.Counter() for kind in KINDS}
        self.programs = self.texts = 0

    def add(self, before: Facts, after: Facts) -> List[Finding]:
        """Counts what the facts of a command have in common, and returns the differences."""
        found: List[Finding] = []
        for kind in KINDS:
            one, other = before.said[kind], after.said[kind]
            for name in {**one, **other}:
                sign, what = difference(one.get(name), other.get(name))
                self.counts[kind][sign] += 1
                if sign in "-+~" and is_told(kind, name, before, after):
                    found.append(Finding(kind, sign, before.path, name, what))
        return found

    def print(self, title: str) -> None:
        """Prints the table."""
        print(f"\n{title}: {self.programs} programs, {self.texts} commands")
        print(f"{'':<14}{'both':>9}{'only 1st':>9}{'only 2nd':>9}{'differ':>9}")
        for kind in KINDS:
            print(f"{kind:<14}" + "".join(f"{self.counts[kind][sign]:>9}" for sign in "=-+~"))


def difference(one: Any, other: Any) -> Tuple[str, str]:
    """Returns how two values differ: `=`, `-`, `+`, `~`, or nothing if there are none; and both in words."""
    if one is None and other is None:
        return "none", ""
    if other is None:
        return "-", "" if one is True else json.dumps(one, ensure_ascii=False)
    if one is None:
        return "+", "" if other is True else json.dumps(other, ensure_ascii=False)
    what = f"{json.dumps(one, ensure_ascii=False)} -> {json.dumps(other, ensure_ascii=False)}"
    return ("=", "") if one == other else ("~", what)


def is_told(kind: str, name: str, before: Facts, after: Facts) -> bool:
    """Tells whether a difference says more than that a name is lost or new, which the kind `names` says."""
    owners = {"commands": "commands", "aliases": "commands", "abouts": "commands", "positionals": "positionals",
              "repeated": "positionals"}
    owner = owners.get(kind, "names")
    if kind == owner or kind == "abouts" and not name:
        return True
    return name in before.said[owner] and name in after.said[owner]


def compare_trees(before: Node, after: Node, table: Table) -> List[Finding]:
    """Compares two trees of a program. The commands of a subcommand that one tree lacks are not compared."""
    others = {facts.path: facts for facts in all_facts(after)}
    found: List[Finding] = []
    table.programs += 1
    for facts in all_facts(before):
        if facts.path in others:
            table.texts += 1
            found += table.add(facts, others[facts.path])
    return found


# ---- texts

def text_of(folder: str, path: Tuple[str, ...]) -> List[str]:
    """Returns the lines of the help text of a command."""
    place = os.path.join(folder, *path[1:], "help.txt")
    if not os.path.exists(place):
        return []
    with open(place, encoding="utf-8", errors="replace") as file:
        return file.read().splitlines()


def line_with(lines: List[str], name: str) -> str:
    """Returns the first line of a text that has a name, with its number."""
    pattern = re.compile(rf"(?<![\w-]){re.escape(name)}(?![\w-])")
    bare = name.lstrip("-")
    for number, line in enumerate(lines, 1):
        if pattern.search(line) or f"[no-]{bare}" in line:
            return f"{number}: {line.strip()[:110]}"
    return "-"


def format_of(folder: str) -> str:
    """Returns the format of a program's help texts."""
    path = os.path.join(folder, "truth.json")
    if os.path.exists(path):
        with open(path, encoding="utf-8") as file:
            return json.load(file)["format"]
    text = "\n".join(text_of(folder, ("",)))
    return next((name for name, sign in SIGNS if re.search(sign, text)), "other")


# ---- the commands

def made(folder: str, name: str, target: str) -> Tuple[int, float]:
    """Makes the tree file of a program. Returns the number of its texts, and the seconds."""
    found = help_texts.imported(folder, help_texts.plain_name(name))
    with open(target, "wb") as file:
        file.write(found.file)
    return found.texts, found.seconds


def make(options: argparse.Namespace) -> None:
    """Makes the tree file of each program."""
    os.makedirs(options.trees, exist_ok=True)
    names = sorted(os.listdir(options.texts))
    texts, seconds = 0, 0.0
    with concurrent.futures.ProcessPoolExecutor(options.jobs) as pool:
        asked = [pool.submit(made, os.path.join(options.texts, name), name, os.path.join(options.trees, name + ".json"))
                 for name in names]
        for future in asked:
            count, took = future.result()
            texts, seconds = texts + count, seconds + took
    print(f"{len(names)} programs, {texts} texts, {seconds:.2f} processor seconds")


def read_tree(folder: str, name: str) -> Optional[Node]:
    """Returns the tree of a program, or None."""
    path = os.path.join(folder, name + ".json")
    if not os.path.exists(path):
        return None
    with open(path, encoding="utf-8") as file:
        return json.load(file)


def compare(options: argparse.Namespace) -> None:
    """Compares two directories of trees, and prints findings and tables."""
    only = options.only.split(",") if options.only else sorted(os.listdir(options.texts))
    tables: Dict[str, Table] = collections.defaultdict(Table)
    for name in only:
        before, after = read_tree(options.before, name), read_tree(options.after, name)
        if before is None or after is None:
            print(f"{name}: no tree in {options.before if before is None else options.after}")
            continue
        folder = os.path.join(options.texts, name)
        title = format_of(folder) if options.formats else "all"
        for finding in compare_trees(before, after, tables[title]):
            show(finding, folder, options.show.split(","))
    for title in sorted(tables):
        tables[title].print(title)


def show(finding: Finding, folder: str, kinds: List[str]) -> None:
    """Prints a finding, if it is of these kinds."""
    label = finding.kind + finding.sign
    if label in kinds or "lost" in kinds and finding.sign != "+":
        line = line_with(text_of(folder, finding.path), finding.name) if finding.name else "-"
        print(f"{label}: {' '.join(finding.path)}: {finding.name} {finding.what[:300]} | {line}")


def main() -> int:
    """Makes or compares."""
    parser = argparse.ArgumentParser(usage=common.usage(__doc__))
    commands = parser.add_subparsers(dest="command", required=True)
    maker = commands.add_parser("make")
    maker.add_argument("texts")
    maker.add_argument("trees")
    maker.add_argument("--jobs", type=int, default=2)
    comparer = commands.add_parser("compare")
    for name in ("texts", "before", "after"):
        comparer.add_argument(name)
    comparer.add_argument("--show", default="")
    comparer.add_argument("--formats", action="store_true")
    comparer.add_argument("--only")
    options = parser.parse_args()
    make(options) if options.command == "make" else compare(options)
    return 0


if __name__ == "__main__":
    sys.exit(main())
