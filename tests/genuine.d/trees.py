"""Random trees with keys that clap has too, and random command lines."""

from __future__ import annotations

import random
from typing import Any, Dict, Iterator, List, Set, Tuple

import compare
import hostile

Tree = Dict[str, Any]

BINS = ["app", "app", "my-app", "x=1,2", "it's"]
ODD_BINS = ["app", "my-app", "a b'c"]
SHORTS = "abcdefgijklmnopqrstuvwxyzABCDXé1É"
LINES = 12


def random_tree(chance: random.Random, number: int) -> Tuple[Tree, str]:
    """Returns a tree, and a bin name. Every second tree is one that clap's own assertions accept."""
    tree = compare.command(chance, 3)
    if is_accepted(number):
        return mended(chance, tree, []), chance.choice(BINS)
    take_generated_names(chance, tree)
    return tree, chance.choice(ODD_BINS)


def is_accepted(number: int) -> bool:
    """Tells whether the tree of this number is one that clap's own assertions accept."""
    return number % 2 == 0


def take_generated_names(chance: random.Random, tree: Tree) -> None:
    """Gives some arguments and subcommands the names of generated ones."""
    for arg in tree.get("args", []):
        if not chance.randrange(20):
            arg["id"] = chance.choice(["help", "version"])
    for child in tree.get("subcommands", []):
        if not chance.randrange(20):
            child.update(chance.choice([{"name": "help"}, {"aliases": ["help"]}, {"visible_aliases": ["help"]}]))
        take_generated_names(chance, child)


def mended(chance: random.Random, tree: Tree, inherited: List[Tree]) -> Tree:
    """Returns a tree without what clap rejects: names that stand twice, and keys that exclude each other."""
    tree = dict(tree)
    for key in ("subcommand_required", "bin_name"):
        tree.pop(key, None)
    args = [mended_argument(chance, arg) for arg in tree.get("args", []) if arg.get("action") != "Version"]
    tree["args"] = list(without_repeats(args, inherited))
    mend_positionals([arg for arg in tree["args"] if "short" not in arg and "long" not in arg])
    for arg in tree["args"]:
        # A global argument is known below too, and so have to be those in conflict with it.
        ids = {it["id"] for it in tree["args"] if it.get("global") or not arg.get("global")} - {arg["id"]}
        arg["conflicts_with"] = [it for it in arg.get("conflicts_with", []) if it in ids]
    passed_on = inherited + [arg for arg in tree["args"] if arg.get("global")]
    seen, children = {"help"}, []
    for child in tree.get("subcommands", []):
        child = mended(chance, child, passed_on)
        child["name"] = child["name"].replace(" ", "_")
        if child["name"] not in seen:
            seen.add(child["name"])
            for key in ("visible_aliases", "aliases"):
                child[key] = fresh(child.get(key, []), seen)
            children.append(child)
    tree["subcommands"] = children
    return tree


def mended_argument(chance: random.Random, arg: Tree) -> Tree:
    """Returns an argument whose keys do not exclude each other."""
    arg = dict(arg)
    if "short" not in arg and "long" not in arg:
        for key in ("short_aliases", "visible_short_aliases", "aliases", "visible_aliases", "global", "action"):
            arg.pop(key, None)
    if arg.get("action", "Set") not in ("Set", "Append"):
        for key in ("num_args", "value_names", "possible_values", "value_hint", "value_delimiter", "default_value",
                    "value_terminator", "required", "last", "allow_hyphen_values", "index"):
            arg.pop(key, None)
    for key in ("index", "last"):
        arg.pop(key, None)
    if arg.get("global"):
        arg.pop("required", None)
    if arg.get("value_hint") == "CommandWithArguments":
        del arg["value_hint"]
    if arg.get("num_args", [1, 1])[1] == 0:
        del arg["num_args"]
    if "num_args" in arg and len(arg.get("value_names", [])) > 1:
        del arg["value_names"]
    if "short" in arg and chance.randrange(2):
        arg["short"] = chance.choice(SHORTS)
    return arg


def mend_positionals(args: List[Tree]) -> None:
    """Makes only the first positional required, and only the last one of many values."""
    for arg in args[1:]:
        arg.pop("required", None)
    for arg in args[:-1]:
        arg.pop("num_args", None)
        arg.pop("value_names", None)


def without_repeats(args: List[Tree], inherited: List[Tree]) -> Iterator[Tree]:
    """Yields the arguments whose id, short and long no earlier one has, without aliases that one has."""
    ids = {arg["id"] for arg in inherited} | {"help", "version"}
    words = {word for arg in inherited for word in words_of(arg)} | {"h", "V", "help", "version"}
    for arg in args:
        if arg["id"] in ids or {arg.get("short"), arg.get("long")} & words:
            continue
        ids.add(arg["id"])
        words |= {arg.get("short"), arg.get("long")} - {None}
        for key in ("short_aliases", "visible_short_aliases", "aliases", "visible_aliases"):
            arg[key] = fresh(arg.get(key, []), words)
        yield arg


def words_of(arg: Tree) -> List[str]:
    lists = ("short_aliases", "visible_short_aliases", "aliases", "visible_aliases")
    return [arg.get("short"), arg.get("long"), *[word for key in lists for word in arg.get(key, [])]]


def fresh(names: List[str], seen: Set[str]) -> List[str]:
    """Returns the names that are new, and notes them."""
    found = []
    for name in names:
        if name not in seen:
            seen.add(name)
            found.append(name)
    return found


def random_line(chance: random.Random, tree: Tree) -> Tuple[List[str], int]:
    """Returns words, most of which lead somewhere in a tree, and the index of one of them."""
    node, words = tree, ["app"]
    for _ in range(chance.randrange(6)):
        children = node.get("subcommands", [])
        options = [it for it in node.get("args", []) if "long" in it or "short" in it]
        if children and chance.randrange(2):
            node = chance.choice(children)
            word = chance.choice([node["name"], *node.get("visible_aliases", []), *node.get("aliases", [])])
        elif options and chance.randrange(3):
            word = typed(chance, chance.choice(options))
        else:
            word = odd_word(chance)
        words.append(word[: chance.choice([1, 3, 100, 100, 100])])
    words.append(chance.choice(["", "", "-", "--", odd_word(chance)]))
    index = len(words) - 1 if chance.randrange(12) else chance.randrange(len(words) + 2)
    return words, index


def typed(chance: random.Random, option: Tree) -> str:
    """Returns a word for an option, often with the beginning of one of its values."""
    values = [value["name"] for value in option.get("possible_values", [])]
    word = compare.typed_option(chance, option)
    return word + (chance.choice(values)[:2] if values and word.endswith("=") else "")


def odd_word(chance: random.Random) -> str:
    # Both programs get the words as JSON, or as arguments without a NUL.
    return hostile.odd_word(chance).decode(errors="ignore")
