#!/usr/bin/env python3
"""Writes a generated tree file, always the same for the same numbers.

    bench/made_tree.py COMMANDS OPTIONS FILE

The program is called `big`. Each of its commands has OPTIONS options: flags, options with possible
values, paths, and values of any text. All have help texts.
"""

import json
import random
import sys

VERBS = """add am archive bisect blame branch bundle checkout cherry clean clone commit config
describe diff fetch format gc grep init log merge mv notes pull push rebase reflog remote reset
restore revert rm show stash status submodule switch tag worktree""".split()
WORDS = """file force quiet dry depth author date message color porcelain branch remote no all track
patch index cached tree path ref since until format sign verify prune tags recurse jobs""".split()


def main():
    commands, options, path = int(sys.argv[1]), int(sys.argv[2]), sys.argv[3]
    chance = random.Random(1)
    tree = {
        "name": "big", "version": "2.0", "about": "A big program",
        "args": arguments(chance, 3),
        "subcommands": [command(chance, name_of(i), options) for i in range(commands)],
    }
    with open(path, "w", encoding="utf-8") as file:
        json.dump(tree, file, separators=(",", ":"))


def name_of(number):
    """Returns the name of a command: a verb, which later rounds join to a word, and then to a number."""
    verb, round_ = VERBS[number % len(VERBS)], number // len(VERBS)
    if round_ == 0:
        return verb
    word = WORDS[(round_ - 1) % len(WORDS)]
    return f"{verb}-{word}" if round_ <= len(WORDS) else f"{verb}-{word}{number}"


def command(chance, name, options):
    paths = {
        "id": "paths", "value_hint": "AnyPath", "num_args": [0, None], "value_names": ["PATH"],
        "help": "Which paths",
    }
    about = f"Do {name} with " + " ".join(chance.sample(WORDS, 4))
    return {"name": name, "about": about, "args": [*arguments(chance, options), paths]}


def arguments(chance, count):
    longs, shorts = {"help", "version"}, {"h", "V"}
    return [argument(chance, f"o{i}", longs, shorts) for i in range(count)]


def argument(chance, id_, longs, shorts):
    long = "help"
    while long in longs:
        long = "-".join(chance.sample(WORDS, chance.choice([1, 2, 2, 3])))
    longs.add(long)
    made = {"id": id_, "long": long, "help": "Say " + " ".join(chance.sample(WORDS, 6))}
    short = chance.choice("abcdefghijklmnopqrstuvwxyzABCDEFG")
    if chance.random() < 0.4 and short not in shorts:
        shorts.add(short)
        made["short"] = short
    kind = chance.random()
    if kind < 0.55:
        made["action"] = "SetTrue"
    elif kind < 0.7:
        values = chance.sample(WORDS, 4)
        made["possible_values"] = [{"name": word, "help": "The " + word} for word in values]
    elif kind < 0.85:
        made.update(value_hint="AnyPath", value_names=["FILE"])
    else:
        made["value_names"] = ["N"]
    return made


if __name__ == "__main__":
    main()
