#!/usr/bin/env python3
"""Compares the tree of complgen itself, examples/complgen.json, with the help texts of the program.

    tests/own_tree.py

`complgen` completes its own words by this tree (tools/keys.py compares it with the one that is built in), but reads
them by another description, for clap. So each command, option and argument of the tree has to be in the help texts
with its description, and the help texts may have no other ones.

It prints each difference, and then the number of lines that are equal. The status is 0 if there is no difference.
"""

import json
import os
import re
import subprocess
import sys
from typing import Dict, List

sys.path.append(os.path.join(os.path.dirname(os.path.realpath(__file__)), "..", "tools"))
import common

# The flags that clap adds.
ADDED = ("-h, --help", "-V, --version")


def main() -> int:
    program = common.program("complgen")
    with open(os.path.join(common.EXAMPLES, "complgen.json"), encoding="utf-8") as file:
        tree = json.load(file)
    children = tree["subcommands"]
    text = help_of(program, ["--help"])
    pairs = [("about", {"": tree["about"]}, {"": text.split("\n", 1)[0]})]
    pairs.append(("commands", {it["name"]: it["about"] for it in children}, listed(text, "Commands")))
    for child in children:
        text = help_of(program, [child["name"], "-h"])
        shown = {**listed(text, "Arguments"), **listed(text, "Options")}
        pairs.append((child["name"], {name(it): it["help"] for it in child.get("args", [])}, shown))
    faults = [fault for pair in pairs for fault in differences(*pair)]
    print("\n".join(faults + [f"{sum(len(it[1]) for it in pairs)} lines, {len(faults)} differences"]))
    return 1 if faults else 0


def help_of(program: str, words: List[str]) -> str:
    """Returns the help text for these words."""
    return subprocess.run([program, *words], stdout=subprocess.PIPE, check=True, universal_newlines=True).stdout


def listed(text: str, title: str) -> Dict[str, str]:
    """Returns the descriptions below a title of a help text, by what comes before them."""
    found = re.search(rf"^{title}:\n((?:  .*\n)*)", text, re.MULTILINE)
    rows = [re.split("  +", line.strip(), maxsplit=1) for line in found[1].splitlines()] if found else []
    return {row[0]: row[-1] for row in rows if row[0] not in ADDED}


def name(argument) -> str:
    """Returns an argument of the tree as a help text shows it."""
    value = "".join(f"<{it}>" for it in argument.get("value_names", []))
    if "long" in argument:
        return f"--{argument['long']} {value}".rstrip()
    return value if argument.get("required") else f"[{value[1:-1]}]..."


def differences(title: str, wanted: Dict[str, str], shown: Dict[str, str]) -> List[str]:
    """Returns a line for each name whose descriptions differ, or that only one side has."""
    names = sorted(wanted.keys() | shown.keys())
    return [f"{title}: {it}: {wanted.get(it)!r} in the tree, {shown.get(it)!r} in the help text"
            for it in names if wanted.get(it) != shown.get(it)]


if __name__ == "__main__":
    sys.exit(main())
