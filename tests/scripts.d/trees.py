"""The trees whose scripts are loaded: kept, made and imported ones."""

from __future__ import annotations

import json
import os
import random
import shutil
import subprocess
import sys
from typing import Any, Dict, List

import common

HERE = os.path.dirname(os.path.realpath(__file__))
PROGRAMS = ("docker", "gh", "rg", "git", "tar", "sed", "grep")
IMPORTED = 3
NAMES = ("attach", "build", "copy", "delete", "export", "fetch", "gather", "history", "import", "join", "keep", "load",
         "merge", "name", "open", "push", "query", "remove", "search", "test")
Json = Dict[str, Any]


def listed(folder: str, complgen: str, names: List[str]) -> Dict[str, str]:
    """Returns the paths of the tree files by their names, of all or of these. Those that are made are written into a
    folder."""
    found = {name: os.path.join(common.EXAMPLES, name + ".json") for name in ("larder", "complgen")}
    found["every-key"] = os.path.join(HERE, "every-key.json")
    found["four-levels"] = os.path.join(folder, "four-levels.json")
    with open(found["four-levels"], "w", encoding="utf-8") as file:
        json.dump(four_levels(), file)
    path = os.path.join(folder, "git-tree.json")
    if is_wanted("git-tree", names) and made_by([os.path.join(common.EXAMPLES, "git-tree"), path], {}):
        found["git-tree"] = path
    for name in [name for name in PROGRAMS if shutil.which(name)][:IMPORTED]:
        if not is_wanted(name, names):
            continue
        words = [os.path.join(common.TOP, "complgen-import"), "--walk", "--depth", "2", "--out-dir", folder, name]
        if made_by(words, {"COMPLGEN": complgen}):
            found[name] = os.path.join(folder, name + ".json")
    return {name: path for name, path in found.items() if is_wanted(name, names)}


def is_wanted(name: str, names: List[str]) -> bool:
    return not names or name in names


def made_by(words: List[str], variables: Dict[str, str]) -> bool:
    """Runs a program that makes a tree file. Without one, a line says so."""
    environment = {**os.environ, **variables}
    ran = subprocess.run([sys.executable, *words], cwd=common.TOP, env=environment, stdout=subprocess.PIPE,
                         stderr=subprocess.STDOUT, text=True, errors="replace")
    if ran.returncode:
        print(f"no tree by {os.path.basename(words[0])} {words[-1]}: {ran.stdout.strip()[-200:]}")
    return ran.returncode == 0


def lacking_keys() -> List[str]:
    """Returns the keys of the schema, and the values of those that have a list, that the tree of every key lacks."""
    with open(os.path.join(common.TOP, "docs", "tree.schema.json"), encoding="utf-8") as file:
        schema = json.load(file)["definitions"]
    with open(os.path.join(HERE, "every-key.json"), encoding="utf-8") as file:
        found = set(members(json.load(file)))
    wanted = [key for kind in ("command", "argument", "possible_value") for key in schema[kind]["properties"]]
    wanted += schema["argument"]["properties"]["value_hint"]["enum"]
    return [key for key in wanted if key not in found]


def members(value: Any) -> List[str]:
    """Returns all keys and texts of a JSON value."""
    if isinstance(value, dict):
        return [text for key, below in value.items() for text in (key, *members(below))]
    if isinstance(value, list):
        return [text for below in value for text in members(below)]
    return [value] if isinstance(value, str) else []


def four_levels() -> Json:
    """Returns a tree of 200 commands in four levels."""
    chance = random.Random(86)
    root: Json = {"name": "levels", "path": [], "args": options(chance, 3, is_global=True)}
    nodes, count = [root], 0
    for width in (6, 4, 3, 2):
        below = []
        for node in nodes:
            # No command has the name of one above it.
            names = chance.sample([name for name in NAMES if name not in node["path"]], width)
            node["subcommands"] = [command(chance, name, node["path"]) for name in names[:max(0, 200 - count)]]
            count += len(node["subcommands"])
            below += node["subcommands"]
            node.pop("path")
        nodes = below
    for node in nodes:
        node.pop("path")
    return root


def command(chance: random.Random, name: str, above: List[str]) -> Json:
    path = [*above, name]
    made: Json = {"name": name, "path": path, "about": f"Does {name}: with care", "args": options(chance, 2)}
    if chance.random() < 0.3:
        made["visible_aliases"] = [name[:2] + "-" + chance.choice("abc")]
    return made


def options(chance: random.Random, count: int, is_global: bool = False) -> List[Json]:
    made = []
    for at, word in enumerate(chance.sample(NAMES, count)):
        long = word + ("-all" if is_global else "-it")
        arg: Json = {"id": long, "long": long, "help": "Takes " + word}
        if chance.random() < 0.5:
            arg["short"] = "ghijk"[at] if is_global else "abcde"[at]
        kind = chance.randrange(3)
        if kind == 0:
            arg["action"] = "SetTrue"
        elif kind == 1:
            arg["possible_values"] = [{"name": value, "help": "Is " + value} for value in chance.sample(NAMES, 3)]
        if is_global:
            arg["global"] = True
        made.append(arg)
    return made
