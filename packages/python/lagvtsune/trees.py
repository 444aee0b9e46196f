"""The rules of a tree file, which `lagvtsune.argparse` and `lagvtsune.click` share.

An exporter describes a command line in the words of its library. `text_of` makes a tree file of that, and leaves out
what no script can contain, with a line on the standard error for each.

A command is a dictionary with the keys of a tree file, except for these:

- `names`: its name and its aliases, instead of `name` and `visible_aliases`.

So is an argument, except for these:

- `names`: the names of an option, such as `-o` and `--out`, instead of `short`, `long` and their aliases;
- `key`: whatever tells it apart from the other arguments of the command;
- `conflicts`: the keys of the arguments that it excludes, instead of `conflicts_with`.

SPDX-License-Identifier: MIT OR Apache-2.0
"""

from __future__ import annotations

import json
import os
import re
import sys
from typing import Any, Dict, Iterable, List, Optional, Sequence, Set, Tuple

Node = Dict[str, Any]
# The hidden options that `add` gives to a program.
OWN_OPTIONS = TREE_OPTION, VALUES_OPTION = "--complgen-tree", "--complgen-values"
# Keys that no script and no Tab reads.
UNREAD = ("long_about", "after_help", "default_value", "subcommand_required", "arg_required_else_help")
# Keys of which an argument has one at most.
SOURCES = {"values_from", "values_file", "possible_values", "value_hint"}
PLAIN = re.compile(r"[A-Za-z0-9]+([-_][A-Za-z0-9]+)*")
# What bash offers as it is.
QUIET = re.compile(r"[A-Za-z0-9+\-./:@_,=]+")
# Colours, and other characters that a terminal does not show.
CONTROLS = re.compile("\x1b\\[[0-9;]*[A-Za-z]|[\x00-\x08\x0b-\x1f\x7f]")
# Signs that end a text in a script.
QUOTES = str.maketrans("\u2018\u2019\u201a\u201b", "''''")
LABEL_SIGNS = str.maketrans({"'": '"', ":": "-", "\\": "-", "\n": " "})
MOST_LEAST = 255


class NotPlain(ValueError):
    """The name of the program is not plain, so no tree file would be found by it."""


def text_of(root: Node, short: bool = False) -> str:
    """Returns the text of a tree file. With `short`, it lacks the keys that no Tab reads, and spaces. Raises `NotPlain`."""
    name = root["names"][0]
    if not PLAIN.fullmatch(name):
        raise NotPlain(f"{name}: the name of the program is not plain (letters and digits, with single - or _ between)")
    form: Node = {"separators": (",", ":")} if short else {"indent": 1}
    return json.dumps(_Finisher(short).command(root, ()), ensure_ascii=False, **form) + "\n"


def program_name(word: str) -> str:
    """Returns the name of a program: the last part of its path, without `.py`."""
    return re.sub(r"\.pyw?$", "", os.path.basename(word))


def with_keys(made: Node, thing: Any) -> Node:
    """Returns the keys of an argument with those of the attribute `tree_keys` of an action or a parameter. Its values
    replace all others."""
    further = getattr(thing, "tree_keys", {})
    dropped = SOURCES if further.keys() & SOURCES else ()
    return {**{key: it for key, it in made.items() if key not in dropped}, **further}


def warn(path: Sequence[str], text: str) -> None:
    """Prints a line about a command to the standard error."""
    print(" ".join(f"{' '.join(path)}: {text}".split()), file=sys.stderr)


class Answer:
    """The standard output of a program that is called with one of the hidden options.

    What the program prints from then on goes to the standard error, so that it does not mix with the answer.
    """

    def __init__(self) -> None:
        self.descriptor = 1
        if sys.argv[1:2] and sys.argv[1] in OWN_OPTIONS:
            sys.stdout.flush()
            self.descriptor = os.dup(1)
            os.dup2(2, 1)

    def write(self, text: str) -> None:
        """Writes a text as a whole. Raises `OSError`."""
        write_all(self.descriptor, text.encode())


def write_all(descriptor: int, data: bytes) -> None:
    """Writes all bytes. Raises `OSError`."""
    while data:
        data = data[os.write(descriptor, data):]


class _Finisher:
    """Makes the commands of a tree file, and leaves out what it cannot contain."""

    def __init__(self, short: bool) -> None:
        self.short = short
        # The first command with each label: in bash, a hyphen is a step down, so `a b` is `a-b`.
        self.labels: Dict[Tuple[str, ...], Tuple[str, ...]] = {}

    def command(self, raw: Node, above: Tuple[str, ...]) -> Node:
        name, *aliases = raw["names"]
        path = (*above, name)
        made = {"name": name, **raw, "visible_aliases": aliases, "disable_help_flag": True,
                "disable_help_subcommand": True}
        made["args"] = self.arguments(raw.get("args", []), path)
        made["subcommands"] = self.subcommands(raw.get("subcommands", []), path)
        made["subcommand_required"] = bool(raw.get("subcommand_required") and made["subcommands"])
        del made["names"]
        return self.kept(made)

    def subcommands(self, raws: Iterable[Node], path: Tuple[str, ...]) -> List[Node]:
        taken: Set[str] = set()
        made = []
        for raw in raws:
            name, *aliases = raw["names"]
            label = tuple("-".join([*path[1:], name]).split("-"))
            why = reason(name, taken)
            first = self.labels.setdefault(label, (*path, name)) if not why else ()
            if first and first != (*path, name):
                why = f"bash would know it and {' '.join(first)} by one name"
            if why:
                warn((*path, name), f"left out: {why}")
                continue
            taken.add(name)
            kept = [name]
            for alias in aliases:
                why = reason(alias, taken)
                if why:
                    warn((*path, name), f"the alias {alias} is left out: {why}")
                else:
                    kept.append(alias)
                    taken.add(alias)
            made.append(self.command({**raw, "names": kept}, path))
        return made

    def arguments(self, raws: Iterable[Node], path: Tuple[str, ...]) -> List[Node]:
        names: Set[str] = set()
        ids: Dict[Any, str] = {}
        found = []
        for raw in raws:
            node = self.argument(raw, names, path)
            if node is not None:
                node["id"] = unused(node["id"], raw.get("names", []), set(ids.values()))
                ids[raw["key"]] = node["id"]
                found.append((raw, node))
        for raw, node in found:
            others = [ids[it] for it in raw.get("conflicts", []) if it in ids and it != raw["key"]]
            node["conflicts_with"] = list(dict.fromkeys(others))
        return [self.kept(node) for _, node in found]

    def argument(self, raw: Node, taken: Set[str], path: Tuple[str, ...]) -> Optional[Node]:
        """Returns an argument without what it may not have, or nothing if none of its names is left."""
        made = {"id": "", **{key: it for key, it in raw.items() if key not in ("names", "key", "conflicts")}}
        if "names" in raw:
            names = []
            for name in raw["names"]:
                why = reason(name[2:], (), name in taken) if name.startswith("--") else reason_of_short(name, taken)
                if why:
                    warn(path, f"{name} is left out: {why}")
                else:
                    names.append(name)
            if not names:
                return None
            taken.update(names)
            made.update(keys_of_names(names))
            made["id"] = made.get("long") or made["short"]
        elif isinstance(made.get("help"), str):
            made["help"] = made["help"].replace("\\", "/")
        made["id"] = re.sub(r"[':\\\s]+", " ", str(made["id"])).strip() or "arg"
        self.put_values(made, made.get("long", made["id"]), path)
        return made

    def put_values(self, made: Node, name: str, path: Tuple[str, ...]) -> None:
        """Leaves out possible values that bash would split or run, and signs in the names of values."""
        if made.get("value_names"):
            made["value_names"] = [it.translate(LABEL_SIGNS).translate(QUOTES) for it in made["value_names"]]
        if made.get("num_args"):
            least, most = made["num_args"]
            made["num_args"] = [min(least, MOST_LEAST), most]
        if "possible_values" in made:
            values = {it["name"]: it for it in made.pop("possible_values")}
            quiet = [self.kept({**it, "help": str(it.get("help") or "").replace('"', "'")})
                     for key, it in values.items() if QUIET.fullmatch(key)]
            for other in (it for it in values if not QUIET.fullmatch(it)):
                warn(path, f"the value {json.dumps(other)} of {name} is left out: a script could split or run it")
            if quiet:
                made["possible_values"] = quiet

    def kept(self, made: Node) -> Node:
        """Returns the keys that say something, with texts that a script can contain."""
        found = {key: text_in(it) for key, it in made.items() if not (self.short and key in UNREAD)}
        return {key: it for key, it in found.items() if it is not None and it is not False and it != "" and it != []}


def reason(name: str, taken: Iterable[str], is_taken: bool = False) -> str:
    """Returns why a tree file cannot contain a name here, or an empty text."""
    if not PLAIN.fullmatch(name):
        return "it is not plain (letters and digits, with single - or _ between)"
    return "an earlier one has this name" if is_taken or name in taken else ""


def reason_of_short(name: str, taken: Set[str]) -> str:
    """Returns why a tree file cannot contain a name that does not begin with two hyphens, or an empty text."""
    if not re.fullmatch("-[A-Za-z0-9]", name):
        return "a tree file has only names such as -x and --name"
    return "an earlier one has this name" if name in taken else ""


def keys_of_names(names: Sequence[str]) -> Node:
    """Returns the keys for the names of an option."""
    longs = [it[2:] for it in names if it.startswith("--")]
    shorts = [it[1:] for it in names if not it.startswith("--")]
    made: Node = {"long": longs[0], "visible_aliases": longs[1:]} if longs else {}
    made.update({"short": shorts[0], "visible_short_aliases": shorts[1:]} if shorts else {})
    return made


def unused(wanted: str, names: Sequence[str], taken: Set[str]) -> str:
    """Returns an id that no other argument of the command has."""
    numbered = (f"{wanted} {number}" for number in range(2, len(taken) + 3))
    return next(it for it in (wanted, *names[:1], *numbered) if it not in taken)


def text_in(value: Any) -> Any:
    """Returns a text without what no script can contain. Other values stay as they are."""
    if not isinstance(value, str):
        return value
    return CONTROLS.sub("", value).translate(QUOTES).strip().encode("utf-8", "replace").decode()
