"""A model of the scripts over a tree file: what building adds, the command lines to type, and what is expected.

It is written from docs/TEXTS.md, docs/DIFFERENCES.md and the manuals of the shells. The module of each shell
(`bash.py` ..) has that shell's rules, as a function `expected(tree, line)`.
"""

from __future__ import annotations

import os
import random
from typing import Any, Dict, Iterable, Iterator, List, NamedTuple, Optional, Set, Tuple

Json = Dict[str, Any]

# The files of the directory in which all is typed. No name of a tree has a letter of theirs, because fish also offers
# what has the typed letters elsewhere. `zz1/` is a directory with a file, `zz3` can be executed, `.zz4` is hidden.
DIRECTORY, FILE, PROGRAM, HIDDEN, INNER = "zz1", "zz2", "zz3", ".zz4", "zz1/zz5"
# A program on the PATH, a host of the known hosts, and a user of every system.
COMMAND, HOST, USER = "zz6", "zz7", "root"
BIN = "app"
# The directory of that program, which is made for each run.
folder_of_programs = ""


# ---- the tree with what building adds

class Node:
    """A command. `names` are its visible names, the name itself first."""

    def __init__(self, tree: Json, names: List[str], args: List[Json], children: List[Node]):
        self.names, self.args, self.children = names, args, children
        self.about, self.hidden = tree.get("about"), tree.get("hide", False)
        self.external = tree.get("allow_external_subcommands", False)
        self.options = [arg for arg in args if is_option(arg) and takes_values(arg)]
        self.flags = [arg for arg in args if is_option(arg) and not takes_values(arg)]
        self.positionals = [arg for arg in args if not is_option(arg)]

    def child(self, word: str) -> Optional[Node]:
        return next((child for child in self.children if word in child.names), None)

    def option(self, word: str) -> Optional[Json]:
        """Returns the option or flag that a user types as this word."""
        return next((arg for arg in self.options + self.flags if word in dashed(arg)), None)

    def child_names(self) -> List[str]:
        return [name for child in self.children for name in child.names]

    def at(self, names: Iterable[str]) -> Optional[Node]:
        """Returns the node below by a path of visible names."""
        node: Optional[Node] = self
        for name in names:
            node = node.child(name) if node else None
        return node

    def hidden_names(self) -> Set[str]:
        """Returns the hidden names in the tree."""
        own = {name for arg in self.args if arg.get("hide") for name in dashed(arg)}
        for child in self.children:
            own |= child.hidden_names() | set(child.names if child.hidden else ())
        return own

    def paths(self, before: Tuple[str, ...] = ()) -> Iterator[Tuple[Tuple[str, ...], Node]]:
        """Yields all visible paths, with the nodes that they lead to."""
        yield before, self
        for child in self.children:
            for name in child.names:
                yield from child.paths((*before, name))


def is_option(arg: Json) -> bool:
    return "short" in arg or "long" in arg


def takes_values(arg: Json) -> bool:
    if "num_args" in arg:
        return arg["num_args"][1] != 0
    return arg.get("action", "Set") in ("Set", "Append")


def counts(arg: Json) -> Tuple[int, float]:
    """Returns the least and the greatest number of values of an option or a positional."""
    if "num_args" in arg:
        return arg["num_args"][0], float("inf") if arg["num_args"][1] is None else arg["num_args"][1]
    names = max(1, len(arg.get("value_names", ())))
    return names, names


def dashed(arg: Json) -> List[str]:
    """Returns the shorts and longs of an argument, with their dashes. An alias counts only beside a name."""
    shorts = [arg["short"], *arg.get("visible_short_aliases", ())] if "short" in arg else []
    longs = [arg["long"], *arg.get("visible_aliases", ())] if "long" in arg else []
    return ["-" + name for name in shorts] + ["--" + name for name in longs]


def shown_values(arg: Json) -> Optional[List[Json]]:
    """Returns the possible values that are not hidden, or `None` if the argument has no list of them."""
    if "possible_values" not in arg or not takes_values(arg):
        return None
    return [value for value in arg["possible_values"] if not value.get("hide")]


def built(tree: Json, inherited: Iterable[Json] = ()) -> Node:
    """Returns the command of a tree file with what building adds (TEXTS.md, What building adds)."""
    args = list(tree.get("args", ()))
    args += [arg for arg in inherited if arg["id"] not in [own["id"] for own in args]]
    ids = [arg["id"] for arg in args]
    passed_on = [arg for arg in args if arg.get("global")]
    if not tree.get("disable_help_flag") and "help" not in ids:
        args.append({"id": "help", "short": "h", "long": "help", "action": "Help", "help": "Print help"})
    if "version" in tree and not tree.get("disable_version_flag") and "version" not in ids:
        args.append({"id": "version", "short": "V", "long": "version", "action": "Version", "help": "Print version"})
    children = [built(child, passed_on) for child in tree.get("subcommands", ())]
    taken = {name for child in tree.get("subcommands", ())
             for name in (child["name"], *child.get("visible_aliases", ()), *child.get("aliases", ()))}
    if children and not tree.get("disable_help_subcommand") and "help" not in taken:
        children.append(help_node([help_copy(child) for child in tree["subcommands"]]))
    return Node(tree, [tree["name"], *tree.get("visible_aliases", ())], args, children)


def help_node(children: List[Node]) -> Node:
    tree = {"about": "Print this message or the help of the given subcommand(s)"}
    return Node(tree, ["help"], [], [*children, Node(tree, ["help"], [], [])])


def help_copy(tree: Json) -> Node:
    """Returns the copy of a command below a generated `help`: the names, without aliases and arguments."""
    return Node({"about": tree.get("about")}, [tree["name"]], [], [help_copy(it) for it in tree.get("subcommands", ())])


# ---- the command lines

class Line(NamedTuple):
    """A command line: the words before the one at the cursor, that word, and which kind of line it is."""

    before: Tuple[str, ...]
    current: str
    kind: str

    @property
    def text(self) -> str:
        return " ".join((*self.before, self.current))

    def called(self, *words: str) -> Line:
        """Returns the line with other words instead of the name of the program."""
        return Line((*words, *self.before[1:]), self.current, self.kind)


HINTED = {"Username": USER[:2], "EmailAddress": USER[:2], "Url": "ht"}


def lines(root: Node, path_of_program: str) -> Iterator[Line]:
    """Yields the lines after each visible path of at most three names."""
    inherited = [arg for arg in root.options + root.flags if arg.get("global")]
    for path, node in root.paths():
        if len(path) > 3:
            continue
        words = (BIN, *path)
        own = list(lines_at(words, node))
        yield from own
        if len(path) == 1:
            for arg in inherited[:2]:
                yield Line(words, dashed(arg)[-1][:4], "global below")
                yield Line((BIN, *given(arg), *path), "", "global before")
        yield Line(words, "", "sudo").called("sudo", BIN)
        yield Line(words, first_letters(node), "path").called(path_of_program)


def first_letters(node: Node) -> str:
    return node.children[0].names[0][:2] if node.children else "--"


def given(arg: Json) -> List[str]:
    """Returns the words that give an argument, with a value if it takes one."""
    values = shown_values(arg)
    value = [values[0]["name"] if values else "zz9"] * max(1, counts(arg)[0])
    return [dashed(arg)[-1], *(value if takes_values(arg) else [])]


def lines_at(words: Tuple[str, ...], node: Node) -> Iterator[Line]:
    kind = "help" if "help" in words else "empty"
    yield Line(words, "", kind)
    yield Line(words, "-", "-")
    yield Line(words, "--", "--")
    for child in node.children:
        yield Line(words, child.names[0][:2], "subcommand")
        if child.names[1:]:
            yield Line(words, child.names[1][:1], "alias")
    for arg in node.flags + node.options:
        names = dashed(arg)
        yield Line(words, names[-1][:4] if names[-1].startswith("--") else names[-1], "long")
        if len(names[0]) == 2:
            yield Line(words, names[0], "short")
    for arg in node.flags:
        yield Line((*words, dashed(arg)[-1]), "-", "after a flag")
    for arg in node.options[:1] if node.children else []:
        yield Line((*words, dashed(arg)[-1], node.children[0].names[0]), "-", "a value that is a name")
    for arg in node.options:
        yield from lines_of_value(words, arg)
    if not node.children:
        yield Line((*words, "zz8"), "", "after a positional")
        yield Line((*words, "zz8"), "-", "after a positional")
        yield Line((*words, "zz8"), "zz", "after a positional")
    yield Line(words, "zz", "positional")
    yield Line((*words, "--"), "", "behind --")
    yield Line((*words, "--"), "-", "behind --")
    for arg in node.positionals:
        for value in (arg.get("possible_values") or ())[:1]:
            yield Line(words, value["name"][:1], "positional")


def lines_of_value(words: Tuple[str, ...], arg: Json) -> Iterator[Line]:
    values, names = shown_values(arg), dashed(arg)
    starts = [values[0]["name"][:1]] if values else ["zz", HINTED.get(arg.get("value_hint", ""), "zz")]
    for start in dict.fromkeys(["", *starts]):
        yield Line((*words, names[-1]), start, "value")
        if len(names[0]) == 2 and len(names) > 1:
            yield Line((*words, names[0]), start, "value of a short")
        if len(names[-1]) > 2:
            yield Line(words, names[-1] + "=" + start, "value after =")


def drawn(root: Node, path_of_program: str, count: int, seed: int) -> List[Line]:
    """Returns so many lines of a tree, drawn by a seed: of each kind in turn. Without a path of the program, no line
    calls it by a path."""
    kinds: Dict[str, List[Line]] = {}
    for line in dict.fromkeys(lines(root, path_of_program)):
        if not line.before[0]:
            continue
        kinds.setdefault(line.kind, []).append(line)
    chance = random.Random(seed)
    found: List[Line] = []
    for of_kind in kinds.values():
        chance.shuffle(of_kind)
    while len(found) < count and any(kinds.values()):
        found += [of_kind.pop() for of_kind in kinds.values() if of_kind]
    return found[:count]


# ---- what is expected

class Expected(NamedTuple):
    """What a shell should do at a Tab: the words that it offers, the command line after it, and the rows of
    docs/DIFFERENCES.md that the line shows. `more` allows further words, and then any insertion. `texts` has the
    descriptions that are shown. `other_line` is as good as `line`."""

    words: List[str]
    line: str
    rows: Tuple[int, ...]
    more: bool = False
    texts: Dict[str, Optional[str]] = {}
    other_line: Optional[str] = None


def after_tab(text: str, current: str, words: Iterable[str], ending: str = " ") -> str:
    """Returns the command line after a Tab: the only word is inserted with an ending, and of several words their
    common beginning. A directory ends with its `/`, and a space in a word has a backslash before it."""
    found = [word.replace(" ", "\\ ") for word in dict.fromkeys(words)]
    if not found:
        return text
    common = os.path.commonprefix(found)
    if not common.startswith(current):
        return text
    if len(found) == 1:
        common += "" if common.endswith("/") else ending
    return text[:len(text) - len(current)] + common


def files(start: str, hidden: bool = False, only_directories: bool = False) -> List[str]:
    """Returns the files that a shell offers for a word. A hidden one needs a dot, if `hidden` is not set."""
    names = [DIRECTORY + "/"] + ([] if only_directories else [FILE, PROGRAM])
    if (hidden or start.startswith(".")) and not only_directories:
        names.append(HIDDEN)
    return [name for name in names if name.startswith(start)]
