"""A model of what a build adds to a tree: by clap's rules, or by those of this project.

Each rule of this project that differs from clap's has the number of its row in docs/DIFFERENCES.md.
"""

from __future__ import annotations

import copy
from typing import Any, Dict, Iterable, List, Optional, Set, Tuple

# A command or an argument, as in a tree file.
Tree = Dict[str, Any]

HELP = "Print this message or the help of the given subcommand(s)"
SEE_MORE = "Print help (see more with '--help')"
LAST = 999
# The rules of a build.
UNKNOWN_CONFLICTS, NAMES, DISABLING, REPLACED, HELP_ORDER, SEE_MORE_TEXT, NO_VALUES, CONFLICTS_BELOW = RULES = (
    4, 23, 25, 26, 27, 30, 31, 32,
)
FLAGS = ("disable_help_flag", "disable_version_flag", "disable_help_subcommand")
# The rule for the candidates of `complgen candidates`.
EXECUTABLES = 36
# The keys of a command that a build leaves as they are.
KEPT = (
    "name", "about", "aliases", "visible_aliases", "hide", "subcommand_help_heading", "allow_external_subcommands",
    "no_binary_name",
)
TAKING = ("Set", "Append")


def built(tree: Tree, bin_name: str, rules: Iterable[int]) -> Tree:
    """Returns the tree with all that a build adds, by these rules of this project, and else by clap's."""
    root = Build(rules).command(tree, bin_name, {}, [])
    del root["bin_name"]
    mend_conflicts(root, None, rules)
    return root


class Build:
    """A build by some rules."""

    def __init__(self, rules: Iterable[int]):
        self.rules = frozenset(rules)

    def command(self, tree: Tree, full_name: str, disabled: Dict[str, bool], inherited: List[Tree]) -> Tree:
        """Returns a command with all that is below it."""
        disabled = self.disabled(tree, disabled)
        own = [*numbered(tree.get("args", []), tree.get("subcommands", []))[0]]
        args = own + inherited_by(own, inherited)
        args += self.generated(tree, args, disabled)
        node = {key: tree[key] for key in KEPT if key in tree}
        node.update({key: True for key in FLAGS}, bin_name=full_name)
        node["args"] = [self.values(arg) for arg in args]
        node["subcommands"] = self.children(tree, full_name, disabled, args)
        return node

    def disabled(self, tree: Tree, inherited: Dict[str, bool]) -> Dict[str, bool]:
        """Returns which flags and children are not generated."""
        if DISABLING in self.rules:
            return {key: tree.get(key, False) for key in FLAGS}
        return {key: tree.get(key, False) or inherited.get(key, False) for key in FLAGS}

    def generated(self, tree: Tree, args: List[Tree], disabled: Dict[str, bool]) -> List[Tree]:
        """Returns the flags that a build adds."""
        ids = {arg["id"] for arg in args} if REPLACED in self.rules else set()
        flags = []
        if not disabled["disable_help_flag"] and "help" not in ids:
            text = "Print help" if SEE_MORE_TEXT in self.rules or not has_long_help(tree, args) else SEE_MORE
            flags.append(flag("help", "h", "Help", text))
        if "version" in tree and not disabled["disable_version_flag"] and "version" not in ids:
            flags.append(flag("version", "V", "Version", "Print version"))
        return flags

    def children(self, tree: Tree, full_name: str, disabled: Dict[str, bool], args: List[Tree]) -> List[Tree]:
        """Returns the children of a command, the generated one last."""
        children = numbered(tree.get("args", []), tree.get("subcommands", []))[1]
        nodes = []
        for child in children:
            name = f"{full_name} {child['name']}"
            if NAMES not in self.rules and "bin_name" in child:
                name = child["bin_name"]
            nodes.append(self.command(child, name, disabled, self.passed_on(child, args, disabled)))
            nodes[-1]["display_order"] = child["display_order"]
        has_help = any("help" in names(child) for child in children) and REPLACED in self.rules
        if children and not disabled["disable_help_subcommand"] and not has_help:
            nodes.append(self.help(children, full_name))
        return nodes

    def passed_on(self, child: Tree, args: List[Tree], disabled: Dict[str, bool]) -> List[Tree]:
        """Returns the arguments that a child gets, if it lacks them."""
        if REPLACED not in self.rules and child["name"] == "help" and not disabled["disable_help_subcommand"]:
            return []
        return [arg for arg in args if arg.get("global")]

    def help(self, children: List[Tree], full_name: str) -> Tree:
        """Returns the generated child `help`."""
        order = LAST if HELP_ORDER in self.rules else len(children)
        node = bare("help", LAST, f"{full_name} help", about=HELP)
        node["subcommands"] = copies(children, node["bin_name"])
        node["subcommands"].append(bare("help", order, f"{node['bin_name']} help", about=HELP))
        return node

    def values(self, arg: Tree) -> Tree:
        """Returns an argument with its number of values and its action."""
        arg = copy.deepcopy(arg)
        if EXECUTABLES in self.rules and arg.get("value_hint") == "ExecutablePath":
            # Every file counts as executable.
            arg["value_hint"] = "FilePath"
        if NO_VALUES in self.rules and arg.get("action", "Set") not in TAKING:
            arg.setdefault("num_args", [0, 0])
            if takes_values(arg) and "possible_values" not in arg and arg["action"] in ("SetTrue", "SetFalse"):
                # For these two, clap itself has the possible values `true` and `false`.
                arg["action"] = "Set"
        return arg


def numbered(args: List[Tree], children: List[Tree]) -> Tuple[List[Tree], List[Tree]]:
    """Returns copies of arguments and children, with the orders in which they are shown.

    Two counters would be one for both in clap: it counts options, flags and children as they are added.
    """
    counter, numbered_args, numbered_children = 0, [], []
    for arg in args:
        arg = dict(arg)
        if "short" in arg or "long" in arg:
            arg.setdefault("display_order", counter)
            counter += 1
        numbered_args.append(arg)
    for child in children:
        numbered_children.append({**child, "display_order": child.get("display_order", counter)})
        counter += 1
    return numbered_args, numbered_children


def inherited_by(own: List[Tree], inherited: List[Tree]) -> List[Tree]:
    """Returns the global arguments that a command with these arguments of its own gets."""
    ids, added = {arg["id"] for arg in own}, []
    for arg in inherited:
        if arg["id"] not in ids:
            ids.add(arg["id"])
            added.append(arg)
    return added


def flag(name: str, short: str, action: str, text: str) -> Tree:
    return {"id": name, "short": short, "long": name, "action": action, "help": text, "display_order": LAST}


def has_long_help(tree: Tree, args: List[Tree]) -> bool:
    """Tells whether clap finds that a command has a longer help."""
    return "long_about" in tree or any(
        not arg.get("hide") and takes_values(arg) and any(
            "help" in value and not value.get("hide") for value in arg.get("possible_values", [])
        )
        for arg in args
    )


def takes_values(arg: Tree) -> bool:
    """Tells whether an argument takes values, by its range alone, before a build fills that in."""
    return arg.get("num_args", [1, 1])[1] != 0


def bare(name: str, order: int, full_name: str, **more: Any) -> Tree:
    node = {"name": name, "display_order": order, "bin_name": full_name, **more}
    node.update({key: True for key in FLAGS}, args=[], subcommands=[])
    return node


def copies(children: List[Tree], full_name: str) -> List[Tree]:
    """Returns the copies of children that are below a generated `help`."""
    nodes = []
    for order, child in enumerate(children):
        kept = {key: child[key] for key in ("about", "hide") if key in child}
        node = bare(child["name"], order, f"{full_name} {child['name']}", **kept)
        node["subcommands"] = copies(child.get("subcommands", []), node["bin_name"])
        nodes.append(node)
    return nodes


def names(child: Tree) -> List[str]:
    return [child["name"], *child.get("visible_aliases", []), *child.get("aliases", [])]


def mend_conflicts(node: Tree, parent: Optional[Tree], rules: Iterable[int]) -> None:
    """Takes out of each argument of a tree the conflicts that this project does not find."""
    for arg in node["args"]:
        place = parent if parent and arg.get("global") else node
        near = {it["id"] for it in place["args"]}
        far = near | (ids_below(place, arg["id"]) if arg.get("global") else set())
        wanted = arg.pop("conflicts_with", [])
        if UNKNOWN_CONFLICTS in rules:
            wanted = [it for it in wanted if it in far]
        if CONFLICTS_BELOW in rules:
            wanted = [it for it in wanted if it in near or it not in far]
        if wanted:
            arg["conflicts_with"] = wanted
    for child in node["subcommands"]:
        mend_conflicts(child, node, rules)


def ids_below(node: Tree, argument: str) -> Set[str]:
    """Returns the ids in all commands below a node that have the argument, each below one that has it."""
    found = set()
    for child in node["subcommands"]:
        ids = {arg["id"] for arg in child["args"]}
        if argument in ids:
            found |= ids | ids_below(child, argument)
    return found
