"""The differences from the original that a text shows, each by the number of its row in docs/DIFFERENCES.md.

Each rule takes both texts, and returns them without its difference.
"""

from __future__ import annotations

import re
import shlex
from typing import Any, Callable, Dict, Iterable, Iterator, List, NamedTuple, Optional, Tuple

import builds

SEPARATOR = "__subcmd__"
SEEN = "; and __fish_seen_subcommand_from "
UNREACHABLE = "entered unreachable code"
# The answer of this project if the index is not that of a word to complete.
NO_COMPLETION = ("error", "no completion generated")

Tree = Dict[str, Any]
# The end of a request, and the text.
Answer = Tuple[str, str]
# Two texts, or what is read from them.
Both = Tuple[Any, Any]


class Case(NamedTuple):
    """A request, with the tree file and the tree that a build makes of it."""

    kind: str
    shell: str
    bin: str
    words: Optional[List[str]]
    index: Optional[int]
    tree: Tree
    built: Tree


def fish_deep(case: Case, ours: str, theirs: str) -> Both:
    """8: only here there are records for paths of more than two names."""
    records = re.split(r"(?m)^(?=complete -c )", ours)
    return "".join(it for it in records if condition(it).count(SEEN) < 2), theirs


def fish_excluded(case: Case, ours: str, theirs: str) -> Both:
    """9: only here the records for a path of two names exclude the names of children."""
    records = re.split(r"(?m)^(?=complete -c )", ours)
    return "".join(without_excluded(it) for it in records), theirs


def without_excluded(record: str) -> str:
    found = condition(record)
    if found.count(SEEN) != 1:
        return record
    return record.replace(found, re.sub(r"; and not __fish_seen_subcommand_from.*", "", found), 1)


def condition(record: str) -> str:
    """Returns the condition of a record of fish."""
    found = re.match(r'complete -c .*? -n "(__fish_[^"]*_using_subcommand [^"]*)"', record)
    return found[1] if found else ""


def fish_values(case: Case, ours: str, theirs: str) -> Both:
    """10: possible values are escaped for one reading of fish, or here for two."""
    for arg in arguments(case.built):
        values = [value for value in arg.get("possible_values", []) if not value.get("hide")]
        once = "\n".join(f"{fish_once(it['name'], True)}\\t'{fish_once(it.get('help', ''))}'" for it in values)
        twice = "\n".join(f"{fish_twice(it['name'])}\\t'{fish_eval(it.get('help', ''))}'" for it in values)
        theirs = theirs.replace(f'-a "{once}"', f'-a "{twice}"')
    return ours, theirs


def fish_once(text: str, is_name: bool = False) -> str:
    text = text.replace("\\", "\\\\").replace("'", "\\'")
    return text.replace(",", "\\,") if is_name else text.replace("\n", " ")


def fish_eval(text: str) -> str:
    escapes = {"\\": "\\\\\\\\", "'": "\\\\'", '"': '\\"', "$": "\\$", "\n": " "}
    return "".join(escapes.get(it, it) for it in text)


def fish_twice(name: str) -> str:
    return name if re.fullmatch(r"[A-Za-z0-9/_\-.,+=:@]+", name) else f"'{fish_eval(name)}'"


def bash_labels(case: Case, ours: str, theirs: str) -> Both:
    """12: the arms of a program with a hyphen have other labels than its cases."""
    arm = case.bin.replace(" ", SEPARATOR).replace("-", SEPARATOR)
    label = case.bin.replace("-", "__")
    return ours, re.sub(rf"(?m)^        {re.escape(arm)}({SEPARATOR}.*\))$", rf"        {label}\1", theirs)


def unescaped_names(case: Case, ours: str, theirs: str) -> Both:
    """14: a name in the place of a missing help text, at the end of a row, is not escaped."""
    for name in {name for node in nodes(case.built) for name in shown_names(node) if "'" in name}:
        escaped = name.replace("'", "''")
        theirs = re.sub(rf"(?m)^( +cand .*) '{re.escape(name)}'$", lambda row: f"{row[1]} '{escaped}'", theirs)
        theirs = theirs.replace(f", '{name}')", f", '{escaped}')")
    return ours, theirs


def shown_names(node: Tree) -> List[str]:
    """Returns the longs and the names of children, which stand for a missing help text."""
    longs = [name for arg in node["args"] for name in [arg.get("long", ""), *arg.get("visible_aliases", [])]]
    return longs + [name for child in node["subcommands"] for name in builds.names(child)]


def capitals(case: Case, ours: str, theirs: str) -> Both:
    """28: a space follows each short that is a capital letter, or here a capital letter in ASCII."""
    return ours, re.sub(r"('-([^\x00-\x7f])) ', \[", lambda it: f"{it[1]}', [" if it[2].isupper() else it[0], theirs)


# Patterns that find the bin name and the completer in a registration, by shell. NAME stands for the command's name.
# It is a part of the function's name in zsh, and may have spaces.
QUOTED = {
    "bash": [r'^        "(.*)" -- "\$\{words'],
    "elvish": [r"arg-completer\[(.*)\] = ", r'="elvish" (.*) -- \$@words'],
    "powershell": [r"-CommandName (.*) -ScriptBlock", r"^& (.*) -- \$args"],
    "zsh": [r"^#compdef (.*)$", r"^        (.*) -- \"\$\{words", r"^compdef _clap_dynamic_completer_NAME (.*)$"],
}


def quoting(case: Case, ours: str, theirs: str) -> Both:
    """16: words of a registration are quoted otherwise."""
    name = re.escape(case.tree["name"].replace("-", "_"))
    for pattern in QUOTED.get(case.shell, []):
        pattern = pattern.replace("NAME", name)
        ours, theirs = (without_quoted(case, pattern, text) for text in (ours, theirs))
    return ours, theirs


def without_quoted(case: Case, pattern: str, text: str) -> str:
    """Takes out a word that is quoted correctly. The original's in bash is quoted twice."""
    found = re.search(pattern, text, re.MULTILINE)
    if not found:
        return text
    forms = [found[1], f'"{found[1]}"'] if case.shell == "bash" else [found[1]]
    if not any(words_of(form) == [case.bin] for form in forms):
        return text
    return text[: found.start(1)] + "THE NAME" + text[found.end(1) :]


def words_of(text: str) -> List[str]:
    try:
        return shlex.split(text)
    except ValueError:
        return []


def nushell_form(case: Case, ours: str, theirs: str) -> Both:
    """19: a script of Nushell is of another form. The options of each command are the same."""
    blocks = zip(canonical(case.built), nushell_blocks(ours))
    return [block for is_canonical, block in blocks if is_canonical], nushell_blocks(theirs)


def canonical(node: Tree, is_parent: bool = True, count: int = 1) -> List[bool]:
    """Returns for each block of a script whether its path has no alias. The node has this many visible names.

    The blocks of a node come first, then those of each child below each of these paths.
    """
    here = [is_parent and number == 0 for number in range(count)]
    found = list(here)
    for child in node["subcommands"]:
        for is_canonical in here:
            found += canonical(child, is_canonical, 1 + len(child.get("visible_aliases", [])))
    return found


def nushell_blocks(script: str) -> List[List[Tuple[Any, ...]]]:
    """Returns a block for each command: its path, and rows of a name, whether it takes a value, and a help."""
    blocks: List[List[Tuple[Any, ...]]] = []
    for line in script.splitlines():
        opened = re.match(r'  export extern "?(.*?)"? \[$', line)
        name = re.match(r"    (-.*?)(\(-(.)\))?(: .*?)?( +# (.*))?$", line)
        if opened:
            blocks.append([(opened[1],)])
        elif name:
            found = [name[1], *(["-" + name[3]] if name[2] else [])]
            blocks[-1] += [(it, bool(name[4]), name[6] or "") for it in found]
    return [sorted(block) for block in blocks]


# The rules on texts: the kind of request, the shells, and the rule, by number.
RULES: Dict[int, Tuple[str, List[str], Callable[[Case, str, str], Both]]] = {
    8: ("script", ["fish"], fish_deep),
    9: ("script", ["fish"], fish_excluded),
    10: ("script", ["fish"], fish_values),
    12: ("script", ["bash"], bash_labels),
    14: ("script", ["elvish", "powershell"], unescaped_names),
    16: ("register", list(QUOTED), quoting),
    19: ("script", ["nushell"], nushell_form),
    28: ("script", ["powershell"], capitals),
}


def rules_for(case: Case) -> List[int]:
    """Returns the numbers of the rules on texts of such a request."""
    return [number for number, (kind, shells, _) in RULES.items() if kind == case.kind and case.shell in shells]


def without(case: Case, numbers: Iterable[int], ours: str, theirs: str) -> Both:
    """Returns both texts without the differences of these rules."""
    for number in sorted(set(numbers) & set(RULES)):
        ours, theirs = RULES[number][2](case, ours, theirs)
    return ours, theirs


# Differences that a request shows by its outcome.


def by_outcome(case: Case, ours: Answer, theirs: Answer) -> Optional[int]:
    """Returns the number of the rule by which the two outcomes differ, or `None`."""
    if theirs[0] == "panic" and UNREACHABLE in theirs[1]:
        # The original reads the words before the index first, or all if it finds no word there.
        if ours[0] == "text" or ours == NO_COMPLETION and not is_in_range(case):
            return 6
    if case.kind == "script" and case.shell == "bash" and ours == ("error", clash(case)):
        return 13
    if case.kind == "script" and case.shell in ("bash", "zsh") and is_ambiguous(case):
        return 18
    return None


def is_in_range(case: Case) -> bool:
    """Tells whether the index is that of a word to complete. For zsh, an empty word may follow the last one."""
    first = 0 if case.tree.get("no_binary_name") else 1
    count = len(case.words) + (case.shell == "zsh" and case.index == len(case.words))
    return first <= case.index < count


def clash(case: Case) -> str:
    """Returns the error for a tree in which two commands have the same label, or an empty text."""
    seen, waiting = set(), [(case.bin.replace("-", "__"), case.built)]
    while waiting:
        label, node = waiting.pop(0)
        if label in seen:
            return f"two commands share the label {label}"
        seen.add(label)
        below = [(label + SEPARATOR + it["name"].replace("-", SEPARATOR), it) for it in node["subcommands"]]
        waiting = below + waiting
    return ""


def is_ambiguous(case: Case) -> bool:
    """Tells whether the original may find another command than the one it looks for, or none."""
    if case.shell == "zsh":
        full_names = [node.get("bin_name", case.bin) for node in nodes(case.built)]
        return len(set(full_names)) < len(full_names)
    if " " in case.bin:
        return True
    for node in nodes(case.built):
        found = [name for child in node["subcommands"] for name in builds.names(child)]
        if len(set(found)) < len(found) or any(" " in name or SEPARATOR in name for name in found):
            return True
    return False


def nodes(node: Tree) -> Iterator[Tree]:
    """Yields a node and all below it."""
    yield node
    for child in node["subcommands"]:
        yield from nodes(child)


def arguments(node: Tree) -> Iterator[Tree]:
    for it in nodes(node):
        yield from it["args"]
