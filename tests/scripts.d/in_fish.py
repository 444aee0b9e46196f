"""What fish offers with a script: the section on fish in docs/TEXTS.md, and fish's pages on `complete`, `argparse` and
its own functions.

A record counts if its condition holds. fish offers options only after a hyphen, and files unless a record that counts
says `-f`. The value of an option is offered if the record says `-r`.

fish 3 offers the longs that begin with what was typed. fish 4.0 also offers those that have its letters in their
order, and later versions do so if nothing begins with it. fish 4.0 reads a condition on words as a pattern, in which
only the first word is bound to the beginning of a name, and the last one to its end.
"""

from __future__ import annotations

import re
from typing import Callable, Dict, Iterator, List, Optional, Set, Tuple

from model import COMMAND, DIRECTORY, HOST, USER, Expected, Json, Line, Node, after_tab, dashed, files, shown_values
from model import takes_values

# Rows of docs/DIFFERENCES.md.
HELP, OTHER_PATHS, VALUES_OF_ROOT, POSITIONALS, AFTER_EQUALS, PATTERN = 9, 48, 49, 50, 51, 59
# After `--long=`, the functions of fish 3 for these hints write the option too, so that it is inserted twice.
DOUBLED = ("DirPath", "CommandName", "CommandString")


class Offers:
    """What is offered: the words with their descriptions, and whether files are offered too."""

    def __init__(self, version: str) -> None:
        self.version = version
        self.words: Dict[str, Optional[str]] = {}
        self.loose: Dict[str, Optional[str]] = {}
        self.files, self.forced, self.more = True, False, False
        self.rows: Set[int] = set()

    def add(self, name: str, text: Optional[str]) -> None:
        """Offers a name. If records differ about its description, it is left open."""
        self.words[name] = text if self.words.get(name, text) == text else None


def expected(root: Node, line: Line, version: str) -> Expected:
    words = line.before[1:] if line.before[0] == "sudo" else line.before
    tokens, current = list(words[1:]), line.current
    parsed, command = argparse(root, tokens)
    is_seen = seen_by(tokens, version)
    active = list(records(root, is_seen, parsed, command))
    offers = Offers(version)
    rows = offers.rows
    if len(active) != len(list(records(root, tokens.__contains__, parsed, command))):
        rows.add(PATTERN)
    if not parsed:
        rows.add(VALUES_OF_ROOT)
    if "help" in tokens:
        rows.add(HELP)
    if len(active) > 1:
        rows.add(OTHER_PATHS)
    switches = "--" not in tokens
    common = True
    if switches:
        common = not offer_values(active, tokens, current, offers)
    if common:
        offer_names(active, current, switches, offers)
    begin, sign, rest = current.rpartition("=") if current.startswith("-") else ("", "", current)
    found = list(offers.words)
    loose = loosely_offered(offers, current)
    if offers.forced or offers.files:
        found += [begin + sign + name for name in files(rest)]
        if common and not current.startswith("-") and any(node.positionals for node in active):
            rows.add(POSITIONALS)
    first = found or loose
    after = after_tab(line.text, current, first)
    if len(first) == 1 and not first[0].startswith(current):
        after = line.text[:len(line.text) - len(current)] + first[0] + " "
    return Expected(found + loose, after, tuple(sorted(rows)), offers.more, {**offers.loose, **offers.words})


def loosely_offered(offers: Offers, current: str) -> List[str]:
    """Returns the longs that do not begin with what was typed, and are offered."""
    if offers.version.startswith("3.") or offers.words and not offers.version.startswith("4.0."):
        return []
    ranks = {name: rank(current, name) for name in offers.loose}
    best = min(ranks.values(), default=0)
    return [name for name in ranks if ranks[name] == best or offers.version.startswith("4.0.")]


def rank(typed: str, name: str) -> int:
    """Returns how well a typed text fits a name that it does not begin: in one piece, whatever the case, or by letters
    in their order. The greatest number says that it does not fit."""
    letters = iter(name)
    fits = (typed in name, typed.lower() in name.lower(), all(letter in letters for letter in typed), True)
    return fits.index(True)


def seen_by(tokens: List[str], version: str) -> Callable[[str], bool]:
    """Returns the function that tells whether a name is among the words, as a condition finds it."""
    if not version.startswith("4.0."):
        return tokens.__contains__
    pattern = re.compile("^" + "|".join(map(re.escape, tokens)) + "$")
    return lambda name: bool(pattern.search(name))


def argparse(root: Node, tokens: List[str]) -> Tuple[bool, Optional[str]]:
    """Reads the words as `argparse -s` does, with the options of the root by their names, without aliases. Returns
    whether it succeeds, and the first word that is left."""
    options = {dash + arg[key]: arg for arg in root.args for key, dash in (("short", "-"), ("long", "--")) if key in arg}
    at = 0
    while at < len(tokens):
        token = tokens[at]
        at += 1
        if token == "--":
            return True, tokens[at] if at < len(tokens) else None
        if not token.startswith("-") or token == "-":
            return True, token
        name, _, value = token.partition("=")
        if name not in options or value and not takes_values(options[name]):
            return False, None
        if takes_values(options[name]) and "=" not in token:
            if at == len(tokens):
                return False, None
            at += 1
    return True, None


def records(root: Node, is_seen: Callable[[str], bool], parsed: bool, command: Optional[str]) -> Iterator[Node]:
    """Yields the nodes whose records count."""
    if not root.children:
        yield root
    elif parsed and command is None:
        yield root
    elif parsed:
        below = root.child(command or "")
        if below:
            yield from seen(below, is_seen)


def seen(node: Node, is_seen: Callable[[str], bool]) -> Iterator[Node]:
    """Yields a node, if no name of a child is among the words, and the nodes below whose names are."""
    names = [name for name in node.child_names() if is_seen(name)]
    if not names:
        yield node
    for name in names:
        below = node.child(name)
        if below:
            yield from seen(below, is_seen)


def offer_values(active: List[Node], tokens: List[str], current: str, offers: Offers) -> bool:
    """Offers the values of the option that the word before names, or the current one. Returns whether there is one."""
    found = False
    for node in active:
        for arg in node.options:
            before = None
            if current.startswith("-"):
                for name in dashed(arg):
                    sign = "=" if name.startswith("--") else ""
                    if current.startswith(name + sign):
                        before = name + sign
            elif tokens and tokens[-1] in dashed(arg):
                before = ""
            if before is not None:
                found = True
                offer_value(arg, before, current[len(before):], offers)
    return found


def offer_value(arg: Json, before: str, start: str, offers: Offers) -> None:
    shown, hint = shown_values(arg), arg.get("value_hint", "Unknown")
    words: Dict[str, Optional[str]] = {}
    if shown is not None:
        words = {value["name"]: value.get("help", "") for value in shown}
        offers.files = False
    elif hint in ("AnyPath", "FilePath", "ExecutablePath"):
        offers.forced = True
    elif hint != "Unknown":
        offers.files = False
        directory = DIRECTORY + "/"
        known = {"DirPath": [directory], "CommandString": [COMMAND, directory], "CommandName": [COMMAND, directory],
                 "Username": [USER], "Hostname": [HOST]}
        words = {name: None for name in known.get(hint, [])}
        offers.more = not start and hint in known and hint != "DirPath"
    is_doubled = before.endswith("=") and not start and hint in DOUBLED and shown is None
    doubled = before if is_doubled and offers.version.startswith("3.") else ""
    if doubled:
        offers.rows.add(AFTER_EQUALS)
    for name, text in words.items():
        if name.startswith(start):
            offers.words[before + doubled + name] = text


def offer_names(active: List[Node], current: str, switches: bool, offers: Offers) -> None:
    # If no name begins with what was typed, those that contain it are offered.
    names = [name for node in active for name in node.child_names()]
    begins = any(name.startswith(current) for name in names)
    for node in active:
        if node.children and not node.positionals:
            offers.files = False
        for child in node.children:
            for name in child.names:
                if name.startswith(current) or not begins and not switches and current in name:
                    offers.add(name, child.about)
        if switches and current.startswith("-"):
            offer_options(node, current, are_flags(active, current[1:]), offers)


def offer_options(node: Node, current: str, further: bool, offers: Offers) -> None:
    """Offers the options of a command. `further` allows shorts after those in the current word."""
    for arg in node.options + node.flags:
        for name in dashed(arg):
            if name.startswith("--"):
                if name.startswith(current):
                    offers.add(name, arg.get("help"))
                elif rank(current, name) < 3:
                    offers.loose.setdefault(name, arg.get("help"))
            elif further and name[1] not in current:
                offers.add(current + name[1], arg.get("help"))


def are_flags(active: List[Node], letters: str) -> bool:
    """Returns whether each letter is a short of these commands that takes no value."""
    flags = {name[1:] for node in active for arg in node.flags for name in dashed(arg) if len(name) == 2}
    return all(letter in flags for letter in letters)
