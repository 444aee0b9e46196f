"""What zsh offers with a script: the section on zsh in docs/TEXTS.md, and `_arguments` in zsh's manual.

Each command reads its words by one call of `_arguments -s -S -C`: options with their values, and other words, the
last of which is the name of a child. From the first word after it that is no option of the command, the child reads
the rest. An option that was given is not offered again, nor are those that it excludes. Options are offered after a
hyphen, or if there is nothing else.
"""

from __future__ import annotations

import os
from typing import List, NamedTuple, Optional, Tuple, Union

import model
from model import COMMAND, HOST, USER, Expected, Json, Line, Node, after_tab, counts, dashed, files, shown_values
from model import takes_values

# Rows of docs/DIFFERENCES.md.
MANY, NEXT_POSITIONAL, BEHIND_DASHES, OF_PARENT, TERMINATOR, STALE = 52, 53, 54, 55, 56, 57


class Found(NamedTuple):
    """The words that are offered for the text `start`, and what follows a single one."""

    words: List[str]
    start: str
    ending: str = " "
    rows: Tuple[int, ...] = ()
    more: bool = False


def expected(root: Node, line: Line, version: str) -> Expected:
    words = line.before[1:] if line.before[0] == "sudo" else line.before
    found = completed(root, None, list(words[1:]), line.current)
    after = after_tab(line.text, found.start, found.words, found.ending)
    if [word for word in found.words if word.startswith("/")]:
        # zsh replaces the beginning of a name by the whole path
        after = line.text[:len(line.text) - len(line.current)] + found.words[0] + " "
    return Expected(found.words, after, found.rows, found.more, {}, other_line(line, found.words, after))


def other_line(line: Line, words: List[str], after: str) -> Optional[str]:
    """Returns another line that is right. zsh matches the parts between hyphens: it may leave out a hyphen after which
    options differ, and insert what shorts and longs have in common after their hyphens."""
    if len(words) > 1 and after != line.text and after.endswith("-"):
        return after[:-1]
    common = os.path.commonprefix([word.lstrip("-") for word in words])
    return line.text + common if line.current == "-" and common else None


class Read:
    """What a command has read of its words: the names of options that are left, how many other words, and the child
    that such a word names."""

    def __init__(self, node: Node, parent: Optional[Node]):
        self.node, self.parent = node, parent
        self.left = {name: arg for arg in node.options + node.flags for name in dashed(arg)}
        self.ended, self.plain, self.after_option = False, 0, True
        self.child: Optional[Node] = None
        self.last: Json = {}
        takes_many = [at for at, arg in enumerate(node.positionals) if counts(arg)[1] > 1 and not node.children]
        self.many = takes_many[0] if takes_many else None

    def option(self, words: List[str], at: int) -> Optional[int]:
        """Reads an option, or `--`. Returns the place after it and its values, or `None` if the word is none."""
        if words[at] == "--" and not self.ended:
            self.ended = True
            return at + 1
        arg, inside = option_of(self, words[at])
        self.after_option = arg is not None
        if arg is None:
            return None
        self.last = arg
        return at + 1 + (max(1, counts(arg)[0]) if takes_values(arg) and not inside else 0)

    def word(self, word: str) -> bool:
        """Reads a word that is no option. Returns whether it is a positional's or the name of a child."""
        node = self.node
        if node.children and self.plain == len(node.positionals):
            self.child = node.child(word)
            return self.child is not None
        self.plain += 1
        return bool(node.children or node.external or self.many is not None) or self.plain <= len(node.positionals)

    def is_rest(self) -> bool:
        """Returns whether a positional that takes many has its first word, after which nothing else counts."""
        return self.many is not None and self.plain > self.many

    def take(self, name: str) -> None:
        """Takes an option out that was given, and those that it excludes."""
        arg = self.left[name]
        if arg.get("action") not in ("Append", "Count"):
            del self.left[name]
        owner = self.parent if arg.get("global") and self.parent else self.node
        for other in owner.args:
            if other["id"] in arg.get("conflicts_with", ()):
                for key, dash in (("short", "-"), ("long", "--")):
                    self.left.pop(dash + other.get(key, ""), None)

    def shorts(self, word: str) -> Optional[Tuple[str, bool]]:
        """Reads a word of shorts. Returns the last short, and whether its value is in the word, or `None`."""
        if self.ended or len(word) < 2 or word[0] != "-" or word[1] == "-":
            return None
        for at, letter in enumerate(word[1:], 1):
            name = "-" + letter
            if name not in self.left:
                return None
            arg = self.left[name]
            self.take(name)
            if takes_values(arg):
                return name, at < len(word) - 1
        return name, False

    def long(self, word: str) -> Optional[str]:
        name = word.partition("=")[0]
        if self.ended or not name.startswith("--") or name not in self.left:
            return None
        return name if "=" not in word or takes_values(self.left[name]) else None


def completed(node: Node, parent: Optional[Node], words: List[str], current: str) -> Found:
    """Returns what a command offers after these words, the first of which follows its name."""
    state, at = Read(node, parent), 0
    if state.many is not None and "value_terminator" in node.positionals[state.many]:
        return Found([], current, " ", (TERMINATOR,))
    while at < len(words) and not state.is_rest():
        after = state.option(words, at)
        if after is None and state.child:
            return completed(state.child, node, words[at:], current)
        if after is None and not state.word(words[at]):
            return Found([], current)
        at = after or at + 1
    if at > len(words):
        return with_optional(state.last, state, current)
    if state.child:
        return in_child(state, state.child, current)
    if state.is_rest() or state.many == state.plain and not state.after_option:
        return rest(node.positionals[state.many or 0], state, current)
    return at_word(state, current)


def rest(arg: Json, state: Read, current: str) -> Found:
    """Returns what is offered for a word of a positional that takes many, after another word: no options."""
    return value_of(arg, state, current)._replace(rows=(MANY,) if current.startswith("-") else ())


def value_of(arg: Json, state: Read, current: str) -> Found:
    """Returns what is offered as a value of a positional. The hint `CommandWithArguments` takes the first word for the
    name of a program, and completes further ones for it."""
    if arg.get("value_hint") == "CommandWithArguments" and state.plain:
        arg = {"id": "of another program"}
    return value(arg, current)


def in_child(state: Read, below: Node, current: str) -> Found:
    """Returns what is offered for the first word of a child. Before it, the command still reads its own options: so
    it reads shorts that it has, and offers its options right after one."""
    found = completed(below, state.node, [], current)
    if state.ended:
        return found._replace(rows=(*found.rows, BEHIND_DASHES))
    before = dict(state.left)
    if current[:1] == "-" and current[1:2] != "-" and state.shorts(current):
        state.left = before
        return after_shorts(state, current)._replace(rows=(OF_PARENT,))
    state.left = before
    if current.startswith("-") and "=" not in current and state.after_option:
        own = options(state, current)
        words = found.words + own.words
        ending = found.ending if found.words else own.ending
        return Found(words, current, ending, (*found.rows, OF_PARENT))
    return found


def option_of(state: Read, word: str) -> Tuple[Optional[Json], bool]:
    """Returns the option or flag that a word gives, and whether its value is in the word."""
    name = state.long(word)
    if name:
        arg = state.left[name]
        state.take(name)
        return arg, "=" in word
    before = dict(state.left)
    shorts = state.shorts(word)
    if shorts:
        return before[shorts[0]], shorts[1]
    state.left = before
    return None, False


def with_optional(arg: Json, state: Read, current: str) -> Found:
    """Returns what is offered as the value of an option. If the value may be left out, other words are offered too."""
    found = value(arg, current)
    if counts(arg)[0] > 0 or not positionals(state)[0]:
        return found
    other = at_word(state, current)
    return found._replace(words=found.words + other.words, ending=found.ending if found.words else other.ending)


def at_word(state: Read, current: str) -> Found:
    """Returns what is offered for a word that is not the value of an option."""
    name = state.long(current) if "=" in current else None
    if name:
        return value(state.left[name], current.partition("=")[2])
    if current.startswith("-") and not state.ended:
        if len(current) > 1 and current[1] != "-":
            return after_shorts(state, current)
        found = options(state, current)
        other = [part for action in positionals(state)[0] if isinstance(action, dict)
                 for part in value_of(action, state, current).words]
        rows = (STALE,) if is_stale(state) else ()
        return found._replace(words=found.words + other, more=bool(rows), rows=rows)
    actions, rows = positionals(state)
    if not actions:
        return options(state, current) if not state.ended else Found([], current)
    parts = [action if isinstance(action, Found) else value_of(action, state, current) for action in actions]
    words = [word for part in parts for word in part.words if word.startswith(current)]
    if is_stale(state):
        return Found(words, current, " ", (STALE,), True)
    return Found(words, current, " ", rows, any(part.more for part in parts))


def is_stale(state: Read) -> bool:
    """Returns whether the script, at the name of a child, looks at words that the parent has read: if the command has
    positionals, or a child of its own name."""
    node = state.node
    if not state.parent or not node.children or state.plain != len(node.positionals):
        return False
    namesakes = [child for child in node.children if set(child.names) & set(node.names)]
    return bool(node.positionals) or any(child.args or child.children for child in namesakes)


def positionals(state: Read) -> Tuple[List[Union[Json, Found]], Tuple[int, ...]]:
    """Returns the positionals that the next word may be, or the names of children, up to the first that must be."""
    node = state.node
    found: List[Union[Json, Found]] = []
    rows: Tuple[int, ...] = ()
    for at, arg in enumerate(node.positionals):
        many = counts(arg)[1] > 1 and not node.children
        if at >= state.plain or many:
            found.append(arg)
            if arg.get("required") and not many:
                return found, rows
            if many:
                break
    else:
        if node.children and state.plain <= len(node.positionals):
            found.append(Found(node.child_names(), ""))
        elif node.external:
            found.append({"id": "external"})
    if len(found) > 1:
        rows = (NEXT_POSITIONAL,)
    return found, rows


def options(state: Read, current: str) -> Found:
    names = [name for name in state.left if name.startswith(current)]
    only = state.left[names[0]] if len(names) == 1 else None
    ending = " " if not only or not takes_values(only) else "=" if names[0].startswith("--") else ""
    return Found(names, current, ending)


def after_shorts(state: Read, current: str) -> Found:
    """Returns what is offered after shorts in one word: the value of the last one, or further shorts."""
    before = dict(state.left)
    shorts = state.shorts(current)
    if not shorts:
        return Found([], current)
    name, inside = shorts
    if takes_values(before[name]):
        kept = current[:current.index(name[1]) + 1]
        found = value(before[name], current[len(kept):])
        return found._replace(words=[] if found.more else [kept + word for word in found.words], start=current)
    return Found([current + name[1] for name in state.left if len(name) == 2], current, "")


def value(arg: Json, current: str) -> Found:
    """Returns what is offered as a value of an argument."""
    shown, hint = shown_values(arg), arg.get("value_hint", "Unknown")
    if shown is not None:
        return Found([it["name"] for it in shown if it["name"].startswith(current)], current)
    if hint in ("Unknown", "AnyPath", "FilePath"):
        return Found(files(current), current)
    if hint == "DirPath":
        return Found(files(current, only_directories=True), current)
    if hint == "ExecutablePath":
        path = os.path.join(model.folder_of_programs, COMMAND)
        return Found([path] if current == COMMAND[:2] else [], current, " ", (), not current)
    known = {"CommandName": [COMMAND], "CommandString": [COMMAND, "-"], "CommandWithArguments": [COMMAND],
             "Username": [USER], "Hostname": [HOST], "Url": ["http://", "https://"],
             "EmailAddress": [USER + "@"] if current else []}
    return Found([name for name in known.get(hint, []) if name.startswith(current)], current,
                 "" if hint in ("Url", "CommandString", "EmailAddress") else " ", (), hint in known and not current)
