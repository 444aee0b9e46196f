"""Invented programs, made at random from the forms that docs/IMPORT.md states, and what has to be found in their texts.

Each part of a text is made together with what the page says about it, so that nothing is read twice. What a tree has to
say is written as in the files `expected` of tests/import.d. `put` and `expected_rows` state once more which options are
global.
"""

from __future__ import annotations

import concurrent.futures
import os
import random
import shutil
from dataclasses import dataclass, field
from typing import Any, Iterator, List, NamedTuple, Sequence, Tuple

from importing.room import JOBS, Room, rows, write_bytes

GROUP_SIZE = 10
WORDS = ("amber", "bobbin", "carve", "drape", "ember", "flint", "grain", "hull", "inlay", "jib", "kiln", "loom", "mast", "notch",
         "oar", "plait", "quill", "rivet", "seam", "tiller", "umber", "vault", "warp", "yarn", "dry-run", "no-oil", "two_ply")
LETTERS = "abcdefgijklmnopqrstuvwxyzABCDEFGIJKLMNOPQRSTUVWXYZ0123456789"
# The name of a value, and its hint.
KINDS = (("BYTES", ""), ("WHEN", ""), ("COUNT", ""), ("FILE", "FilePath"), ("LOG_FILE", "FilePath"), ("DIR", "DirPath"),
         ("PATH", "AnyPath"), ("SOURCE", "AnyPath"), ("DEST", "AnyPath"), ("URL", "Url"), ("HOST", "Hostname"),
         ("USER", "Username"))
# A form of one value with its name, and the number of values.
ONE = (("=%s", "=1"), ("=<%s>", "=1"), (" <%s>", "=1"), (" %s", "=1"), (" <%s>...", "=1.."), (" %s...", "=1.."),
       ("[=%s]", "=0..1"), ("[=<%s>]", "=0..1"), (" [%s]", "=0..1"))
# Other forms of values.
OTHERS = ((" X Y", "=2"), (" <X> <Y>", "=2"), (" X Y Z", "=3"), (" N [N ...]", "=1.."), (" string", "=1"), (" int", "=1"))
# A form of possible values, and what separates them.
CHOICES = (("={%s}", ","), (" {%s}", ","), (" {%s}", "|"), (" <%s>", "|"), ("=<%s>", "|"), (" [%s]", "|"))
# A form of possible values in a help text.
IN_HELP = ("[possible values: %s]", "[choices: %s]", "(choose from %s)", "(one of: %s)", "The values: %s.", "must be one of %s")
VALUES = ("matt", "gloss", "satin", "always", "never", "auto", "fast", "slow", "x86-64", "v2")
SEPARATORS = (", ", ", ", ", ", ",", " | ", "|", " / ", "/", " or ", " ")
SENTENCES = ("Say more", "The wheel turns", "Keep what is there, and add to it", "It is off by default [default: no]",
             "Write it (the default)", "See also the manual", "Two words: one and two")


@dataclass(frozen=True)
class Option:
    """An option: what is before its help text, the help text, and the row of words that a tree has."""

    head: str
    help: str
    row: str


@dataclass
class Positional:
    """A positional argument: its entry, and the row of words that a tree has."""

    entry: str
    row: str


@dataclass
class Command:
    """A command: its names, what its text has, and whether it has a text."""

    names: Tuple[str, ...]
    options: List[Option] = field(default_factory=list)
    positionals: List[Positional] = field(default_factory=list)
    children: List["Command"] = field(default_factory=list)
    has_text: bool = True

    def below(self) -> Iterator["Command"]:
        """Yields the commands below that have a text."""
        for child in self.children:
            if child.has_text:
                yield child
                yield from child.below()


# ---- options

class Value(NamedTuple):
    """A form of values: its text, and the words that a tree has for it."""

    text: str
    words: str


def made_value(chance: random.Random) -> Value:
    """Returns a form of values. Half of all options have none."""
    kind = chance.randrange(8)
    if kind < 4:
        return Value("", "")
    if kind < 6:
        form, number = chance.choice(ONE)
        name, hint = chance.choice(KINDS)
        return Value(form % name, f"{number} {hint}".rstrip())
    if kind == 6:
        return Value(*chance.choice(OTHERS))
    form, between = chance.choice(CHOICES)
    names = chance.sample(VALUES, chance.randrange(2, 5))
    return Value(form % between.join(names), f"=1 {' '.join(names)}")


def made_option(chance: random.Random, letters: List[str], words: List[str]) -> Option:
    """Returns an option with names that no other has."""
    value, help_text = made_value(chance), chance.choice(SENTENCES)
    names = [chance.choice((f"-{letters.pop()}", f"--{words.pop()}")) for _ in range(chance.choice((1, 1, 2, 2, 2, 3, 4)))]
    if chance.randrange(12) == 0:
        names.append(f"--[no-]{words.pop()}")
    may_list = value.words.startswith("=1") and len(value.words.split()) < 3 and value.text not in (" string", " int")
    values = chance.sample(VALUES, chance.randrange(2, 5)) if may_list and chance.randrange(3) == 0 else []
    found = value.words
    if values:
        help_text = f"{help_text.split(' [')[0].split(' (')[0]} {chance.choice(IN_HELP) % ', '.join(values)}"
        found = f"{value.words.split()[0]} {' '.join(values)}"
    return Option(made_head(chance, names, value), help_text, f"{row_of_names(names)} {found}".rstrip())


def made_head(chance: random.Random, names: List[str], value: Value) -> str:
    """Returns names with separators between them, and the values after the last or after each of them."""
    is_lower = value.text[1:2].islower()
    after_each = bool(value.text) and chance.randrange(2) == 0
    head = names[0]
    for name in names[1:]:
        if after_each:
            head += value.text + (", " if is_lower else chance.choice([it for it in SEPARATORS if it != "/"])) + name
        else:
            head += chance.choice(SEPARATORS) + name
    dots = "..." if not value.text and chance.randrange(8) == 0 else ""
    return head + dots + value.text


def row_of_names(names: Sequence[str]) -> str:
    """Returns the names as a tree has them: the short ones first."""
    shorts = [name for name in names if not name.startswith("--")]
    longs = [name for name in names if name.startswith("--") and "[" not in name]
    words = [name[len("--[no-]"):] for name in names if "[" in name]
    return " ".join([*shorts, *longs, *(f"--{begin}{word}" for word in words for begin in ("", "no-"))])


# ---- programs

def made_program(name: str, chance: random.Random) -> Command:
    """Returns a program. Its commands share some options, and some options that differ in the help text alone."""
    letters, words = list(LETTERS), [f"{word}{at}" for word in WORDS for at in ("", "2", "3", "4", "-x", "_y")]
    chance.shuffle(letters)
    chance.shuffle(words)
    shared = [made_option(chance, letters, words) for _ in range(4)]
    variants = [Option(it.head, it.help.replace(" ", " quite ", 1), it.row) for it in shared]
    own = [made_option(chance, letters, words) for _ in range(8)]
    root = Command((name,))
    commands = [root] + [child for _ in range(chance.randrange(3)) for child in add_children(root, chance)]
    for command in commands:
        command.options = [chance.choice((one, one, one, one, other)) for one, other in zip(shared, variants)
                           if chance.randrange(6)]
        command.options += chance.sample(own, chance.randrange(4))
        command.positionals = made_positionals(chance)
        command.has_text = command is root or chance.randrange(8) > 0
    return root


def add_children(root: Command, chance: random.Random) -> List[Command]:
    """Adds a subcommand with other names, and perhaps one below it."""
    place, made = root, []
    for _ in range(chance.choice((1, 1, 2))):
        names = [f"{chance.choice(WORDS[:24])}{len(place.children)}{mark}" for mark in ("", "x", "y")]
        place.children.append(Command(tuple(names[:chance.choice((1, 1, 2, 3))])))
        place = place.children[-1]
        made.append(place)
    return made


def made_positionals(chance: random.Random) -> List[Positional]:
    """Returns entries of a list of positionals. Only the last takes any number of values, or one that is left out
    follows it."""
    kinds = chance.sample(KINDS, chance.choice((0, 0, 1, 2, 3)))
    made = []
    for at, (name, hint) in enumerate(kinds):
        is_last = at == len(kinds) - 1
        many = "..." if is_last and chance.randrange(3) == 0 else ""
        entry = chance.choice(("%s", "<%s>", "[%s]")) % name + many
        made.append(Positional(entry, f"[{name}] =1{'..' if many else ''} {hint}".rstrip()))
        if many and chance.randrange(3) == 0:
            made.append(Positional("LATE", ""))
    return made


# ---- texts

HEADINGS = ("Options:", "Flags:", "General options:", "OPTIONS", "")


def text_of(command: Command, path: Sequence[str], chance: random.Random) -> str:
    """Returns the help text of a command: its parts in the usual order, with gaps of any width."""
    parts = [["Makes things."], [f"Usage: {' '.join(path)} [OPTIONS]"]]
    if command.positionals:
        indent = chance.choice((2, 4))
        parts.append(["Arguments:", *(" " * indent + f"{it.entry:16}  {chance.choice(SENTENCES)}" for it in command.positionals)])
    if command.children:
        parts.append([chance.choice(("Commands:", "Available Commands:", "SUBCOMMANDS")), *entry_lines(command, chance)])
    parts += list(option_parts(command.options, chance))
    return "\n".join("\n".join(part) + "\n" for part in parts)


def entry_lines(command: Command, chance: random.Random) -> Iterator[str]:
    """Yields the entries of a list of subcommands, with their help texts in one column."""
    form = chance.choice(("{0}, {1}", "{0}|{1}", "{0} | {1}", "{0} ({1})", "noted"))
    for child in command.children:
        others = ", ".join(child.names[1:]) if "|" not in form else "|".join(child.names[1:])
        entry = child.names[0] if not others or form == "noted" else form.format(child.names[0], others)
        note = f" [aliases: {others}]" if others and form == "noted" else ""
        yield f"  {entry:32}  About it{note}"


def option_parts(options: List[Option], chance: random.Random) -> Iterator[List[str]]:
    """Yields the option lines in one or two parts, which have headings or not."""
    middle = chance.randrange(len(options) + 1)
    for part in (options[:middle], options[middle:]):
        heading, indent, column = chance.choice(HEADINGS), chance.choice((0, 1, 2, 4, 7)), chance.choice((0, 24, 30))
        lines = [line for option in part for line in option_lines(option, indent, column, chance)]
        if lines:
            yield [heading, *lines] if heading and indent else lines


def option_lines(option: Option, indent: int, column: int, chance: random.Random) -> List[str]:
    """Returns an option line, and its help text beside it or below it."""
    head = " " * indent + option.head
    if chance.randrange(4) == 0:
        return [head, " " * (indent + 8) + option.help]
    first, _, rest = option.help.partition(" ")
    beside = f"{head:{column}}  {first}" if column else f"{head}  {first}"
    if rest and chance.randrange(4) == 0:
        return [beside, " " * (indent + 8) + rest]
    return [f"{beside} {rest}".rstrip()]


# ---- what has to be found

def expected_rows(command: Command, path: Tuple[str, ...], inherited: frozenset) -> Iterator[str]:
    """Yields what a tree has to say. An option is global if each text below has the same."""
    if len(path) > 1:
        yield ", ".join([" ".join(path), *command.names[1:]])
    if not command.has_text:
        return
    below = [set(it.options) for it in command.below()]
    shared = frozenset(command.options).intersection(*below) if below else frozenset()
    for option in command.options:
        if option not in inherited:
            yield f"{' '.join(path)}: {option.row}{' global' if option in shared else ''}"
    for positional in command.positionals:
        if positional.row:
            yield f"{' '.join(path)}: {positional.row}"
    for child in command.children:
        yield from expected_rows(child, (*path, child.names[0]), inherited | shared)


# ---- the part

def put(command: Command, place: str, path: Tuple[str, ...], chance: random.Random) -> None:
    """Writes the texts of a program into a directory."""
    if command.has_text:
        write_bytes(os.path.join(place, "help.txt"), text_of(command, path, chance).encode())
        for child in command.children:
            put(child, os.path.join(place, child.names[0]), (*path, child.names[0]), chance)


def try_group(room: Room, seed: int, first: int) -> List[Tuple[int, str]]:
    """Returns what is wrong with the trees of some programs, which are read as subcommands."""
    place = os.path.join(room.path, f"made-{first}")
    programs = []
    for number in range(first, first + GROUP_SIZE):
        chance = random.Random(f"{seed} {number}")
        programs.append(made_program(f"p{number}", chance))
        put(programs[-1], os.path.join(place, f"p{number}"), ("app", f"p{number}"), chance)
    names = "".join(f"  {it.names[0]}  Program\n" for it in programs)
    write_bytes(os.path.join(place, "help.txt"), b"Commands:\n" + names.encode())
    made = room.import_texts(place)
    faults = [(first, f"status {made.status}: {made.messages[-2000:]!r}")] if made.tree is None else []
    nodes = {node["name"]: node for node in made.tree.get("subcommands", [])} if made.tree else {}
    for number, program in enumerate(programs if nodes else [], first):
        name = program.names[0]
        fault = difference(program, rows(nodes.get(name, {}), [name]), os.path.join(place, name))
        faults += [(number, fault)] if fault else []
    shutil.rmtree(place)
    return faults


def difference(program: Command, found: List[str], place: str) -> str:
    """Returns how rows differ from the expected ones, with the texts, or an empty text."""
    expected = list(expected_rows(program, program.names[:1], frozenset()))
    if sorted(expected) == sorted(found):
        return ""
    missing, more = sorted(set(expected) - set(found)), sorted(set(found) - set(expected))
    texts = [os.path.join(folder, "help.txt") for folder, _, files in os.walk(place) if files]
    return f"expected also {missing}, got also {more}\n" + "".join(f"    {path}:\n{indented(path)}" for path in sorted(texts))


def indented(path: str) -> str:
    """Returns the lines of a file, for a message."""
    with open(path, encoding="utf-8") as file:
        return "".join(f"    | {line}" for line in file)


def try_made(room: Room, options: Any) -> None:
    """Complete, sound and global: programs whose options, values, positionals and subcommands are known."""
    firsts = range(0, options.programs, GROUP_SIZE)
    with concurrent.futures.ThreadPoolExecutor(JOBS) as pool:
        for first, faults in zip(firsts, pool.map(lambda it: try_group(room, options.seed, it), firsts)):
            room.good += GROUP_SIZE - len(faults)
            for number, fault in faults:
                room.fault(f"program {number}: {fault}")
    made = [made_program("p", random.Random(f"{options.seed} {number}")) for number in range(options.programs)]
    found = [row for it in made for row in expected_rows(it, ("p",), frozenset())]
    print(f"  {len(made)} programs with {sum(': -' in row for row in found)} options, {sum('global' in row for row in found)} of "
          f"them global, {sum(': [' in row for row in found)} positionals, {sum(':' not in row for row in found)} subcommands")
