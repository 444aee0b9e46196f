"""The texts of tests/import.d, changed at random, and hostile ones.

Each text is read as that of a subcommand, many in a run, and the first of each run also as that of a program. What is
found is compared with the model in form.py. What is printed is searched for tracebacks and control characters.
"""

from __future__ import annotations

import concurrent.futures
import glob
import os
import random
import re
import shutil
import unicodedata
from typing import Any, Dict, Iterator, List, Sequence, Set, Tuple

from importing import form
from importing.room import Imported, JOBS, Node, Room, TEXTS, names_of, option_names, write_bytes

SHOWN = 3000

SIGNS = (
    b"-", b"--", b" ", b"  ", b"\t", b"\n", b"\n\n", b",", b", ", b"|", b" | ", b"/", b"=", b"[=", b"]", b"[", b"<", b">",
    b"{", b"}", b"...", b":", b"'", b'"', b"\\", b"$(x)", b"`", b"\r", b"\0", b"\x7f", b"\xff", b"\xc3", "é‘漢".encode(),
    b"[no-]", b"A", b"z", b"0", b" or ", b" FILE", b" <FILE>", b" {a,b}", b"[possible values: a, b]", b"Commands:\n  ",
    b"Arguments:\n  ", b"  -x, --extra <X>  ", b"[aliases: a, b]", b"usage: ", b"--help", b"-h", b"help", b" [X ...]",
    b"\x1b[1m", b"\x1b[0m", b"\x1b]0;", b"\b", b"-\b-", b"\x9b", "\x9b\x85\u2028\u202e".encode(), b"[-abC]", b"-V[ersion]",
    b"  -z                       -y  Two columns", b"OPTIONS := { ", b" ...\n", b"one of auto, always or never",
)


# ---- texts

def kept_texts() -> List[bytes]:
    """Returns the texts of tests/import.d."""
    return [read_bytes(path) for path in sorted(glob.glob(os.path.join(TEXTS, "**", "help.txt"), recursive=True))]


def read_bytes(path: str) -> bytes:
    """Returns the bytes of a file."""
    with open(path, "rb") as file:
        return file.read()


def changed_texts(seed: int, number: int) -> List[bytes]:
    """Returns the kept texts, and others that are made of them."""
    chance, bases = random.Random(seed), kept_texts()
    return bases + [changed(chance.choice(bases), chance) for _ in range(number)]


def changed(text: bytes, chance: random.Random) -> bytes:
    """Returns a text with one to eight changes."""
    for _ in range(chance.randrange(1, 9)):
        text = chance.choice(CHANGES)(text, chance)
    return text


def put_sign(text: bytes, chance: random.Random) -> bytes:
    """Puts a sign in, once or several times."""
    at = chance.randrange(len(text) + 1)
    return text[:at] + chance.choice(SIGNS) * chance.choice((1, 1, 1, 2, 9)) + text[at:]


def cut(text: bytes, chance: random.Random) -> bytes:
    """Takes some bytes out."""
    at = chance.randrange(len(text) + 1)
    return text[:at] + text[at + chance.randrange(1, 30):]


def replace(text: bytes, chance: random.Random) -> bytes:
    """Replaces a byte."""
    at = chance.randrange(len(text) + 1)
    return text[:at] + bytes([chance.randrange(256)]) + text[at + 1:]


def repeat(text: bytes, chance: random.Random) -> bytes:
    """Repeats a line, or takes it out."""
    lines = text.split(b"\n")
    line = chance.randrange(len(lines))
    return b"\n".join(lines[:line] + lines[line:line + 1] * chance.choice((0, 2, 5)) + lines[line + 1:])


def exchange(text: bytes, chance: random.Random) -> bytes:
    """Exchanges two lines."""
    lines = text.split(b"\n")
    one, other = chance.randrange(len(lines)), chance.randrange(len(lines))
    lines[one], lines[other] = lines[other], lines[one]
    return b"\n".join(lines)


def indent(text: bytes, chance: random.Random) -> bytes:
    """Indents a line anew."""
    lines = text.split(b"\n")
    line = chance.randrange(len(lines))
    lines[line] = b" " * chance.randrange(12) + lines[line].lstrip()
    return b"\n".join(lines)


CHANGES = (put_sign, put_sign, put_sign, cut, replace, repeat, exchange, indent)
FRAMES = (b"%s", b"  -o, --out <X>  %s", b"usage: app [%s", b"usage: app %s", b"Commands:\n  a%s", b"Arguments:\n  %s",
          b"Options:\n%s\n  -x, --extra  More\n", b"  -o <X>\n      Possible values:\n      - %s", b"OPTIONS := { %s")


def hostile_texts(seed: int, number: int) -> List[bytes]:
    """Returns long texts of few signs, and of random bytes."""
    chance = random.Random(seed)
    return [hostile(chance) for _ in range(number)]


def hostile(chance: random.Random) -> bytes:
    """Returns a text of 1 to 64 KiB: one sign, several signs or random bytes again and again."""
    size = 1 << chance.randrange(10, 17)
    kind = chance.randrange(4)
    if kind == 0:
        unit = bytes(chance.randrange(256) for _ in range(size))
    elif kind == 1:
        unit = chance.choice(SIGNS)
    else:
        unit = b"".join(chance.choice(SIGNS) for _ in range(chance.randrange(2, 9)))
    return chance.choice(FRAMES) % (unit * (size // len(unit)))[:size]


# ---- groups of texts

# The texts of a program or a subcommand: the path of each in its directory.
Case = Dict[str, bytes]
TEXT_NAME = "help.txt"


def put_cases(place: str, first: int, cases: Sequence[Case]) -> None:
    """Writes a directory of texts. Each case is a subcommand with its number as a name."""
    names = "".join(f"  c{first + at}  Case {at}\n" for at in range(len(cases)))
    write_bytes(os.path.join(place, TEXT_NAME), b"Commands:\n" + names.encode())
    for at, case in enumerate(cases):
        for path, text in case.items():
            write_bytes(os.path.join(place, f"c{first + at}", path), text)


def try_group(room: Room, first: int, cases: Sequence[Case]) -> List[Tuple[int, str]]:
    """Returns the numbers of the cases with a wrong result, and what is wrong. If there is no tree, each case is tried
    alone. The first one is also tried as a program."""
    place = os.path.join(room.path, f"group-{first}-{len(cases)}")
    put_cases(place, first, cases)
    made = room.import_texts(place)
    faults = [(first, it) for it in printing_faults(made)]
    if made.tree is None and len(cases) > 1:
        faults += [it for at, case in enumerate(cases) for it in try_group(room, first + at, [case])]
    elif made.tree is not None:
        nodes = made.tree["subcommands"]
        names = [f"c{first + at}" for at in range(len(cases))]
        faults += [(first, "subcommands are missing")] if [it["name"] for it in nodes] != names else []
        above = {name for it in made.tree.get("args", []) if it.get("global") for name in names_of(it)}
        faults += [(int(node["name"][1:]), it) for node in nodes
                   for it in tree_faults(node, os.path.join(place, node["name"]), above)]
    alone = room.import_texts(os.path.join(place, f"c{first}"))
    faults += [(first, it) for it in printing_faults(alone)]
    faults += [(first, it) for it in tree_faults(alone.tree or {}, os.path.join(place, f"c{first}"), set())]
    shutil.rmtree(place)
    return faults


def tree_faults(node: Node, place: str, above: Set[str]) -> Iterator[str]:
    """Yields what is wrong with a command and those below it. It inherits the names `above`."""
    path = os.path.join(place, TEXT_NAME)
    if node and os.path.exists(path):
        text = read_bytes(path)
        yield from (f"{it}\n    in {text[:SHOWN]!r}" for it in node_faults(node, text, above))
    inherited = above | {name for it in node.get("args", []) if it.get("global") for name in names_of(it)}
    for child in node.get("subcommands", []):
        yield from tree_faults(child, os.path.join(place, child["name"]), inherited)


def printing_faults(made: Imported) -> List[str]:
    """Returns what is wrong with what was printed: it is a tree, the messages are lines, and no terminal obeys them."""
    faults = [f"status {made.status}: {made.messages[-SHOWN:]!r}"] if made.status else []
    faults += ["a fault of the importer"] if re.search(rb"Traceback|a fault of", made.messages) else []
    lines = made.messages.decode("utf-8", "replace").split("\n")
    faults += [f"a message of no known form: {line!r}" for line in lines[:-1] if not line.startswith("complgen-import: ")][:3]
    for what, data in (("the messages", made.messages), ("the tree", made.out)):
        found = controls(data)
        faults += [f"control characters in {what}: {found}"] if found else []
    return faults


def controls(data: bytes) -> List[str]:
    """Returns the control characters in what was printed, but line feeds."""
    text = data.decode("utf-8", "replace")
    return sorted({repr(letter) for letter in set(text) if letter != "\n" and unicodedata.category(letter) in ("Cc", "Zl", "Zp")})


def texts_of(value: Any) -> Iterator[str]:
    """Yields all texts in a tree."""
    if isinstance(value, dict):
        for it in value.values():
            yield from texts_of(it)
    elif isinstance(value, list):
        for it in value:
            yield from texts_of(it)
    elif isinstance(value, str):
        yield value


def node_faults(node: Node, text: bytes, above: Set[str]) -> List[str]:
    """Compares a command with its text. It inherits the names `above`."""
    found = [f"a control character in {it!r}" for it in texts_of(node) if controls(it.encode("utf-8", "replace")) or "\n" in it]
    said, names = form.shown(text), option_names(node)
    twice = sorted({name for name in names if names.count(name) > 1})
    found += [f"twice: {twice}"] if twice else []
    if said is None:
        return found
    missing = sorted(form.stated_names(said) - set(names) - above)
    invented = [name for name in sorted({*names, *above}) if not form.is_said(name, said)]
    values = [value["name"] for it in node.get("args", []) for value in it.get("possible_values", [])]
    commands = [name for it in node.get("subcommands", []) for name in (it["name"], *it.get("visible_aliases", []))]
    invented += sorted({it for it in values + commands if not form.is_word(it, said)})
    return found + [f"{what}: {names}" for what, names in (("missing", missing), ("not in the text", invented)) if names]


def try_cases(room: Room, cases: Sequence[Case], size: int) -> None:
    """Tries all cases, several groups at once, and prints what is wrong with each."""
    groups = [(at, cases[at:at + size]) for at in range(0, len(cases), size)]
    with concurrent.futures.ThreadPoolExecutor(JOBS) as pool:
        for (_, group), faults in zip(groups, pool.map(lambda it: try_group(room, *it), groups)):
            room.good += len(group) - len({number for number, _ in faults})
            for number, fault in faults:
                room.fault(f"case {number}: {fault}")


# ---- parts

def try_changed(room: Room, options: Any) -> None:
    """Sound, complete and total: the kept texts and changed ones."""
    texts = changed_texts(options.seed, options.texts)
    try_cases(room, [{TEXT_NAME: text} for text in texts], 100)
    said = [form.shown(text) for text in texts]
    names = sum(len(form.stated_names(text)) for text in said if text is not None)
    print(f"  {len(texts)} texts with {names} names in lines of the form; {said.count(None)} of them have escapes that the "
          f"model cannot read")


def try_global(room: Room, options: Any) -> None:
    """Global and sound: programs whose subcommands have texts, a few of them changed."""
    chance = random.Random(options.seed)
    folders = [os.path.join(TEXTS, name) for name in sorted(os.listdir(TEXTS))]
    kept = [case for case in map(texts_below, folders) if len(case) > 1]
    cases = [changed_case(chance.choice(kept), chance) for _ in range(options.trees)]
    try_cases(room, kept + cases, 20)


def texts_below(folder: str) -> Case:
    """Returns the texts in a directory and below it."""
    paths = sorted(glob.glob(os.path.join(folder, "**", TEXT_NAME), recursive=True))
    return {os.path.relpath(path, folder): read_bytes(path) for path in paths}


def changed_case(case: Case, chance: random.Random) -> Case:
    """Returns texts, half of them with a change."""
    return {path: chance.choice(CHANGES)(text, chance) if chance.randrange(2) else text for path, text in case.items()}


def try_hostile(room: Room, options: Any) -> None:
    """Total: hostile texts."""
    try_cases(room, [{TEXT_NAME: text} for text in hostile_texts(options.seed, options.hostile)], 10)
