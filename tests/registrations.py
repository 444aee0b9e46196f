#!/usr/bin/env python3
"""Compares the registrations of the archive with docs/TEXTS.md and tests/registrations.d.

    tests/registrations.py [--archive FOLDER]

It links the archive as a shared library, and calls that by packages/python/lagvtsune. For each shell it
makes the registrations of the safe set and of the original's, with plain names, with names full of signs, and
with names that are no identifiers. It takes the texts of the original's set from docs/TEXTS.md, and those of
the safe set from the files of tests/registrations.d. It fills in the names as the tables of docs/TEXTS.md say.
--archive names the directory of the archive. Without it, that is crates/complgen_c/out, where `rt lib` leaves
it.

Each shell also prints the names as the safe set writes them. It has to print the names themselves. A line
names each shell that is not installed.

It prints each text that differs, and a summary. The status is 0 if all are equal. It needs `cc`.
"""

from __future__ import annotations

import argparse
import difflib
import importlib
import os
import re
import shutil
import subprocess
import sys
import tempfile
from types import ModuleType
from typing import Callable, Dict, NamedTuple

sys.path.append(os.path.join(os.path.dirname(os.path.realpath(__file__)), "..", "tools"))
import common

sys.dont_write_bytecode = True
C, PYTHON = (os.path.join(common.TOP, "packages", language) for language in ("c", "python"))
Quote = Callable[[str], str]


class Names(NamedTuple):
    """The names in a registration."""

    variable: str
    name: str
    bin: str
    completer: str


PLAIN = Names("COMPLETE", "my-app", "my-app", "/usr/bin/my-app")
SIGNS = Names("ASK-é", "my app;é", "it's $(x) \\ `y` \"", "/a b's\n\"$HOME\" `z` \\ \u2018;x;\u2019\u201a\u201b=,")
DIGITS = Names("7z", "", "7z", "\u2018\u2019'\u2018")
ALL_NAMES = (PLAIN, SIGNS, DIGITS)

# The words with which a shell runs a text that prints a quoted word.
PRINTS = {
    "bash": (["bash", "--norc", "-c"], "printf %s {}"),
    "zsh": (["zsh", "-f", "-c"], "printf %s {}"),
    "fish": (["fish", "--no-config", "-c"], "printf %s {}"),
    "elvish": (["elvish", "-norc", "-c"], "print {}"),
    "powershell": (["pwsh", "-NoProfile", "-Command"], "[Console]::Out.Write({})"),
}


# ---- how the tables of the document quote

def posix(text: str) -> str:
    return text if re.fullmatch(r"[A-Za-z0-9+\-./:@_]+", text) else "'" + text.replace("'", "'\\''") + "'"


def fish(text: str) -> str:
    return text if re.fullmatch(r"[A-Za-z0-9/_\-.,+=:@]+", text) else "'" + re.sub(r"[\\']", r"\\\g<0>", text) + "'"


def fish_for_eval(text: str) -> str:
    return re.sub(r'[\\"$]', r"\\\g<0>", fish(text))


def bash_double(text: str) -> str:
    return re.sub(r'[\\"$`]', r"\\\g<0>", text)


def elvish(text: str) -> str:
    return "'" + text.replace("'", "''") + "'"


def powershell(text: str) -> str:
    return "'" + re.sub("['\u2018\u2019\u201a\u201b]", r"'\g<0>", text) + "'"


def identifier(text: str) -> str:
    return re.sub(r"^(?=[0-9]|$)", "_", re.sub(rb"[^A-Za-z0-9_]", b"_", text.encode()).decode())


SAFE: Dict[str, Quote] = {"bash": posix, "zsh": posix, "fish": fish, "elvish": elvish, "powershell": powershell}


def filled_safe(shell: str, names: Names) -> Dict[str, str]:
    """Returns what is written for each name in a registration of the safe set."""
    by = SAFE[shell]
    variable, name = identifier(names.variable), identifier(names.name)
    return {"var": variable, "name": name, "bins": by(names.bin), "completer": by(names.completer)}


def filled_original(shell: str, names: Names) -> Dict[str, str]:
    """Returns what is written for each name in a registration of the original's set."""
    by_bin, by_completer = {"bash": (str, bash_double), "fish": (fish, fish_for_eval)}.get(shell, (posix, posix))
    name = names.name.replace("-", "_")
    return {"var": names.variable, "name": name, "bin": by_bin(names.bin), "completer": by_completer(names.completer)}


# ---- the comparison

def main() -> int:
    parser = argparse.ArgumentParser(usage=common.usage(__doc__))
    parser.add_argument("--archive", default=os.path.join(common.TOP, "crates", "complgen_c", "out"))
    with tempfile.TemporaryDirectory() as work:
        library = loaded(parser.parse_args().archive, work)
        sets = ((safe_texts(), True, filled_safe), (original_texts(), False, filled_original))
        equal = [
            is_equal(library, shell, safe, names, re.sub(r"«(\w+)»", lambda found: fill(shell, names)[found[1]], text))
            for texts, safe, fill in sets for shell, text in texts.items() for names in ALL_NAMES
        ]
    print(f"{len(equal)} registrations, {equal.count(False)} differ from the stated texts")
    quoted = sorted({text for names in ALL_NAMES for text in (names.bin, names.completer)})
    printed = [is_printed(shell, text) for shell in shells() for text in quoted]
    print(f"{len(printed)} quoted names, {printed.count(False)} are printed otherwise")
    return 0 if len(equal) == 2 * len(ALL_NAMES) * len(common.LIVE_SHELLS) and all(equal + printed) else 1


def loaded(archive: str, work: str) -> ModuleType:
    """Links the archive as a shared library, and returns the module that calls it."""
    made = os.path.join(work, "liblagvtsune.so")
    whole = ["-Wl,--whole-archive", os.path.join(archive, "libcomplgen_c.a"), "-Wl,--no-whole-archive"]
    subprocess.run(["cc", "-shared", "-fPIC", "-I", C, "-o", made, os.path.join(C, "memory.c"), *whole], check=True)
    os.environ["LAGVTSUNE_SO"] = made
    sys.path.append(PYTHON)
    return importlib.import_module("lagvtsune")


def safe_texts() -> Dict[str, str]:
    """Returns the texts of the safe set, by their shells."""
    return {shell: contents("tests", "registrations.d", f"{shell}.txt") for shell in SAFE}


def original_texts() -> Dict[str, str]:
    """Returns the texts of the original's set, by their shells."""
    text = contents("docs", "TEXTS.md").split("\n## Registrations\n")[1].split("\n## ")[0]
    found = re.findall(r"^(\w+)[^\n]*:\n\n```\n(.*?\n)```$", text, re.MULTILINE | re.DOTALL)
    return {shell.lower(): block for shell, block in found}


def contents(*path: str) -> str:
    with open(os.path.join(common.TOP, *path), encoding="utf-8") as file:
        return file.read()


def is_equal(library: ModuleType, shell: str, safe: bool, names: Names, expected: str) -> bool:
    """Tells whether the library makes this text, and prints how its own one differs."""
    variable, name, program, completer = (text.encode() for text in names)
    made = library.registration(shell, program, completer, variable, name, safe)
    rows = difflib.unified_diff(expected.splitlines(), made.splitlines(), "stated", shell, lineterm="", n=0)
    print("\n".join(rows), end="" if made == expected else "\n")
    return made == expected


# ---- the quoted names in true shells

def shells() -> list[str]:
    """Returns the shells that are installed, and prints a line for each of the others."""
    missing = [shell for shell, (words, _) in PRINTS.items() if not shutil.which(words[0])]
    print("".join(f"{shell} is not installed\n" for shell in missing), end="")
    return [shell for shell in PRINTS if shell not in missing]


def is_printed(shell: str, text: str) -> bool:
    """Tells whether the shell prints the text that it reads from its quoted form, and prints what it does."""
    words, form = PRINTS[shell]
    printed = subprocess.run([*words, form.format(SAFE[shell](text))], stdout=subprocess.PIPE).stdout.decode()
    print(f"{shell}: {text!r} is printed as {printed!r}\n" if printed != text else "", end="")
    return printed == text


if __name__ == "__main__":
    sys.exit(main())
