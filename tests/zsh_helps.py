#!/usr/bin/env python3
"""Reads the help text of a value with every ASCII character back from zsh's script.

    tests/zsh_helps.py

The readers that the proofs of zsh's script use skip the help texts of values. Here an option has a value whose help text
has each ASCII character except NUL, and a backslash before a line feed. The script reads the word of the option's line
as a POSIX shell does, and what follows the value in it as zsh's `_arguments` does: a backslash stands for the character
after it. The result has to be the help text, with a space for each line feed. The script prints how many characters the
help text has. The status is 0 if the result is right.
"""

import json
import os
import re
import shlex
import subprocess
import sys
import tempfile

sys.path.append(os.path.join(os.path.dirname(os.path.realpath(__file__)), "..", "tools"))
import common

TEXT = "".join(map(chr, range(1, 128))) + "\\\n"
TREE = {"name": "app", "disable_help_flag": True, "args": [
    {"id": "o", "long": "o", "value_names": ["N"], "possible_values": [{"name": "v", "help": TEXT}]},
]}
# The text of the option before and after the help text of its value.
BEFORE, AFTER = '--o=[]:N:((v\\:"', '"))'


def main() -> int:
    found = read(script(common.program("complgen")))
    if found != TEXT.replace("\n", " "):
        print(f"another text: {found!r}")
        return 1
    print(f"{len(TEXT)} characters")
    return 0


def script(program: str) -> str:
    with tempfile.TemporaryDirectory() as folder:
        path = os.path.join(folder, "tree.json")
        with open(path, "w", encoding="utf-8") as file:
            json.dump(TREE, file)
        words = [program, "script", "--shell", "zsh", "--bin", "app", path]
        return subprocess.run(words, stdout=subprocess.PIPE, check=True).stdout.decode()


def read(text: str) -> str:
    """Returns the help text in the line of the option, which is the first one of the script."""
    line = text.split(" : \\\n", 1)[1].split("\n", 1)[0]
    words = shlex.split(line[:-1])
    if len(words) != 1 or not (words[0].startswith(BEFORE) and words[0].endswith(AFTER)):
        return "\n".join(words)
    return re.sub(r"\\(.)", r"\1", words[0][len(BEFORE):-len(AFTER)], flags=re.DOTALL)


if __name__ == "__main__":
    sys.exit(main())
