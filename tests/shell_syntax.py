#!/usr/bin/env python3
"""Checks that shells can read the scripts that `complgen` writes for the example trees.

    tests/shell_syntax.py [--shells NAME,NAME..]

For each tree file in examples/, each shell reads its script from a file without running it. If a shell
is not installed, a line says so.

It prints a line for each script. The status is 0 if some script was read, and no shell refused one.
"""

import argparse
import os
import subprocess
import sys
import tempfile

sys.path.append(os.path.join(os.path.dirname(os.path.realpath(__file__)), "..", "tools"))
import common

# The command by which each shell reads a script without running it.
READERS = {"bash": ["bash", "-n"], "fish": ["fish", "--no-execute"], "zsh": ["zsh", "-n"]}


def main():
    parser = argparse.ArgumentParser(usage=common.usage(__doc__))
    parser.add_argument("--shells", default=",".join(READERS), help="names joined by commas")
    options = parser.parse_args()
    program, read = common.program("complgen"), []
    for shell in options.shells.split(","):
        if not common.is_installed(shell):
            print(f"{shell} is not installed")
            continue
        read += [can_read(program, shell, tree) for tree in common.example_trees()]
    return 0 if read and all(read) else 1


def can_read(program, shell, tree):
    """Tells whether the shell can read the script of a tree."""
    title = f"{shell} {os.path.basename(tree)}"
    words = [program, "script", "--shell", shell, "--bin", "app", tree]
    made = subprocess.run(words, stdout=subprocess.PIPE)
    if made.returncode != 0 or not made.stdout:
        print(f"{title}: no script, status {made.returncode}")
        return False
    with tempfile.NamedTemporaryFile() as file:
        file.write(made.stdout)
        file.flush()
        ended = subprocess.run([*READERS[shell], file.name])
    print(f"{title}: {'accepted' if ended.returncode == 0 else 'refused'}")
    return ended.returncode == 0


if __name__ == "__main__":
    sys.exit(main())
