#!/usr/bin/env python3
"""Counts the instructions of one request of a shell that `complgen` answers from a tree file.

    bench/tab.py [TREE WORD..]

The request is one of fish, by the safe registration. `valgrind --tool=callgrind` counts nearly the same
each time. System calls count as nothing.

Without a tree, it counts these trees:

- `larder`, one of 23 KB and one of 200 commands;
- the one of git, if git is installed;
- generated ones of 50, 100, 200 and 400 commands with 25 options each. They show that the count is
  linear in the size of the file.

It prints the bytes of the file, the instructions, and the instructions for each byte. Then it does the
same for the registration of directories of 10 and 200 tree files.
"""

import json
import os
import shutil
import subprocess
import sys
import tempfile

sys.path.append(os.path.join(os.path.dirname(os.path.realpath(__file__)), "..", "tools"))
import common


def main():
    program = common.program("complgen")
    with tempfile.TemporaryDirectory() as folder:
        if len(sys.argv) > 1:
            count_request(program, folder, sys.argv[1], sys.argv[2:])
            return 0
        count_requests(program, folder)
        for count in (10, 200):
            count_registration(program, folder, count)
    return 0


def count_requests(program, folder):
    """Prints the lines for all trees."""
    count_request(program, folder, os.path.join(common.EXAMPLES, "larder.json"), [""])
    for commands, options in ((28, 5), (200, 5)):
        count_request(program, folder, made_tree(folder, commands, options), [""])
    if common.is_installed("git"):
        path = os.path.join(folder, "git.json")
        subprocess.run([os.path.join(common.EXAMPLES, "git-tree"), path], check=True)
        count_request(program, folder, path, [""])
        count_request(program, folder, path, ["commit", "--"])
    for commands in (50, 100, 200, 400):
        count_request(program, folder, made_tree(folder, commands, 25), [""])


def made_tree(folder, commands, options):
    """Returns the path of a generated tree file."""
    path = os.path.join(folder, f"made-{commands}x{options}.json")
    script = os.path.join(common.TOP, "bench", "made_tree.py")
    subprocess.run([script, str(commands), str(options), path], check=True)
    return path


def count_request(program, folder, tree, words):
    """Prints the line for a tree file and the words after its program's name."""
    with open(tree, encoding="utf-8") as file:
        name = json.load(file)["name"]
    trees = os.path.join(folder, "trees")
    os.makedirs(trees, exist_ok=True)
    shutil.copy(tree, os.path.join(trees, f"{name}.json"))
    size = os.path.getsize(tree)
    count = asked(program, trees, ["--", name, *words]).total
    title = " ".join([os.path.basename(tree), *words])
    print(f"{title:<28} {size:>9} bytes {count:>12} instructions {count // size:>6} a byte", flush=True)


def count_registration(program, folder, count):
    """Prints the line for the registration of `count` tree files."""
    trees = os.path.join(folder, f"many-{count}")
    os.makedirs(trees)
    for number in range(1, count + 1):
        with open(os.path.join(trees, f"p{number}.json"), "w", encoding="utf-8") as file:
            json.dump({"name": f"p{number}"}, file)
    counted = asked(program, trees, [])
    print(f"{count} tree files registered: {counted.total} instructions, {len(counted.output)} bytes", flush=True)


def asked(program, trees, words):
    """Counts a request with these words over a directory of tree files."""
    variables = {"COMPLETE": "fish", "_COMPLGEN_VALUES": "ask", "COMPLGEN_PATH": trees}
    return common.callgrind([program, *words], env={**os.environ, **variables})


if __name__ == "__main__":
    sys.exit(main())
