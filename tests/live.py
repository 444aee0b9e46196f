#!/usr/bin/env python3
"""Types command lines into shells that have loaded a registration, and compares what they offer with what the
program replies.

    tests/live.py [--shells bash,zsh,fish,elvish]

First it types command lines of `larder`, which completes itself. Then come programs that `complgen` completes by
tree files: `larder`, a generated one of 200 commands, and `complgen` itself. What shells offer for these is compared
with what `complgen candidates` writes. Last comes a directory of tree files with odd names. None of them is
registered, and nothing runs.

tests/shells.py runs the shells in a pseudo terminal. If one is not installed, a line says so. fish before version 4
leaves out names that begin with a dot until a dot is typed.

The script prints a line for each shell, and each line of input for which the two differ. It tries such a line once
more before. The status is 0 if all agree.
"""

from __future__ import annotations

import argparse
import os
import shutil
import subprocess
import sys
from typing import List, NamedTuple, Tuple

sys.path.append(os.path.join(os.path.dirname(os.path.realpath(__file__)), "..", "tools"))
import common
import shells

LARDER_LINES = (
    "larder ", "larder in", "larder --color=", "larder --root ", "larder install --", "larder rm r",
    "larder src add --p",
    # For each of these a script offers something else: in fish files too, in zsh nothing, in fish also the options
    # of `src add`, in bash each word of a value by itself, in Elvish an error.
    "larder --color ", "larder install a ", "larder src key add ", "larder src key add --expires ",
    "larder nowhere ",
)
TREE_LINES = (
    "larder ", "larder in", "larder --color=", "larder --color ", "larder install --", "larder src add --p",
    "larder src key ", "big ", "big com", "big commit-file --", "big worktree-force -", "complgen ",
    "complgen script --shell ", "complgen register --shell f", "complgen candidates --",
)
# Names of tree files. If a registration held them, a shell would run `touch hit`, leave the directory or read an
# option.
ODD_NAMES = (
    "a b", "q'u", 'd"q', "$(touch hit)", "`touch hit`", "x;touch hit", "line\ntouch hit\n", "-lead", "+plus", ".dot",
    "a|touch hit", "a&touch hit", "~", "*",
)


class Mode(NamedTuple):
    """The lines to type, and the program that writes the registration."""

    writer: str
    lines: Tuple[str, ...]


MODES = (Mode("larder", LARDER_LINES), Mode("complgen", TREE_LINES))


def main() -> int:
    parser = argparse.ArgumentParser(usage=common.usage(__doc__))
    parser.add_argument("--shells", default=",".join(shells.SHELLS))
    names = parser.parse_args().shells.split(",")
    good = True
    with shells.TreeScratch(common.program("complgen")) as scratch:
        make_files(scratch)
        for mode in MODES:
            for shell in names:
                good &= compare(scratch, mode, shell)
        for shell in names:
            good &= pass_over_odd_names(scratch, shell)
    return 0 if good else 1


def make_files(scratch: shells.TreeScratch) -> None:
    """Makes the files in the directory where all run, the program `larder`, and the tree files."""
    os.mkdir(os.path.join(scratch.here, "keys"))
    shells.write(os.path.join(scratch.here, "owner.asc"), "")
    shells.write(os.path.join(scratch.here, "larder.list"), "ripgrep\nrsync\njq\n")
    os.symlink(common.program("larder"), os.path.join(scratch.bin, "larder"))
    shutil.copy(os.path.join(common.EXAMPLES, "larder.json"), scratch.trees)
    made = [os.path.join(common.TOP, "bench", "made_tree.py"), "200", "5", os.path.join(scratch.trees, "big.json")]
    subprocess.run(made, check=True)


def output(scratch: shells.Scratch, words: List[str], **variables: str) -> List[str]:
    """Returns the lines that a program prints."""
    ran = subprocess.run(words, env={**scratch.environment, **variables}, cwd=scratch.here, check=True,
                         executable=os.path.join(scratch.bin, words[0]), stdout=subprocess.PIPE)
    return ran.stdout.decode().splitlines()


def replied(scratch: shells.TreeScratch, writer: str, line: str, shell: str) -> List[str]:
    """Returns the values that the program replies for the words of a line. Each shell should offer these.

    The reply to fish would not be an independent measure of what fish offers, so then it is the reply to bash.
    """
    words = line.split(" ")
    index = str(len(words) - 1)
    if writer == "larder" and shell == "fish":
        variables = {"COMPLETE": "bash", "_CLAP_COMPLETE_INDEX": index, "_CLAP_IFS": "\n"}
        found = output(scratch, ["larder", "--", *words], **variables)
    elif writer == "larder":
        found = output(scratch, ["larder", "--", *words], COMPLETE="fish")
    else:
        tree = os.path.join(scratch.trees, words[0] + ".json")
        if not os.path.exists(tree):
            # A registration also completes `complgen` itself.
            tree = os.path.join(common.EXAMPLES, words[0] + ".json")
        found = output(scratch, ["complgen", "candidates", "--index", index, tree, "--", *words])
    values = [row.partition("\t")[0] for row in found]
    hides = shell == "fish" and not words[-1].startswith(".") and shells.fish_hides_dots()
    return sorted(value for value in values if not (hides and value.startswith(".")))


def compare(scratch: shells.TreeScratch, mode: Mode, shell: str) -> bool:
    """Prints a line for a shell. Returns whether it offers what the program replies."""
    if not common.is_installed(shell):
        print(f"{mode.writer}, {shell}: not installed, skipped")
        return True
    same = 0
    loaded = "\n".join(output(scratch, [mode.writer], COMPLETE=shell)) + "\n"
    with shells.started(shell, scratch, loaded) as terminal:
        for line in mode.lines:
            expected = replied(scratch, mode.writer, line, shell)
            offered = sorted(terminal.offered(line))
            if offered != expected:
                offered = sorted(terminal.offered(line))
            same += offered == expected and expected != []
            if not expected:
                print(f"{mode.writer}, {shell}: {line!r}: the program replies nothing")
            elif offered != expected:
                print(f"{mode.writer}, {shell}: {line!r}: the program replies {expected}, the shell offers {offered}")
    print(f"{mode.writer}, {shell}: {same} of {len(mode.lines)} lines offer what the program replies", flush=True)
    return same == len(mode.lines)


def pass_over_odd_names(scratch: shells.TreeScratch, shell: str) -> bool:
    """Prints a line for a shell that loads the registrations of a directory with odd names and of one with a plain
    name. Returns whether nothing ran, and only the plain name is registered."""
    if not common.is_installed(shell):
        return True
    odd, plain, hits = (os.path.join(scratch.path, name, shell) for name in ("odd", "plain", "hits"))
    os.makedirs(hits)
    for name in (*ODD_NAMES, "plain"):
        shells.write(os.path.join(odd, name + ".json"), '{"name": "n"}')
    shells.write(os.path.join(plain, "plain.json"), '{"name": "n"}')
    environment = {**scratch.environment, "COMPLETE": shell, "COMPLGEN_PATH": odd}
    ran = subprocess.run(["complgen"], env=environment, cwd=hits, check=True, capture_output=True, text=True,
                         executable=os.path.join(scratch.bin, "complgen"))
    written = os.path.join(scratch.path, "registrations." + shell)
    shells.write(written, ran.stdout)
    subprocess.run([shell, written], env=scratch.environment, cwd=hits, stdin=subprocess.DEVNULL, capture_output=True)
    if os.listdir(hits) or scratch.marks(hits, ()):
        print(f"complgen, {shell}: a name of a tree file ran")
        return False
    start, _, count = ran.stderr.rpartition(": ")
    skipped = start.startswith("complgen: tree files skipped because ") and count == f"{len(ODD_NAMES)}\n"
    if not skipped or ran.stdout != scratch.written(shell, COMPLGEN_PATH=plain):
        print(f"complgen, {shell}: odd names of tree files are not skipped")
        return False
    print(f"complgen, {shell}: {len(ODD_NAMES)} odd names are not registered, and nothing runs", flush=True)
    return True


if __name__ == "__main__":
    sys.exit(main())
