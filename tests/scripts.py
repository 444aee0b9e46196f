#!/usr/bin/env python3
"""Loads whole scripts into real shells, types command lines, presses Tab, and compares with a model.

    tests/scripts.py [--shells bash,zsh,fish,elvish] [--trees NAME,NAME..] [--lines N] [--seed N]
                     [--only lines,loading,planted] [--verbose]

The scripts are those of `complgen script --shell S --bin app TREE`, for these trees: two of examples/, one with
every key of the format, one of 200 commands in four levels, that of examples/git-tree, and three that
`complgen-import` makes from programs of the machine. The shells run in a pseudo terminal, with an empty home.

The parts:

- lines: types --lines command lines of each tree (40), which --seed draws. What the shell offers and what a Tab
  inserts have to be what the model says. The model is in tests/scripts.d: model.py has the tree and the lines,
  in_bash.py .. have the rules of each shell;
- loading: each shell finds a script at the place that docs/INSTALL.md names: bash-completion at the first Tab, zsh
  by `fpath` and `compinit`, fish in its directory, Elvish by `use`;
- planted: errors are planted in scripts, one after the other. The lines have to show each.

For each shell, a line tells how many lines were typed, how many of them were as expected, how many show a difference
that docs/DIFFERENCES.md lists, and how many nothing explains. With --verbose, further lines count those of each number,
and those for which the model only says what has to be offered at least. The status is 0 if all lines are explained,
each script is loaded, and each planted error is found.
"""

from __future__ import annotations

import argparse
import collections
import os
import sys
import tempfile
import time
from typing import Counter, Dict

HERE = os.path.dirname(os.path.realpath(__file__))
sys.path += [os.path.join(HERE, "..", "tools"), os.path.join(HERE, "scripts.d")]
import common
import compared
import loading
import model
import planted
import shells
import trees

PARTS = ("lines", "loading", "planted")


def main() -> int:
    options = arguments()
    complgen, good = common.program("complgen"), True
    lacking = trees.lacking_keys()
    if lacking:
        print("every-key.json lacks: " + ", ".join(lacking))
    with tempfile.TemporaryDirectory() as folder:
        paths = trees.listed(folder, complgen, options.trees) if "lines" in options.only else {}
        for name in shells.installed(options.shells):
            good &= is_good(Lines(name, complgen, options), paths)
    return 0 if good and not lacking else 1


def arguments() -> argparse.Namespace:
    parser = argparse.ArgumentParser(usage=common.usage(__doc__))
    parser.add_argument("--shells", type=lambda text: text.split(","), default=list(shells.SHELLS))
    parser.add_argument("--trees", type=lambda text: text.split(","), default=[])
    parser.add_argument("--lines", type=int, default=40)
    parser.add_argument("--seed", type=int, default=1)
    parser.add_argument("--only", type=lambda text: text.split(","), default=list(PARTS))
    parser.add_argument("--verbose", action="store_true")
    return parser.parse_args()


def is_good(lines: Lines, paths: Dict[str, str]) -> bool:
    """Does the parts in a shell, and tells whether all is as it has to be."""
    good, larder = True, os.path.join(common.EXAMPLES, "larder.json")
    if "lines" in lines.options.only:
        for title, path in paths.items():
            lines.type(title, path)
        good &= lines.end()
    if "loading" in lines.options.only:
        good &= has_loaded(lines, larder)
    if "planted" in lines.options.only:
        good &= has_found(lines, larder)
    return good


class Lines:
    """Lines that are typed into a shell, and how they end."""

    def __init__(self, name: str, complgen: str, options: argparse.Namespace):
        self.name, self.complgen, self.options = name, complgen, options
        self.version, self.started = compared.version_of(name), time.monotonic()
        self.counts: Counter[str] = collections.Counter()
        self.rows: Counter[int] = collections.Counter()

    def type(self, title: str, path: str) -> None:
        """Types lines of a tree."""
        root = compared.root_of(path)
        with compared.scratch_with_files() as scratch:
            drawn = model.drawn(root, os.path.join(scratch.bin, model.BIN), self.options.lines, self.options.seed)
            script = compared.script_of(self.complgen, self.name, path)
            with shells.started(self.name, scratch, script) as shell:
                shell.settle(0.2)
                for line in drawn:
                    self.count(title, line, compared.tried(shell, root, line, self.version))

    def count(self, title: str, line: model.Line, outcome: compared.Outcome) -> None:
        self.counts[outcome.name] += 1
        self.counts["open"] += outcome.is_open
        self.rows.update(outcome.rows)
        if outcome.told:
            print(f"  {self.name}, {title}: {line.text!r} ({line.kind}): {outcome.told}", flush=True)

    def end(self) -> bool:
        """Prints the counts, and tells whether all lines are explained."""
        texts = [f"{self.counts[outcome]} {outcome}" for outcome in compared.OUTCOMES]
        total, seconds = sum(self.counts[it] for it in compared.OUTCOMES), time.monotonic() - self.started
        print(f"{self.name} {self.version}: {total} lines, {', '.join(texts)}, {seconds:.0f} s", flush=True)
        if self.options.verbose:
            print("  by number: " + ", ".join(f"{row}: {count}" for row, count in sorted(self.rows.items())))
            print(f"  further words were allowed in {self.counts['open']} lines")
        return self.counts["unexplained"] == 0 and total > 0


def has_loaded(lines: Lines, tree: str) -> bool:
    """Tells whether a shell loads the script by itself."""
    if lines.name == "bash" and not os.path.exists(shells.BASH_COMPLETION):
        print("bash, loading: skipped, needs bash-completion")
        return True
    faults = loading.tried(lines.name, lines.complgen, tree)
    print(f"{lines.name}, loading: " + ("; ".join(faults) or "the shell finds the script"), flush=True)
    return not faults


def has_found(lines: Lines, tree: str) -> bool:
    """Plants the errors of a shell, and tells whether each is found."""
    errors = [error for error in planted.ERRORS if error.shell == lines.name]
    found = {error: planted.tried(error, lines.complgen, tree, lines.options.seed) for error in errors}
    for error, told in found.items():
        if lines.options.verbose or not told:
            print(f"  {lines.name}, planted: {error.what}: {told or 'NOT FOUND'}")
    print(f"{lines.name}, planted: {sum(map(bool, found.values()))} of {len(errors)} errors found", flush=True)
    return all(found.values())


if __name__ == "__main__":
    sys.exit(main())
