#!/usr/bin/env python3
"""Feeds the candidates of a program back to its own parser.

    tests/offered.py [--depth N]

The programs are `larder`, which parses by the tree that completes it, and `complgen`, whose command
line is described twice. From the empty command line on, the script requests, as fish does, the
candidates of the words `''`, `-` and `--`, and of `-v` if its parser accepts it. Each candidate then
replaces that word, and the program runs on the line, in a directory of its own. If the line is accepted,
or only lacks something, the script continues after it, up to --depth words (3).

A line is accepted if the program does not end with a text of its parser. Otherwise:

- it lacks something: a value, an argument or a subcommand;
- a word occurs twice that may occur once, or two words conflict. Completion does not look at that;
- it is refused.

The script prints how many lines of each program end in which way, and each refused line. The status is
0 if none is refused, and each program has some line.
"""

import argparse
import collections
import os
import subprocess
import sys
import tempfile

sys.path.append(os.path.join(os.path.dirname(os.path.realpath(__file__)), "..", "tools"))
import common

TYPED = ("", "-", "--")
# A word of shorts, which further shorts may follow.
SHORTS = "-v"
LACKING = {
    "lacks a value": ("a value is required",),
    "lacks an argument": ("the following required arguments",),
    "lacks a subcommand": ("requires a subcommand",),
    "is there twice": ("cannot be used multiple times",),
    "conflicts with another": ("cannot be used with",),
}
FOLLOWED = ("accepted", "lacks a value", "lacks an argument", "lacks a subcommand")
INSTALLED = "ripgrep\nfd\n"


def main():
    parser = argparse.ArgumentParser(usage=common.usage(__doc__))
    parser.add_argument("--depth", type=int, default=3)
    options = parser.parse_args()
    good = True
    for name in ("larder", "complgen"):
        path = common.program(name)
        with tempfile.TemporaryDirectory() as folder:
            outcomes = feed_back(Program(name, path, folder), options.depth)
        counts = collections.Counter(outcome for _, outcome, _ in outcomes)
        print(f"{name}: {len(outcomes)} lines: " + ", ".join(f"{n} {k}" for k, n in counts.most_common()))
        for line, outcome, text in outcomes:
            if outcome == "refused":
                print(f"REFUSED: {name} {' '.join(line)}: {text}")
        good &= bool(outcomes) and not counts["refused"]
    return 0 if good else 1


class Program:
    """A program in a directory whose files are the same before each run."""

    def __init__(self, name, path, folder):
        self.name, self.path, self.folder = name, os.path.realpath(path), folder

    def run(self, words, **variables):
        with open(os.path.join(self.folder, "larder.list"), "w", encoding="utf-8") as file:
            file.write(INSTALLED)
        env = {"PATH": os.environ["PATH"], **variables}
        return subprocess.run(
            [self.path, *words], env=env, cwd=self.folder, capture_output=True, text=True, timeout=20, check=False
        )

    def offered(self, words):
        reply = self.run(["--", self.name, *words], COMPLETE="fish")
        return [line.split("\t")[0] for line in reply.stdout.splitlines()]

    def outcome(self, words):
        ended = self.run(words)
        if ended.returncode != 2:
            return "accepted", ""
        for outcome, texts in LACKING.items():
            if any(text in ended.stderr for text in texts):
                return outcome, ""
        return "refused", ended.stderr.split("\n", 1)[0]


def feed_back(program, depth):
    outcomes, seen, waiting = [], set(), [()]
    for before in waiting:
        shorts = () if program.outcome([*before, SHORTS])[0] == "refused" else (SHORTS,)
        for typed in (*TYPED, *shorts):
            for word in program.offered([*before, typed]):
                line = (*before, word)
                if line in seen:
                    continue
                seen.add(line)
                outcome, text = program.outcome(line)
                outcomes.append((line, outcome, text))
                if len(line) < depth and outcome in FOLLOWED:
                    waiting.append(line)
    return outcomes


if __name__ == "__main__":
    sys.exit(main())
