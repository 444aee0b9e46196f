#!/usr/bin/env python3
"""Measures the milliseconds of a Tab for git in real shells, with no, one and two calls of `complgen`.

    bench/git_tab.py [--shells bash,zsh,fish,elvish] [--runs N] [--branches N]

tests/shells.py runs the shells in a pseudo terminal, in a repository with 20 branches, or as many
as --branches says. They have git's tree file from `examples/git-tree`. The columns are these:

- none: a file name, which the shell completes by itself. That is the cost of the shell and of the
  measurement, and all other columns contain it;
- one: an option of `git status`. complgen is called once;
- two: a branch of `git switch`. complgen is called, the shell runs `git for-each-ref`, and complgen is
  called again;
- own one, own two: the same lines by the completion for git that comes with bash, zsh or fish, if it is
  installed.

A time is the median of N runs, by default 30, from the Tab until the shell has written its command line
into a file. The last line is the time of the command that lists the branches, run alone. The status is 1 if
a line was not completed as expected.
"""

import argparse
import json
import os
import statistics
import subprocess
import sys
import time

HERE = os.path.dirname(os.path.realpath(__file__))
sys.path += [os.path.join(HERE, "..", "tools"), os.path.join(HERE, "..", "tests")]
import common
import shells

# The text to type for a column, and the end of the completed line.
LINES = {"none": ("nothing odd-fi", "odd-file"), "one": ("git status --shor", "--short"),
         "two": ("git switch odd-bra", "odd-branch")}
# What makes a shell use no completion for git but complgen's, and what makes it use its own.
ONLY = {"fish": "set -g fish_complete_path"}
OWN = {"bash": "/usr/share/bash-completion/completions/git", "zsh": "/usr/share/zsh/functions/Completion/Unix/_git",
       "fish": "/usr/share/fish/completions/git.fish"}
SETUP = {"bash": "source " + OWN["bash"]}
WARMING = 3


def main():
    options = arguments()
    scratch = shells.TreeScratch(common.program("complgen"))
    good = True
    try:
        make_repository(scratch.here, options.branches)
        path = os.path.join(scratch.trees, "git.json")
        subprocess.run([os.path.join(common.EXAMPLES, "git-tree"), path], cwd=scratch.here, check=True,
                       stdout=subprocess.DEVNULL)
        print(f"{'ms':<8}" + "".join(f"{name:>9}" for name in (*LINES, "own one", "own two")), flush=True)
        for shell in shells.installed(options.shells.split(",")):
            good &= measure_shell(scratch, shell, options.runs)
        print(f"the command alone: {command_alone(path, scratch.here, options.runs):.1f} ms")
    finally:
        scratch.remove()
    return 0 if good else 1


def arguments():
    parser = argparse.ArgumentParser(usage=common.usage(__doc__))
    parser.add_argument("--shells", default=",".join(shells.SHELLS))
    parser.add_argument("--runs", type=int, default=30)
    parser.add_argument("--branches", type=int, default=20)
    return parser.parse_args()


def make_repository(folder, branches):
    """Makes a repository with one commit, this many branches, and one file."""
    names = {f"GIT_{who}_{what}": "x@example" for who in ("AUTHOR", "COMMITTER") for what in ("NAME", "EMAIL")}

    def git(*words, given=""):
        return subprocess.run(["git", *words], cwd=folder, env={**os.environ, **names}, input=given, text=True,
                              stdout=subprocess.PIPE, check=True).stdout.strip()

    git("init", "--quiet", "--template=", "--initial-branch=main")
    shells.write(os.path.join(folder, "odd-file"), "")
    git("add", "odd-file")
    commit = git("commit-tree", "-m", "A subject", git("write-tree"))
    made = ["main", "odd-branch", *(f"topic-{at:04}" for at in range(max(branches - 2, 0)))]
    git("update-ref", "--stdin", given="".join(f"create refs/heads/{name} {commit}\n" for name in made))


def measure_shell(scratch, shell, runs):
    """Prints the line of a shell. Returns whether each line was completed as expected."""
    terminal = shells.started(shell, scratch, scratch.written(shell), ONLY.get(shell, ""))
    times, good = measure(terminal, LINES, runs)
    terminal.close()
    if os.path.exists(OWN.get(shell, "")):
        terminal = shells.started(shell, scratch, "", SETUP.get(shell, ""))
        own, as_expected = measure(terminal, {"own " + name: LINES[name] for name in ("one", "two")}, runs)
        terminal.close()
        times.update(own)
        good &= as_expected
    columns = [f"{times[name]:9.1f}" if name in times else f"{'-':>9}" for name in (*LINES, "own one", "own two")]
    print(f"{shell:<8}" + "".join(columns), flush=True)
    return good


def measure(terminal, lines, runs):
    """Returns the median of each column, and whether each line was completed as expected."""
    took, good = {name: [] for name in lines}, True
    for at in range(WARMING + runs):
        for name, (typed, end) in lines.items():
            terminal.send(typed)
            terminal.settle(0.03)
            line, seconds = terminal.tab("")
            if not (line or "").rstrip().endswith(end):
                print(f"  {terminal.name}, {name}: the line is {line!r}")
                good = False
            if at >= WARMING:
                took[name].append(seconds * 1000)
            terminal.clear()
            terminal.settle(0.03)
    return {name: statistics.median(times) for name, times in took.items()}, good


def command_alone(path, folder, runs):
    """Returns the median milliseconds of the command for the branches of `git switch`."""
    with open(path, encoding="utf-8") as file:
        commands = {child["name"]: child for child in json.load(file)["subcommands"]}
    words = next(arg["values_from"] for arg in commands["switch"]["args"] if "values_from" in arg)
    took = []
    for _ in range(runs):
        began = time.monotonic()
        subprocess.run(words, cwd=folder, stdin=subprocess.DEVNULL, stdout=subprocess.PIPE, check=True)
        took.append((time.monotonic() - began) * 1000)
    return statistics.median(took)


if __name__ == "__main__":
    sys.exit(main())
