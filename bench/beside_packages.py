#!/usr/bin/env python3
"""Compares live completion of imported programs with the completion that packages ship, in real shells.

    bench/beside_packages.py [--programs NAME,..] [--shells bash,zsh,fish] [--names N] [--quiet]

It imports each program with `complgen-import` into a scratch directory. Then it types ten lines for each
program twice into each shell: once the shell has only the registration of `complgen`, and once only its own
completion with what the packages ship. It writes down what the shell offers, as tests/shells.py reads it. bash has
loaded bash-completion.

The shells run in a pseudo terminal, in a git repository. pip's package ships no file for bash, so bash loads what
`pip3 completion --bash` prints. Values are compared without a `=`, `/` or space at their end, and without the
`--option=` of the line. File names do not count, because each shell completes them by itself.

For each line, the script prints how many values both offer, how many more complgen offers, and how many less,
with the first N names of those, by default 4. --quiet leaves these lines out. A table for each program and
shell follows. First come lines:

- same: both offer the same values, at least one;
- more, less: complgen offers values that the package does not, or the other way round. A line can be both;
- alone, none: only complgen offers something, or only the package;
- empty: neither offers anything.

The last three columns count values: those that both offer, that complgen offers more, and less.

It needs bash-completion and the programs, each if installed. The status is 0.
"""

import argparse
import collections
import os
import shutil
import subprocess
import sys

HERE = os.path.dirname(os.path.realpath(__file__))
sys.path += [os.path.join(HERE, "..", "tools"), os.path.join(HERE, "..", "tests")]
import common
import git_tab
import shells

# The flags of `complgen-import` for a program, and the lines to type.
PROGRAMS = {
    "docker": (["--walk"], [
        "docker ", "docker --", "docker run --", "docker run -", "docker image ", "docker image ls --",
        "docker build --", "docker container l", "docker network create --", "docker run --pull "]),
    "git": (["--walk", "--flag", "-h"], [
        "git ", "git --", "git commit --", "git commit --am", "git clone --", "git rebase --", "git switch --",
        "git log --", "git stash ", "git branch --so"]),
    "pip3": (["--walk"], [
        "pip3 ", "pip3 --", "pip3 install --", "pip3 install -", "pip3 install --no-", "pip3 list --",
        "pip3 list --format ", "pip3 download --", "pip3 config ", "pip3 un"]),
    "systemctl": (["--walk"], [
        "systemctl ", "systemctl --", "systemctl -", "systemctl list-", "systemctl list-units --",
        "systemctl set-", "systemctl --no-", "systemctl status --", "systemctl --type ", "systemctl --output="]),
    "wget": ([], [
        "wget --", "wget -", "wget --no-", "wget --https", "wget --ftp-", "wget --secure-protocol=",
        "wget --report-speed=", "wget --progress=", "wget --restrict-file-names=", "wget --local-enc"]),
    "gh": (["--walk"], [
        "gh ", "gh --", "gh pr ", "gh pr create --", "gh pr list --", "gh pr list --state ", "gh repo ",
        "gh repo clone --", "gh issue list -", "gh api --"]),
    "rg": ([], [
        "rg --", "rg -", "rg --co", "rg --no-", "rg --ignore-", "rg --color ", "rg --color=", "rg --sort ",
        "rg --engine ", "rg --max-"]),
}
# Commands that load the completion of packages.
PACKAGES = {"bash": f'source {shells.BASH_COMPLETION}; eval "$(pip3 completion --bash 2>&-)"'}
TABLE = ("lines", "same", "more", "less", "alone", "none", "empty", "both", "v-more", "v-less")


def main():
    options = arguments()
    scratch = shells.TreeScratch(common.program("complgen"))
    # Without it, the shells find what packages ship.
    del scratch.environment["XDG_DATA_DIRS"]
    tables = {}
    try:
        git_tab.make_repository(scratch.here, 4)
        names = [name for name in options.programs.split(",") if is_imported(scratch, name)]
        for shell in shells.installed(options.shells.split(",")):
            lines = [line for name in names for line in PROGRAMS[name][1]]
            registration, alone = scratch.written(shell), git_tab.ONLY.get(shell, "")
            ours = without_files(scratch, offered(scratch, shell, lines, registration, alone))
            theirs = without_files(scratch, offered(scratch, shell, lines, "", PACKAGES.get(shell, "")))
            for name in names:
                tables[name, shell] = compare(shell, PROGRAMS[name][1], ours, theirs, options)
    finally:
        scratch.remove()
    print(f"{'':<12}{'':<6}" + "".join(f"{column:>7}" for column in TABLE))
    for (name, shell), counts in sorted(tables.items()):
        print(f"{name:<12}{shell:<6}" + "".join(f"{counts[column]:>7}" for column in TABLE))
    return 0


def arguments():
    parser = argparse.ArgumentParser(usage=common.usage(__doc__))
    parser.add_argument("--programs", default=",".join(PROGRAMS))
    parser.add_argument("--shells", default="bash,zsh,fish")
    parser.add_argument("--names", type=int, default=4)
    parser.add_argument("--quiet", action="store_true")
    return parser.parse_args()


def is_imported(scratch, name):
    """Makes the tree file of a program, if the program is installed, and tells whether it is there."""
    if shutil.which(name) is None:
        print(f"{name}: not installed, skipped")
        return False
    words = [sys.executable, os.path.join(common.TOP, "complgen-import"), "--out-dir", scratch.trees]
    environment = {**os.environ, "COMPLGEN": os.path.join(scratch.bin, "complgen")}
    ran = subprocess.run([*words, *PROGRAMS[name][0], name], env=environment, capture_output=True, text=True)
    print((ran.stderr + ran.stdout).strip(), flush=True)
    return ran.returncode == 0


def offered(scratch, shell, lines, registration, setup):
    """Returns what a shell offers for each line: the values of the last word."""
    with shells.started(shell, scratch, registration, setup) as terminal:
        return {line: {plain(line, value) for value in terminal.offered(line)} - {""} for line in lines}


def without_files(scratch, found):
    """Returns what was offered for each line without the names of files."""
    files = set(os.listdir(scratch.here))
    return {line: values - files for line, values in found.items()}


def plain(line, value):
    """Returns a value without what the shells add to it."""
    option, equals, _ = line.rpartition(" ")[2].partition("=")
    if equals and value.startswith(option + "="):
        value = value[len(option) + 1:]
    return value.replace("\\", "").rstrip("=/ ")


def compare(shell, lines, ours, theirs, options):
    """Prints a line for each line that was typed, and returns the counts for the table."""
    counts = collections.Counter(lines=len(lines))
    for line in lines:
        more, less = sorted(ours[line] - theirs[line]), sorted(theirs[line] - ours[line])
        counts.update({"both": len(ours[line] & theirs[line]), "v-more": len(more), "v-less": len(less)})
        if not ours[line] or not theirs[line]:
            counts["alone" if more else "none" if less else "empty"] += 1
        else:
            counts.update(same=not more and not less, more=bool(more), less=bool(less))
        if not options.quiet:
            print(f"{shell}: '{line}': {len(ours[line] & theirs[line])} same"
                  + first("more", more, options.names) + first("less", less, options.names), flush=True)
    return counts


def first(title, values, count):
    """Returns how many values there are, with the first of them."""
    if not values:
        return f", 0 {title}"
    return f", {len(values)} {title} ({', '.join(values[:count])}{', ..' if len(values) > count else ''})"


if __name__ == "__main__":
    sys.exit(main())
