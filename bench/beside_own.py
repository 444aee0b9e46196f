#!/usr/bin/env python3
"""Measures the milliseconds of a Tab in programs that have a completion of their own: by it, and by `complgen`.

    bench/beside_own.py [--shells bash,zsh,fish] [--runs N] [--programs gh,hcloud,restic] [--typed]

The programs are those of Debian's packages gh, hcloud-cli and restic. Their own completion starts the program at each
Tab, except that of hcloud and restic in bash. For `complgen`, `complgen-import --walk` makes a tree file of each
program first. tests/shells.py runs the shells in a pseudo terminal, with an empty home. The columns are these:

- none: a file name, which the shell completes by itself. That is the cost of the shell and of the measurement, and
  both other columns contain it;
- complgen: the end of a subcommand's name, by live completion from the tree file;
- own: the same, by the script that the program writes.

A time is the median of N runs, by default 30, from the Tab until the shell has written its command line into a file.
The last line has the versions of the programs.

With --typed, nothing is measured. The command line begins with the program and the word `$(touch hit)`, and the columns
say whether a Tab at the word behind them ran `touch hit`: by live completion, by the script of `complgen`, and by the
program's own script.

The status is 1 if a line was not completed as expected, if `touch hit` ran by `complgen`, or if no program is
installed.
"""

import argparse
import os
import subprocess
import sys

HERE = os.path.dirname(os.path.realpath(__file__))
sys.path += [os.path.join(HERE, "..", "tools"), os.path.join(HERE, "..", "tests"), HERE]
import common
import shells
from git_tab import ONLY, measure

# The line to type, the end of the completed line, the words that print the program's own script, or write it into the
# file `own`, and Debian's package.
PROGRAMS = {
    "gh": ("gh issue lis", "list", ["completion", "-s", "{}"], "gh"),
    "hcloud": ("hcloud server lis", "list", ["completion", "{}"], "hcloud-cli"),
    "restic": ("restic snapsh", "snapshots", ["generate", "--{}-completion", "own"], "restic"),
}
NONE = ("nothing odd-fi", "odd-file")


def main():
    options = arguments()
    names = [name for name in options.programs.split(",") if common.is_installed(name)]
    scratch = shells.TreeScratch(common.program("complgen"))
    good = bool(names)
    try:
        shells.write(os.path.join(scratch.here, "odd-file"), "")
        for name in names:
            make_tree(scratch, name)
        columns = ("live", "script", "own") if options.typed else ("none", "complgen", "own")
        print(f"{'shell':<8}{'program':<9}" + "".join(f"{it:>10}" for it in columns), flush=True)
        for shell in options.shells.split(","):
            for name in names if common.is_installed(shell) else []:
                if options.typed:
                    good &= type_command(scratch, shell, name)
                else:
                    good &= measure_program(scratch, shell, name, options.runs)
        print(", ".join(version(name) for name in names))
    finally:
        scratch.remove()
    return 0 if good else 1


def arguments():
    parser = argparse.ArgumentParser(usage=common.usage(__doc__))
    parser.add_argument("--shells", default="bash,zsh,fish")
    parser.add_argument("--programs", default=",".join(PROGRAMS))
    parser.add_argument("--runs", type=int, default=30)
    parser.add_argument("--typed", action="store_true")
    return parser.parse_args()


def make_tree(scratch, name):
    """Imports a program."""
    words = [os.path.join(common.TOP, "complgen-import"), "--walk", "--out-dir", scratch.trees, name]
    environment = {**os.environ, "COMPLGEN": common.program("complgen")}
    ran = subprocess.run([sys.executable, *words], env=environment, stdout=subprocess.PIPE, check=True, text=True)
    print(ran.stdout.strip(), flush=True)


def measure_program(scratch, shell, name, runs):
    """Prints the line of a program in a shell. Returns whether each line was completed as expected."""
    typed, end = PROGRAMS[name][:2]
    terminal = shells.started(shell, scratch, scratch.written(shell), ONLY.get(shell, ""))
    times, good = measure(terminal, {"none": NONE, "complgen": (typed, end)}, runs)
    terminal.close()
    terminal = shells.started(shell, scratch, *own(scratch, shell, name))
    found, as_expected = measure(terminal, {"own": (typed, end)}, runs)
    terminal.close()
    times.update(found)
    print(f"{shell:<8}{name:<9}" + "".join(f"{times[it]:10.1f}" for it in ("none", "complgen", "own")), flush=True)
    return good and as_expected


def type_command(scratch, shell, name):
    """Prints whether a typed command runs at a Tab. Returns whether it did not by `complgen`."""
    path = os.path.join(scratch.trees, name + ".json")
    script = scratch.printed("script", "--shell", shell, "--bin", name, path)
    loaded = {
        "live": (scratch.written(shell), ONLY.get(shell, "")), "script": (script, ONLY.get(shell, "")),
        "own": own(scratch, shell, name),
    }
    ran = {}
    for column, (text, setup) in loaded.items():
        terminal = shells.started(shell, scratch, text, setup)
        scratch.marks(scratch.here, ["odd-file"])
        terminal.tab(f"{name} $(touch hit) --he")
        terminal.close()
        ran[column] = bool(scratch.marks(scratch.here, ["odd-file"]))
    print(f"{shell:<8}{name:<9}" + "".join(f"{'ran' if it else '-':>10}" for it in ran.values()), flush=True)
    return not ran["live"] and not ran["script"]


def own(scratch, shell, name):
    """Returns the script that a program writes for a shell, as a text to load, and what is set up before. In zsh the
    script is a file in a directory of functions, because some of them register nothing when they are sourced."""
    script = own_script(scratch, shell, [name, *PROGRAMS[name][2]])
    if shell != "zsh":
        return script, setup_of_own(shell)
    folder = os.path.join(scratch.path, "functions")
    shells.write(os.path.join(folder, "_" + name), script)
    return "", f"fpath=('{folder}' $fpath); autoload -Uz compinit; compinit -u -D"


def own_script(scratch, shell, words):
    """Returns the text that a program writes as its script for a shell."""
    ran = subprocess.run(
        [word.format(shell) for word in words], env=scratch.environment, cwd=scratch.path, stdin=subprocess.DEVNULL,
        stdout=subprocess.PIPE, stderr=subprocess.DEVNULL, check=True, text=True)
    path = os.path.join(scratch.path, "own")
    if not os.path.exists(path):
        return ran.stdout
    text = shells.read(path)
    os.unlink(path)
    return text


def setup_of_own(shell):
    """Returns what a program's own script needs: in bash the functions of bash-completion."""
    if shell == "bash" and os.path.exists(shells.BASH_COMPLETION):
        return f"source {shells.BASH_COMPLETION}"
    return ONLY.get(shell, "")


def version(name):
    """Returns a program's name, and the version of its package if it is Debian's."""
    ran = subprocess.run(["dpkg-query", "-W", PROGRAMS[name][3]], stdout=subprocess.PIPE, stderr=subprocess.DEVNULL,
                         text=True)
    return ran.stdout.strip().replace("\t", " ") or name


if __name__ == "__main__":
    sys.exit(main())
