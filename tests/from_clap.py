#!/usr/bin/env python3
"""Compares what scripts of programs that use clap offer with what clap accepts.

    tests/from_clap.py [--genuine]

cargo builds the packages of examples/from-clap, with Debian's crates if these are installed, and otherwise
with crates that it fetches. --genuine takes the crates of Debian unstable (tools/unstable.py). `cargo run` still has to run the program itself. The example `tree` of each
package writes the tree file, and `complgen` writes the script of each shell. tests/from_clap.d/SHELL.awk
reads that script: the words at each path, and the help texts, possible values and hints that the shell
shows. They have to be exactly those of clap's own build of the command, which rows.rs lists. An installed
shell also reads its script with -n.

The script prints a line for each script of a shell. The status is 0 if all agree. It needs `cargo` and clap
4 with its derive.
"""

import argparse
import difflib
import os
import re
import shutil
import subprocess
import sys
import tempfile

sys.path.append(os.path.join(os.path.dirname(os.path.realpath(__file__)), "..", "tools"))
import common
import shell_syntax
import unstable

PACKAGES = ("parcel", "herd")
READERS = os.path.join(common.TOP, "tests", "from_clap.d")
# The status of a program without arguments, if clap prints its usage.
USAGE = 2


def main():
    parser = argparse.ArgumentParser(usage=common.usage(__doc__))
    parser.add_argument("--genuine", action="store_true")
    if parser.parse_args().genuine:
        common.use_crates(unstable.crates(unstable.default_folder()))
    program = common.program("complgen")
    with tempfile.TemporaryDirectory() as work:
        shutil.copytree(os.path.join(common.EXAMPLES, "from-clap"), os.path.join(work, "source"))
        agree = []
        for name in PACKAGES:
            build(work, name)
            tree = os.path.join(work, f"{name}.json")
            common.write(tree, example(work, "tree"))
            rows = sorted(set(example(work, "rows").splitlines()))
            agree += [compare(program, name, shell, tree, rows) for shell in common.SHELLS]
    return 0 if all(agree) else 1


def build(work, name):
    """Builds a copy of a package, since cargo writes its lock file next to the sources.

    In the copy `tree_file.rs` is next to `main.rs`, as in any other package. A further example, `rows`, is
    the example `tree` with rows instead of the tree file.
    """
    package = os.path.join(work, "source", name)
    examples = os.path.join(package, "examples")
    main_file = os.path.join(examples, "tree", "main.rs")
    writer = os.path.join(common.TOP, "packages", "rust", "lagvtsune", "src", "tree_file.rs")
    shutil.copy(writer, os.path.join(examples, "tree"))
    with open(main_file, encoding="utf-8") as file:
        text = re.sub(r'.*tree_file\.rs"\]\n', "", file.read())
    common.write(main_file, text)
    os.mkdir(os.path.join(examples, "rows"))
    shutil.copy(os.path.join(READERS, "rows.rs"), os.path.join(examples, "rows"))
    common.write(os.path.join(examples, "rows", "main.rs"), text.replace("tree_file", "rows"))
    cargo(work, package, "build", "--all-targets").check_returncode()
    ran = cargo(work, package, "run")
    if ran.returncode not in (0, USAGE) or "could not determine which binary" in ran.stderr:
        sys.exit(f"{name}: cargo run does not run the program: {ran.stderr}")


def cargo(work, package, *words):
    """Runs cargo in a package."""
    environment = {**os.environ, "CARGO_TARGET_DIR": os.path.join(work, "built")}
    command = ["cargo", *words, "--quiet", *common.cargo_flags()]
    return subprocess.run(command, cwd=package, env=environment, capture_output=True, text=True)


def example(work, name):
    """Returns what an example prints."""
    path = os.path.join(work, "built", "debug", "examples", name)
    return subprocess.run([path], check=True, capture_output=True, text=True).stdout


def compare(program, name, shell, tree, rows):
    """Prints a line for a program and a shell, and returns whether the script agrees with clap."""
    words = [program, "script", "--shell", shell, "--bin", name, tree]
    written = subprocess.run(words, capture_output=True, text=True)
    if written.returncode:
        print(f"{name} {shell}: no script: {written.stderr}")
        return False
    offered = read_rows(name, shell, written.stdout)
    accepted = [row for row in rows if is_shown(shell, *row.split("\t"))]
    changes = list(difflib.unified_diff(accepted, offered, "clap", "the script", lineterm="", n=0))
    if changes:
        print(f"{name} {shell}: differs", *changes, sep="\n")
        return False
    if not can_read(shell, written.stdout):
        print(f"{name} {shell}: the shell refuses the script")
        return False
    print(f"{name} {shell}: {len(offered)} rows, as in clap")
    return True


def read_rows(name, shell, script):
    """Returns the rows that a script holds."""
    command = ["awk", "-f", os.path.join(READERS, f"{shell}.awk"), "-v", f"bin={name}"]
    environment = {**os.environ, "LC_ALL": "C"}
    read = subprocess.run(command, input=script, check=True, stdout=subprocess.PIPE, text=True, env=environment)
    return sorted(set(read.stdout.splitlines()))


def is_shown(shell, _path, word="", kind="", *_):
    """Tells whether a script of this shell holds such a row of clap. The bash reader skips the others."""
    if shell == "zsh":
        return True
    if word.startswith("<"):
        return False
    if shell == "nushell":
        return not kind or word.startswith("-") and kind == "help"
    kinds = {"bash": ("", "value"), "elvish": ("", "help"), "powershell": ("", "help")}
    return shell == "fish" or kind in kinds[shell]


def can_read(shell, script):
    """Tells whether the shell can read the script. A shell that is not installed counts as one that can."""
    if shell not in shell_syntax.READERS or not common.is_installed(shell):
        return True
    with tempfile.NamedTemporaryFile("w", encoding="utf-8") as file:
        file.write(script)
        file.flush()
        return subprocess.run([*shell_syntax.READERS[shell], file.name]).returncode == 0


if __name__ == "__main__":
    sys.exit(main())
