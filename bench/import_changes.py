#!/usr/bin/env python3
"""Counts how the importer ends for help texts that are changed at random.

    bench/import_changes.py DIR [--texts N] [--seed N] [--jobs N] [--keep DIR]

DIR has help texts, in files `*.txt` at any depth, for example those that `capture_truths.py` made. Each text is a
file of DIR with one to eight of the changes of `tests/import.py`: signs put in, bytes cut out or replaced,
lines repeated, exchanged or indented. The texts depend on DIR and the seed alone.

The table has a line for each outcome:

- read: the text gives a tree. If the variable COMPLGEN names the program, `clean` or `unclean` instead: whether
  `complgen check` finds neither an error nor a warning in it;
- fault: an exception of the importer, by its text.

The columns are the number of texts, their share, and the number of the first one. One more line has the processor
time of all texts, and the longest. --keep writes the first text of each outcome to a directory, which it makes. The
status is 0.
"""

import argparse
import collections
import concurrent.futures
import functools
import importlib.util
import os
import random
import subprocess
import sys
import tempfile
import time

sys.path.append(os.path.join(os.path.dirname(os.path.realpath(__file__)), "..", "tools"))
import common
from help_texts import read_help, tree_and_clashes, written


def changes():
    """Returns the function of `tests/import.py` that changes a text at random."""
    path = os.path.join(common.TOP, "tests", "import.py")
    sys.path.append(os.path.dirname(path))
    spec = importlib.util.spec_from_file_location("import_tests", path)
    module = importlib.util.module_from_spec(spec)
    spec.loader.exec_module(module)
    return module.changed


def texts_below(folder):
    """Returns the contents of all files `*.txt` below a directory, sorted by their paths."""
    found = []
    for place, folders, names in os.walk(folder):
        folders.sort()
        for name in sorted(names):
            if name.endswith(".txt"):
                with open(os.path.join(place, name), "rb") as file:
                    found.append(file.read())
    return found


def outcome(complgen, text):
    """Returns how an import of this text ends, and its processor seconds."""
    start = time.process_time()
    try:
        said = read_help(text, ("app",))
        tree = written(tree_and_clashes(("app",), {("app",): said})[0])
    except Exception as error:
        return f"fault: {type(error).__name__}: {str(error)[:80]}", time.process_time() - start
    seconds = time.process_time() - start
    return checked(complgen, tree) if complgen else "read", seconds


def checked(complgen, tree):
    """Returns whether `complgen check` accepts a tree file."""
    with tempfile.NamedTemporaryFile(suffix=".json") as file:
        file.write(tree)
        file.flush()
        ran = subprocess.run([complgen, "check", file.name], stdin=subprocess.DEVNULL, capture_output=True)
    return "clean" if ran.returncode == 0 else "unclean"


def keep(folder, what, number, text):
    """Writes a text to a directory."""
    os.makedirs(folder, exist_ok=True)
    name = "".join(sign if sign.isalnum() else "-" for sign in what)
    with open(os.path.join(folder, f"{number}-{name[:60]}.txt"), "wb") as file:
        file.write(text)


def main():
    parser = argparse.ArgumentParser(usage=common.usage(__doc__))
    parser.add_argument("folder")
    parser.add_argument("--texts", type=int, default=20000)
    parser.add_argument("--seed", type=int, default=1)
    parser.add_argument("--jobs", type=int, default=len(os.sched_getaffinity(0)))
    parser.add_argument("--keep")
    options = parser.parse_args()
    bases = texts_below(options.folder)
    if not bases:
        sys.exit(f"no text in {options.folder}")
    changed, chance = changes(), random.Random(options.seed)
    texts = [changed(chance.choice(bases), chance) for _ in range(options.texts)]
    with concurrent.futures.ProcessPoolExecutor(options.jobs) as pool:
        results = list(pool.map(functools.partial(outcome, os.environ.get("COMPLGEN")), texts, chunksize=50))
    print(f"{len(texts)} texts of {len(bases)}, seed {options.seed}")
    print_outcomes(results, texts, options.keep)
    return 0


def print_outcomes(results, texts, folder):
    """Prints the table, and the times. Keeps the first text of each outcome in a directory, if there is one."""
    counts = collections.Counter(what for what, _ in results)
    for what, count in sorted(counts.items(), key=lambda it: (-it[1], it[0])):
        first = next(number for number, result in enumerate(results) if result[0] == what)
        print(f"{count:8}  {100 * count / len(texts):6.2f} %  {first:6}  {what}")
        if folder:
            keep(folder, what, first, texts[first])
    times = [seconds for _, seconds in results]
    print(f"all texts: {sum(times):.1f} s, the longest: {max(times, default=0):.3f} s")


if __name__ == "__main__":
    sys.exit(main())
