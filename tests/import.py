#!/usr/bin/env python3
"""Tests the importer: whether the names in help texts are found, what runs, and what is kept.

    tests/import.py [--only PART].. [--seed N] [--texts N] [--hostile N] [--trees N] [--programs N]

The programs print the texts of tests/import.d, or misbehave. The importer is the package `importer` of this clone, or
the program that COMPLGEN_IMPORT names. No proved program is needed: without one, a program that accepts every tree
stands for `complgen check`, and the part `live` is skipped.

The parts:

- formats: texts of eight formats, with `--walk` and `--texts`. The commands, options, positionals, numbers of values,
  possible values and hints are those of the file `expected` beside the text, which was written by hand;
- program: the same without `--walk`: only the text of the program itself is read;
- environment: what a program gets, and that it has no input and no terminal;
- limits: programs that print for ever, sleep, fork, print nothing, crash, leave children behind, or print escape
  sequences. Each error is named, no process stays, and the other programs go on;
- walks: 2,001 subcommands, commands that repeat their parent, names that are not plain, an interrupt;
- files: what happens to a tree file that exists, and to one that cannot be written or is rejected;
- own: examples/complgen-import.json has the options of the importer;
- changed: 2,000 changed texts. Each name is in its text or follows from brackets, each possible value is a word of
  the text, and each plain name in a line of the stated form is there (importing/form.py). Nothing printed is a
  traceback or a control character;
- global: 200 programs with changed texts of their subcommands. No command inherits an option that its text lacks;
- hostile: 200 texts of few signs again and again, or of random bytes, 1 to 64 KiB long;
- made: 300 invented programs, whose options, values, positionals, subcommands and global options are known
  (importing/made.py);
- floors: of the names of known programs (tests/import.d/FORMAT/truth.json), laid out as each format does it, at least
  so many are found (importing/floors.py);
- live: bash completes an imported program.

--seed makes other texts, and --texts, --trees, --hostile and --programs another number of them. The script prints each
exception with its text, and a line for each part. The status is 0 if there is no exception.
"""

from __future__ import annotations

import argparse
import concurrent.futures
import os
import subprocess
import sys
import time
from typing import List, Tuple

from importing import floors, live, made, programs, texts
from importing.room import Room, proved_program

import common

PARTS = {
    "formats": programs.try_formats, "program": programs.try_program, "environment": programs.try_environment,
    "limits": programs.try_limits, "walks": programs.try_walks, "files": programs.try_files, "own": programs.try_own,
    "changed": texts.try_changed, "global": texts.try_global, "hostile": texts.try_hostile, "made": made.try_made,
    "floors": floors.try_floors, "live": live.try_live,
}
NUMBERS = {"seed": 1, "texts": 2000, "trees": 200, "hostile": 200, "programs": 300}
# So many parts run at once.
SIDE_BY_SIDE = 4


def main() -> int:
    """Runs each part in a process of its own, several at once, and prints what they print in their order."""
    parser = argparse.ArgumentParser(usage=common.usage(__doc__))
    parser.add_argument("--only", action="append", choices=PARTS)
    for name, number in NUMBERS.items():
        parser.add_argument(f"--{name}", type=int, default=number)
    options = parser.parse_args()
    if options.only and len(options.only) == 1:
        return run_part(options.only[0], options)
    print(f"complgen: {proved_program() or 'none is built, so every tree is accepted'}", flush=True)
    numbers = [word for name in NUMBERS for word in (f"--{name}", str(getattr(options, name)))]
    failed = 0
    with concurrent.futures.ThreadPoolExecutor(SIDE_BY_SIDE) as pool:
        for status, out in pool.map(lambda part: run_apart(part, numbers), options.only or PARTS):
            print(out, end="", flush=True)
            failed += status != 0
    return 1 if failed else 0


def run_apart(part: str, numbers: List[str]) -> Tuple[int, str]:
    """Runs a part in a process of its own. Returns its status and its output."""
    ran = subprocess.run([sys.executable, os.path.abspath(__file__), "--only", part, *numbers], stdin=subprocess.DEVNULL,
                         stdout=subprocess.PIPE, stderr=subprocess.STDOUT)
    return ran.returncode, ran.stdout.decode(errors="replace")


def run_part(part: str, options: argparse.Namespace) -> int:
    """Runs a part. Returns the status."""
    numbers = "".join(f" --{name} {getattr(options, name)}" for name in NUMBERS if getattr(options, name) != NUMBERS[name])
    room, began = Room(part, f"tests/import.py --only {part}{numbers}"), time.monotonic()
    try:
        PARTS[part](room, options)
    finally:
        room.end()
    print(f"{part}: {room.good} as expected, {room.bad} not, {time.monotonic() - began:.0f} s", flush=True)
    return 1 if room.bad else 0


if __name__ == "__main__":
    sys.exit(main())
