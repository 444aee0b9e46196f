#!/usr/bin/env python3
"""Runs every test that needs only the proved programs and installed shells.

    tests/all.py [--at-once N] [NAME..]      without a name: all, as in tests/all.py hostile live
    tests/all.py --left-out                  prints what it never runs, and the commands that do

It also runs the tools that compare documents with the code. The programs are the proved ones, or those that the
variables COMPLGEN, LARDER and LIBRARY_CALLS name. It installs nothing, and takes less than 15 minutes on four
processors. As many scripts run at once as there are processors, or N.

It prints a line for each script: whether it passed, its seconds, and the last line of its output. If a script fails,
its output follows. A script that needs more is skipped, with a line that says what it needs. The last line has the
totals. The status is 0 if no script failed.
"""

from __future__ import annotations

import argparse
import collections
import concurrent.futures
import os
import subprocess
import sys
import time
from typing import List, NamedTuple, Tuple

sys.path.append(os.path.join(os.path.dirname(os.path.realpath(__file__)), "..", "tools"))
import common
from shells import SHELLS

MOST_SECONDS = 1800
MOST_LINES = 40
PROGRAMS = ("complgen", "larder", "library_calls")
# The parts of these scripts without those that measure times, which need a machine that does nothing else.
SAFE_PARTS = ("values", "files", "folders", "words", "typed", "random", "places", "settings", "locales",
              "descriptions")
VALUE_PARTS = ("branches", "words", "many", "ends", "off", "order", "files", "examples", "hints")

# The tests that this script and tests/run leave out: the command, and what only it shows or needs.
LEFT_OUT = (
    ("tests/genuine.py", "compares with the genuine clap_complete: needs cargo, and debootstrap once"),
    ("tests/from_clap.py", "compares scripts with clap: needs cargo and clap 4"),
    ("tests/original.py --genuine", "runs tests of clap_complete: needs the archive, cargo, and debootstrap once"),
    ("tests/rust.py", "the archive and the Rust package: needs rt, cargo and clap 4"),
    ("tests/registrations.py", "the archive's registrations: needs the archive and cc"),
    ("tests/release.py", "the files of a release: needs those that release/make.py makes"),
    ("tests/compare.py OLD NEW", "two builds do the same: needs another build of complgen"),
    ("tests/first-minutes", "its part with rt, which compiles complgen several times"),
    ("tests/safe_live.py --only ten-thousand --only start", "measures times: needs a machine of its own"),
    ("tests/in_suite SUITE -- tests/safe_live.py", "the shells of another Debian: needs root and debootstrap"),
    ("tools/faults.py", "all planted faults of more-faults/: needs rt, and most of an hour"),
    ("tools/documents.py --run", "the commands of the pages: runs programs that are installed here"),
)


class Test(NamedTuple):
    """A script with its words, and the reason to skip it, or an empty text."""

    words: List[str]
    reason: str


def main() -> int:
    parser = argparse.ArgumentParser(usage=common.usage(__doc__))
    parser.add_argument("--at-once", type=int, default=os.cpu_count())
    parser.add_argument("--left-out", action="store_true")
    parser.add_argument("names", nargs="*", metavar="NAME")
    options = parser.parse_args()
    if options.left_out:
        print("\n".join(f"not run: {words:<52} {why}" for words, why in LEFT_OUT))
        return 0
    for name in PROGRAMS:
        print(f"{name}: {state_of(common.default_program(name))}", flush=True)
    tests = [test for test in listed() if not options.names or name_of(test) in options.names]
    outcomes: collections.Counter[str] = collections.Counter()
    with concurrent.futures.ThreadPoolExecutor(options.at_once) as pool:
        for done in concurrent.futures.as_completed([pool.submit(outcome, test) for test in tests]):
            word, lines = done.result()
            outcomes[word] += 1
            print("\n".join(lines), flush=True)
    print(", ".join(f"{outcomes[it]} {it}" for it in ("passed", "failed", "skipped")))
    return 1 if outcomes["failed"] or not outcomes["passed"] else 0


def listed() -> List[Test]:
    """Returns all tests, those that take long first, and then those that are skipped."""
    complgen, both = ["complgen"], ["complgen", "larder"]
    runs = [
        *(tested(complgen, [shell], "tests/safe_live.py", "--shells", shell, *only(SAFE_PARTS)) for shell in SHELLS),
        *(tested(complgen, [shell], "tests/values_from.py", "--shells", shell, *only(VALUE_PARTS)) for shell in SHELLS),
        *(tested(complgen, [shell], "tests/typed_words.py", "--shells", shell) for shell in SHELLS),
        *(tested(complgen, [shell], "tests/scripts.py", "--shells", shell) for shell in SHELLS),
        tested(complgen, [], "tests/values_from.py", *only(("protocol", "random"))),
        tested(both, [], "tests/hostile.py"), tested([], [], "tests/import.py"), tested([], [], "tests/import_parsers.py"),
        tested([], [], "tests/exporters.py"), tested(complgen, [], "tests/cobra.py"),
        refused(),
        tested([], ["bash", "zsh"], "tests/running.py"), tested(both, [], "tests/live.py"),
        tested(both, [], "tests/offered.py"), tested(complgen, needs_of_folders(), "tests/folders"),
        tested(complgen, [], "tests/files"), tested(complgen, [], "tests/zsh_helps.py"),
        tested(complgen, [], "tests/check.py"), tested(complgen, [], "tests/bash_texts.py"),
        tested(complgen, [], "tests/shell_syntax.py"), tested(complgen, [], "tests/man_pages.py"),
        tested(complgen, [], "tests/own_tree.py"),
        tested([], ["git"], "tests/first-minutes", "--without-rt"), tested([], [], "tools/documents.py"),
        tested([], [], "tools/calls.py", "--check"), tested([], [], "tools/clauses.py", "--check"),
        tested([], [], "tools/keys.py", "--check"), tested([], [], "tools/rows.py"), tested([], [], "release/declarations.py"),
        tested(complgen, ["bash", "zsh", "fish"], "tools/demo.py", "--check"),
    ]
    return runs + [Test(words.split(), why) for words, why in LEFT_OUT]


def tested(programs: List[str], tools: List[str], *words: str) -> Test:
    """Returns a test that needs these proved programs and these installed programs."""
    missing = [tool for tool in tools if not common.is_installed(tool)]
    missing += [f"{name} (`{common.BUILDERS[name]}`)" for name in programs if not is_built(name)]
    return Test(list(words), f"needs {' and '.join(missing)}" if missing else "")


def refused() -> Test:
    """Returns the test of refused allocations: without the program `library_calls`, only `complgen` runs."""
    return tested(["complgen"], ["cc"], "tests/refusals.py", *([] if is_built("library_calls") else ["--whole"]))


def needs_of_folders() -> List[str]:
    """Returns the programs that tests/folders needs: it does not run as root."""
    return ["setpriv"] if os.geteuid() == 0 else []


def only(parts: Tuple[str, ...]) -> List[str]:
    return [word for part in parts for word in ("--only", part)]


def name_of(test: Test) -> str:
    """Returns the name of a script without its folder and its ending."""
    return os.path.splitext(os.path.basename(test.words[0]))[0]


def is_built(name: str) -> bool:
    return os.access(common.default_program(name), os.X_OK)


def state_of(program: str) -> str:
    """Returns the path of a program, and what is wrong with it."""
    if not os.access(program, os.X_OK):
        return f"{program}, not built"
    return program + (", older than a source" if is_outdated(program) else "")


def is_outdated(program: str) -> bool:
    """Tells whether a source of a crate is newer than a program."""
    built = os.path.getmtime(program)
    for folder, folders, names in os.walk(os.path.join(common.TOP, "crates")):
        folders[:] = [it for it in folders if it != "out"]
        if any(os.path.getmtime(os.path.join(folder, it)) > built for it in names if it.endswith((".rt", ".antt"))):
            return True
    return False


def outcome(test: Test) -> Tuple[str, List[str]]:
    """Runs a test. Returns whether it passed, failed or was skipped, and the lines that tell it."""
    title = short(test.words)
    if test.reason:
        return "skipped", [f"skipped  {title}: {test.reason}"]
    started = time.monotonic()
    status, lines = output(test.words)
    word = "failed" if status else "passed"
    last = lines[-1] if lines else "no output"
    told = [f"{word}   {title}, {time.monotonic() - started:.0f} s: {last}"]
    return word, told + ([f"    {line}" for line in lines[-MOST_LINES:]] if status else [])


def short(words: List[str]) -> str:
    """Returns the words of a test without the parts that are run."""
    return " ".join(words).partition(" --only")[0] if "--shells" in words else " ".join(words)


def output(words: List[str]) -> Tuple[int, List[str]]:
    """Returns the status of a script, and the lines of its output."""
    call = [os.path.join(common.TOP, words[0]), *words[1:]]
    try:
        ran = subprocess.run(
            call, cwd=common.TOP, stdin=subprocess.DEVNULL, stdout=subprocess.PIPE, stderr=subprocess.STDOUT,
            timeout=MOST_SECONDS, universal_newlines=True, errors="replace",
        )
    except subprocess.TimeoutExpired:
        return 1, [f"no end within {MOST_SECONDS} s"]
    return ran.returncode, ran.stdout.splitlines()


if __name__ == "__main__":
    sys.exit(main())
