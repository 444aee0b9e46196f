#!/usr/bin/env python3
"""Compares `complgen` with the genuine original: clap 4.6 and clap_complete 4.6.11.

    tests/genuine.py [--trees N] [--seed N] [--only N] [--folder DIR] [--program PATH] [--verbose]

The original comes from packages of Debian unstable, in a root that is made once. --folder, or the variable
GENUINE, names the directory that keeps it (tools/unstable.py). The program in tests/genuine.d is built
there, over those crates. It reads tree files, and answers requests about them.

The script makes random trees with any keys that both sides have (--trees, 1,000), and 12 command lines for
each. It compares the scripts of the six shells, the registrations and the candidates, and the replies to
the five shells that complete live.

Each difference must be one that docs/DIFFERENCES.md lists. The rules of those that show are in
tests/genuine.d: builds.py for what a build adds to a tree, known.py for texts. If two texts differ, the
original answers again over the tree that this project's rules make, and the rules for texts take out what
they explain. Then both have to be the same, byte for byte. Of the rules, only those that are needed count.

The model of a build is also run without a rule of this project. The original has to give the same answer
over the tree that the model makes then as over the tree file itself.

The script prints each difference that no rule explains, how many each number explains, and what was
compared. The status is 0 if each difference is explained.
"""

from __future__ import annotations

import argparse
import collections
import concurrent.futures
import difflib
import json
import os
import random
import re
import shutil
import subprocess
import sys
import tempfile
import threading
from typing import Any, Dict, Iterable, Iterator, List, NamedTuple, Optional, Set, Tuple

HERE = os.path.dirname(os.path.realpath(__file__))
sys.path += [os.path.join(HERE, "..", "tools"), os.path.join(HERE, "genuine.d")]
import builds
import common
import known
import trees
import unstable
from known import Answer, Case, Tree

SOURCES = os.path.join(HERE, "genuine.d")
# The key of the tree file itself.
AS_IT_IS = "as it is"
# A random command line, and the index of the word to complete.
Line = Tuple[List[str], int]


class Found(NamedTuple):
    """A comparison: the numbers that explain its differences, or `None`, and then a text about them."""

    case: Case
    numbers: Optional[List[int]]
    told: str


def main() -> int:
    options = arguments()
    program = build(options.folder)
    numbers = range(options.trees) if options.only is None else [options.only]
    with tempfile.TemporaryDirectory() as folder:
        sides = Sides(options, program, folder)
        with concurrent.futures.ThreadPoolExecutor(os.cpu_count()) as pool:
            status = reported(pool.map(sides.compare, numbers), options)
        sides.end()
    return status


def arguments() -> argparse.Namespace:
    parser = argparse.ArgumentParser(usage=common.usage(__doc__))
    parser.add_argument("--trees", type=int, default=1000)
    parser.add_argument("--seed", type=int, default=1)
    parser.add_argument("--only", type=int, metavar="N", help="the number of the one tree to repeat")
    parser.add_argument("--folder", type=os.path.realpath, default=unstable.default_folder())
    parser.add_argument("--program", type=os.path.realpath, default=common.default_program("complgen"))
    parser.add_argument("--verbose", action="store_true", help="print all of a difference, and its tree")
    return parser.parse_args()


def build(folder: str) -> str:
    """Builds the program over the original's crates, and returns its path."""
    common.use_crates(unstable.crates(folder))
    package = os.path.join(folder, "program")
    os.makedirs(package, exist_ok=True)
    shutil.copy(os.path.join(SOURCES, "Cargo.toml"), package)
    shutil.copytree(os.path.join(SOURCES, "src"), os.path.join(package, "src"), dirs_exist_ok=True)
    subprocess.run(["cargo", "build", "--quiet", "--release", *common.cargo_flags()], cwd=package, check=True)
    return os.path.join(package, "target", "release", "genuine")


def make_home(folder: str) -> str:
    """Makes the directory in which both programs complete paths, which is also the home directory.

    The directory above it has nothing else, because words such as `../` list it.
    """
    home = os.path.join(folder, "homes", "home")
    os.makedirs(os.path.join(home, "src"))
    for name in ("a.txt", "notes", ".hidden", "src/main.rs", "run.sh"):
        with open(os.path.join(home, name), "w", encoding="utf-8"):
            pass
    os.chmod(os.path.join(home, "run.sh"), 0o755)
    return home


class Original:
    """The program over the original's crates, which answers requests one after the other."""

    def __init__(self, program: str, home: str):
        self.program, self.home, self.trees = program, home, {}
        self.start()

    def start(self) -> None:
        environment = {"PATH": os.environ["PATH"], "HOME": self.home}
        pipes = {"stdin": subprocess.PIPE, "stdout": subprocess.PIPE, "stderr": subprocess.DEVNULL}
        self.process = subprocess.Popen([self.program], cwd=self.home, env=environment, encoding="utf-8", **pipes)

    def take(self, kind: str, key: str, tree: Tree) -> None:
        """Takes a tree, of the kind `tree` or `built`, for requests with this key."""
        self.trees[key] = (kind, key, tree)
        self.ask(kind, key, tree)

    def forget(self) -> None:
        """Forgets all trees."""
        self.trees = {}
        self.ask("forget")

    def ask(self, *request: Any) -> Answer:
        """Returns how a request ends, `text`, `error`, `panic` or `crash`, and the text."""
        self.process.stdin.write(json.dumps(request) + "\n")
        self.process.stdin.flush()
        line = self.process.stdout.readline()
        if line:
            return json.loads(line).popitem()
        self.end()
        self.start()
        for taken in self.trees.values():
            self.ask(*taken)
        return "crash", ""

    def end(self) -> None:
        self.process.stdin.close()
        self.process.wait()


class Sides:
    """Both programs."""

    def __init__(self, options: argparse.Namespace, program: str, folder: str):
        self.options, self.program = options, program
        self.home = make_home(folder)
        self.trees = os.path.join(folder, "trees")
        self.kept, self.originals = threading.local(), []

    def original(self) -> Original:
        """Returns the thread's own process of the original."""
        if not hasattr(self.kept, "original"):
            self.kept.original = Original(self.program, self.home)
            self.originals.append(self.kept.original)
        return self.kept.original

    def end(self) -> None:
        for original in self.originals:
            original.end()

    def compare(self, number: int) -> Tuple[int, List[Found]]:
        """Returns what was found of each request about a random tree."""
        chance = random.Random(f"{self.options.seed} {number}")
        tree, bin_name = trees.random_tree(chance, number)
        lines = [trees.random_line(chance, tree) for _ in range(trees.LINES)]
        work = os.path.join(self.trees, str(number))
        os.makedirs(work)
        with open(os.path.join(work, "app.json"), "w", encoding="utf-8") as file:
            json.dump(tree, file)
        compared = Comparison(self.original(), tree, bin_name)
        found = [compared.of(case, self.ours(case, work)) for case in compared.cases(lines)]
        shutil.rmtree(work)
        return number, found

    def ours(self, case: Case, work: str) -> Answer:
        """Returns how a request to `complgen` ends, and the text."""
        tree = os.path.join(work, "app.json")
        environment = {"PATH": os.environ["PATH"], "HOME": self.home}
        if case.kind in ("script", "register"):
            words = [case.kind, "--shell", case.shell, "--bin", case.bin, tree]
        elif case.kind == "candidates":
            words = ["candidates", "--index", str(case.index), tree, "--", *case.words]
        else:
            words = ["--", *case.words]
            environment.update(COMPLETE=case.shell, COMPLGEN_PATH=work, **variables(case))
        ran = subprocess.run(
            [self.options.program, *words], env=environment, cwd=self.home, stdin=subprocess.DEVNULL,
            capture_output=True, encoding="utf-8",
        )
        if ran.returncode == 0:
            return "text", ran.stdout
        # A text of the standard error ends in a line feed.
        said = ran.stdout + ran.stderr
        return "error", said[:-1] if said.endswith("\n") else said


def variables(case: Case) -> Dict[str, str]:
    """Returns the variables by which a registration asks for a reply."""
    if case.shell in ("fish", "powershell"):
        return {}
    separator = "\v" if case.shell == "bash" else "\n"
    return {"_CLAP_COMPLETE_INDEX": str(case.index), "_CLAP_IFS": separator}


class Comparison:
    """Compares the answers about one tree."""

    def __init__(self, original: Original, tree: Tree, bin_name: str):
        self.original, self.tree, self.bin = original, tree, bin_name
        original.forget()
        original.take("tree", AS_IT_IS, tree)
        self.sent: Set[str] = set()
        whole = builds.built(tree, bin_name, builds.RULES)
        self.whole = whole
        self.active = [
            rule for rule in builds.RULES
            if builds.built(tree, bin_name, set(builds.RULES) - {rule}) != whole
        ]

    def cases(self, lines: Iterable[Line]) -> Iterator[Case]:
        """Returns all requests about the tree."""
        common_parts = {"bin": self.bin, "tree": self.tree, "built": self.whole}
        for kind, shells in (("script", common.SHELLS), ("register", common.LIVE_SHELLS)):
            for shell in shells:
                yield Case(kind, shell, words=None, index=None, **common_parts)
        for words, index in lines:
            yield Case("candidates", "", words=words, index=index, **common_parts)
            for shell in common.LIVE_SHELLS:
                yield Case("reply", shell, words=words, index=index, **common_parts)

    def of(self, case: Case, ours: Answer) -> Found:
        """Returns what was found of a request, by this project's answer to it."""
        theirs = self.theirs(case, AS_IT_IS)
        told = self.model_fault(case, theirs)
        if told:
            return Found(case, None, told)
        if ours == theirs:
            return Found(case, [], "")
        numbers: List[int] = [*self.active, *known.rules_for(case)]
        if case.kind == "candidates":
            numbers.append(builds.EXECUTABLES)
        if self.agree(case, ours, numbers):
            return Found(case, self.needed(case, ours, numbers), "")
        number = known.by_outcome(case, ours, theirs)
        if number is None:
            return Found(case, None, self.difference(case, ours, numbers))
        return Found(case, [number], "")

    def model_fault(self, case: Case, theirs: Answer) -> str:
        """Returns a text if the model of clap's own build gives another answer than clap's build."""
        modelled = self.theirs(case, self.send([]))
        if modelled == theirs or modelled[0] == theirs[0] != "text":
            return ""
        return f"the model of clap's build is wrong: {changes(theirs[1], modelled[1])}"

    def needed(self, case: Case, ours: Answer, numbers: List[int]) -> List[int]:
        """Returns those of some numbers that are needed to explain a difference."""
        for number in list(numbers):
            fewer = [it for it in numbers if it != number]
            if self.agree(case, ours, fewer):
                numbers = fewer
        return numbers

    def agree(self, case: Case, ours: Answer, numbers: List[int]) -> bool:
        """Tells whether the rules of these numbers explain all differences."""
        theirs = self.theirs(case, self.send(numbers))
        if ours[0] != theirs[0]:
            return False
        own, other = known.without(case, numbers, ours[1], theirs[1])
        return own == other

    def difference(self, case: Case, ours: Answer, numbers: List[int]) -> str:
        """Returns a text about what these rules leave unexplained."""
        theirs = self.theirs(case, self.send(numbers))
        if ours[0] != theirs[0]:
            return f"ours: {ours[0]} {ours[1]!r:.300}\n    theirs: {theirs[0]} {theirs[1]!r:.300}"
        own, other = known.without(case, numbers, ours[1], theirs[1])
        return changes(other, own)

    def send(self, numbers: Iterable[int]) -> str:
        """Sends the tree that a build makes by those of these rules that are for builds. Returns its key."""
        rules = {*builds.RULES, builds.EXECUTABLES}.intersection(numbers)
        key = ",".join(map(str, sorted(rules))) or "no rule"
        if key not in self.sent:
            self.original.take("built", key, builds.built(self.tree, self.bin, rules))
            self.sent.add(key)
        return key

    def theirs(self, case: Case, key: str) -> Answer:
        """Returns the original's answer to a request, over the tree with this key."""
        if case.kind in ("script", "register"):
            return self.original.ask(case.kind, key, case.shell, case.bin)
        if case.kind == "candidates":
            return self.original.ask(case.kind, key, case.index, case.words)
        return self.original.ask(case.kind, key, case.shell, variables(case), case.words)


def changes(theirs: Any, ours: Any) -> str:
    """Returns the lines in which two texts differ."""
    lines = [it if isinstance(it, list) else it.split("\n") for it in (theirs, ours)]
    rows = difflib.unified_diff(*([str(line) for line in it] for it in lines), "original", "complgen", lineterm="", n=0)
    return "\n    ".join(rows)


def reported(results: Iterable[Tuple[int, List[Found]]], options: argparse.Namespace) -> int:
    """Prints what was found. Returns the status."""
    counts: Dict[str, int] = collections.Counter()
    explained: Dict[Tuple[int, bool], int] = collections.Counter()
    for tree, found in results:
        for case, numbers, told in found:
            counts[case.kind] += 1
            counts["equal"] += numbers == []
            for number in numbers or []:
                explained[number, trees.is_accepted(tree)] += 1
            if numbers is None:
                counts["unexplained"] += 1
                print_unexplained(tree, case, told, options)
    is_listed = print_numbers(explained)
    print_sum(counts)
    return 0 if is_listed and not counts["unexplained"] else 1


def print_numbers(explained: Dict[Tuple[int, bool], int]) -> bool:
    """Prints how many differences need each number. Returns whether the page lists all of these numbers."""
    titles = rows_of_page()
    numbers = sorted({number for number, _ in explained})
    print(" No  accepted by clap  other trees")
    for number in numbers:
        counts = [explained[number, is_accepted] for is_accepted in (True, False)]
        print(f"{number:>3} {counts[0]:>17,} {counts[1]:>12,}  {titles.get(number, 'not in docs/DIFFERENCES.md')}")
    return set(numbers) <= set(titles)


def print_sum(counts: Dict[str, int]) -> None:
    equal, unexplained = counts["equal"], counts["unexplained"]
    by_kind = {kind: count for kind, count in sorted(counts.items()) if kind not in ("equal", "unexplained")}
    kinds = ", ".join(f"{count:,} {kind}" for kind, count in by_kind.items())
    total = sum(by_kind.values())
    said = f"{equal:,} equal, {total - equal - unexplained:,} explained, {unexplained} not"
    print(f"{total:,} comparisons ({kinds}): {said}")


def print_unexplained(number: int, case: Case, told: str, options: argparse.Namespace) -> None:
    asked = f"{case.index} {case.words!r}" if case.words else case.bin
    print(f"tree {number}: {case.kind} {case.shell} {asked}\n    {told if options.verbose else told[:1200]}")
    if options.verbose:
        print(json.dumps(case.tree, ensure_ascii=False))


def rows_of_page() -> Dict[int, str]:
    """Returns the differences that the page lists, by their numbers."""
    with open(os.path.join(common.TOP, "docs", "DIFFERENCES.md"), encoding="utf-8") as file:
        return {int(number): title for number, title in re.findall(r"^\| (\d+) \| (.*?) \|", file.read(), re.MULTILINE)}


if __name__ == "__main__":
    sys.exit(main())
