#!/usr/bin/env python3
"""Compares what the importer reads from help texts with what the programs' parsers accept.

    bench/import_truths.py DIR [--trees DIR] [--formats NAME,..] [--show WHAT,..] [--programs] [--jobs N]

DIR has a directory for each program, with its help texts (`help.txt`, and `SUB/help.txt` for a subcommand)
and `truth.json`. `capture_truths.py` makes such a DIR. A truth is an object for the program, with an object
for each subcommand in it:

    {"name": "app", "format": "argparse",
     "options": {"--color": true, "-v": false, "--depth": null},
     "hidden": ["--debug"],
     "commands": {"add": {"options": {}, "hidden": [], "commands": null, "aliases": {}}},
     "aliases": {"a": "add"},
     "kinds": ["long", "short"]}

- `options`: each name that the parser accepts, and whether it needs a value; `null` if that is not known;
- `hidden`: those that the parser does not show. They are right if they are found, and not missed otherwise;
- `commands`: the subcommands, or `null` if they are not known. `aliases` are further names of them;
- `kinds`: the kinds of names that `options` lists, by default both. Other names are not compared.

The trees are those that the package `importer` makes, of this repository or of the directory that the variable IMPORTER
names. With --trees, they are the files NAME.json of a directory, for example those of another version, which
`import_beside.py make` wrote. The table has a line for each format:

- programs, texts: those that were imported;
- true: the names of parsers that are plain and that the text says; found: those of them in the tree;
- wrong: names in the tree that the parser does not accept;
- values: of the names found, the share for which the tree is right about whether they need a value. An optional
  value is not needed;
- commands, c-found, c-wrong: the same of subcommands. If one is missed, its text is imported alone, so that its
  options do not count as missed too;
- stated: the share of the lines that begin with a dash which have the stated form;
- clean: programs for which `complgen check` prints no error and no warning, if the variable COMPLGEN names it.

A list of the dropped lines by their reasons follows. --show prints single findings: missed, wrong, value, commands,
unclean, unstated. --programs prints the table for each program. --jobs is the number of programs that are compared at
the same time. The status is 0.

The truth has gaps: a name counts as wrong if the program accepts it outside the captured parser, as some programs of
GNU do. `import_beside.py` compares a changed importer with the version before.
"""

import argparse
import collections
import concurrent.futures
import json
import os
import re
import subprocess
import sys
import tempfile

sys.path.append(os.path.join(os.path.dirname(os.path.realpath(__file__)), "..", "tools"))
import common
from help_texts import Imported, PLAIN, imported, plain_name

# The stated form of an option line: names and values, then the end, or two spaces and the help text.
NAME = r"(?:--(?:\[no-\])?[A-Za-z0-9]+(?:[-_.][A-Za-z0-9]+)*|-[A-Za-z0-9])(?![A-Za-z0-9_.:+-])"
ANGLE, CURLY, GROUP, UPPER = r"<[^<>]*>", r"\{[^{}]*\}", r"\[[^\[\]]*\]", r"[A-Z][A-Z0-9_-]*"
JOINED = rf"(?:{ANGLE}|{CURLY}|[A-Za-z0-9_:./+@%-]+)(?:\.\.\.)?"
WORD = rf"(?:{ANGLE}|{CURLY}|{UPPER})(?:\.\.\.)?"
VALUE = (rf"(?:={JOINED}|\[={JOINED}\]|(?: {WORD})+(?: {GROUP}(?:\.\.\.)?)?| {GROUP}(?:\.\.\.)?"
         rf"| [a-z]\S*(?=$|  |, -))")
STATED = re.compile(rf"\s*{NAME}{VALUE}?(?:(?:, ?| \| |\|| / |/| or | )(?=-){NAME}{VALUE}?)*(?:$|  +\S.*)")
OPTION_LINE = re.compile(r"\s*-[A-Za-z0-9-]*[A-Za-z0-9]")
COLUMNS = ("programs", "texts", "true", "found", "wrong", "valued", "values", "commands", "c-found", "c-wrong",
           "lines", "stated", "clean")


def says(text, option):
    """Tells whether a text has the name of an option, as `--name`, `--[no-]name` or `-x`."""
    if not option.startswith("--"):
        return re.search(rf"(?<![\w-]){re.escape(option)}(?![a-z0-9_-])", text) is not None
    name = re.escape(option[2:])
    if re.search(rf"(?<![\w-])--{name}(?![\w-])", text):
        return True
    base = re.escape(option[5:] if option.startswith("--no-") else option[2:])
    return re.search(rf"(?<![\w-])--[\[(]no-?[\])]-?{base}(?![\w-])", text) is not None


def is_plain(option):
    """Tells whether a tree file can hold the name of an option."""
    word = option.lstrip("-")
    return PLAIN.fullmatch(word) is not None and (option.startswith("--") or len(word) == 1)


def clean(text):
    """Returns a text without escape sequences and overstriking."""
    return re.sub(r"\x1b\[[0-9;:?]*[A-Za-z]|\x1b\]8;[^\x1b\x07]*(?:\x1b\\|\x07)|.\x08", "", text).expandtabs()


class Counts(collections.Counter):
    """The counts of a program or of a format."""

    def row(self, title):
        shares = {"values": ("right", "valued"), "stated": ("stated", "lines"), "clean": ("clean", "programs")}
        cells = [f"{100 * self[a] / self[b]:.1f}%" if self[b] else "-" for a, b in shares.values()]
        counted = {**{name: str(self[name]) for name in COLUMNS}, **dict(zip(shares, cells))}
        return f"{title:<24}" + "".join(f"{counted[name]:>9}" for name in COLUMNS)


class Comparison:
    """Compares the tree of one program with its truth, and keeps single findings by their kind."""

    def __init__(self, findings):
        self.counts, self.findings = Counts(), findings

    def find(self, kind, place, what):
        self.findings.append((kind, place, what))

    def command(self, truth, tree, folder, place, inherited):
        """Compares a command with its truth, if there is a text for it, and then its subcommands.

        `inherited` has the names of the global options of the commands above.
        """
        path = os.path.join(folder, "help.txt")
        if not os.path.exists(path):
            return
        with open(path, encoding="utf-8", errors="replace") as file:
            text = clean(file.read())
        self.counts["texts"] += 1
        for line in text.splitlines():
            if OPTION_LINE.match(line):
                self.counts["lines"] += 1
                self.counts["stated"] += STATED.fullmatch(line) is not None
                if STATED.fullmatch(line) is None:
                    self.find("unstated", place, line)
        self.options(truth, {**inherited, **names_of(tree.get("args", []))}, text, place)
        if truth["commands"] is not None:
            shared = names_of(arg for arg in tree.get("args", []) if arg.get("global"))
            self.children(truth, tree, text, folder, place, {**inherited, **shared})

    def options(self, truth, found, text, place):
        accepted, kinds = truth["options"], truth.get("kinds", ["long", "short"])
        for option in accepted:
            if not is_plain(option) or option in truth["hidden"] and option not in found:
                continue
            if option not in found and not says(text, option):
                self.counts["unsaid"] += 1
                continue
            self.counts["true"] += 1
            if option not in found:
                self.find("missed", place, option)
                continue
            self.counts["found"] += 1
            if accepted[option] is not None:
                self.counts["valued"] += 1
                self.counts["right"] += accepted[option] == found[option]
                if accepted[option] != found[option]:
                    self.find("value", place, f"{option} needs {'a' if accepted[option] else 'no'} value")
        for option in found:
            kind = "long" if option.startswith("--") else "short"
            if kind in kinds and option not in accepted:
                self.counts["wrong"] += 1
                self.find("wrong", place, option)

    def children(self, truth, tree, text, folder, place, inherited):
        found = {name: child for child in tree.get("subcommands", [])
                 for name in [child["name"], *child.get("visible_aliases", [])]}
        true = {**truth["commands"], **{alias: truth["commands"][name] for alias, name in truth["aliases"].items()}}
        for name, child in true.items():
            said = re.search(rf"(?m)(?:^\s*|[,{{|] ?| {{2}}){re.escape(name)}(?![\w-])", text)
            if not PLAIN.fullmatch(name) or name not in found and (not said or child.get("unlisted")):
                continue
            self.counts["commands"] += 1
            self.counts["c-found"] += name in found
            if name not in found:
                self.find("commands", place, f"missed {name}")
        for name in found:
            if name not in true:
                self.counts["c-wrong"] += 1
                self.find("commands", place, f"wrong {name}")
        for name, child in truth["commands"].items():
            below = os.path.join(folder, name)
            above = inherited if name in found else {}
            if name not in found and os.path.exists(os.path.join(below, "help.txt")):
                found[name] = imported(below, plain_name(name)).tree
            self.command(child, found.get(name, {}), below, f"{place} {name}", above)


def names_of(args):
    """Returns the names of options, and whether they need a value."""
    names = {}
    for arg in args:
        needs = arg.get("action", "Set") in ("Set", "Append") and arg.get("num_args", [1])[0] > 0
        for key in ("short", "visible_short_aliases", "short_aliases"):
            names.update({"-" + name: needs for name in arg.get(key, [])})
        for name in [*filter(None, [arg.get("long")]), *arg.get("visible_aliases", []), *arg.get("aliases", [])]:
            names["--" + name] = needs
    return names


def complaints(program, tree):
    """Returns the errors and warnings of `complgen check`."""
    with tempfile.NamedTemporaryFile("w", suffix=".json") as file:
        json.dump(tree, file)
        file.flush()
        checked = subprocess.run([program, "check", file.name], capture_output=True, text=True, errors="replace")
    return [line for line in (checked.stdout + checked.stderr).splitlines() if ": note: " not in line]


def made(folder, name, trees):
    """Returns what a directory of help texts gives: what the importer makes, or the file of another version."""
    if not trees:
        return imported(folder, plain_name(name))
    path = os.path.join(trees, os.path.basename(folder) + ".json")
    with open(path, encoding="utf-8") as file:
        return Imported(json.load(file), b"", 0, [], 0.0)


def compare(folder, truth, trees):
    """Returns the counts of a program, single findings, and the reasons of dropped lines."""
    found = made(folder, truth["name"], trees)
    program = os.environ.get("COMPLGEN")
    findings = [("unclean", truth["name"], line) for line in complaints(program, found.tree)] if program else []
    comparison = Comparison(findings)
    comparison.counts.update({"programs": 1, "clean": bool(program) and not findings})
    comparison.command(truth, found.tree, folder, truth["name"], {})
    return comparison.counts, findings, [it.reason for it in found.dropped]


def truths(options):
    """Yields the directory and the truth of each program of the formats that are asked for."""
    for name in sorted(os.listdir(options.dir)):
        folder = os.path.join(options.dir, name)
        path = os.path.join(folder, "truth.json")
        if not os.path.exists(path):
            continue
        with open(path, encoding="utf-8") as file:
            truth = json.load(file)
        if not options.formats or truth["format"] in options.formats.split(","):
            yield folder, truth


def main():
    parser = argparse.ArgumentParser(usage=common.usage(__doc__))
    parser.add_argument("dir")
    parser.add_argument("--trees")
    parser.add_argument("--formats")
    parser.add_argument("--show", default="")
    parser.add_argument("--programs", action="store_true")
    parser.add_argument("--jobs", type=int, default=2)
    options = parser.parse_args()
    formats, reasons = collections.defaultdict(Counts), collections.Counter()
    shown = options.show.split(",")
    print(f"{'':<24}" + "".join(f"{name:>9}" for name in COLUMNS))
    with concurrent.futures.ProcessPoolExecutor(options.jobs) as pool:
        asked = [(truth, pool.submit(compare, folder, truth, options.trees)) for folder, truth in truths(options)]
        for truth, future in asked:
            counts, findings, why = future.result()
            reasons.update(why)
            formats[truth["format"]] += counts
            if options.programs:
                print(counts.row(truth["name"]))
            shown_findings(findings, shown)
    print_totals(formats, reasons)


def shown_findings(findings, shown):
    """Prints the findings of some kinds."""
    for kind, place, what in findings:
        if kind in shown:
            print(f"{kind}: {place}: {what}")


def print_totals(formats, reasons):
    """Prints the table by format, and the dropped lines by their reasons."""
    total = Counts()
    for name, counts in sorted(formats.items()):
        print(counts.row(name))
        total += counts
    print(total.row("all"))
    print(f"\nnames of parsers that no text says: {total['unsaid']}\n\ndropped:")
    print("\n".join(f"  {count:>7} {why}" for why, count in reasons.most_common()))


if __name__ == "__main__":
    main()
