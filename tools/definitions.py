#!/usr/bin/env python3
"""Lists the definitions that contracts cite, with the comments that say what they mean.

    tools/definitions.py            writes out/DEFINITIONS.md
    tools/definitions.py NAME..     prints these definitions whole, each with its place and its comment

The page has a table for each file in `crates/*/specs`, in the order of crates.txt: lower crates come first. A row is
a public definition with the comment above it. A definition without a comment has an empty cell. The status is 1 if a
NAME is not defined.
"""

import argparse
import glob
import os
import re
import sys

import common

DEFINED = re.compile(r"^((?:(?:pub|abbrev|unfoldable|data|record) +)+)(\w+)\b")
HEAD = """# Definitions

This page lists the definitions in `crates/*/specs` with their comments. `tools/definitions.py NAME` prints one whole.
A text is a list of bytes. In a clause, `x.now` is what a `&` refers to, `x.old` and `x.new` are what a `&mut` refers
to before and after the call, and `x.entry` is a parameter as it was passed.
"""


def main():
    parser = argparse.ArgumentParser(usage=common.usage(__doc__))
    parser.add_argument("names", nargs="*", metavar="NAME")
    names = parser.parse_args().names
    if not names:
        return common.write_page("DEFINITIONS.md", HEAD + "".join(map(crate_part, common.crate_lines())))
    found = [part for path in files("*") for part in parts(path) if part[0] in names]
    for _, place, comment, text in found:
        print(f"{place}\n{comment}\n{text}\n" if comment else f"{place}\n{text}\n")
    missing = set(names).difference(part[0] for part in found)
    for name in sorted(missing):
        print(f"no definition {name} in crates/*/specs", file=sys.stderr)
    return 1 if missing else 0


def crate_part(crate):
    """Returns the tables of a crate, or an empty text if it has no definitions."""
    tables = "".join(map(file_part, files(crate)))
    return f"\n## `{crate}`\n{tables}" if tables else ""


def file_part(path):
    """Returns the table of a file, below the comment with which it begins."""
    rows = [(name, comment) for name, _, comment, _ in parts(path)]
    if not rows:
        return ""
    lines = [f"| `{name}` | {cell(comment)} |" for name, comment in rows]
    title = os.path.splitext(path.partition("/specs/")[2])[0]
    head = [f"\n### {title}\n", said(lines_of(path)), "", "| Definition | Meaning |", "|---|---|"]
    return "\n".join([*head, *lines, ""])


def files(crate):
    pattern = os.path.join(common.TOP, "crates", crate, "specs", "**", "*.antt")
    return sorted(glob.glob(pattern, recursive=True))


def parts(path):
    """Returns the public definitions of a file, each with its place, its comment, and its lines."""
    lines, found = lines_of(path), []
    for at, line in enumerate(lines):
        defined = DEFINED.match(line)
        if not defined or "pub" not in defined[1].split():
            continue
        begin = at
        while begin and lines[begin - 1].startswith("--"):
            begin -= 1
        end = at + 1
        while end < len(lines) and lines[end].strip():
            end += 1
        place = f"{os.path.relpath(path, common.TOP)}:{at + 1}"
        found.append((defined[2], place, "\n".join(lines[begin:at]), "\n".join(lines[at:end])))
    return found


def said(lines):
    """Returns the comment with which lines begin, as a text."""
    comment = []
    for line in lines:
        if not line.startswith("--"):
            break
        comment.append(line[2:].strip())
    return " ".join(comment)


def cell(comment):
    return said(comment.split("\n")).replace("|", "\\|")


def lines_of(path):
    with open(path, encoding="utf-8") as file:
        return file.read().split("\n")


if __name__ == "__main__":
    sys.exit(main())
