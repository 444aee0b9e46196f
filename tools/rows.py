#!/usr/bin/env python3
"""Looks for the places that show the behaviours of tools/rows.txt.

    tools/rows.py

A place is a case, a row over definitions, a test, a public function with a contract, or a script. A method of a public
trait counts as a public function. The script prints each place that does not exist, and counts the behaviours and their
places. The status is 0 if all exist.
"""

import glob
import os
import re
import sys

import common

CRATES = os.path.join(common.TOP, "crates")


def main():
    behaviours, places, missing = 0, 0, []
    for behaviour, shown in rows():
        behaviours += 1
        for place in shown.split("; "):
            places += 1
            if not exists(*place.strip().split(" ", 1)):
                missing.append(f"{behaviour}: there is no {place.strip()}")
    print("\n".join([*missing, f"{behaviours} behaviours in {places} places, {len(missing)} missing"]))
    return 1 if missing or not behaviours else 0


def rows():
    """Yields each behaviour with the text of its places."""
    with open(os.path.join(common.TOP, "tools", "rows.txt"), encoding="utf-8") as lines:
        for line in lines:
            if line.strip() and not line.startswith("#"):
                behaviour, _, shown = line.strip().rpartition(" | ")
                yield behaviour, shown


def exists(kind, name):
    """Tells whether there is a place of this kind."""
    if kind == "case":
        file, _, title = name.partition(": ")
        return f"## {title}" in read(os.path.join(CRATES, "complgen_cases", "data", f"{file}.md")).split("\n")
    if kind == "row":
        file, row = name.split()
        crate, _, module = file.partition("/")
        return re.search(rf"^(?:pub )?{row} :", read(os.path.join(CRATES, crate, "proofs", f"{module}.antt")), re.MULTILINE)
    if kind == "test":
        return any(re.search(rf"#\[test\]\s+fn {name}\(", read(path)) for path in sources())
    if kind == "clause":
        return any(has_clause(read(path), name) for path in sources())
    return kind == "script" and os.path.isfile(os.path.join(common.TOP, name))


def has_clause(text, function):
    """Tells whether a public function or a method of a public trait with this name has a contract."""
    found = re.search(rf"^ *pub fn {function}\b.*?\n *\{{\n", text, re.MULTILINE | re.DOTALL)
    if found:
        return "ensures" in found.group(0)
    method = re.compile(rf"^    fn {function}\b.*?;$", re.MULTILINE | re.DOTALL)
    traits = re.findall(r"^pub trait .*?^\}$", text, re.MULTILINE | re.DOTALL)
    return any("ensures" in it for body in traits for it in method.findall(body))


def sources():
    return glob.glob(os.path.join(CRATES, "*", "src", "**", "*.rt"), recursive=True)


def read(path):
    """Returns the text of a file, or an empty text if it does not exist."""
    if not os.path.exists(path):
        return ""
    with open(path, encoding="utf-8") as file:
        return file.read()


if __name__ == "__main__":
    sys.exit(main())
