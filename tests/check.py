#!/usr/bin/env python3
"""Compares `complgen check` with `complgen script` over changed tree files.

    tests/check.py [--seed N] [--runs N]

The files are those of examples/ with random changes: a key misspelt, doubled or taken out, a value of
another kind, a number out of range, a name that is not plain, bytes cut out. Their layout is random
too. For each file:

- `check` prints an error exactly if `script` prints `tree: not JSON` or `tree: bad form`;
- the status of `check` is 1 if it prints an error or a warning, and otherwise 0. It prints nothing else;
- each line with a path has the line and column at which this script, with a locator of its own, finds
  the value of that path, or the key if the text is about a key;
- if `check` prints neither an error nor a warning, `script` writes the scripts of all shells.

The script prints each file for which this does not hold, with the lines. Then it prints how many files
had errors, warnings and nothing. The status is 0 if all of it holds.
"""

import argparse
import collections
import concurrent.futures
import json
import os
import pathlib
import random
import re
import subprocess
import sys
import tempfile

sys.path.append(os.path.join(os.path.dirname(os.path.realpath(__file__)), "..", "tools"))
import common

LINE = re.compile(r"(\d+):(\d+): (error|warning|note): (the file|[^ ]+): (.*)")
STEP = re.compile(r"([^.\[\]]+)|\[(\d+)\]")
ABOUT_KEY = re.compile(r"an? [a-z ]+ has no key `|duplicate key `")
BLANK = " \t\r\n"

# A value in a text: its beginning and its contents.
Value = collections.namedtuple("Value", "at inside")
# A member of an object: the beginning of its key, the key and the value.
Member = collections.namedtuple("Member", "at key value")


def main():
    options = arguments()
    program = common.program("complgen")
    trees = [pathlib.Path(path).read_text(encoding="utf-8") for path in common.example_trees()]
    totals, wrong = collections.Counter(), 0
    with tempfile.TemporaryDirectory() as folder:

        def attempt(number):
            text = changed(random.Random(options.seed * 1_000_003 + number), trees)
            path = os.path.join(folder, f"{number}.json")
            with open(path, "wb") as file:
                file.write(text)
            return number, judged(program, path, text)

        with concurrent.futures.ThreadPoolExecutor(os.cpu_count()) as pool:
            for number, (kind, faults) in pool.map(attempt, range(options.runs)):
                totals[kind] += 1
                wrong += bool(faults)
                for fault in faults:
                    print(f"file {number}: {fault}")
    print(f"{options.runs} files: {dict(totals)}, {wrong} wrong")
    return 1 if wrong or not totals["error"] or not totals["warning"] else 0


def arguments():
    parser = argparse.ArgumentParser(usage=common.usage(__doc__))
    parser.add_argument("--seed", type=int, default=1)
    parser.add_argument("--runs", type=int, default=400)
    return parser.parse_args()


def run(program, *words):
    return subprocess.run([program, *words], capture_output=True, timeout=20)


def judged(program, path, text):
    """Returns the highest level of the findings, and what does not hold."""
    done = run(program, "check", "--bin", "app", path)
    written = done.stdout.decode()
    lines = [LINE.fullmatch(line) for line in written.splitlines()]
    if done.stderr or not all(lines):
        return "wrong", [f"printed {written!r} and {done.stderr!r}"]
    levels = {line[3] for line in lines}
    kind = next((level for level in ("error", "warning", "note") if level in levels), "nothing")
    faults = []
    if done.returncode != int(kind in ("error", "warning")):
        faults.append(f"status {done.returncode} at {kind}")
    scripts = [run(program, "script", "--shell", shell, "--bin", "app", path) for shell in common.SHELLS]
    is_taken = not any(script.stderr.startswith(b"tree: ") for script in scripts)
    if is_taken == (kind == "error"):
        faults.append(f"check finds {kind}, and script ends with {scripts[0].stderr!r}")
    if kind in ("note", "nothing") and any(script.returncode for script in scripts):
        faults.append(f"check finds {kind}, and a script is not written")
    faults += [f"{line[0]}: it is at {place}" for line, place in misplaced(text, lines)]
    return kind, faults


def misplaced(text, lines):
    """Yields the lines with a wrong place, each with the right one."""
    try:
        text = text.decode()
        whole = located(text)
    except (ValueError, IndexError, RecursionError):
        return
    for line in lines:
        steps = [] if line[4] == "the file" else STEP.findall(line[4])
        at = place_of(whole, steps, bool(ABOUT_KEY.match(line[5])))
        if at is None:
            continue
        before = text[:at]
        place = before.count("\n") + 1, at - (before.rfind("\n") + 1) + 1
        if place != (int(line[1]), int(line[2])):
            yield line, "{}:{}".format(*place)


def place_of(value, steps, at_key):
    """Returns where the value of a path begins, or the key of its last step.

    If an object has a key several times, the last value counts. If the line is about such a key, or about
    an unknown one, it does not tell which is meant. Then the result is `None`.
    """
    at = value.at
    for left, (key, index) in zip(range(len(steps) - 1, -1, -1), steps):
        if index:
            if not isinstance(value.inside, list) or int(index) >= len(value.inside):
                return at
            value = value.inside[int(index)]
        else:
            members = [m for m in value.inside or () if isinstance(m, Member) and m.key == key]
            if not members:
                return at
            if at_key and left == 0:
                return members[0].at if len(members) == 1 else None
            value = members[-1].value
        at = value.at
    return at


def located(text):
    """Returns the values in a JSON text with their places."""
    value, at = value_at(text, skipped(text, 0))
    if skipped(text, at) != len(text):
        raise ValueError
    return value


def skipped(text, at):
    while at < len(text) and text[at] in BLANK:
        at += 1
    return at


def value_at(text, at):
    """Returns the value that begins here, and where it ends."""
    if text[at] == "{":
        return items_at(text, at, "}", member_at)
    if text[at] == "[":
        return items_at(text, at, "]", value_at)
    _, length = json.JSONDecoder().raw_decode(text[at:])
    return Value(at, None), at + length


def member_at(text, at):
    key, length = json.JSONDecoder().raw_decode(text[at:])
    colon = skipped(text, at + length)
    if not isinstance(key, str) or text[colon] != ":":
        raise ValueError
    value, end = value_at(text, skipped(text, colon + 1))
    return Member(at, key, value), end


def items_at(text, begin, close, item_at):
    items, at = [], skipped(text, begin + 1)
    while text[at] != close:
        if items:
            if text[at] != ",":
                raise ValueError
            at = skipped(text, at + 1)
        item, at = item_at(text, at)
        items.append(item)
        at = skipped(text, at)
    return Value(begin, items), at + 1


def changed(chance, trees):
    """Returns a tree file with random changes, as bytes."""
    tree = json.loads(chance.choice(trees))
    for _ in range(chance.randrange(4)):
        chance.choice([misspelt, taken_out, exchanged, odd_name])(chance, tree)
    indent = chance.choice([None, 1, 4, "\t"])
    text = json.dumps(tree, indent=indent, ensure_ascii=chance.random() < 0.5)
    if chance.random() < 0.2:
        key = chance.choice(re.findall(r'"\w+": ', text))
        text = text.replace(key, key + 'null, ' + key, 1)
    data = text.encode()
    if chance.random() < 0.2:
        at = chance.randrange(len(data))
        data = data[:at] + chance.choice([b"", b",", b"'", b"\xff", b"//"]) + data[at + 1 :]
    return data


def objects(value):
    """Yields all objects in a value."""
    if isinstance(value, dict):
        yield value
    for item in value.values() if isinstance(value, dict) else value if isinstance(value, list) else ():
        yield from objects(item)


def some_object(chance, tree):
    return chance.choice([found for found in objects(tree) if found])


def misspelt(chance, tree):
    found = some_object(chance, tree)
    key = chance.choice(list(found))
    at = chance.randrange(len(key))
    found[key[:at] + key[at + 1 :] + chance.choice(["", "x"])] = found.pop(key)


def taken_out(chance, tree):
    found = some_object(chance, tree)
    del found[chance.choice(list(found))]


def exchanged(chance, tree):
    found = some_object(chance, tree)
    values = [None, True, 3, -1, 1.5, 1e300, "", "text", [], [3, 1], {}, ["a", 1], "é", 2**64]
    found[chance.choice(list(found))] = chance.choice(values)


def odd_name(chance, tree):
    found = some_object(chance, tree)
    key = chance.choice(["name", "id", "long", "short", "help", "value_names", "aliases"])
    value = chance.choice(["a b", "--x", "it's", "é", "\u2018", "h", "help"])
    found[key] = [value] if key in ("value_names", "aliases") else value


if __name__ == "__main__":
    sys.exit(main())
