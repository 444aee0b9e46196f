#!/usr/bin/env python3
"""Writes man pages of trees, and reads them as roff does.

    tests/man_pages.py [--seed N] [--runs N] [--jobs N] [TREE..]

`complgen man` writes a page for each TREE, by default for the tree files of examples/, and for 1,000 trees
(--runs) whose texts are as hostile as texts can be: requests and escapes of roff, quotes, control
characters, several lines. This script then reads each page by a reader of its own, and checks that

- each line that begins with `.` or `'` is one of the page's own requests, whole;
- the descriptions, the labels, the help texts and the default values of the tree are there, line by line
  and in their order, and nothing of a hidden command or argument is;
- `man --warnings` and `mandoc -Tlint -Wwarning` find nothing in the page of a TREE, once it has a date, and
  `mandoc` no error in a hostile page. If one of them is not installed, a line says so.

Prints each page that fails, and how many passed. The status is 0 if none failed.
"""

import argparse
import concurrent.futures
import json
import os
import random
import re
import subprocess
import sys
import tempfile

sys.path.append(os.path.join(os.path.dirname(os.path.realpath(__file__)), "..", "tools"))
import common

# A text between two quotes of a request.
QUOTED = r'"[^"\n]*"'
OWN_REQUESTS = re.compile(
    rf'\.(TH {QUOTED} "1" "" {QUOTED} "User Commands"|nh|SH (NAME|SYNOPSIS|DESCRIPTION|OPTIONS|COMMANDS)|TP|PP|br|SS {QUOTED})'
)
ESCAPE = re.compile(r"\\(?:&|f[BIR]|(-)|\((rs|dq|aq|ga|ha|ti)|(.?))", re.DOTALL)
NAMED = {"rs": "\\", "dq": '"', "aq": "'", "ga": "`", "ha": "^", "ti": "~"}
# Pieces of hostile texts.
PIECES = [
    ".so /etc/passwd", "'so x", ".", "'", "\\", "\\\\", "\\fB", "\\*(", "\\n(.x", "\\&", "\\c", "\\!.br", "\\\"", '"', "\n",
    "\n.TH x", "\n'br", "\n\n", "\\\n", "\t", "\r", "\0", "\x01", "\x1b[1m", "\x7f", "`", "^", "~", "-", "--", "%", "$(id)",
    "é", "漢", "\u2028", "\U0001f980", " ", "  ", "word", "Two words", ".\\\" ", ".if t", ".de x", "\\}", "..", "@", "#",
]
SECONDS = 20


class Wrong(Exception):
    """A page that is not as it should be."""


def main():
    parser = argparse.ArgumentParser(usage=common.usage(__doc__))
    parser.add_argument("--seed", type=int, default=1)
    parser.add_argument("--runs", type=int, default=1000)
    parser.add_argument("--jobs", type=int, default=2)
    parser.add_argument("trees", nargs="*", metavar="TREE")
    given = parser.parse_args()
    program = common.program("complgen")
    for name in ("man", "mandoc"):
        if not common.is_installed(name):
            print(f"{name}: not installed, skipped")
    with tempfile.TemporaryDirectory(prefix="man-pages-") as folder:
        cases = [(path, True) for path in given.trees or common.example_trees()]
        for number in range(given.runs):
            path = os.path.join(folder, f"{number}.json")
            with open(path, "w", encoding="utf-8") as file:
                json.dump(hostile_command(random.Random(f"{given.seed} {number}"), 0), file)
            cases.append((path, False))
        with concurrent.futures.ThreadPoolExecutor(given.jobs) as workers:
            faults = list(workers.map(lambda case: fault_of(program, *case), cases))
    failed = [(path, fault) for (path, _), fault in zip(cases, faults) if fault]
    for path, fault in failed[:20]:
        print(f"{path}: {fault}")
    print(f"{len(cases) - len(failed)} pages passed, {len(failed)} failed")
    return 1 if failed else 0


def fault_of(program, path, is_real):
    """Returns what is wrong with the page of a tree, or None."""
    try:
        page = run([program, "man", "--bin", "app", path])
        lines = read(page.decode())
        with open(path, encoding="utf-8") as file:
            compare(lines, expected(json.load(file), "app", True))
        warnings(page, is_real)
    except (Wrong, OSError, UnicodeDecodeError, subprocess.SubprocessError) as wrong:
        return wrong
    return None


def run(words, **how):
    ran = subprocess.run(words, capture_output=True, timeout=SECONDS, **how)
    if ran.returncode != 0 or ran.stderr:
        raise Wrong(f"{words[0]}: status {ran.returncode}: {ran.stderr.decode(errors='replace')[:500]}")
    return ran.stdout


# ---- hostile trees

def hostile_text(chosen):
    return "".join(chosen.choice(PIECES) for _ in range(chosen.randint(1, 6)))


def hostile_argument(chosen, number):
    argument = {"id": f"{number}{hostile_text(chosen)}", "help": hostile_text(chosen)}
    if chosen.random() < 0.7:
        argument["long"] = hostile_text(chosen)
    if chosen.random() < 0.5:
        argument["short"] = chosen.choice("abc.'\\-\"~^`é")
    for key, value in {
        "value_names": lambda: [hostile_text(chosen)], "default_value": lambda: hostile_text(chosen),
        "possible_values": lambda: [{"name": hostile_text(chosen), "help": hostile_text(chosen)}, {"name": "hidden", "hide": True}],
        "hide": lambda: True, "required": lambda: True,
    }.items():
        if chosen.random() < 0.2:
            argument[key] = value()
    return argument


def hostile_command(chosen, depth):
    command = {"name": hostile_text(chosen), "about": hostile_text(chosen), "disable_help_flag": True,
               "disable_help_subcommand": True, "args": [hostile_argument(chosen, number) for number in range(chosen.randint(0, 4))]}
    for key in ("long_about", "after_help", "version"):
        if chosen.random() < 0.3:
            command[key] = hostile_text(chosen)
    command["disable_version_flag"] = True
    if chosen.random() < 0.3:
        command["visible_aliases"] = [hostile_text(chosen)]
    if depth and chosen.random() < 0.1:
        command["hide"] = True
    if depth < 2:
        command["subcommands"] = [hostile_command(chosen, depth + 1) for _ in range(chosen.randint(0, 2))]
    return command


# ---- the reader

def read(page):
    """Returns the lines of a page: None for a request without a text of the tree, and texts."""
    lines = []
    for line in re.sub(r"\n\Z", "", page).split("\n"):
        if line[:1] in (".", "'"):
            if not OWN_REQUESTS.fullmatch(line):
                raise Wrong(f"a request from a text: {line!r}")
            name = re.match(r'\.SS "(.*)"$', line)
            lines.append(unescaped(name[1]) if name else None)
        else:
            lines.append(unescaped(line))
    return lines


def unescaped(line):
    """Returns what roff shows of a line, without fonts."""

    def shown(found):
        if found[3] is not None:
            raise Wrong(f"an escape that the page does not write: {found[0]!r} in {line!r}")
        return found[1] or NAMED.get(found[2], "")

    for sign in "-'`^~":
        if re.search(rf"(?<!\\){re.escape(sign)}", line):
            raise Wrong(f"{sign} is not escaped: {line!r}")
    return ESCAPE.sub(shown, line)


# ---- the tree

def visible(items):
    return [it for it in items if not it.get("hide")]


def on_one_line(text):
    return re.sub(r"[\x00-\x1f\x7f]", " ", text)


def prose(text):
    return [on_one_line(line) for line in text.split("\n")]


def expected(command, path, is_root):
    """Returns the lines that the page has for a command, in their order."""
    lines = [] if is_root else [on_one_line(path)]
    for alias in command.get("visible_aliases", []):
        lines.append(("Aliases: ", on_one_line(alias)))
    lines += prose(command.get("long_about", command.get("about", "")))
    arguments = visible(command.get("args", []))
    for argument in sorted(arguments, key=lambda it: bool({"short", "long"} & it.keys())):
        lines += argument_lines(argument)
    if "after_help" in command:
        lines += prose(command["after_help"])
    for child in visible(command.get("subcommands", [])):
        lines += expected(child, f"{path} {child['name']}", False)
    return lines


def argument_lines(argument):
    names = []
    for key, aliases, dashes in (("short", "visible_short_aliases", "-"), ("long", "visible_aliases", "--")):
        if key in argument:
            names += [dashes + name for name in (argument[key], *argument.get(aliases, []))]
    label = on_one_line(", ".join(names)) or on_one_line("<" + (argument.get("value_names") or [argument["id"]])[0])
    lines = [("", label), *prose(argument.get("help", ""))]
    if "default_value" in argument:
        lines.append(f"Default: {on_one_line(argument['default_value'])}")
    return lines


def compare(lines, wanted):
    """Stops if a wanted line is not there, after the one before it. A pair is a beginning and a part of a line."""
    at = 0
    for line in wanted:
        while at < len(lines) and not is_line(lines[at], line):
            at += 1
        if at == len(lines):
            raise Wrong(f"not there, or not in order: {line!r}")
        # An alias may share its line with another.
        at += 0 if isinstance(line, tuple) and line[0] else 1


def is_line(line, wanted):
    if isinstance(wanted, tuple):
        return line is not None and line.startswith(wanted[0]) and wanted[1] in line
    return line == wanted


def warnings(page, is_real):
    environment = {"PATH": os.environ["PATH"], "LC_ALL": "C.UTF-8", "MANROFFSEQ": "", "MANWIDTH": "80"}
    if common.is_installed("man") and is_real:
        run(["man", "--warnings", "-l", "-"], input=page, env=environment)
    if common.is_installed("mandoc"):
        words = ["mandoc", "-Tlint", "-Wwarning" if is_real else "-Werror"]
        dated = page.replace(b'"1" ""', b'"1" "2000-01-01"', 1)
        said = subprocess.run(words, input=dated, env=environment, capture_output=True, timeout=SECONDS).stdout
        if said:
            raise Wrong(f"mandoc: {said.decode(errors='replace')[:300]}")


if __name__ == "__main__":
    sys.exit(main())
