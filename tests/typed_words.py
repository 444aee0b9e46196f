#!/usr/bin/env python3
"""Types hostile words into real shells, and checks which words a command of `values_words` receives.

    tests/typed_words.py [--shells bash,zsh,fish,elvish] [--only PART].. [--verbose]

tests/shells.py runs the shells in a pseudo terminal. They have loaded what `COMPLETE=SHELL complgen` writes for tree
files whose commands are the program `probe`. It writes down the words of each call, each ended by a NUL. At a Tab it
must run once, and receive the words of the command line up to the cursor, each as one word, unquoted and not evaluated.
Nothing else may run: `touch` and `hit` are programs that leave a mark, and no file may appear in the current directory.

The parts:

- values: each text of tests/safe_live.py, bare and in quotes, as an earlier word, and as the last word, whose quote is
  open;
- typed: what a shell would evaluate, such as `$(touch hit)`, `~`, `*` and `>hit`, without quotes; options, empty words,
  line feeds, tabs, vertical tabs, and bytes that are not UTF-8. The rows have the words for each shell;
- cut: words behind the cursor, and a cursor within a word;
- places: the places of tests/safe_places.py, such as quotes, `$(..)`, backticks and here-documents;
- keys: without `values_words` no typed word is added;
- cobra: lines of Cobra with a directive, which is no value. After `:6`, no space follows a value in bash and zsh.

The script prints a line for each exception, and for each shell and part: "received" counts the Tabs at which the probe
received the expected words, and "not inserted" those at which it must not run, with the reasons. The status is 0 if
there is no exception.
"""

import argparse
import os
import re
import sys

sys.path.append(os.path.join(os.path.dirname(os.path.realpath(__file__)), "..", "tools"))
import common
import safe_places
from judging import MAY_LEAVE_OUT, Count, letter_in
from safe_live import VALUES
from shells import SHELLS, TreeScratch, installed, started, unlink, write

POSIX = ("bash", "zsh")
PARTS = ("values", "typed", "cut", "places", "keys", "cobra")
PROBE = ["probe", "__complete"]
LEFT = "\x1b[D"


class Scratch(TreeScratch):
    """The directories of these tests, and the calls of the probe."""

    def __init__(self, complgen):
        super().__init__(complgen)
        self.calls = os.path.join(self.path, "calls")

    def asked(self):
        """Returns the words of each call of the probe since the last time."""
        if not os.path.exists(self.calls):
            return []
        with open(self.calls, "rb") as file:
            words = [os.fsdecode(word) for word in file.read().split(b"\0")[:-1]]
        unlink(self.calls)
        calls = []
        while words:
            count = int(words[0])
            calls.append(words[1:count + 1])
            words = words[count + 1:]
        return calls


# ---- trees and programs

def tree(name, **keys):
    """Returns a command whose positional and option `--onto` have values from a command."""
    keys = {"values_from": PROBE, "values_words": True, **keys}
    return {"name": name, "disable_help_flag": True, "disable_help_subcommand": True,
            "args": [{"id": "v", "num_args": [0, None], **keys}, {"id": "onto", "long": "onto", **keys}]}


def make_all(scratch):
    scratch.script("probe", f"""#!/bin/sh
printf '%s\\0' "$#" "$@" >>'{scratch.calls}'
echo value
""")
    scratch.script("hit", f"#!/bin/sh\n: >'{scratch.ran}'\n")
    scratch.script("sudo", '#!/bin/sh\nexec "$@"\n')
    scratch.program(tree("asks"))
    scratch.program(tree("cobra", values_protocol="cobra"))
    scratch.program(tree("bare", values_words=False))
    make_cobra(scratch)


# ---- the words of a Tab

def call_at(terminal, scratch, typed, keys=""):
    """Types a text, with Enter at each line feed, other keys, and Tab. Returns the calls of the probe, and what ran."""
    scratch.asked()
    safe_places.type_lines(terminal, typed)
    if terminal.tab(keys)[0] is None:
        terminal.renew()
    found = scratch.asked(), scratch.marks(scratch.here, ())
    (terminal.interrupt if "\n" in typed else terminal.clear)()
    return found


class Either(tuple):
    """The words that one release of a shell passes, and those of another."""


def try_row(terminal, scratch, count, typed, expected, keys="", reason=None):
    """Presses Tab after a text. The probe has to receive the expected words once. If they are a text, it must not run,
    for that reason."""
    if isinstance(expected, str):
        reason, calls = expected, [[]]
    else:
        ways = expected if isinstance(expected, Either) else (expected,)
        calls = [[["__complete", *words]] for words in ways]

    def attempt():
        got, marks = call_at(terminal, scratch, typed, keys)
        return calls[0] if got in calls else got, marks

    count.tried(attempt, typed, typed, calls[0], reason, [[]])


# ---- why the probe does not run

OTHER = "another command or place for the shell"
HYPHEN, LINE_FEED, VERTICAL_TAB, NOT_UTF8 = "a hyphen", "a line feed", "a vertical tab", "not UTF-8"
EXPANDED, BACKTICK, NO_WORD = "bash would expand it", "a backtick", "not a word of Elvish"
OWN, OPEN = "the shell completes it itself", "a quote of an earlier line in zsh"


# ---- values

def typed_as(shell, quote, value):
    """Returns how a value is typed after a quote, or `None` if that is impossible."""
    letters = [letter_in(shell, quote, letter) for letter in value]
    if None in letters or shell == "elvish" and "\u200b" in value:  # Elvish drops the letter
        return None
    return quote + "".join(letters)


def try_values(terminal, scratch, count):
    for value in VALUES:
        for quote in ("", "'", '"'):
            typed = typed_as(terminal.name, quote, value)
            if typed is None:
                continue
            backtick = terminal.name == "zsh" and quote == "'" and "`" in value and BACKTICK
            may = MAY_LEAVE_OUT if terminal.name == "bash" and "`" in value else None
            option = value.startswith("-") and HYPHEN
            try_row(terminal, scratch, count, f"asks {typed}{quote} x", backtick or [value, "x"], reason=may)
            try_row(terminal, scratch, count, f"asks {typed}", backtick or option or [value])


# ---- words that a shell would evaluate

# Texts to type after the program's name, and the words that the probe receives, in each shell without a row of its own.
TYPED = {
    "": [""], "'": [""], "a  b ": ["a", "b", ""], "'' \"\" x": ["", "", "x"], "é漢 ü": ["é漢", "ü"],
    "$(touch hit) x": ["$(touch hit)", "x"], '"$(touch hit)" x': ["$(touch hit)", "x"],
    "'$(touch hit)' x": ["$(touch hit)", "x"], "$(touch hit)": ["$(touch hit)"], '"$(touch hit)': ["$(touch hit)"],
    "'$(touch hit)": ["$(touch hit)"], "~": ["~"], "*": ["*"], "{a,b}": ["{a,b}"], "$HOME": ["$HOME"],
    "$(touch": OTHER, "`touch hit` x": BACKTICK, "`touch hit`": BACKTICK,
    ";touch hit": OTHER, "x;touch hit ": OTHER, "& x": OTHER, "| x": OTHER, "x | asks y z": ["y", "z"],
    "';touch hit' x": [";touch hit", "x"], "';touch hit": [";touch hit"], '";touch hit': [";touch hit"],
    "\\;touch\\ hit x": [";touch hit", "x"], "'&' '|' '>hit' x": ["&", "|", ">hit", "x"],
    "$HOME ~ * {a,b} x": ["$HOME", "~", "*", "{a,b}", "x"], "\"$HOME\" '~' '*' x": ["$HOME", "~", "*", "x"],
    "-x x": ["-x", "x"], "-- -x": HYPHEN, "--onto": HYPHEN, "--onto ": ["--onto", ""],
    "--onto '' x": ["--onto", "", "x"], "--onto=": ["--onto="], "--onto=ma": ["--onto=ma"],
    "--onto=x ma": ["--onto=x", "ma"], "--onto=$(touch hit)": ["--onto=$(touch hit)"],
    "--onto='$(touch hit)": ["--onto=$(touch hit)"], '--onto="`touch hit`': ["--onto=`touch hit`"],
    "--onto=';touch hit": ["--onto=;touch hit"], "a:b=c@d e:f": ["a:b=c@d", "e:f"],
    "x >hit y": ["x", "y"], "a'b\"c'd\"e'f\" x": ["ab\"cde'f", "x"], "'it'\"'\"'s' x": ["it's", "x"],
    "a\\": ["a"], "'a\\\\' x": ["a\\\\", "x"], '"a\\\\" x': ["a\\", "x"], "'a\nb' x": ["a\nb", "x"], "'a\nb": ["a\nb"],
    '"a\n;touch hit': ["a\n;touch hit"],
}
# Keys that type a control character, and bytes that are not UTF-8.
TYPED_POSIX = {
    "'a\x16\tb' x": ["a\tb", "x"], "'a\x16\tb": ["a\tb"], "'a\x16\rb' x": ["a\rb", "x"],
    "'a\x16\x1bb' x": ["a\x1bb", "x"], "'a\x16\vb' x": VERTICAL_TAB, "'a\x16\vb": VERTICAL_TAB,
}
TYPED_IN = {
    "bash": {
        **TYPED_POSIX, "$(touch hit)": EXPANDED, "--onto=$(touch hit)": EXPANDED, "x >hit y": ["x", ">hit", "y"],
        "'\udcff' x": NOT_UTF8, "'a\udcffb": NOT_UTF8, "'a\nb' x": LINE_FEED, "'a\nb": LINE_FEED,
        '"a\n;touch hit': LINE_FEED,
    },
    "zsh": {
        **TYPED_POSIX, "~": OWN, "$HOME": OWN, "$'a\\tb' x": ["a\tb", "x"], "$'\\xff' x": NOT_UTF8,
        "$'\\xff'": NOT_UTF8, '--onto="`touch hit`': BACKTICK, "'a\nb": OPEN, '"a\n;touch hit': OPEN,
    },
    "fish": {
        "`touch hit` x": ["`touch", "hit`", "x"], "`touch hit`": ["`touch", "hit`"],
        "x >hit y": Either((["x", "hit", "y"], ["x", "y"])),
        "~": OWN, "$HOME": OWN, "'a\\\\' x": ["a\\", "x"],
        "a\\tb x": ["a\tb", "x"], "a\\vb x": VERTICAL_TAB, "a\\vb": VERTICAL_TAB,
        "a\\Xffb x": NOT_UTF8, "a\\Xff": NOT_UTF8, "'a\nb' x": LINE_FEED, "'a\nb": LINE_FEED,
        '"a\n;touch hit': LINE_FEED, "a\\nb x": LINE_FEED, "a\\nb": LINE_FEED,
    },
    # Elvish passes words that it evaluates itself, such as `~`, and leaves out words that it would have to run.
    "elvish": {
        "$(touch hit) x": ["x"], "$(touch hit)": NO_WORD, "`touch hit` x": NO_WORD, "`touch hit`": NO_WORD,
        "\\;touch\\ hit x": OTHER, "$HOME ~ * {a,b} x": ["<home>", "x"], "~ x": ["<home>", "x"],
        "(touch hit) x": ["x"], "~": ["<home>"], "*": NO_WORD, "{a,b}": NO_WORD, "$HOME": NO_WORD,
        "--onto=$(touch hit)": NO_WORD, "a\\": ["a\\"],
        '"a\\tb" x': ["a\tb", "x"], '"a\\vb" x': VERTICAL_TAB, '"a\\vb': VERTICAL_TAB,
        '"a\\xffb" x': NOT_UTF8, '"a\\xff': NOT_UTF8,
    },
}


def try_typed(terminal, scratch, count):
    for program in ("asks", "cobra"):
        for typed, expected in {**TYPED, **TYPED_IN[terminal.name]}.items():
            if isinstance(expected, list):
                expected = [scratch.home if word == "<home>" else word for word in expected]
            try_row(terminal, scratch, count, f"{program} {typed}", expected)


# ---- the cursor

def try_cut(terminal, scratch, count):
    """Moves the cursor to the left before the Tab. Within a word, all but bash may complete the whole word."""
    before, within = (["one", ""], ["one", "two"]), (["one", "two"], ["one", "twothree"])
    for typed, behind, expected in (
        ("one two three", " three", ["one", "two"]),
        ("one two three", "two three", before[0] if terminal.name == "bash" else Either(before)),
        ("one twothree four", "three four", within[0] if terminal.name == "bash" else Either(within)),
        ("one '$(touch hit)", "", ["one", "$(touch hit)"]), ("one $(touch hit)", " $(touch hit)", ["one"]),
        ("one '$(touch hit)'", " '$(touch hit)'", ["one"]),
    ):
        try_row(terminal, scratch, count, f"asks {typed}", expected, LEFT * len(behind))


# ---- places

HOSTILE = ("x$(hit)", "x`hit`", "x;hit", "$(hit)y")


def without_quotes(text):
    return re.sub(r"[\s'\"\\$]", "", text)


def try_places(terminal, scratch, count):
    """Types texts in each place, after each quote that may be open. The probe may only receive what was typed."""
    for place in safe_places.PLACES[terminal.name]:
        before = place.before.replace("app", "asks").replace("--option", "--onto")
        calls = []
        for opening in safe_places.OPENINGS[terminal.name]:
            for hostile in HOSTILE:
                calls += try_place(terminal, scratch, count, place.name, before, opening + hostile)
        if not calls and terminal.name in place.inserts.split():
            count.say("NEVER ASKED", place.name, before, None)


def try_place(terminal, scratch, count, name, before, typed):
    """Types a text in a place. Returns the calls of the probe."""
    terminal.forget()
    calls, marks = call_at(terminal, scratch, before + typed)
    written = re.sub(r"\x1b\[20[01]~", "", before + typed).rpartition("asks")[2]
    expected = [without_quotes(written)]
    if calls or marks:
        got = [without_quotes("".join(words[1:])) for words in calls]
        count.judge(name, before + typed, expected, got, None, marks, ())
    else:
        count.leave("not asked", name)
    return calls


# ---- keys

def try_keys(terminal, scratch, count):
    for typed in ("", "x", "x y", "--onto=x", "--onto ", "'$(touch hit)' x"):
        try_row(terminal, scratch, count, f"bare {typed}", [])


# ---- lines of Cobra

# The lines that a command prints, by the name of its program. A directive is a sum: 1 is an error, 2 no space, 4 no
# paths, 8 and 16 paths alone.
LINES = {
    "spaced": ("value\tof it", "_activeHelp_ help", ":4"), "unspaced": ("value\tof it", ":6"), "error": ("value", ":5"),
    "nothing": (":4",), "anything": (":0",), "paths": (":8",), "folders": ("value", ":16"), "lines": ("value", "other"),
}
# Texts to type, and the words that the program receives after Tab and Enter. The current directory has the file
# `file-1`, and the directory `folder-1`.
RECEIVED = (
    ("spaced va", ["value"]), ("spaced --onto=va", ["--onto=value"]), ("spaced --onto ", ["--onto", "value"]),
    ("spaced 'va", ["value"]), ("spaced :", [":"]), ("spaced _", ["_"]), ("unspaced va", ["value"]),
    ("unspaced --onto=va", ["--onto=value"]), ("error va", ["va"]), ("error fi", ["fi"]), ("nothing fi", ["fi"]),
    ("nothing :", [":"]), ("anything fi", ["file-1"]), ("anything --onto=fi", ["--onto=file-1"]),
    ("anything fo", ["folder-1/"]), ("paths fi", ["file-1"]), ("folders va", ["va"]), ("folders fi", ["fi"]),
    ("folders f", ["folder-1/"]), ("lines v", ["value"]), ("lines fi", ["fi"]),
)
# Texts to type, and the line after a Tab in bash and zsh, without quotes.
SPACES = (
    ("spaced va", "spaced value "), ("unspaced va", "unspaced value"), ("unspaced 'va", "unspaced value"),
    ("unspaced --onto=va", "unspaced --onto=value"), ("spaced --onto=va", "spaced --onto=value "),
    ("unspaced --on", "unspaced --onto "), ("anything fi", "anything file-1 "), ("lines va", "lines value "),
)


def make_cobra(scratch):
    for name, lines in LINES.items():
        words = ["printf", "%s\\n", *lines]
        scratch.program(tree(name, values_from=words, values_words=False, values_protocol="cobra"))
    write(os.path.join(scratch.path, "cobra", "file-1"), "")
    os.mkdir(os.path.join(scratch.path, "cobra", "folder-1"))


def try_cobra(terminal, scratch, count):
    folder = os.path.join(scratch.path, "cobra")
    terminal.go(folder)
    for typed, words in RECEIVED:
        count.tried(lambda: (terminal.received(typed), scratch.marks(folder, os.listdir(folder))), typed, typed, words)
    for typed, line in SPACES if terminal.name in POSIX else ():
        count.tried(lambda: (line_after(terminal, typed), ()), typed, typed, line)


def line_after(terminal, typed):
    line = terminal.inserted(typed)
    terminal.clear()
    return (line or "").replace("'", "")


# ---- all

TRIES = {"values": try_values, "typed": try_typed, "cut": try_cut, "places": try_places, "keys": try_keys,
         "cobra": try_cobra}


def try_shell(scratch, shell, parts, verbose):
    good = True
    # By default zsh itself expands the typed word at a Tab. Here it should only complete.
    setup = "bindkey '^I' complete-word" if shell == "zsh" else ""
    for part in parts:
        count = Count(shell, part, verbose)
        with started(shell, scratch, scratch.written(shell), setup) as terminal:
            TRIES[part](terminal, scratch, count)
        good &= count.end()
    return good


def main():
    parser = argparse.ArgumentParser(usage=common.usage(__doc__))
    parser.add_argument("--shells", default=",".join(SHELLS))
    parser.add_argument("--only", action="append", choices=PARTS)
    parser.add_argument("--verbose", action="store_true")
    options = parser.parse_args()
    good = True
    with Scratch(common.program("complgen")) as scratch:
        make_all(scratch)
        for shell in installed(options.shells.split(",")):
            good &= try_shell(scratch, shell, options.only or PARTS, options.verbose)
    return 0 if good else 1


if __name__ == "__main__":
    sys.exit(main())
