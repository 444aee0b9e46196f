#!/usr/bin/env python3
"""Types into real shells that have loaded the safe registrations, and checks what a program receives.

    tests/safe_live.py [--shells bash,zsh,fish,elvish] [--only PART]..
                       [--before] [--seed N] [--names N] [--locales DIRECTORY] [--verbose]

tests/shells.py runs the shells in a pseudo terminal. They have loaded what `COMPLETE=SHELL complgen` writes
for a directory of tree files. Their programs write the words that they receive into a file. Nothing that is typed
or offered may run: `touch` is a program that leaves a mark, and no file may appear in the current directory.

The parts:

- values: each of some hundred texts is the only possible value of an argument. The script types
  nothing, its first letter, `'`, `"`, or its first letter after one of these, and then Tab and Enter. The
  program has to receive exactly the value;
- files, folders: the same for a file and a directory of that name, by the hint `FilePath`. In a directory a
  second Tab has to complete the file in it;
- words: words with `:`, `=` and `@`, earlier words in quotes, a cursor within a word, paths after `~/`;
- typed: a command substitution is typed and completed. Nothing may run at the Tab;
- places: within quotes, `$(..)`, backticks, `${a:-..}`, here-documents, continued lines, arrays, and behind
  `sudo`, `env` and `command`: tests/safe_places.py has the list. Nothing may be evaluated there, and if the
  program is run, it receives exactly the value, or what was typed;
- settings: `set -k`, `histchars`, a function `env`, and beginnings of words that bash keeps and expands;
- locales: values with letters before signs such as `;`, in GBK, GB18030, BIG5, Shift-JIS, EUC-JP, ISO 8859-1,
  UTF-8 and C. Needs `localedef` and the package locales. --locales keeps the locales in a directory;
- descriptions: what bash lists at the second Tab and by `possible-completions`, in terminals of three widths, in
  settings of readline and in the locales. The command line has to be the same as without descriptions: tests/safe_lists.py
  has the rules and the settings;
- random: directories with random names made of signs and commands, a file in each, and one to three Tabs.
  --seed makes other names, and --names another number of them;
- ten-thousand: milliseconds of a Tab with 10,000 candidates, and the same by the original's registration;
- start: milliseconds that 500 tree files add to the start of a shell, and the bytes of the registration.

A value that is not inserted has to be one that the rules leave out: `left_out` of tests/judging.py has them.
With --before, the original's registration, as `complgen register` writes it, is tried too: with the parts
`values`, `files`, `folders` and `words`, and with the file `x$(touch${IFS}hit)`. The script counts and prints what
happens then, with --verbose case by case. It does not count for the status.

The script prints a line for each exception, and for each shell and part. The status is 0 if no value was
changed, nothing ran, every value that was not inserted was to be left out, and the start of each shell
keeps its limits.
"""

import argparse
import collections
import os
import random
import statistics
import sys
import time

sys.path.append(os.path.join(os.path.dirname(os.path.realpath(__file__)), "..", "tools"))
import common
import safe_lists
import safe_places
import shells
from judging import Count, forms, left_out, left_out_at_tabs
from shells import SHELLS, installed, started, write

PARTS = ("values", "files", "folders", "words", "typed", "random", "places", "settings", "locales", "descriptions",
         "ten-thousand", "start")
ISSUE = "x$(touch${IFS}hit)"
VALUES = (
    "plain", "blank one", "two  blanks", "trail ", " lead", "sq'uote", 'dq"uote', "a\"b'c", "'", '"', "it's a", 'end"',
    "$(touch hit)", "x$(touch hit)", ISSUE, "`touch hit`", "x`touch hit`", "$HOME", "x$HOME", "${HOME}", "$'x'",
    "$';touch hit;'", "a$';touch hit;'", '$"x"', "$[1+1]", "$((1+1))", "=(touch hit)", "<(touch hit)", "~+", "x=~", "x=~/y",
    "semi;touch hit", ";touch hit", "amp&touch hit", "&touch hit", "pipe|touch hit", "|touch hit", "<in", ">out",
    "x>out", "(x)", "x(y)z", "(touch hit)", "*", "x*", "?", "[ab]", "{a,b}", "x{touch,hit}", "~", "~root", "~/x",
    "x~", "#hash", "x#hash", "!bang", "x!bang", "!!", "%per", "%", "^caret", "^a^b", "=eq", "=ls", "k=v", "k=v=w",
    "colon:one", "a:b:c", ":", "img:1.2", "user@host", "@scope/pkg", "img:1.2@sha256:ab", "a,b", "-dash", "--dash=x",
    "--", "back\\slash", "back\\\\two", "end\\", "\\", "path/to/it", "dir/", "ümlaut–漢", "a\u00a0b", "‘curly’",
    "e\u0301", "tab\there", "\ttab", "line\nfeed", "line\ntouch hit\n", "esc\x1b[2Jape", "bell\x07", "del\x7f",
    "c1\x9b2J", "x\ue03btouch hit", "\ue060touch hit\ue060", "x\uf63btouch hit", "a\u200bb",
    "\u00a0blank", "\u2003blank", "\u3000blank", "x\u3000blank",
)
Driver = collections.namedtuple("Driver", "scratch shell registration setup")


class Scratch(shells.TreeScratch):
    """The directories of these tests, with the options of the command line."""

    def __init__(self, complgen, options):
        super().__init__(complgen)
        self.options = options


# ---- the parts

def value_tree():
    return {"name": "vals", "disable_help_subcommand": True, "subcommands": [
        {"name": f"c{at:02}", "disable_help_flag": True, "args": [{"id": "v", "possible_values": [{"name": value, "help": "a help: of it"}],
                                        "allow_hyphen_values": True}]}
        for at, value in enumerate(VALUES)]}


def try_values(terminal, scratch, count):
    for at, value in enumerate(VALUES):
        for quote, before, typed in forms(terminal.name, value):
            name = f"c{at:02}"
            reason = left_out(terminal.name, quote, value, before)
            prefixes = ([name], [name, before]) if before or quote else ([name],)
            count.tried(lambda: (terminal.received(f"vals {name} {typed}"), scratch.marks(scratch.here, ())),
                        value, typed, [name, value], reason, prefixes)


def file_names():
    """Yields the values that can name a file, each in a directory of its own."""
    return [(f"{at:02}", value) for at, value in enumerate(VALUES) if "/" not in value]


def make_files(scratch):
    for at, value in file_names():
        os.makedirs(os.path.join(scratch.path, "files", at))
        write(os.path.join(scratch.path, "files", at, value), "")
        os.makedirs(os.path.join(scratch.path, "folders", at, value))
        write(os.path.join(scratch.path, "folders", at, value, "in side"), "")


def try_files(terminal, scratch, count):
    for at, value in file_names():
        folder = os.path.join(scratch.path, "files", at)
        terminal.go(folder)
        for quote, before, typed in forms(terminal.name, value):
            if before == "-":
                continue
            reason = left_out(terminal.name, quote, value, before)
            prefixes = ([], [before]) if before or quote else ([],)
            count.tried(lambda: (terminal.received(f"fils {typed}"), scratch.marks(folder, [value])),
                        value, typed, [value], reason, prefixes)


def try_folders(terminal, scratch, count):
    for at, value in file_names():
        folder = os.path.join(scratch.path, "folders", at)
        terminal.go(folder)
        for quote, before, typed in forms(terminal.name, value):
            if before == "-":
                continue
            for tabs, wanted in ((1, value + "/"), (2, value + "/in side")):
                if tabs == 2 and (value.startswith("-") or value == "~"):
                    continue  # these two words are an option, and the home folder
                reason = left_out_at_tabs(terminal.name, quote, before, [value + "/", wanted][:tabs])
                prefixes = ([], [before], [value + "/"]) if before or quote else ([],)
                count.tried(lambda: (terminal.received(f"fils {typed}", tabs), scratch.marks(folder, [value])),
                            wanted, typed, [wanted], reason, prefixes)


WORDS = (
    # the text to type, and the words that the program should receive after Tab and Enter
    ("word img", ["img:1.2"]),
    ("word img:", ["img:1.2"]),
    ("word img:1", ["img:1.2"]),
    ("word img:1.", ["img:1.2"]),
    ("word 'img:1", ["img:1.2"]),
    ('word "img:1', ["img:1.2"]),
    ("word us", ["user@host"]),
    ("word user@", ["user@host"]),
    ("word user@h", ["user@host"]),
    ("word key=", ["key=a:b@c"]),
    ("word key=a:", ["key=a:b@c"]),
    ("word key=a:b@", ["key=a:b@c"]),
    ("word --x=", ["--x=v:1"]),
    ("word --x=v", ["--x=v:1"]),
    ("word --x=v:", ["--x=v:1"]),
    ("word --x v", ["--x", "v:1"]),
    ("word --x=v:1 us", ["--x=v:1", "user@host"]),
    ("word --x v:1 img:", ["--x", "v:1", "img:1.2"]),
    ("word a:b se", ["a:b", "second"]),
    ("word a=b se", ["a=b", "second"]),
    ("word user@host se", ["user@host", "second"]),
    ("word a::b=:c se", ["a::b=:c", "second"]),
    ("word 'a b' se", ["a b", "second"]),
    ('word "a b" se', ["a b", "second"]),
    ('word "a b":c se', ["a b:c", "second"]),
    ("word a:b c=d th", ["a:b", "c=d", "third"]),
    ("word 'a:b' \"c=d\" th", ["a:b", "c=d", "third"]),
    ("word x:1  x:1 th", ["x:1", "x:1", "third"]),
    ("word : se", [":", "second"]),
    ("word img:1.2 se", ["img:1.2", "second"]),
    ("true; word img:1 se", ["img:1", "second"]),
    ("word 'two w", ["two words"]),
    ("word 'two words' se", ["two words", "second"]),
    ("vals 'c00' pl", ["c00", "plain"]),
    ('vals "c00" pl', ["c00", "plain"]),
    ('vals c"0"0 pl', ["c00", "plain"]),
    ("vals 'c0'0 'pl", ["c00", "plain"]),
    ("vals c01 'bl'an", ["c01", "blank one"]),
    ("vals c01 bl'an", ["c01", "blank one"]),
    ("vals c01 'blank 'o", ["c01", "blank one"]),
    ("word '' se", ["", "second"]),
    ('word "" se', ["", "second"]),
)
ESCAPED = (
    ("word a\\ b se", ["a b", "second"]),
    ("word two\\ w", ["two words"]),
    ("word a\\ b:c\\=d se", ["a b:c=d", "second"]),
)
ESCAPED_POSIX = (
    ("vals \\c00 pl", ["c00", "plain"]),
    ("word $(echo a b) se", ["a", "b", "second"]),
)


def word_tree():
    first = ["img:1.2", "user@host", "key=a:b@c", "two words"]
    return {"name": "word", "disable_help_flag": True, "args": [
        {"id": "x", "long": "x", "possible_values": [{"name": "v:1"}]},
        {"id": "first", "possible_values": [{"name": name} for name in first]},
        {"id": "second", "possible_values": [{"name": "second"}]},
        {"id": "third", "possible_values": [{"name": "third"}]}]}


SIGNS = (
    "$", "'", '"', "`", "(", ")", ";touch hit;", "$(touch hit)", "`touch hit`", "touch hit", " ", "\\", "{", "}", "!",
    "~", "=", ":", "#", "*", "?", "[", "]", "<", ">", "|", "&", "^", "%", "@", "a", "b", "é", ",", "+", "-", "$'",
    '$"', "x", "1", "\\x3b", "\\n", "..", ".", "${", "$[", "=(", "<(", "\u00a0", "\\073",
)


def random_names(seed, count):
    """Returns names of directories, made from signs and commands."""
    chance, names = random.Random(seed), []
    while len(names) < count:
        name = "".join(chance.choice(SIGNS) for _ in range(chance.randrange(1, 7)))
        if name not in (".", "..", "~", *names) and not name.startswith("-"):
            names.append(name)
    return names


def try_random(terminal, scratch, count):
    for at, name in enumerate(random_names(scratch.options.seed, scratch.options.names)):
        folder, inner = os.path.join(scratch.path, "random", str(at)), "in " + name
        if not os.path.exists(folder):
            os.makedirs(os.path.join(folder, name))
            write(os.path.join(folder, name, inner), "")
        terminal.go(folder)
        for quote, before, typed in forms(terminal.name, name):
            for tabs, wanted in ((1, name + "/"), (2, name + "/" + inner), (3, name + "/" + inner)):
                reason = left_out_at_tabs(terminal.name, quote, before, [name + "/", wanted][:tabs])
                prefixes = ([], [before], [name + "/"]) if before or quote else ([], [name + "/"])

                def attempt():
                    got = terminal.received(f"fils {typed}", tabs)
                    # After a lone dot, which is the current folder, the paths in it begin with `./`.
                    is_same = before == "." and got == ["./" + wanted]
                    return [wanted] if is_same else got, scratch.marks(folder, [name])

                count.tried(attempt, wanted, typed, [wanted], reason, prefixes)


def try_words(terminal, scratch, count):
    terminal.go(scratch.here)
    escaped = {"bash": ESCAPED + ESCAPED_POSIX, "zsh": ESCAPED + ESCAPED_POSIX, "fish": ESCAPED, "elvish": ()}
    for typed, wanted in WORDS + escaped[terminal.name]:
        count.tried(lambda: (terminal.received(typed), scratch.marks(scratch.here, ())),
                    wanted, typed, wanted, None, [typed.split()[1:]])
    if terminal.name == "bash":
        # a cursor within a word: what is after it stays
        got = terminal.received("word us", keys="x\x1b[D")
        count.judge("user@host", "word us|x", True, got in (["user@host", "x"], ["user@hostx"]), None,
                    scratch.marks(scratch.here, ()), ())
    try_home(terminal, scratch, count)


def try_home(terminal, scratch, count):
    write(os.path.join(scratch.home, "notes of it"), "")
    for typed in ("fils ~/no", "fils ~/notes"):
        count.tried(lambda: (terminal.received(typed), scratch.marks(scratch.here, ())),
                    "~/notes of it", typed, [scratch.home + "/notes of it"])


TYPED = ("$(touch hit)", "`touch hit`", '"$(touch hit)', "x$(touch hit) ", "'$(touch hit)' ", "$(touch hit",
         "(touch hit)", "${x:=$(touch hit)}", ";touch hit ", "x;touch hit", "<(touch hit) ", "$x[(touch hit)]",
         "{$(touch hit),b}", "$((x[$(touch hit)]))")


def try_typed(terminal, scratch, count):
    terminal.go(scratch.here)
    for typed in TYPED:
        for program in ("word ", "fils "):
            line, _ = terminal.tab(program + typed, "\t\t")
            terminal.settle(0.1)
            marks = scratch.marks(scratch.here, ())
            count.judge(typed, program + typed, True, line is not None, None, marks, ())
            terminal.clear()


# ---- places, settings and locales

def try_settings(scratch, shell, verbose):
    """Tries each setting in a shell of its own."""
    count = Count(shell, "settings", verbose)
    for at, setting in enumerate(safe_places.SETTINGS):
        if shell in setting.shells.split():
            setup = safe_places.FUNCTIONS[shell] if setting.before else ""
            terminal = started(shell, scratch, scratch.written(shell), setup)
            safe_places.try_setting(terminal, scratch, count, at)
            terminal.close()
    return count.end()


def try_locales(scratch, shell, verbose):
    """Tries values with letters in each locale, in a shell of its own."""
    good, before = True, dict(scratch.environment)
    for charset, source in safe_places.LOCALES:
        folder = os.path.realpath(scratch.options.locales or os.path.join(scratch.path, "locales"))
        variables = safe_places.make_locale(folder, charset, source)
        if variables is None:
            print(f"{shell}, locales, {charset}: skipped, needs localedef and the package locales")
            continue
        scratch.environment.update(variables)
        count = Count(shell, "locales, " + charset, verbose)
        terminal = started(shell, scratch, scratch.written(shell))
        safe_places.try_locale(terminal, scratch, count, left_out_in(shell, charset))
        terminal.close()
        scratch.environment.clear()
        scratch.environment.update(before)
        good &= count.end()
    return good


def try_descriptions(scratch, shell, verbose):
    """Tries the lists of bash."""
    count = Count(shell, "descriptions", verbose)
    if shell == "bash":
        safe_lists.try_lists(scratch, count)
    return count.end()


def left_out_in(shell, charset):
    """Returns the function that tells why a value that is not ASCII must not be inserted in a locale."""
    wide = charset in ("GBK", "GB18030", "BIG5", "SHIFT_JIS", "EUC-JP")
    if shell == "bash" and wide or shell == "zsh" and charset != "UTF-8":
        return lambda quote, value: "not ASCII in another locale than UTF-8"
    return lambda quote, value: left_out(shell, quote, value, "x")


# ---- times

def try_ten_thousand(scratch, shell, verbose):
    """Prints the milliseconds of a Tab with 10,000 candidates, for each of the two registrations."""
    values = [{"name": f"value-{at:05}"} for at in range(10000)]
    scratch.program({"name": "many", "disable_help_flag": True, "args": [{"id": "v", "possible_values": values}]})
    setup = {"zsh": "unsetopt auto_list auto_menu"}.get(shell, "")
    found = {}
    for name, text in (("safe", scratch.written(shell)), ("original's", scratch.original(shell))):
        terminal = started(shell, scratch, text, setup)
        took = []
        for _ in range(7):
            line, seconds = terminal.tab("many val")
            if line is None or "value-0" not in line:
                print(f"  {shell}, ten-thousand, {name}: the line is {line!r}")
            took.append(seconds * 1000)
            terminal.clear()
            terminal.settle()
        terminal.close()
        found[name] = statistics.median(took)
    times = ", ".join(f"{ms:.0f} ms ({name})" for name, ms in found.items())
    print(f"{shell}, ten-thousand: a Tab takes {times}", flush=True)
    return True


def try_start(scratch, shell, verbose):
    """Prints what 500 tree files add to the start of a shell, and the bytes of the registration."""
    folder = os.path.join(scratch.path, "many-trees")
    os.makedirs(folder, exist_ok=True)
    for at in range(500):
        write(os.path.join(folder, f"prog{at:03}.json"), '{"name": "p"}')
    text = scratch.written(shell, COMPLGEN_PATH=folder)
    load = {"bash": "source <(COMPLETE=bash complgen)", "zsh": "source <(COMPLETE=zsh complgen)",
            "fish": "COMPLETE=fish complgen | source", "elvish": "eval (env COMPLETE=elvish complgen | slurp)"}[shell]
    before, scratch.environment["COMPLGEN_PATH"] = scratch.environment["COMPLGEN_PATH"], folder
    took = {"": [], load: []}
    for _ in range(20):
        for setup in took:
            terminal = started(shell, scratch, "", setup)
            took[setup].append((time.monotonic() - terminal.began) * 1000)
            terminal.close()
    scratch.environment["COMPLGEN_PATH"] = before
    more = statistics.median(took[load]) - statistics.median(took[""])
    size = len(text.encode())
    good = more <= 10 and size <= 30000
    print(f"{shell}, start: {more:.1f} ms more with 500 tree files, {size} bytes"
          + ("" if good else ": MORE THAN 10 ms or 30000 bytes"), flush=True)
    return good


# ---- all

TRIES = {"values": try_values, "files": try_files, "folders": try_folders, "words": try_words, "typed": try_typed,
         "random": try_random, "places": safe_places.try_places}
BEFORE = ("values", "files", "folders", "words")
APART = {"settings": try_settings, "locales": try_locales, "descriptions": try_descriptions,
         "ten-thousand": try_ten_thousand, "start": try_start}


def try_shell(scratch, shell, options):
    good = True
    for part in options.only or PARTS:
        if part in APART:
            good &= APART[part](scratch, shell, options.verbose)
            continue
        safe = scratch.written(shell)
        setup = ""
        if options.before and part in BEFORE:
            before = Count(shell, "before, " + part, options.verbose, True)
            try_part(Driver(scratch, shell, scratch.original(shell), ""), part, before)
        if part == "typed" and shell == "zsh":
            # by default zsh itself expands the typed word at a Tab, in any command; here it should only complete
            by_default = Count(shell, "its default key for Tab, not counted, typed", options.verbose, True)
            try_part(Driver(scratch, shell, safe, ""), part, by_default)
            setup = "bindkey '^I' complete-word"
        good &= try_part(Driver(scratch, shell, safe, setup), part, Count(shell, part, options.verbose))
    return good


def try_part(driver, part, count):
    terminal = started(driver.shell, driver.scratch, driver.registration, driver.setup)
    TRIES[part](terminal, driver.scratch, count)
    terminal.close()
    return count.end()


def show_issue(scratch):
    """Shows what bash does with the file of the name `ISSUE`, by the original's registration and by the
    safe one."""
    for name, text in (("before", scratch.original("bash")), ("after", scratch.written("bash"))):
        folder = os.path.join(scratch.path, "issue-" + name)
        os.makedirs(folder)
        write(os.path.join(folder, ISSUE), "")
        terminal = started("bash", scratch, text)
        terminal.go(folder)
        got = terminal.received("fils x")
        terminal.close()
        marks = scratch.marks(folder, [ISSUE])
        print(f"bash, the file {ISSUE}, {name}: received {got!r}, ran: {', '.join(marks) or 'nothing'}")


def arguments():
    parser = argparse.ArgumentParser(usage=common.usage(__doc__))
    parser.add_argument("--shells", default=",".join(SHELLS))
    parser.add_argument("--only", action="append", choices=PARTS)
    parser.add_argument("--before", action="store_true")
    parser.add_argument("--seed", type=int, default=1)
    parser.add_argument("--names", type=int, default=40)
    parser.add_argument("--locales", metavar="DIRECTORY")
    parser.add_argument("--verbose", action="store_true")
    return parser.parse_args()


def main():
    options = arguments()
    scratch = Scratch(common.program("complgen"), options)
    good = True
    try:
        scratch.program(value_tree())
        scratch.program({"name": "fils", "disable_help_flag": True, "args": [{"id": "f", "value_hint": "FilePath"}]})
        scratch.program(word_tree())
        safe_places.make_programs(scratch)
        make_files(scratch)
        if options.before and "bash" in options.shells:
            show_issue(scratch)
        for shell in installed(options.shells.split(",")):
            good &= try_shell(scratch, shell, options)
    finally:
        scratch.remove()
    return 0 if good else 1


if __name__ == "__main__":
    sys.exit(main())
