"""Programs that print help texts, and programs that misbehave: what runs, what is written, and what is said."""

from __future__ import annotations

import json
import os
import re
import signal
import subprocess
import time
from typing import Any, Callable, Dict, List, Tuple

import common
from importing.room import (
    IMPORTER, Node, Room, SLEEP, TEXTS, left_sleeping, names_of, option_names, rows, sleeping)


# ---- formats

def expected_rows(name: str) -> Tuple[List[str], str]:
    """Returns the rows of a format that were written by hand, and the last one, which counts the lines that no tree
    file can say."""
    with open(os.path.join(TEXTS, name, "expected"), encoding="utf-8") as file:
        *found, dropped = file.read().splitlines()
    return found, dropped


def counts_of(found: List[str]) -> str:
    """Returns how many commands, options and positionals the rows of a format have, as the importer says it."""
    commands, named, positionals = (sum(map(test, found)) for test in (
        lambda row: ":" not in row, lambda row: ": -" in row, lambda row: ": [" in row))
    placed = {0: "", 1: ", 1 positional argument"}.get(positionals, f", {positionals} positional arguments")
    return f"{commands} commands, {named} options{placed}"


def asked_count(found: List[str]) -> str:
    """Returns what the importer says of the arguments whose values come from the program itself."""
    count = sum(" asked" in row for row in found)
    own = f"values of {count} argument{'' if count == 1 else 's'} come from {program_of(found)} itself"
    return f"; {own}, as complgen check notes" if count else ""


def of_texts(found: List[str]) -> List[str]:
    """Returns the rows of a program that is not run, so that it cannot answer."""
    return sorted(row.replace(" asked", "") for row in found)


def program_of(found: List[str]) -> str:
    """Returns the name of the program that some rows describe."""
    return re.split(r"\W", found[0])[0]


def try_formats(room: Room, options: Any) -> None:
    """Imports each text and those of the subcommands. Subcommands without a text of their own print nothing."""
    for folder in sorted(os.listdir(TEXTS)):
        expected, dropped = expected_rows(folder)
        name = program_of(expected)
        room.printing(name, os.path.join(TEXTS, folder))
        status, out, _ = room.run("--walk", name)
        room.expect(f"{name}: status", 0, status)
        if status == 0:
            room.expect(f"{name}: commands and options", sorted(expected), sorted(rows(room.tree(name), [name])))
            room.expect(f"{name}: output", f"{name}: {counts_of(expected)}, {dropped}{asked_count(expected)}\n", out)
        made = room.import_texts(os.path.join(TEXTS, folder), name)
        room.expect(f"{name}: as texts", of_texts(expected), sorted(rows(made.tree or {}, [name])))


def try_program(room: Room, options: Any) -> None:
    """Imports each text of a program itself. Only this text is read, so no option is global."""
    for folder in sorted(os.listdir(TEXTS)):
        expected, _ = expected_rows(folder)
        name = program_of(expected)
        rows_here = [row for row in expected if re.match(rf"{name}:|{name} [\w-]+(,|$)", row)]
        own = [re.sub(" global$", "", row) for row in rows_here]
        room.printing(name, os.path.join(TEXTS, folder))
        room.run(name)
        runs = [f"{name} --help", *([f"{name} __complete "] if os.path.exists(os.path.join(TEXTS, folder, "answer.txt")) else [])]
        room.expect(f"{name}: runs", runs, room.logged())
        room.expect(f"{name}: commands and options", sorted(own), sorted(rows(room.tree(name), [name])))


# ---- programs that misbehave

FIXED = {"COLUMNS": "200", "NO_COLOR": "1", "TERM": "dumb", "PAGER": "cat", "GIT_PAGER": "cat", "MANPAGER": "cat",
         "LC_ALL": "C.UTF-8"}


def try_environment(room: Room, options: Any) -> None:
    """A program writes down what it gets."""
    seen = os.path.join(room.path, "seen")
    room.script("seer", f"env >'{seen}'", f"echo \"pwd=$PWD\" >>'{seen}'", f"ls -A >>'{seen}'",
                f"readlink /proc/self/fd/0 >>'{seen}'",
                f"if (: >/dev/tty) 2>/dev/null; then echo a terminal >>'{seen}'; fi",
                "echo '  --seen  Seen'", "touch ~/.seen here")
    secrets = {"SECRET": "secret", "COMPLETE": "bash", "DISPLAY": ":0", "XDG_CONFIG_HOME": room.home}
    status, written = room.run_on_terminal("seer", **secrets)
    room.expect("status", (0, "seer: 0 commands, 1 option, 0 lines dropped\r\n"), (status, written))
    with open(seen, encoding="utf-8") as file:
        lines = file.read().splitlines()
    found = dict(line.split("=", 1) for line in lines if "=" in line)
    room.expect("other lines", ["/dev/null"], [line for line in lines if "=" not in line])
    room.expect("fixed variables", FIXED, {name: found.get(name) for name in FIXED})
    kept_back = [*secrets, "XDG_DATA_HOME", "PYTHONPATH", "COMPLGEN"]
    room.expect("variables of the caller", [], [name for name in kept_back if name in found])
    room.expect("home", True, found["HOME"].startswith(room.temporary) and found["HOME"] == found["pwd"])
    room.expect("what is left at home", [], os.listdir(room.home))
    room.run("--own-home", "--force", "seer")
    with open(seen, encoding="utf-8") as file:
        room.expect("own home", True, f"HOME={room.home}" in file.read().splitlines())
    room.expect("flag", (0, ["seer -h"]), (room.run("--flag", "-h", "--force", "seer")[0], room.logged()[-1:]))


# So many seconds have programs that must not reach this limit.
AMPLE = "60"
LIMITED: Dict[str, Tuple[List[str], str]] = {
    # lines of a program, the message about it. Only programs that sleep get a second.
    "endless": (["while :; do echo '  --more  And more'; done"], "endless --help: printed more than 1 MiB"),
    "loud": (["while :; do echo '  --more  And more' >&2; done"], "loud --help: printed more than 1 MiB"),
    "sleeper": ([f"sleep {SLEEP}"], "sleeper --help: did not end within 1 second"),
    "half": (["echo '  --half  Half a text'", f"sleep {SLEEP}"], "half --help: did not end within 1 second"),
    "closed": (["exec >&- 2>&-", f"sleep {SLEEP}"], "closed --help: did not end within 1 second"),
    "deaf": (["trap '' TERM INT HUP", f"sleep {SLEEP}"], "deaf --help: did not end within 1 second"),
    "forks": (["i=0; while [ $i -lt 50 ]; do i=$((i + 1)); (sleep " + SLEEP + " &) ; done", f"sleep {SLEEP}"],
              "forks --help: did not end within 1 second"),
    "silent": ([], "silent --help: printed nothing"),
    "blank": (["printf ' \\n\\n'"], "blank --help: printed nothing"),
    "crash": (["echo '  --crash  It crashes'", "kill -SEGV $$"], "crash --help: ended by the signal SIGSEGV"),
    "chatty": (["echo hello; echo world"],
               "chatty --help: no option, no positional argument and no subcommand was found in what it prints: hello"),
    "rude": (["printf 'no \\033]0;title\\007 such \\033[31moption \\302\\233J\\n' >&2; exit 2"],
             "rude --help: no option, no positional argument and no subcommand was found in what it prints: "
             "no ?]0;title? such ?[31moption ?J"),
}
NOT_PLAIN = "the name of the program is not plain (letters and digits, with single - or _ between)"


def try_limits(room: Room, options: Any) -> None:
    """Programs that print for ever, sleep, print nothing or crash are named, and nothing of them stays."""
    for name, (lines, message) in LIMITED.items():
        room.script(name, *lines)
        room.fails(message, "--seconds", "1" if "did not end" in message else AMPLE, name)
        room.expect(f"{name}: processes", [], left_sleeping())
        room.expect(f"{name}: file", False, os.path.exists(room.place(name)))
    room.fails("nothere: not found", "nothere")
    for name in ("a b", "$(touch hit)", ".hidden", "g++", "../bin/a.b", "a\x1b[2J", "a\u009b2J"):
        room.fails(re.sub("[\x1b\x9b]", "?", f"{name}: {NOT_PLAIN}"), name)
    common.write(os.path.join(room.bin, "junk"), "\x7fELF")
    os.chmod(os.path.join(room.bin, "junk"), 0o755)
    room.fails("junk --help: cannot be run: Exec format error", "junk")
    try_accepted(room)
    status, out, _ = room.run("--seconds", "5", "sleeper", "nothere", "fine")
    room.expect("the others go on", (1, "fine: 0 commands, 1 option, 0 lines dropped\n"), (status, out))
    room.expect("command line", [2, 2, 2], [room.run(*words)[0] for words in ((), ("--depth", "0", "x"), ("--nope", "x"))])


ACCEPTED: Dict[str, List[str]] = {
    "reader": ["cat >/dev/null", "echo '  --reader  It reads'"],
    "angry": ["echo '  --angry  Status 3'", "exit 3"],
    "stderr": ["echo '  --stderr  On the standard error' >&2", "exit 1"],
    "warns": ["echo '  --warns <FILE>  Comes second' >&2", "echo '  --warns  Comes first'"],
    "leaver": [f"sleep {SLEEP} &", "echo '  --leaver  It leaves a child'"],
    "talker": ["(sleep 0.3; while echo '  --late  Too late'; do :; done) &", "echo '  --talker  Its child talks'"],
    "colors": ["printf '\\033]0;title\\007  \\033[1m--colors\\033[0m  In \\033[31mred\\033[0m\\n'"],
    "strikes": ["printf '  -\\b--\\b-s\\bst\\btrikes  Struck\\n'"],
    "readonly": ["mkdir -p ro/in; touch ro/in/file; chmod 555 ro/in ro", "echo '  --readonly  Cannot be removed'"],
}


def try_accepted(room: Room) -> None:
    """Programs that behave oddly, but print a help text."""
    room.script("fine", "echo '  --fine  It is fine'")
    for name, lines in ACCEPTED.items():
        room.script(name, *lines)
        found = f"{name}: 0 commands, 1 option, 0 lines dropped\n"
        room.expect(name, (0, found, ""), room.run("--seconds", AMPLE, name))
        room.expect(f"{name}: options", ["--" + name], room.names(name))
        room.expect(f"{name}: processes", [], left_sleeping())
    room.script("placed", "echo 'Usage: placed FILE'")
    found = "placed: 0 commands, 0 options, 1 positional argument, 0 lines dropped\n"
    room.expect("positionals alone", (0, found, ""), room.run("placed"))
    room.expect("positionals alone: tree", ["placed: [FILE] =1 FilePath"], rows(room.tree("placed"), ["placed"]))
    room.expect("the standard output comes first", "SetTrue", room.tree("warns")["args"][0].get("action"))
    with open(room.place("colors"), "rb") as file:
        room.expect("control characters", [], re.findall(rb"[\x00-\x09\x0b-\x1f\x7f]", file.read()))


# ---- walks

def listing(names: List[str], *options: str) -> str:
    """Returns a help text that lists these commands."""
    return "\n".join(["A program", "", "Commands:", *(f"  {name}  About {name}" for name in names), "", "Options:",
                      *(f"  {option}  About it" for option in options), ""])


def put_listing(room: Room, name: str, names: List[str], *options: str) -> str:
    """Writes a help text that lists these commands, and returns its path."""
    path = os.path.join(room.path, name + ".txt")
    common.write(path, listing(names, *options))
    return path


def try_walks(room: Room, options: Any) -> None:
    """The subcommands that a walk runs, and what it makes of their texts."""
    for part in (try_many, try_repeating, try_single, try_deep, try_names, try_failing, try_global, try_progress,
                 try_interrupt):
        part(room)
        room.logged()
    room.expect("files", ["bin", "data", "home", "temporary"], sorted(
        it for it in os.listdir(room.path) if not it.endswith(".txt") and it != "stub"))


def try_many(room: Room) -> None:
    """Of 2,001 subcommands, 1,999 are run, and all are in the tree."""
    names = [f"c{at}" for at in range(2001)]
    path = put_listing(room, "many", names, "--all")
    room.script("many", f"if [ $# = 1 ]; then cat '{path}'; else echo \"  --only-$1  X\"; fi")
    limit = "complgen-import: many: 2 subcommands were not run, because the limit is 2000 help texts\n"
    counted = "many: 2001 commands, 2000 options, 0 lines dropped\n"
    room.expect("many", (0, counted, limit), room.run("--walk", "--seconds", AMPLE, "many"))
    room.expect("many: runs", 2000, len(room.logged()))
    wanted = [[f"--only-c{at}"] if at < 1999 else [] for at in range(2001)]
    room.expect("many: options", wanted, [option_names(it) for it in room.tree("many")["subcommands"]])


def has_body(node: Node) -> bool:
    """Tells whether a command has arguments or subcommands of its own."""
    return bool(node.get("args") or node.get("subcommands"))


def try_repeating(room: Room) -> None:
    """Commands that ignore their words end the walk after one round. The options of the program are theirs."""
    path = put_listing(room, "same", ["one", "two", "three"], "--same")
    room.script("same", f"cat '{path}'")
    room.script("other", 'echo "usage: other $*"', f"cat '{path}'")
    for name in ("same", "other"):
        room.expect(f"{name}: status", 0, room.run("--walk", name)[0])
        calls = [f"{name} {rest}--help" for rest in ("", "one ", "two ", "three ")]
        room.expect(f"{name}: runs", sorted(calls), sorted(room.logged()))
        tree = room.tree(name)
        room.expect(f"{name}: options", [("same", True)], [(it["long"], it.get("global")) for it in tree["args"]])
        room.expect(f"{name}: below", [("one", False), ("two", False), ("three", False)],
                    [(it["name"], has_body(it)) for it in tree["subcommands"]])


def try_single(room: Room) -> None:
    """A single subcommand that repeats the text of its parent has no subcommands."""
    path = put_listing(room, "single", ["one"], "--single")
    room.script("single", f"cat '{path}'")
    room.expect("single: status", 0, room.run("--walk", "single")[0])
    room.expect("single: below", [("one", False)], [(it["name"], has_body(it)) for it in room.tree("single")["subcommands"]])


def try_deep(room: Room) -> None:
    """A walk ends at its depth, and does not run `help`."""
    path = put_listing(room, "deep", ["help", "on"], "--deep")
    room.script("deep", f"sed \"s/ on/ on$#/; s/deep/deep$#/\" '{path}'")
    room.expect("deep: status", 0, room.run("--walk", "--depth", "3", "deep")[0])
    calls = [" ".join(["deep", *(f"on{at}" for at in range(1, many)), "--help"]) for many in range(1, 5)]
    room.expect("deep: runs", sorted(calls), sorted(room.logged()))


def try_names(room: Room) -> None:
    """A walk runs plain names alone, and makes no file of any name."""
    names = ["good", "-rf", "--force", "../up", "$(touch hit)", "`touch hit`", "a;b", "a.b", "x?", "'q'", "good-one"]
    path = put_listing(room, "names", names, "--names")
    room.script("names", f"if [ $# = 1 ]; then cat '{path}'; fi")
    room.run("--walk", "names")
    calls = ["names --help", "names good --help", "names good-one --help"]
    room.expect("names: runs", calls, sorted(room.logged(), key=len))
    room.expect("names: trees", ["names.json"], [it for it in os.listdir(os.path.dirname(room.place("names")))
                                                if it.startswith("n") or it == "hit"])


def try_failing(room: Room) -> None:
    """A subcommand that fails is named, and the others are read."""
    path = put_listing(room, "some", ["works", "hangs", "dies", "mute"], "--some")
    room.script("some", "case $1 in works) echo '  --works  X' ;;", f"hangs) sleep {SLEEP} ;;", "dies) kill -ABRT $$ ;;",
                f"mute) ;; *) cat '{path}' ;; esac")
    status, out, messages = room.run("--walk", "--seconds", "6", "some")
    room.expect("some: status and output", (0, "some: 4 commands, 2 options, 0 lines dropped\n"), (status, out))
    expected = ["some dies --help: ended by the signal SIGABRT", "some hangs --help: did not end within 6 seconds",
                "some mute --help: printed nothing"]
    room.expect("some: messages", [f"complgen-import: {it}" for it in expected], sorted(messages.splitlines()))
    room.expect("some: processes", [], left_sleeping())


def try_global(room: Room) -> None:
    """An option of a program and of all subcommands with a help text is global, whether other subcommands fail, print
    nothing or print what the program prints."""
    path = put_listing(room, "shared", ["one", "two", "fails", "mute", "same"], "--all")
    room.script("shared", "case $1 in one|two) printf '  --%s  About it\\n' all \"$1\" ;;",
                "fails) echo 'Traceback (most recent call last):'; exit 1 ;; mute) ;;",
                f"*) cat '{path}' ;; esac")
    status, _, messages = room.run("--walk", "shared")
    expected = ["shared fails --help: printed no help text, and ended with the status 1",
                "shared mute --help: printed nothing"]
    room.expect("shared: status", 0, status)
    room.expect("shared: messages", [f"complgen-import: {it}" for it in expected], sorted(messages.splitlines()))
    tree = room.tree("shared")
    room.expect("shared: the program", [("--all", True)], [(f"--{it['long']}", it.get("global")) for it in tree["args"]])
    below = {child["name"]: [it["long"] for it in child.get("args", [])] for child in tree["subcommands"]}
    room.expect("shared: below", {"one": ["one"], "two": ["two"], "fails": [], "mute": [], "same": []}, below)


def try_progress(room: Room) -> None:
    """On a terminal, a line shows how far a walk is, and nothing of it is left at the end."""
    status, written = room.run_on_terminal("--walk", "--force", "same")
    shown = [line.strip() for line in written.split("\r")]
    expected = ["", *(f"same: {at} of 4 help texts" for at in (2, 3, 4)), "", "same: 3 commands, 1 option, 0 lines dropped", ""]
    room.expect("progress", (0, expected), (status, shown))


def try_interrupt(room: Room) -> None:
    """A signal ends a walk, and nothing stays. The importer respects that a shell ignores SIGINT for a job in the
    background, as these tests may be."""
    signal.signal(signal.SIGINT, signal.default_int_handler)
    path = put_listing(room, "slow", [f"s{at}" for at in range(20)], "--slow")
    room.script("slow", f"if [ $# = 1 ]; then cat '{path}'; else sleep {SLEEP}; fi")
    for number in (signal.SIGINT, signal.SIGTERM):
        importer = room.start("--walk", "--seconds", "60", "slow")
        wait_until(lambda: bool(sleeping()))
        importer.send_signal(number)
        room.expect(number.name, (b"", b"complgen-import: interrupted\n", 130), ended(importer))
        room.expect(f"{number.name}: processes", [], left_sleeping())
        room.expect(f"{number.name}: scratch directory", [], os.listdir(room.temporary))
        room.expect(f"{number.name}: file", False, os.path.exists(room.place("slow")))


def ended(process: "subprocess.Popen[bytes]") -> Tuple[bytes, bytes, int]:
    """Waits for a process. Returns its output, its messages and its status."""
    try:
        return (*process.communicate(timeout=60), process.returncode)
    except subprocess.TimeoutExpired:
        process.kill()
        return (*process.communicate(), process.returncode)


def wait_until(happens: Callable[[], bool]) -> None:
    """Waits up to a minute."""
    end = time.monotonic() + 60
    while not happens() and time.monotonic() < end:
        time.sleep(0.02)


# ---- files

# Beside the tree files, a directory records what was written.
RECORDS = ".complgen-import"
OWN: Node = {"name": "keep", "about": "by hand", "args": [
    {"id": "both", "long": "both", "help": "By hand", "values_from": ["git", "branch"]},
    {"id": "mine", "long": "mine", "action": "SetTrue"}]}


def try_files(room: Room, options: Any) -> None:
    """What happens to a tree file that exists."""
    room.script("keep", "echo '  --new  New'; echo '  --both  By the text'")
    os.makedirs(os.path.dirname(room.place("keep")))
    common.write(room.place("keep"), json.dumps(OWN))
    room.fails(f"keep: {room.place('keep')} exists, and was kept (--force replaces it, --onto adds to it)", "keep")
    room.expect("kept: runs and file", ([], OWN), (room.logged(), room.tree("keep")))
    room.expect("--onto: status", 0, room.run("--onto", "keep")[0])
    tree = room.tree("keep")
    room.expect("--onto: what was there", OWN, {**{key: tree.get(key) for key in OWN}, "args": tree["args"][:2]})
    room.expect("--onto: names", ["--both", "--mine", "--new"], room.names("keep"))
    room.run("--onto", "keep")
    room.expect("--onto again: the same", tree, room.tree("keep"))
    room.expect("--force: status", 0, room.run("--force", "keep")[0])
    room.expect("--force: names", ["--both", "--new"], room.names("keep"))
    room.expect("both", 2, room.run("--force", "--onto", "keep")[0])
    os.unlink(room.place("keep"))
    room.expect("--onto without a file", (0, ["--both", "--new"]), (room.run("--onto", "keep")[0], room.names("keep")))
    room.expect("mode", 0o644, os.stat(room.place("keep")).st_mode & 0o777)
    try_link(room)
    try_unwritable(room)
    try_bad_file(room)
    try_rejected(room)


def try_link(room: Room) -> None:
    """A link is followed."""
    elsewhere = os.path.join(room.path, "elsewhere.json")
    os.replace(room.place("keep"), elsewhere)
    os.symlink(elsewhere, room.place("keep"))
    before = room.tree("keep")
    common.write(elsewhere, "{}")
    room.expect("a link: status", 0, room.run("--force", "keep")[0])
    room.expect("a link: file", (True, before), (os.path.islink(room.place("keep")), room.tree("keep")))


def try_unwritable(room: Room) -> None:
    """What cannot be written is named, and nothing else is left there."""
    folder = os.path.join(room.path, "out")
    room.expect("--out-dir: status", 0, room.run("--out-dir", folder, "keep")[0])
    room.expect("--out-dir: files", [RECORDS, "keep.json"], sorted(os.listdir(folder)))
    status, _, message = room.run("--out-dir", room.log, "keep")
    room.expect("a file as directory", (1, f"complgen-import: {room.log}/keep.json: write failed: File exists\n"),
                (status, message))
    os.mkdir(os.path.join(folder, "full.json"))
    room.script("full", "echo '  --full  X'")
    status, _, message = room.run("--out-dir", folder, "--force", "full")
    room.expect("a directory as file", (1, f"complgen-import: {folder}/full.json: write failed: Is a directory\n"),
                (status, message))
    room.expect("a directory as file: files", [RECORDS, "full.json", "keep.json"], sorted(os.listdir(folder)))


def try_bad_file(room: Room) -> None:
    """A tree file that is no JSON is kept."""
    common.write(room.place("bad"), "no JSON")
    room.script("bad", "echo '  --bad  X'")
    status, _, message = room.run("--onto", "bad")
    room.expect("--onto a bad file", (1, True), (status, message.startswith("complgen-import: bad: ")))
    with open(room.place("bad"), encoding="utf-8") as file:
        room.expect("--onto a bad file: kept", "no JSON", file.read())


def try_rejected(room: Room) -> None:
    """A tree that `complgen check` rejects is not written, and the old file stays."""
    room.script("picky", "echo '1:1: warning: args: \x1b[31mno'; exit 1")
    room.script("odd", "echo '  --odd  X'")
    picky = os.path.join(room.bin, "picky")
    for before in (None, "{}"):
        if before:
            common.write(room.place("odd"), before)
        status, out, message = room.run("--force", "odd", COMPLGEN=picky)
        room.expect("rejected: status and output", (1, ""), (status, out))
        room.expect("rejected: messages", True, "complgen check rejects the tree file" in message and "\x1b" not in message)
        room.expect("rejected: file", before, read_text(room.place("odd")))
    room.logged()


def read_text(path: str) -> Any:
    """Returns the text of a file, or `None` if there is none."""
    if not os.path.exists(path):
        return None
    with open(path, encoding="utf-8") as file:
        return file.read()


def try_own(room: Room, options: Any) -> None:
    """The importer is imported as any program, and compared with its tree file, which was written by hand."""
    path = os.path.join(room.bin, "complgen-import")
    call = " ".join(f"'{word}'" for word in IMPORTER)
    common.write(path, f"#!/bin/sh\nPYTHONPATH='{common.TOP}' exec {call} \"$@\"\n")
    os.chmod(path, 0o755)
    room.run(path)
    with open(os.path.join(common.EXAMPLES, "complgen-import.json"), encoding="utf-8") as file:
        by_hand = json.load(file)
    room.expect("options", sorted(option_names(by_hand) + ["-h", "--help"]), room.names("complgen-import"))
    flags = [name for it in room.tree("complgen-import")["args"] if it.get("action") == "SetTrue" for name in names_of(it)]
    expected = [name for it in by_hand["args"] if it.get("action") == "SetTrue" for name in names_of(it)]
    room.expect("flags", sorted(expected + ["-h", "--help"]), sorted(flags))
