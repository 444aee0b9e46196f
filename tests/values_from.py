#!/usr/bin/env python3
"""Completes values from commands, files and hints in real shells, and checks what runs and what is received.

    tests/values_from.py [--shells bash,zsh,fish,elvish] [--only PART].. [--verbose] [--seed N] [--runs N]

tests/shells.py runs the shells in a pseudo terminal. They have loaded what `COMPLETE=SHELL complgen` writes.
Their programs write the words that they receive into a file. No shell may evaluate anything.

The parts:

- protocol: requests without a shell. The words of a command and status 3, the reply over given lines, older
  registrations, `COMPLGEN_COMMANDS`, a relative `COMPLGEN_PATH`, keys of bad form, and what is a user, a host and a
  program in files of the system (those in /etc need `unshare` and the right to mount);
- random: requests without a shell, over random lines. The replies to fish are compared with those of a model of
  the rules. Replies to the other shells have no control characters. --runs makes more than 1,000, and --seed
  others;
- branches: git repositories with one branch each, many of hostile names, completed through the tree file
  that `examples/git-tree` writes, and through one that offers nothing else. In each repository there are also
  branches that may not be offered. Then a tag, a remote and a stash;
- words: a command receives 18 odd words exactly as the tree file has them;
- many: a command with 10,000 lines, and the milliseconds of a Tab;
- ends: commands that fail, are missing, are killed, print junk, or hang until ^C. The shell goes on, and no
  process stays;
- off: `COMPLGEN_COMMANDS=0`, and a tree file that is found by a relative path. No command runs;
- order: of several arguments with a command, the command of one runs;
- files: `values_file` and `values_split`;
- examples: the tree files in examples/values, with a makefile, and programs in the place of docker, hcloud and just;
- hints: users, hosts and programs.

The script prints a line for each exception, and for each part and shell. Without git, it skips `branches`, and
without `seq` the part `many`; a line says so. The status is 0 if there is no exception.
"""

import argparse
import json
import os
import random
import re
import shlex
import shutil
import signal
import statistics
import subprocess
import sys
import time

sys.path.append(os.path.join(os.path.dirname(os.path.realpath(__file__)), "..", "tools"))
import common
from judging import Count, begins_blank, forms, left_out
from shells import LONGEST, SHELLS, TreeScratch, installed, started, unlink, write

PARTS = ("protocol", "random", "branches", "words", "many", "ends", "off", "order", "files", "examples", "hints")


# ---- trees and programs

def tree(name, *args, **keys):
    """Returns a command that offers only the values of its arguments."""
    return {"name": name, "disable_help_flag": True, "disable_help_subcommand": True, "args": list(args), **keys}


def positional(**keys):
    return {"id": "v", "num_args": [0, None], **keys}


def group(name, children):
    """Returns a command with a subcommand for each pair of a name and the keys of its positional."""
    return tree(name, subcommands=[tree(child, positional(**keys)) for child, keys in children.items()])


def logging(scratch, name, *lines):
    """Makes a program that writes its name into the log, and then prints lines."""
    printed = "".join(f"echo '{line}'\n" for line in lines)
    scratch.script(name, f"#!/bin/sh\necho {name} >>'{log(scratch)}'\n{printed}")


def log(scratch):
    return os.path.join(scratch.path, "log")


def logged(scratch):
    """Returns the names in the log since the last call."""
    if not os.path.exists(log(scratch)):
        return []
    with open(log(scratch), encoding="utf-8") as file:
        found = file.read().split()
    unlink(log(scratch))
    return found


def received_and_ran(terminal, scratch, typed):
    """Returns the words that a program receives after a Tab, and what the log has since."""
    logged(scratch)
    return terminal.received(typed), logged(scratch)


# ---- requests without a shell

class Protocol:
    """Requests of fish, and a count of the answers that are not as expected."""

    def __init__(self, scratch):
        self.scratch, self.good, self.bad = scratch, 0, 0

    def answer(self, words, given=b"", within=lambda call: call, **variables):
        """Returns the status and the output of a request. Within changes the words of the call."""
        environment = {**self.scratch.environment, "COMPLETE": "fish", **variables}
        call = within([os.path.join(self.scratch.bin, "complgen"), "--", *words])
        ran = subprocess.run(
            call, executable=shutil.which(call[0]), input=given, env=environment, cwd=self.scratch.path,
            timeout=LONGEST, stdout=subprocess.PIPE, stderr=subprocess.PIPE)
        return ran.returncode, ran.stdout, ran.stderr

    def expect(self, what, expected, got):
        if got == expected:
            self.good += 1
            return
        self.bad += 1
        print(f"  protocol, {what}: expected {shortened(expected)}, got {shortened(got)}")


def shortened(value):
    text = repr(value)
    return text if len(text) < 400 else text[:400] + ".."


VERTICAL_TAB = "\v"
COMMAND = ["print-it", "one word", "", "$(touch hit)"]
CALL = (3, "".join(word + VERTICAL_TAB for word in COMMAND).encode())
NOTHING = (0, b"")
# Lines, `values_split`, and the reply to fish.
LINES = (
    (b"main\tthe branch\nnext\n", None, "main\tthe branch\nnext\n"),
    (b"one\r\ntwo\tsecond\r\n", None, "one\ntwo\tsecond\n"),
    (b"last", None, "last\n"),
    (b"\n\n\tonly a description\nfirst\n", None, "first\n"),
    (b"-dash\n--exec=x\na-b\n", None, "a-b\n"),
    (b"twice\tfirst\ntwice\tsecond\nonce\n", None, "twice\tfirst\nonce\n"),
    (b"bell\x07\nescape\x1b[2J\nnul\0\ndel\x7f\nc1\xc2\x9b\ngood\n", None, "good\n"),
    (b"one\twith \x1b[2Jescape\ntwo\t\x07\n", None, "one\twith [2Jescape\ntwo\n"),
    (b"\xff\xfe\nhalf\xc3\nwhole\tnot \xff UTF-8\n", None, "whole\n"),
    (b"two words\ta\tb\n", None, "two words\tab\n"),
    (b"name:the rest:of it\nbare\n", ":", "name\tthe rest:of it\nbare\n"),
    (b"  name :  about it \t\n", ":", "name\tabout it\n"),
    (b"  first  second third\nalone\n", " ", "first\tsecond third\nalone\n"),
    (b"a == b\n==none\n", "==", "a\tb\n"),
    (b"-x y\n", " ", ""),
    (b"", None, ""),
)
BAD_FORMS = (
    {"values_from": []}, {"values_from": [""]}, {"values_from": ["./here"]}, {"values_from": ["folder/program"]},
    {"values_from": ["A=b", "program"]}, {"values_from": ["/bin/a=b"]}, {"values_from": ["program", "a\vb"]},
    {"values_from": ["program", "a\0b"]}, {"values_from": "program"}, {"values_from": ["program", 1]},
    {"values_file": ""}, {"values_file": "a\0b"}, {"values_file": ["a"]}, {"values_split": ""},
    {"values_from": ["program"], "values_file": "/file"},
    {"values_from": ["program"], "possible_values": [{"name": "a"}]},
    {"values_file": "/file", "possible_values": [{"name": "a"}]},
)


def try_protocol(scratch):
    """Makes requests without a shell, and compares the answers."""
    protocol = Protocol(scratch)
    flag = {"id": "plain", "long": "plain", "action": "SetTrue"}
    color = {"id": "color", "long": "color", "possible_values": [{"name": "auto"}]}
    scratch.program(tree("asks", positional(values_from=COMMAND), flag))
    scratch.program(tree("plain", positional(possible_values=[{"name": "value"}]), color))
    try_modes(protocol)
    try_lines(scratch, protocol)
    try_system(scratch, protocol)
    for at, keys in enumerate(BAD_FORMS):
        scratch.program(tree("bad", positional(**keys)))
        status, out, message = protocol.answer(["bad", ""], _COMPLGEN_VALUES="ask")
        protocol.expect(f"bad form {keys}", (1, b"", True), (status, out, b"tree: bad form" in message))
        unlink(os.path.join(scratch.trees, "bad.json"))
    print(f"protocol: {protocol.good} answers as expected, {protocol.bad} not", flush=True)
    return protocol.bad == 0


def try_modes(protocol):
    """Tries the values of the variables, and the words that are no value."""
    path = os.path.basename(protocol.scratch.trees)
    given = b"value\tof it\n"
    for what, expected, words, variables in (
        ("ask", CALL, ["asks", ""], {"_COMPLGEN_VALUES": "ask"}),
        ("ask, letters typed", CALL, ["asks", "va"], {"_COMPLGEN_VALUES": "ask"}),
        ("ask, second value", CALL, ["asks", "one", ""], {"_COMPLGEN_VALUES": "ask"}),
        ("ask, escaped", CALL, ["asks", "--", "va"], {"_COMPLGEN_VALUES": "ask"}),
        ("ask, escaped, with a hyphen", NOTHING, ["asks", "--", "--pl"], {"_COMPLGEN_VALUES": "ask"}),
        ("ask, an option", (0, b"--plain\n"), ["asks", "--pl"], {"_COMPLGEN_VALUES": "ask"}),
        ("ask, no command", (0, b"value\n"), ["plain", "va"], {"_COMPLGEN_VALUES": "ask"}),
        ("ask, no command at an option", (0, b"--color=auto\n"), ["plain", "--color="], {"_COMPLGEN_VALUES": "ask"}),
        ("stdin", (0, b"value\tof it\n"), ["asks", "va"], {"_COMPLGEN_VALUES": "stdin"}),
        ("stdin, other letters", NOTHING, ["asks", "x"], {"_COMPLGEN_VALUES": "stdin"}),
        ("stdin, no command", (0, b"value\n"), ["plain", "va"], {"_COMPLGEN_VALUES": "stdin"}),
        ("an older registration", NOTHING, ["asks", "va"], {}),
        ("another mode", NOTHING, ["asks", "va"], {"_COMPLGEN_VALUES": "other"}),
        ("an empty mode", NOTHING, ["asks", "va"], {"_COMPLGEN_VALUES": ""}),
        ("commands off, ask", NOTHING, ["asks", "va"], {"_COMPLGEN_VALUES": "ask", "COMPLGEN_COMMANDS": "0"}),
        ("commands off, stdin", NOTHING, ["asks", "va"], {"_COMPLGEN_VALUES": "stdin", "COMPLGEN_COMMANDS": "0"}),
        ("commands on", CALL, ["asks", "va"], {"_COMPLGEN_VALUES": "ask", "COMPLGEN_COMMANDS": "1"}),
        ("empty COMPLGEN_COMMANDS", CALL, ["asks", "va"], {"_COMPLGEN_VALUES": "ask", "COMPLGEN_COMMANDS": ""}),
        ("relative path, ask", NOTHING, ["asks", "va"], {"_COMPLGEN_VALUES": "ask", "COMPLGEN_PATH": path}),
        ("relative path, stdin", NOTHING, ["asks", "va"], {"_COMPLGEN_VALUES": "stdin", "COMPLGEN_PATH": path}),
        ("relative path first", NOTHING, ["asks", "va"],
         {"_COMPLGEN_VALUES": "ask", "COMPLGEN_PATH": f"{path}:{protocol.scratch.trees}"}),
        ("relative path without the file", CALL, ["asks", "va"],
         {"_COMPLGEN_VALUES": "ask", "COMPLGEN_PATH": f"none:{protocol.scratch.trees}"}),
    ):
        status, out, _ = protocol.answer(words, given, **variables)
        protocol.expect(what, expected, (status, out))
    status, out, _ = protocol.answer(["asks", "--"], _COMPLGEN_VALUES="stdin")
    protocol.expect("options stay", (0, True), (status, b"--plain\n" in out))


def try_lines(scratch, protocol):
    for given, split, reply in LINES:
        keys = {"values_from": ["printer"], **({"values_split": split} if split else {})}
        scratch.program(tree("lines", positional(**keys)))
        status, out, _ = protocol.answer(["lines", ""], given, _COMPLGEN_VALUES="stdin")
        protocol.expect(f"lines {given!r} split at {split!r}", (0, reply.encode()), (status, out))


# ---- the files of the system

# Contents of `/etc/passwd`, and the lines that fish gets: a name, and the full name without what follows a comma.
# NIS, comments, and lines without a colon or a name have no user.
USERS = (
    ("root:x:0:0:The root,,:/root:/bin/sh\n", "root\tThe root\n"),
    ("a:x:1:1::/:/bin/sh\nb:x", "a\nb\n"),
    ("+:::::\n+d:x:1:1:D:/:\n-e:x:1:1:E:/:\n# f:x\ng\nh+i-#:x\n", "h+i-#\n"),
    (":x:0:0:None:/:\n\nc:x:2:2:C D:/:\n", "c\tC D\n"),
    ("", ""),
)

# Contents of `/etc/hosts`, and the names in it: the words after the address, without a comment.
TABLES = (
    ("127.0.0.1 localhost\n::1\tip6-localhost  ip6-loopback\n", "localhost\nip6-localhost\nip6-loopback\n"),
    ("# a comment\n1.2.3.4 # b\n  10.0.0.1 db # the database\n", "db\n"),
    ("", ""),
)

# Contents of `~/.ssh/known_hosts`, and the names in it: no hashed name, no pattern, and no line with a marker.
KNOWN = (
    ("a.example,10.0.0.1 ssh-ed25519 AAAA\n[b.example]:2222 ssh-rsa AAAA\n", "a.example\n10.0.0.1\nb.example\n"),
    ("|1|abc=|def= ssh-rsa AAAA\n@revoked c.example ssh-rsa AAAA\n# d\n\ne ssh-rsa AAAA\n", "e\n"),
    ("*.f,g,h? ssh-rsa AAAA\n!i,j ssh-rsa AAAA\n[*.k]:22,[l]:* ssh-rsa AAAA\n@cert-authority *.m ssh-rsa AAAA\n",
     "g\nj\nl\n"),
)

# Contents of `~/.ssh/config`, and the names in it: the words after `Host`, in any case, but for patterns.
CONFIGS = (
    ("Host a b.example\n  HostName 10.0.0.1\nhost=c\n\tHOST = d\n", "a\nb.example\nc\nd\n"),
    ("Host * !e f?\n# Host g\nMatch host h\nHost *.i j\n", "j\n"),
)

# Names of executable files, and whether they are offered: none with a control character.
PROGRAMS = (("run-a", True), ("[", True), (".run-b", True), ("run c", True), ("two\nlines", False),
            ("with\ttab", False), ("with\rreturn", False), ("with\x7fdelete", False))


def try_system(scratch, protocol):
    """Tries what is a user, a host and a program, over files."""
    home = os.path.join(scratch.path, "home-of-hosts")
    os.makedirs(os.path.join(home, ".ssh"))
    scratch.program(group("system", {
        "user": {"value_hint": "Username"}, "host": {"value_hint": "Hostname"},
        "program": {"value_hint": "CommandName"},
    }))
    empty = written(os.path.join(home, "empty"))
    if is_mountable(empty, "/etc/hosts"):
        try_files_of_etc(protocol, home)
    else:
        print("  protocol: the rows of /etc/passwd and /etc/hosts are skipped, since nothing can be mounted over them")
    try_programs(scratch, protocol)


def written(path, text=""):
    """Writes a file, and returns its path."""
    write(path, text)
    return path


def is_mountable(source, place):
    """Returns whether a process of its own can see a file in the place of another."""
    return shutil.which("unshare") and subprocess.run(
        covered({place: source}, ["true"]), stdout=subprocess.DEVNULL, stderr=subprocess.DEVNULL).returncode == 0


def covered(files, words):
    """Returns the words of a call that sees these files in the places of others."""
    mounts = [f"mount --bind {shlex.quote(source)} {shlex.quote(place)}" for place, source in files.items()]
    return ["unshare", "--mount", "sh", "-c", " && ".join([*mounts, 'exec "$@"']), "sh", *words]


def try_files_of_etc(protocol, home):
    passwd, table = (written(os.path.join(home, name)) for name in ("passwd", "hosts"))
    known, config = (written(os.path.join(home, ".ssh", name)) for name in ("known_hosts", "config"))
    for child, place, rows in (("user", passwd, USERS), ("host", table, TABLES), ("host", known, KNOWN),
                               ("host", config, CONFIGS)):
        for text, names in rows:
            write(place, text)
            status, out, _ = protocol.answer(
                ["system", child, ""], _COMPLGEN_VALUES="ask", HOME=home,
                within=lambda call: covered({"/etc/passwd": passwd, "/etc/hosts": table}, call))
            protocol.expect(f"{os.path.basename(place)} with {text!r}", (0, names.encode()), (status, out))
        write(place, "")


def try_programs(scratch, protocol):
    """Tries which names are programs, and that relative directories in PATH have none."""
    folder, here = os.path.join(scratch.path, "programs"), os.path.join(scratch.path, "relative")
    for at in (folder, here):
        os.mkdir(at)
    for name, _ in PROGRAMS:
        os.chmod(written(os.path.join(folder, name), "#!/bin/sh\n"), 0o755)
    write(os.path.join(folder, "no-program"), "")
    os.chmod(written(os.path.join(here, "run-here"), "#!/bin/sh\n"), 0o755)
    path = f":relative::{folder}:./relative:."
    status, out, _ = protocol.answer(["system", "program", ""], _COMPLGEN_VALUES="ask", PATH=path)
    offered = sorted(name.encode() for name, is_offered in PROGRAMS if is_offered)
    protocol.expect("programs", (0, offered), (status, sorted(out.splitlines())))


# ---- random lines

PIECES = (b"a", b"main", b"b", b"\n", b"\n", b"\n", b"\t", b"\t", b" ", b"  ", b":", b"==", b"\r", b"\r\n", b"-",
          b"--x", b"~", b"~/", b"\0", b"\x0b", b"\x1b[2J", b"\x7f", b"\xc2\x9b", b"\xff", b"\xc3", b"\xed\xa0\x80", "é漢".encode(),
          "\u2028😀".encode(), b"'", b'"', b"$(touch hit)", b"`", b"\\", b"*", b"#")
SPLITS = (None, None, ":", " ", "==", "é", "\t")


def is_control(letter):
    return letter < " " or "\x7f" <= letter <= "\x9f"


def decoded(text):
    """Returns a text, or nothing if the bytes are not UTF-8."""
    try:
        return text.decode()
    except UnicodeDecodeError:
        return ""


def fish_reply(given, split):
    """Returns the reply to fish over these lines, by the rules of docs/LIVE.md."""
    found = {}
    for line in given.split(b"\n"):
        line = line[:-1] if line.endswith(b"\r") else line
        if split is None:
            value, _, help_text = line.partition(b"\t")
        else:
            value, _, help_text = (part.strip(b" \t") for part in line.lstrip(b" \t").partition(split.encode()))
        value, help_text = decoded(value), "".join(it for it in decoded(help_text) if not is_control(it))
        if value and not value.startswith("-") and not any(map(is_control, value)):
            found.setdefault(value, "\t" + help_text if help_text else "")
    # fish would read `~name` as a home directory
    offered = (value for value in found if not re.match("~(?!/)", value) and not begins_blank(value))
    return "".join(f"{value}{found[value]}\n" for value in offered)


def try_random(scratch, options):
    """Makes requests over random lines."""
    protocol, chance = Protocol(scratch), random.Random(options.seed)
    for at, split in enumerate(SPLITS):
        keys = {"values_from": ["printer"], **({"values_split": split} if split else {})}
        scratch.program(tree(f"random{at}", positional(**keys)))
    for at in range(options.runs):
        which = chance.randrange(len(SPLITS))
        given = b"".join(chance.choice(PIECES) for _ in range(chance.randrange(40)))
        what = f"run {at}, lines {given!r} split at {SPLITS[which]!r}"
        shell = "fish" if at % 2 else chance.choice(("bash", "zsh", "elvish", "powershell"))
        status, out, message = protocol.answer([f"random{which}", ""], given, COMPLETE=shell, _COMPLGEN_VALUES="stdin")
        if shell == "fish":
            protocol.expect(what, (0, fish_reply(given, SPLITS[which]), b""), (status, decoded(out), message))
        else:
            allowed = out.replace(b"\n", b"").replace(b"\t", b"")
            controls = any(map(is_control, allowed.decode("utf-8", "replace")))
            protocol.expect(f"{what}, {shell}", (0, False, b""), (status, controls, message))
    print(f"random: {protocol.good} replies as expected, {protocol.bad} not", flush=True)
    return protocol.bad == 0


# ---- branches

BRANCHES = (
    "main", "feature/x", "v1.2", "a'b", "'", "it's", '"', 'a"b', "$(touch${IFS}hit)", "x$(touch${IFS}hit)",
    "`touch${IFS}hit`", "$HOME", "x$HOME", "${HOME}", "$'x'", '$"x"', ";touch${IFS}hit", "a;touch${IFS}hit",
    "&touch${IFS}hit", "|touch${IFS}hit", "<in", ">out", "(x)", "x(y)z", "{a,b}", "#hash", "x#1", "!bang", "x!1",
    "%per", "=eq", "k=v", "@scope/pkg", "user@host", "a,b", "+plus", "é", "ümlaut–漢", "a\u00a0b", "‘curly’",
)
# Branches that are in each repository, and are not offered.
NOT_OFFERED = (b"-dash", b"--exec=touch", b"\xff\xfe", b"c1\xc2\x9b2J")
SUBJECT = "a subject: $(touch hit) `touch hit` 'quoted\x1b[2J \"text\" ümlaut"


def git(folder, *words, given=b""):
    """Runs git, and returns the first line that it prints."""
    real = shutil.which("git")
    names = {f"GIT_{who}_{what}": "x@example" for who in ("AUTHOR", "COMMITTER") for what in ("NAME", "EMAIL")}
    environment = {"PATH": os.environ["PATH"], "HOME": folder, "GIT_CONFIG_NOSYSTEM": "1", **names}
    ran = subprocess.run([real, *words], cwd=folder, env=environment, input=given, stdout=subprocess.PIPE, check=True)
    return ran.stdout.decode().strip()


def repository(scratch, at):
    return os.path.join(scratch.path, "repositories", f"{at:02}")


def make_repositories(scratch):
    """Makes a repository for each branch, and one with a tag, a remote and a stash."""
    first = os.path.join(scratch.path, "repositories", "first")
    os.makedirs(first)
    git(first, "init", "--quiet", "--template=", "--initial-branch=none")
    empty = git(first, "hash-object", "-w", "-t", "tree", "--stdin")
    commit = git(first, "commit-tree", "-m", SUBJECT, empty)
    for name in NOT_OFFERED:
        git(first, "update-ref", b"refs/heads/" + name, commit)
    for at, name in enumerate(BRANCHES):
        shutil.copytree(first, repository(scratch, at))
        git(repository(scratch, at), "update-ref", "refs/heads/" + name, commit)
    git(first, "tag", "v1.0-odd'one", commit)
    git(first, "remote", "add", "upstream", "/nowhere")
    git(first, "update-ref", "--create-reflog", "-m", "WIP", "refs/stash", commit)
    return first


def make_git(scratch):
    """Makes git's tree file, and a `git` that writes down its words, except the words of its tree file."""
    scratch.program({"name": "git"})
    os.rename(os.path.join(scratch.bin, "git"), os.path.join(scratch.bin, "record-git"))
    scratch.script("git", f"""#!/bin/sh
case "$1 $2" in
    for-each-ref\\ * | 'remote ' | 'stash list') exec '{shutil.which("git")}' "$@" ;;
esac
exec record-git "$@"
""")
    path = os.path.join(scratch.trees, "git.json")
    subprocess.run([os.path.join(common.EXAMPLES, "git-tree"), path], cwd=repository(scratch, 0), check=True,
                   stdout=subprocess.DEVNULL)
    words = ["git", "for-each-ref", "--format=%(refname:lstrip=2)%09%(subject)", "refs/heads"]
    scratch.program(tree("pick", positional(values_from=words)))


def try_branches(terminal, scratch, count):
    for at, name in enumerate(BRANCHES):
        folder = repository(scratch, at)
        terminal.go(folder)
        for quote, before, typed in forms(terminal.name, name):
            # git's commands offer options too if nothing is typed
            words, program = ([name], "pick") if not before else (["switch", name], "git switch")
            reason = left_out(terminal.name, quote, name, before)
            prefixes = (words[:-1], words[:-1] + [before])
            count.tried(lambda: (terminal.received(f"{program} {typed}"), scratch.marks(folder, [".git"])),
                        name, typed, words, reason, prefixes)
    terminal.go(os.path.join(scratch.path, "repositories", "first"))
    for typed, words in (("git tag v", ["tag", "v1.0-odd'one"]), ("git push up", ["push", "upstream"]),
                         ("git stash pop st", ["stash", "pop", "stash@{0}"]),
                         ("git branch --contains v", ["branch", "--contains", "v1.0-odd'one"]),
                         ("git rebase --onto=v", ["rebase", "--onto=v1.0-odd'one"])):
        if terminal.name == "fish" and "--" in typed:
            continue  # fish's own completion of git knows these options, and fish 4 asks only that (docs/TAB.md)
        count.tried(lambda: (terminal.received(typed), scratch.marks(terminal_folder(scratch), [".git"])),
                    words[-1], typed, words)


def terminal_folder(scratch):
    return os.path.join(scratch.path, "repositories", "first")


# ---- words

ODD_WORDS = ("a b", "q'u\"o", "$(touch hit)", "`touch hit`", "line\nfeed\n", "", "*", "~", "-x", "\\", "\\n",
             ";touch hit", "ü漢", "$HOME", "a\tb", "{a,b}", "%s", "last\n")


def make_words(scratch):
    received = os.path.join(scratch.path, "words")
    scratch.script("print-words", f"""#!{sys.executable} -IS
import json, sys
with open({received!r}, "w") as file:
    json.dump(sys.argv[1:], file)
print("done")
""")
    scratch.program(tree("odd", positional(values_from=["print-words", *ODD_WORDS])))
    scratch.program(tree("bare", positional(values_from=["print-words"])))


def try_words(terminal, scratch, count):
    received = os.path.join(scratch.path, "words")
    terminal.go(scratch.here)
    for program, words in (("odd", list(ODD_WORDS)), ("bare", [])):
        for typed in ("", "do", "'", '"d'):
            unlink(received)
            count.tried(lambda: (terminal.received(f"{program} {typed}"), scratch.marks(scratch.here, ())),
                        "done", typed, ["done"])
            count.judge(words, f"{program} {typed}", words, read_json(received), None, (), ())


def read_json(path):
    if not os.path.exists(path):
        return None
    with open(path, encoding="utf-8") as file:
        return json.load(file)


# ---- many lines

def try_many(terminal, scratch, count):
    terminal.go(scratch.here)
    for typed, word in (("value-1", "value-10000"), ("value-0321", None), ("value-0432", None)):
        count.tried(lambda: (terminal.received(f"many {typed}" + ("" if word else "1")), scratch.marks(scratch.here, ())),
                    word or typed + "1", typed, [word or typed + "1"])
    took = []
    for _ in range(5):
        line, seconds = terminal.tab("many val")
        took.append(seconds * 1000)
        count.judge("val", "val", True, bool(line) and "value-" in line, None, (), ())
        terminal.clear()
        terminal.settle()
    print(f"{terminal.name}, many: a Tab with 10,000 lines takes {statistics.median(took):.0f} ms", flush=True)


# ---- how commands end

# Seconds that no other process sleeps.
SLEEPS = {"hangs": f"{10**6 + os.getpid()}.25", "hangs-later": f"{10**6 + os.getpid()}.75"}
FUNCTIONS = {"bash": "fun() { touch hit; echo ran; }", "zsh": "fun() { touch hit; echo ran; }",
             "fish": "function fun; touch hit; echo ran; end", "elvish": "fn fun { touch hit; echo ran }"}
NOISE = "noise-of-a-command"
# The name of a subcommand, its command, and the word that is inserted, if there is one.
ENDS = (
    ("fails", ["sh", "-c", "echo early; exit 7"], "early"),
    ("silent", ["false"], None),
    ("missing", ["no-such-program", "x"], None),
    ("no-program", ["/"], None),
    ("killed", ["sh", "-c", "echo before; kill -9 $$"], "before"),
    ("half", ["printf", "whole"], "whole"),
    ("noisy", ["sh", "-c", f"echo {NOISE} >&2; echo quiet"], "quiet"),
    ("reads", ["cat"], None),
    ("nul", ["printf", "a\\0b\\n"], None),
    ("dashes", ["printf", "%s\\n", "-dash", "--exec=x"], None),
    ("builtin", ["eval", "touch hit; echo ran"], None),
    ("function", ["fun"], None),
    ("option", ["env", "-i", "printenv"], None),
    ("status", ["sh", "-c", "printf 'touch\\vhit\\v'; exit 3"], None),
    ("sees", ["say-variables"], "nothing"),
)


def make_ends(scratch):
    chance = random.Random(7)
    junk = os.path.join(scratch.path, "junk")
    with open(junk, "wb") as file:
        file.write(bytes(chance.randrange(256) for _ in range(300000)))
    names = "COMPLETE|_COMPLGEN_[A-Z]*|_CLAP_[A-Z_]*"
    scratch.script("say-variables", f"#!/bin/sh\nenv | grep -E '^({names})=' || echo nothing\n")
    children = {name: {"values_from": words} for name, words, _ in ENDS}
    children["junk"] = {"values_from": ["cat", junk]}
    children["hangs"] = {"values_from": ["sleep", SLEEPS["hangs"]]}
    children["hangs-later"] = {"values_from": ["sh", "-c", f"echo early; exec sleep {SLEEPS['hangs-later']}"]}
    scratch.program(group("ends", children))
    scratch.program(tree("alive", positional(possible_values=[{"name": "yes"}])))


def try_ends(terminal, scratch, count):
    terminal.go(scratch.here)
    for name, _, word in ENDS:
        words = [name, word] if word else [name]
        count.tried(lambda: (terminal.received(f"ends {name} "), scratch.marks(scratch.here, ())), word, name, words)
    terminal.tab("ends noisy ")
    count.judge(NOISE, "ends noisy ", False, NOISE.encode() in terminal.seen, None, (), ())
    terminal.clear()
    terminal.tab("ends junk ")
    terminal.clear()
    count.judge("junk", "ends junk ", [], scratch.marks(scratch.here, ()), None, (), ())
    judge_alive(terminal, scratch, count, "junk")
    for name in SLEEPS:
        try_hanging(terminal, scratch, count, name)


def try_hanging(terminal, scratch, count, name):
    """Presses Tab at a command that hangs, and then ^C."""
    terminal.send(f"ends {name} \t")
    began = wait_for(lambda: sleeping(name), terminal)
    time.sleep(0.2)
    terminal.send("\x03")
    ended = wait_for(lambda: not sleeping(name), terminal)
    count.judge(name, f"ends {name} ", (True, True), (began, ended), None, scratch.marks(scratch.here, ()), ())
    end_sleeping(name)
    terminal.settle(0.3)
    terminal.clear()
    judge_alive(terminal, scratch, count, name)


def judge_alive(terminal, scratch, count, what):
    """Checks that the shell completes and runs further lines."""
    count.tried(lambda: (terminal.received("alive y"), scratch.marks(scratch.here, ())),
                f"alive after {what}", "alive y", ["yes"])


def wait_for(is_so, terminal, seconds=LONGEST):
    end = time.monotonic() + seconds
    while time.monotonic() < end:
        if is_so():
            return True
        terminal.read(0.05)
    return False


def sleeping(name):
    """Returns the processes that this subcommand has left asleep."""
    found = []
    for process in filter(str.isdigit, os.listdir("/proc")):
        try:
            with open(f"/proc/{process}/cmdline", "rb") as file:
                words = file.read().split(b"\0")
        except OSError:
            continue
        if words[:2] == [b"sleep", SLEEPS[name].encode()]:
            found.append(int(process))
    return found


def end_sleeping(name):
    for process in sleeping(name):
        os.kill(process, signal.SIGKILL)


# ---- turned off

def make_off(scratch):
    logging(scratch, "logs-it", "value")
    scratch.program(tree("offs", positional(values_from=["logs-it"]),
                         {"id": "color", "long": "color", "possible_values": [{"name": "auto"}]}))


def try_off(scratch, shell, verbose):
    count = Count(shell, "off", verbose)
    for what, variables, ran in (
        ("on", {}, ["logs-it"]), ("off", {"COMPLGEN_COMMANDS": "0"}, []), ("relative", {"COMPLGEN_PATH": "trees"}, []),
        ("relative first", {"COMPLGEN_PATH": f"trees:{scratch.trees}"}, []),
    ):
        before = scratch.environment
        registration = scratch.written(shell)
        scratch.environment = {**before, **variables}
        terminal = started(shell, scratch, registration)
        scratch.environment = before
        terminal.go(scratch.path)
        expected = ["value"] if ran else ["va"]
        count.tried(lambda: (received_and_ran(terminal, scratch, "offs va"), ()), what, "offs va", (expected, ran))
        count.tried(lambda: (terminal.received("offs --color=a"), ()), what, "offs --color=a", ["--color=auto"])
        terminal.close()
    return count.end()


# ---- several arguments

def make_order(scratch):
    for name, line in (("log-alpha", "alpha"), ("log-beta", "beta")):
        logging(scratch, name, line, "-" + line)
    scratch.program(tree("both", {"id": "x", "long": "x", "num_args": [1, None], "values_from": ["log-alpha"]},
                         positional(values_from=["log-beta"])))


def try_order(terminal, scratch, count):
    terminal.go(scratch.here)
    for typed, words, ran in (
        ("both --x ", ["--x", "alpha"], "log-alpha"),
        ("both --x=", ["--x=alpha"], "log-alpha"),
        ("both be", ["beta"], "log-beta"),
        ("both beta be", ["beta", "beta"], "log-beta"),
        ("both -- be", ["--", "beta"], "log-beta"),
        ("both --x=alpha be", ["--x=alpha", "beta"], "log-beta"),
        ("both --x alpha al", ["--x", "alpha", "alpha"], "log-alpha"),
        ("both --x alpha be", ["--x", "alpha", "be"], "log-alpha"),
    ):
        count.tried(lambda: (received_and_ran(terminal, scratch, typed), scratch.marks(scratch.here, ())),
                    typed, typed, (words, [ran]))


# ---- files

def make_files(scratch):
    folder = os.path.join(scratch.path, "project")
    os.mkdir(folder)
    for path, text in (
        (os.path.join(scratch.path, "list"), "absolute\tof a file\n-dash\n$(touch hit)\n"),
        (os.path.join(scratch.home, "list"), "below-home\n"), (os.path.join(folder, "list"), "below-here\r\n"),
        (os.path.join(scratch.path, "colons"), "# a comment\ncolon : about it\n"),
        (os.path.join(scratch.path, "columns"), "  column 1234 - Live\n"),
    ):
        write(path, text)
    os.mkfifo(os.path.join(scratch.path, "pipe"))
    scratch.program(group("filed", {
        "absolute": {"values_file": os.path.join(scratch.path, "list")}, "home": {"values_file": "~/list"},
        "here": {"values_file": "list"}, "gone": {"values_file": "/no/such/file"}, "folder": {"values_file": "/"},
        "device": {"values_file": "/dev/zero"}, "pipe": {"values_file": os.path.join(scratch.path, "pipe")},
        "colons": {"values_file": os.path.join(scratch.path, "colons"), "values_split": ":"},
        "columns": {"values_file": os.path.join(scratch.path, "columns"), "values_split": " "},
    }))


def try_files(terminal, scratch, count):
    folder = os.path.join(scratch.path, "project")
    terminal.go(folder)
    known = os.listdir(folder)
    for child, typed, word in (
        ("absolute", "a", "absolute"), ("home", "", "below-home"), ("here", "b", "below-here"),
        ("gone", "a", None), ("folder", "a", None), ("device", "a", None), ("pipe", "a", None),
        ("colons", "co", "colon"), ("columns", "", "column"),
    ):
        words = [child, word] if word else [child, typed]
        count.tried(lambda: (terminal.received(f"filed {child} {typed}"), scratch.marks(folder, known)),
                    word, f"filed {child} {typed}", words)


# ---- the examples

MAKEFILE = """CFLAGS := -O2
TARGETS ::= x
build: main.o ## Build it
main.o : main.c
\tcc -c main.c
install:
\tcp build /usr/bin
%.o: %.c
x$(shell touch hit): install
"""
# The output of each stand-in for a program, by the words of the call.
PRINTED = {
    "docker": {
        "ps --format {{.Names}}\t{{.Image}}": "web\tnginx:1.25\ndb\tpostgres\n",
        "ps --all --format {{.Names}}\t{{.Status}}": "web\tUp 2 hours\nold\tExited (0) 3 days ago\n",
        "images --filter dangling=false --format {{.Repository}}:{{.Tag}}\t{{.Size}}": "nginx:1.25\t187MB\n",
        "network ls --format {{.Name}}\t{{.Driver}}": "bridge\tbridge\n",
    },
    "hcloud": {
        "__complete server ssh we": "web\tDebian 12\n_activeHelp_ Servers\n:4\n",
        "__complete server create --image=deb": "debian-12\n:4\n",
    },
    "just": {
        "--list --unsorted --list-heading  --list-prefix ": "test target='all' # Run the tests\nlint        # Check it\n",
    },
}


def make_examples(scratch):
    folder = os.path.join(scratch.path, "makes")
    os.mkdir(folder)
    write(os.path.join(folder, "Makefile"), MAKEFILE)
    for name in ("docker", "hcloud", "just", "make"):
        with open(os.path.join(common.EXAMPLES, "values", name + ".json"), encoding="utf-8") as file:
            scratch.program(json.load(file))
        os.rename(os.path.join(scratch.bin, name), os.path.join(scratch.bin, "record-" + name))
        scratch.script(name, f"""#!{sys.executable} -IS
import os, sys
printed = {PRINTED.get(name, {})!r}.get(" ".join(sys.argv[1:]))
if printed is None:
    os.execvp("record-{name}", sys.argv)
sys.stdout.write(printed)
""")


def try_examples(terminal, scratch, count):
    folder = os.path.join(scratch.path, "makes")
    terminal.go(folder)
    for typed, words in (
        ("make bu", ["build"]), ("make -k in", ["-k", "install"]), ("make mai", ["main.o"]), ("make TAR", ["TAR"]),
        ("make x", ["x"]), ("docker stop w", ["stop", "web"]), ("docker exec -it d", ["exec", "-it", "db"]),
        ("docker rm o", ["rm", "old"]), ("docker run --network br", ["run", "--network", "bridge"]),
        ("docker rmi nginx:", ["rmi", "nginx:1.25"]), ("just t", ["test"]), ("just --show l", ["--show", "lint"]),
        ("hcloud server ssh we", ["server", "ssh", "web"]),
        ("hcloud server create --image=deb", ["server", "create", "--image=debian-12"]),
    ):
        count.tried(lambda: (terminal.received(typed), scratch.marks(folder, ["Makefile"])), words[-1], typed, words)


# ---- hints

def make_hints(scratch):
    os.mkdir(os.path.join(scratch.home, ".ssh"))
    write(os.path.join(scratch.home, ".ssh", "known_hosts"), """# a comment
known-one,192.0.2.1 ssh-ed25519 AAAA
[known-port]:2222 ssh-ed25519 AAAA
|1|c2FsdA==|aGFzaA== ssh-ed25519 AAAA
@revoked marked-one ssh-ed25519 AAAA
""")
    write(os.path.join(scratch.home, ".ssh", "config"), "Host config-one *.pattern-one !not-one\n    User x\n")
    scratch.script("odd-program-of-it", "#!/bin/sh\n")
    scratch.program(group("hints", {
        "user": {"value_hint": "Username"}, "host": {"value_hint": "Hostname"},
        "command": {"value_hint": "CommandName"},
    }))


def try_hints(terminal, scratch, count):
    terminal.go(scratch.here)
    for child, typed, word in (
        *user_rows(), ("host", "known-o", "known-one"), ("host", "known-p", "known-port"), ("host", "marked", None),
        ("host", "config", "config-one"), ("host", "not-o", None), ("command", "odd-program", "odd-program-of-it"),
    ):
        words = [child, word or typed]
        count.tried(lambda: (terminal.received(f"hints {child} {typed}"), scratch.marks(scratch.here, ())),
                    word, f"hints {child} {typed}", words)


def user_rows():
    """Returns a row for a user whose name is the only one with its letters but the last."""
    with open("/etc/passwd", encoding="utf-8", errors="replace") as file:
        names = [line.split(":")[0] for line in file]
    plain = [name for name in names if re.fullmatch("[a-z]{3,}", name)]
    alone = [name for name in plain if sum(other.startswith(name[:-1]) for other in names) == 1]
    return [("user", name[:-1], name) for name in alone[:1]]


# ---- all

TRIES = {"branches": try_branches, "words": try_words, "many": try_many, "ends": try_ends, "order": try_order,
         "files": try_files, "examples": try_examples, "hints": try_hints}


# The program without which a part is skipped.
NEEDS = {"branches": "git", "many": "seq"}


def make_all(scratch, parts):
    if "branches" in parts:
        make_repositories(scratch)
        make_git(scratch)
    make_words(scratch)
    scratch.program(tree("many", positional(values_from=["seq", "-f", "value-%05.0f", "10000"])))
    make_ends(scratch)
    make_off(scratch)
    make_order(scratch)
    make_files(scratch)
    make_examples(scratch)
    make_hints(scratch)


def try_shell(scratch, shell, parts, verbose):
    good = True
    for part in parts:
        if part == "off":
            good &= try_off(scratch, shell, verbose)
        if part not in TRIES:
            continue
        setup = FUNCTIONS[shell] if part == "ends" else ""
        terminal = started(shell, scratch, scratch.written(shell), setup)
        count = Count(shell, part, verbose)
        TRIES[part](terminal, scratch, count)
        terminal.close()
        good &= count.end()
    return good


def arguments():
    parser = argparse.ArgumentParser(usage=common.usage(__doc__))
    parser.add_argument("--shells", default=",".join(SHELLS))
    parser.add_argument("--only", action="append", choices=PARTS)
    parser.add_argument("--verbose", action="store_true")
    parser.add_argument("--seed", type=int, default=1)
    parser.add_argument("--runs", type=int, default=1000)
    return parser.parse_args()


def main():
    options = arguments()
    parts = [part for part in options.only or PARTS if part not in NEEDS or common.is_installed(NEEDS[part])]
    for part in set(options.only or PARTS).difference(parts):
        print(f"{part}: {NEEDS[part]} is not installed, skipped")
    scratch = TreeScratch(common.program("complgen"))
    good = True
    try:
        make_all(scratch, parts)
        if "protocol" in parts:
            good &= try_protocol(scratch)
        if "random" in parts:
            good &= try_random(scratch, options)
        for shell in installed(options.shells.split(",")):
            good &= try_shell(scratch, shell, parts, options.verbose)
    finally:
        for name in SLEEPS:
            end_sleeping(name)
        scratch.remove()
    return 0 if good else 1


if __name__ == "__main__":
    sys.exit(main())
