#!/usr/bin/env python3
"""Captures the help texts of installed programs, and what their parsers accept.

    bench/capture_truths.py DIR [--formats python,getopt,cobra,clap,git] [--only NAME,..] [--runs N] [--jobs N]

DIR gets a directory for each program in /usr/bin and /usr/sbin whose parser can be read. It holds the help
texts (`help.txt`, and `SUB/help.txt` for a subcommand) and `truth.json`, as `import_truths.py` describes it.
What a parser accepts is never read from a help text:

- python: `truths/sitecustomize.py` writes down the parser when the program calls argparse, optparse or click;
- getopt: `truths/getopt.c` is loaded into programs that import getopt, getopt_long or argp_parse;
- cobra: the program's own `__complete` lists names, and its error for a made-up option tells whether the
  option before it takes a value;
- clap: the bash script that clap_complete generated, which the program prints or its package ships; if there
  is none, the program's errors for each name of its help text with a made-up option behind it;
- git: `--git-completion-helper-all` of each command, which lists longs only.

Each program runs under `bwrap`, with a file system that it cannot change, without a network, with an empty
home, with limits of time and output, and with `/dev/null` as its input. A program is captured if its help
text says two options of its parser at least. --runs limits the runs of one program, by default to 4,000, and
--jobs is the number of programs that run at the same time, by default 1.
It needs bubblewrap and gcc. Debian's packages are enough to repeat it; none of the texts belongs into the
repository.
"""

import argparse
import concurrent.futures
import functools
import glob
import json
import os
import re
import shutil
import subprocess
import sys
import tempfile

HERE = os.path.dirname(os.path.realpath(__file__))
sys.path.append(os.path.join(HERE, "..", "tools"))
import common
from import_truths import says

FOLDERS = ("/usr/bin", "/usr/sbin")
# Programs that accept more than their first parser: they start others with the options that it does not know,
# or have a parser for each subcommand.
SKIPPED = {"yq", "xq-python", "tomlq", "msgfilter", "gcov-tool", "ld.bfd", "ld"}
# Words that make a program print the bash script of clap_complete, if no package ships it.
SCRIPTS = {"ruff": ["generate-shell-completion", "bash"], "uv": ["generate-shell-completion", "bash"],
           "rustup": ["completions", "bash"], "maturin": ["completions", "bash"], "cargo-deny": ["completions", "bash"],
           "cbindgen": [], "just": ["--completions", "bash"], "starship": ["completions", "bash"]}
# The error of clap for an option without its value.
NO_VALUE = re.compile(r"value is required for|requires a value")
LIMIT = 1 << 20
SECONDS = 20
# Directories that exist only inside the sandbox: an empty home, the scratch directory, and this directory.
INSIDE = "/run/capture"
HOME, OUT, BENCH = f"{INSIDE}/home", f"{INSIDE}/out", f"{INSIDE}/bench"
# The directories of users, which programs see empty.
HIDDEN = ("/home", os.path.expanduser("~"))
ENVIRONMENT = {"PATH": ":".join([*FOLDERS, "/bin", "/sbin"]), "HOME": HOME, "LANG": "C.UTF-8", "TERM": "dumb",
               "COLUMNS": "200", "NO_COLOR": "1", "PAGER": "cat", "GIT_PAGER": "cat", "MANPAGER": "cat"}


class Box:
    """A scratch directory, and programs that run with it as OUT and cannot write elsewhere."""

    def __init__(self, folder, runs=4000):
        self.folder, self.left = folder, runs

    def run(self, words, seconds=SECONDS, **variables):
        """Returns the exit status, the output and the errors of a program, or None after the last run."""
        if self.left == 0:
            return None
        self.left -= 1
        empty = [word for path in ("/tmp", "/run", *HIDDEN) for word in ("--tmpfs", path)]
        sealed = ["bwrap", "--ro-bind", "/", "/", "--dev", "/dev", "--proc", "/proc", *empty, "--dir", HOME,
                  "--ro-bind", HERE, BENCH, "--bind", self.folder, OUT, "--chdir", HOME,
                  "--unshare-all", "--die-with-parent", "--new-session", "timeout", str(seconds), *words]
        streams = [open(os.path.join(self.folder, name), "wb+") for name in ("stdout", "stderr")]
        process = subprocess.Popen(["prlimit", f"--fsize={LIMIT}", *sealed], stdin=subprocess.DEVNULL,
                                   stdout=streams[0], stderr=streams[1], env={**ENVIRONMENT, **variables})
        try:
            status = process.wait(seconds + 5)
        except subprocess.TimeoutExpired:
            process.kill()
            status = process.wait()
        texts = []
        for stream in streams:
            stream.seek(0)
            texts.append(stream.read().decode("utf-8", "replace"))
            stream.close()
        return (status, *texts)

    def help(self, words, **variables):
        """Returns what a program prints: its output, or its errors if it has none."""
        ran = self.run(words, **variables)
        return "" if ran is None else ran[1] if ran[1].strip() else ran[2]

    def taken(self, name):
        """Returns the text of a file in the scratch directory and removes it, or returns None."""
        path = os.path.join(self.folder, name)
        if not os.path.exists(path):
            return None
        with open(path, encoding="utf-8", errors="replace") as file:
            text = file.read()
        os.remove(path)
        return text


def node(options, commands=None, **more):
    return {"options": options, "hidden": [], "commands": commands, "aliases": {}, **more}


def python(box, path):
    """Returns the parser of a Python program, with the texts of its subcommands."""
    name = os.path.basename(path)
    text = box.help(["/usr/bin/python3", path, "--help"], TRUTHS=f"{OUT}/truth", TRUTHS_NAME=name,
                    PYTHONPATH=f"{BENCH}/truths")
    found = box.taken("truth")
    return {**json.loads(found), "text": text} if found else None


def getopt(box, path):
    """Returns the options that a program gives to getopt."""
    text = box.help([path, "--help"], TRUTHS=f"{OUT}/truth", TRUTHS_PROGRAM=os.path.realpath(path),
                    LD_PRELOAD=f"{OUT}/getopt.so")
    options = {}
    for line in (box.taken("truth") or "").splitlines():
        name, _, value = line.rpartition(" ")
        options.setdefault(name, value == "1")
    return {"format": origin(path), **node(options, text=text)} if options else None


@functools.cache
def packages():
    """Returns the package of each file that dpkg knows, and the source and homepage of each package."""
    owners = {}
    for file in glob.glob("/var/lib/dpkg/info/*.list"):
        package = os.path.basename(file)[:-5].partition(":")[0]
        with open(file, encoding="utf-8", errors="replace") as lines:
            owners.update((line.rstrip("\n"), package) for line in lines)
    asked = ["dpkg-query", "-W", "-f", "${Package} ${source:Package} ${Homepage}\n"]
    listed = subprocess.run(asked, capture_output=True, text=True).stdout
    return owners, {line.partition(" ")[0]: line.partition(" ")[2] for line in listed.splitlines()}


def package_of(path):
    """Returns the package of a program, or nothing."""
    owners, _ = packages()
    return owners.get(path) or owners.get(path.replace("/usr/", "/", 1), "")


def origin(path):
    """Returns `getopt of GNU` for programs of GNU, util-linux and systemd, otherwise `other getopt`."""
    source = packages()[1].get(package_of(path), "")
    return "getopt of GNU" if re.match(r"(util-linux|systemd) ", source) or "gnu.org" in source else "other getopt"


def completed(box, path, words):
    """Returns the names that cobra's `__complete` offers for the last of some words."""
    ran = box.run([path, "__complete", *words])
    if ran is None or ran[0] != 0:
        return []
    return [line.partition("\t")[::2] for line in ran[1].splitlines() if line and not line.startswith(":")]


def cobra(box, path, words=(), known=None, depth=4):
    """Returns the command that some words name, with its subcommands."""
    known = {} if known is None else known
    text = box.help([path, *words, "--help"])
    options, given = {}, []
    while True:
        # While a required option is not given, cobra offers no others.
        new = [(name, about) for name, about in completed(box, path, [*words, *given, "-"])
               if name.startswith("-") and not name.endswith("=") and name not in options]
        if not new or "--help" in options:
            break
        for name, about in new:
            if (name, about) not in known:
                ran = box.run([path, "__complete", *words, name, "--made-up-option", "-"])
                unknown = ran and re.search(r"unknown (shorthand )?flag", ran[1] + ran[2])
                known[name, about] = None if ran is None else unknown is None
            options[name] = known[name, about]
            if known[name, about] and name.startswith("--"):
                given += [name, "1"]
    commands = {}
    if depth > 0:
        offered = [name for name, _ in completed(box, path, [*words, ""]) if re.fullmatch(r"[A-Za-z0-9][\w-]*", name)]
        # Arguments are offered as commands are. A command has a help text of its own, which names it.
        for name in offered:
            if name == "help":
                commands[name] = node({}, text="")
                continue
            child = box.help([path, *words, name, "--help"])
            if child != text and re.search(rf"{' '.join([*words, name])}\b", child):
                commands[name] = cobra(box, path, (*words, name), known, depth - 1)
    return {"format": "cobra", **node(options, commands, text=text)}


def shipped(path):
    """Returns the texts of the files for bash-completion in the package of a program, the best name first."""
    package = package_of(path)
    files = [file for file, owner in packages()[0].items() if owner == package] if package else []
    files = [file for file in files if "bash" in file and "completion" in file and os.path.isfile(file)]
    name = os.path.basename(path)
    files.sort(key=lambda file: (not os.path.basename(file).startswith(name), file))
    texts = []
    for file in files:
        with open(file, encoding="utf-8", errors="replace") as opened:
            texts.append(opened.read())
    return texts


def clap(box, path):
    """Returns the parser that the bash script of clap_complete lists, with the texts of its subcommands."""
    name = os.path.basename(path)
    scripts = [box.help([path, *SCRIPTS[name]])] if name in SCRIPTS else shipped(path)
    script = next((text for text in scripts if 'opts="' in text and "compgen -W" in text), "")
    blocks = {label: (opts.split(), rest) for label, opts, rest in
              re.findall(r'(?ms)^ {8}([\w.-]+)\)\n {12}opts="([^"]*)"(.*?)\n {12};;', script)}
    if not blocks:
        return {"format": "clap", **clap_asked(box, path, ())}
    pairs = re.findall(r'(?m)^ *([\w.-]+),([\w.-]+)\)\n *cmd="([\w.-]+)"', script)
    return {"format": "clap", **clap_node(box, path, blocks, pairs, next(iter(blocks)), ())}


def clap_node(box, path, blocks, pairs, label, words):
    """Returns the command of a label, with its subcommands."""
    offered, rest = blocks[label]
    cases = rest.partition('case "${prev}" in')[2]
    valued = {word for line in re.findall(r"(?m)^ *(-[^ )\n]*)\)", cases) for word in line.split("|")}
    options = {word: word in valued for word in offered if re.match(r"-.", word) and word != "--"}
    commands, aliases, labels = {}, {}, {}
    children = [(child, to) for parent, child, to in pairs if parent == label]
    for word in offered:
        for to in (label + "__" + word.replace("-", "__"), label + "__" + word):
            if to in blocks and not any(child == word for child, _ in children):
                children.append((word, to))
    for child, to in children:
        if to in labels:
            aliases[child] = labels[to]
        elif to in blocks:
            labels[to] = child
            commands[child] = (node({}, text="") if child == "help"
                               else clap_node(box, path, blocks, pairs, to, (*words, child)))
    made = node(options, commands or None, text=box.help([path, *words, "--help"]))
    made["aliases"] = aliases
    return made


def clap_error(box, words):
    """Returns the first paragraph of the errors of a run, and nothing if it succeeds."""
    ran = box.run(words, 3)
    return "" if ran is None or ran[0] == 0 else ran[2].partition("\n\n")[0]


def clap_asked(box, path, words):
    """Returns the names of a help text that the parser accepts, by its errors for a made-up option behind them."""
    text = box.help([path, *words, "--help"])
    options = {}
    for name in sorted(set(re.findall(r"(?<![\w-])(?:--[A-Za-z0-9][\w-]*|-[A-Za-z0-9](?!\w))", text))):
        errors = clap_error(box, [path, *words, name, "--made-up-option"])
        if NO_VALUE.search(errors):
            options[name] = True
        elif errors == "" or "made-up-option" in errors:
            # Older versions report the made-up option first.
            options[name] = NO_VALUE.search(clap_error(box, [path, *words, name])) is not None
        elif not re.search(r"wasn't expected|unexpected argument|isn't valid in this context", errors):
            options[name] = None
    commands = {}
    for name in sorted(set(re.findall(r"(?m)^ +([a-z][\w-]*)(?=  |, |$)", text))):
        ran = box.run([path, *words, name, "--help"], 3)
        if ran and ran[0] == 0 and ran[1] != text and name != "help":
            commands[name] = clap_asked(box, path, (*words, name))
    if commands and re.search(r"(?m)^ +help  ", text):
        commands["help"] = node({}, text="")
    return node(options, commands or None, text=text)


def git(box, path):
    """Returns the commands of git with their longs. `-h` prints the text of a command."""
    listed = box.run([path, "--list-cmds=main,others,nohelpers"])[1].split()
    commands = {}
    for name in listed:
        ran = box.run([path, name, "--git-completion-helper-all"])
        longs = ran[1].split() if ran and ran[0] == 0 else []
        # git lists `--` before the negated forms, and does not mark an optional value.
        options = {long.rstrip("="): True if long.endswith("=") else None for long in longs if re.match(r"--\w", long)}
        commands[name] = node(options, text=box.help([path, name, "-h"]) if options else "", kinds=["long"])
    return {"format": "git -h", **node({}, commands, text=box.help([path, "help", "-a"]), kinds=[])}


def write(folder, truth):
    """Writes the texts of a truth into their files, and takes them out of it."""
    text = truth.pop("text")
    if text.strip():
        os.makedirs(folder, exist_ok=True)
        with open(os.path.join(folder, "help.txt"), "w", encoding="utf-8") as file:
            file.write(text)
    for name, child in (truth["commands"] or {}).items():
        write(os.path.join(folder, name), child)


def capture(kind, path, options, library):
    """Writes the directory of a program. Returns its name, or None if its parser is not captured."""
    name = os.path.basename(path)
    with tempfile.TemporaryDirectory() as folder:
        shutil.copy(library, os.path.join(folder, "getopt.so"))
        truth = KINDS[kind](Box(folder, options.runs), path)
    target = os.path.join(options.dir, name)
    shutil.rmtree(target, ignore_errors=True)
    if truth is None or kind != "git" and sum(says(truth["text"], option) for option in truth["options"]) < 2:
        return None
    write(target, truth)
    with open(os.path.join(target, "truth.json"), "w", encoding="utf-8") as file:
        json.dump({"name": name, **truth}, file, indent=1)
    return name


KINDS = {"python": python, "getopt": getopt, "cobra": cobra, "clap": clap, "git": git}


def kinds_of(path, wanted):
    """Returns the formats that a program may have, by its bytes."""
    with open(path, "rb") as file:
        start = file.read(200)
        if start.startswith(b"#!"):
            return ["python"] if b"python3" in start.partition(b"\n")[0] else []
        if not start.startswith(b"\x7fELF") or wanted <= {"python", "git"}:
            return []
        whole = start + file.read()
    if b"spf13/cobra" in whole:
        return ["cobra"] if b"__completeNoDesc" in whole else []
    if b"/clap" in whole and b"RUST_BACKTRACE" in whole:
        return ["clap"]
    return ["getopt"] if re.search(rb"\0(getopt|getopt_long|getopt_long_only|argp_parse)\0", whole) else []


def programs(options):
    """Yields each program with its format. Links within the same directories are left out."""
    wanted = set(options.formats.split(","))
    only = options.only.split(",") if options.only else None
    for folder in options.folders.split(","):
        for name in sorted(os.listdir(folder)):
            path = os.path.join(folder, name)
            real = os.path.realpath(path)
            inside = os.path.dirname(real) in FOLDERS and os.path.basename(real) != name
            if only is not None and name not in only or re.sub(r"^x86_64-linux-gnu-|-[0-9.]+$", "", name) in SKIPPED:
                continue
            if inside or not os.path.isfile(real) or not os.access(real, os.X_OK):
                continue
            for kind in ["git"] if name == "git" else kinds_of(real, wanted):
                if kind in wanted:
                    yield kind, path


def main():
    parser = argparse.ArgumentParser(usage=common.usage(__doc__))
    parser.add_argument("dir")
    parser.add_argument("--formats", default=",".join(KINDS))
    parser.add_argument("--folders", default=",".join(FOLDERS))
    parser.add_argument("--only")
    parser.add_argument("--runs", type=int, default=4000)
    parser.add_argument("--jobs", type=int, default=1)
    options = parser.parse_args()
    for needed in ("bwrap", "gcc", "prlimit"):
        if not common.is_installed(needed):
            sys.exit(f"{needed} is not installed")
    with tempfile.TemporaryDirectory() as folder:
        library = os.path.join(folder, "getopt.so")
        source = os.path.join(HERE, "truths", "getopt.c")
        subprocess.run(["gcc", "-shared", "-fPIC", "-O1", "-o", library, source, "-ldl"], check=True)
        with concurrent.futures.ThreadPoolExecutor(options.jobs) as pool:
            asked = [(kind, path, pool.submit(capture, kind, path, options, library))
                     for kind, path in programs(options)]
            for kind, path, future in asked:
                try:
                    print(f"{kind} {path}: {'captured' if future.result() else 'no parser'}", flush=True)
                except Exception as error:
                    print(f"{kind} {path}: {error!r}", flush=True)


if __name__ == "__main__":
    main()
