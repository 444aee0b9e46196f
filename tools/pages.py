"""Runs the commands of the pages, for `tools/documents.py --run`.

A page is run in an empty directory, with an empty home, and with a fresh clone of this repository that has the proved
`complgen` in crates/complgen/out. `complgen` and `complgen-import` are in ~/.local/bin. The blocks of code of the
kinds `sh` and `console` are run in their order:

- `sh`: each line has to end with status 0;
- `console`: a line after `$ ` is a command, and the lines below are what it has to print. The status does not count.

A block of JSON that PREPARED does not name is not used. A line that matches a row of LEFT_OUT is not run, and neither
is a line that imports a program which is not installed.
"""

import os
import re
import shlex
import shutil
import subprocess
import tempfile

import common

LONGEST = 600
# The lines that are not run, each with the reason. The first row that fits counts.
LEFT_OUT = [(re.compile(pattern), reason) for pattern, reason in (
    (r"^(tests/run|rt ci)\b", "takes an hour"),
    (r"\brt (lib|run|try|check)\b|^cd crates/", "needs rt"),
    (r"^tests/all\.py", "takes some minutes, and tests more than the page"),
    (r"^tests/in_suite", "needs root and debootstrap"),
    (r"^release/make\.py|SHA256SUMS", "needs the files of a release"),
    (r"^apt-get ", "installs packages"),
    (r"^python3 -m importer\.tests\.hostile", "takes minutes"),
    (r"lagvtsune/lib/pkgconfig|pkg-config", "needs the archive: tests/release.py tries it"),
    (r"libcomplgen_c\.a|/native/", "needs the archive: tests/rust.py tries it"),
    (r"^cargo |herd\.json", "needs cargo and clap: tests/from_clap.py tries it"),
    (r"^(app __|app generate-tree|javac? |node )", "needs the library: tests/exporters.py tries it"),
)]
# The programs that the pages use as examples. `app` has two commands and, with two of its command `remote`, five
# options.
APP = """#!/bin/sh
case $1 in
    remote) printf '%s\\n' 'Usage: app remote [OPTIONS]' '' 'Options:' '  -a, --all    Name hidden ones' \\
        '  -f, --force  Ask nothing' '  -h, --help   Print help' ;;
    *) printf '%s\\n' 'Usage: app [OPTIONS] [COMMAND]' '' 'Commands:' '  remote  Names other places' \\
        '  commit  Keeps a change' '' 'Options:' '  -C <DIR>       Work there' '  -v, --verbose  Print more' \\
        '  -h, --help     Print help' ;;
esac
"""
CLICK = """#!/usr/bin/python3
import click

@click.group()
@click.option("--color", type=click.Choice(["auto", "always", "never"]))
def app(color):
    pass

if __name__ == "__main__":
    app()
"""
SSH = '#!/bin/sh\nshift\nexec "$@"\n'
RUSTUP = '{"name": "rustup"}'
WANTED = ('{"name": "app", "args": [{"id": "branch", "values_from": '
          '["git", "branch", "--format=%(refname:short)"]}]}')
REPOSITORY = ("git init -q -b main .", "git -c user.name=x -c user.email=x@example commit -q --allow-empty -m x",
              "git branch topic")
# The two mistakes of which TREE_FILE tells.
MISTAKES = ("sed -i 's/\"about\": \"Keep notes\"/\"bout\": \"Keep notes\"/; "
            "s/\"long\": \"label\", \"help\"/\"long\": \"label\", \"num_args\": 1, \"help\"/' stash.json",)
# The files and the commands that come before a page, or before a block with this first line. A number means the block
# of JSON with this number in the page, counted from 0.
PREPARED = {
    "README.md": {"": ({"app.json": 0}, ())},
    "docs/COMPLGEN.md": {
        "$ complgen candidates --index 1 examples/larder.json": ({}, ("ln -s CLONE/examples .",)),
        "$ complgen wanted": ({"app.json": WANTED}, REPOSITORY),
    },
    "docs/IMPORT.md": {"": ({"~/bin/app": APP, "~/bin/ssh": SSH}, ())},
    "docs/INSTALL.md": {"": ({"app.json": RUSTUP}, ())},
    "docs/LIVE.md": {"": ({"rustup.json": RUSTUP}, ())},
    "docs/OTHER_LANGUAGES.md": {
        "": ({"~/bin/app": CLICK}, ()),
        "set -e": ({}, (*REPOSITORY, "git add completions",
                        "git -c user.name=x -c user.email=x@example commit -q -m x")),
    },
    "docs/PACKAGING.md": {"": ({"~/bin/app": APP, "rustup.json": RUSTUP}, ())},
    "docs/TREE_FILE.md": {
        "": ({"app.json": 0, "stash.json": 1}, ()),
        "$ complgen check stash.json": ({}, MISTAKES),
    },
    "importer/README.md": {"": ({"help.txt": "  -x, --hem  Hems\n"}, ())},
}
# Pages whose commands all build on a file that this module of Python writes.
NEEDED = {"docs/OTHER_LANGUAGES.md": "click"}
# Pages whose commands are run at the top of the clone.
IN_CLONE = ("README.md", "docs/INSTALL.md", "importer/README.md", "packages/python/README.md", "tests/README.md",
            "release/README.md")


class Page:
    """The place in which the commands of a page are run."""

    def __init__(self, path, complgen, room):
        self.path, self.room = path, room
        self.clone, self.home = os.path.join(room, "clone"), os.path.join(room, "home")
        self.here = self.clone if path in IN_CLONE else os.path.join(room, "here")
        self.ran, self.left, self.faults = 0, [], []
        subprocess.run(["git", "clone", "-q", common.TOP, self.clone], check=True)
        for folder in ("here", "home/.local/bin", "home/bin", "clone/crates/complgen/out"):
            os.makedirs(os.path.join(room, folder), exist_ok=True)
        shutil.copy(complgen, os.path.join(self.clone, "crates/complgen/out/complgen"))
        shutil.copy(complgen, os.path.join(self.home, ".local/bin/complgen"))
        with open(os.path.join(self.clone, path), encoding="utf-8") as file:
            self.lines = file.read().split("\n")
        self.command(os.path.join(self.clone, "release/pack.py") + " ~/.local/bin/complgen-import")

    def run(self):
        """Runs the blocks, if the module is there that the page needs."""
        module = NEEDED.get(self.path)
        if module and not has_module(module):
            self.left.append(f"{self.path}: all commands: {module}: not installed")
            return
        self.prepare("")
        for kind, at, block in blocks(self.lines):
            if kind in ("sh", "console"):
                self.prepare(block[0])
                (self.run_lines if kind == "sh" else self.run_session)(at, block)

    def prepare(self, begin):
        """Makes what has to be there before the page, or before a block with this first line."""
        for title, (files, commands) in PREPARED.get(self.path, {}).items():
            if title != begin and not (title and begin.startswith(title)):
                continue
            for name, text in files.items():
                text = self.json_block(text) if isinstance(text, int) else text
                name = os.path.join(self.here, name.replace("~", self.home))
                with open(name, "w", encoding="utf-8") as file:
                    file.write(text)
                os.chmod(name, 0o755)
            for line in commands:
                status, printed = self.command(line)
                if status:
                    self.faults.append(f"{self.path}: {line}: status {status}: {printed}")

    def json_block(self, number):
        found = [block for kind, _, block in blocks(self.lines) if kind == "json"]
        return "\n".join(found[number]) + "\n"

    def run_lines(self, at, block):
        """Runs the lines of a block in one shell after another, and says which fail."""
        if any("compinit" in line for line in block):
            self.line(at, "zsh -f -c " + shlex.quote("\n".join(block)), block[0])
            return
        exports = "".join(line + "; " for line in block if line.startswith("export "))
        for number, line in enumerate(block):
            if line.strip() and not line.startswith(("#", "export ")):
                self.line(at + number, exports + line, line)

    def line(self, at, line, shown):
        if self.is_left_out(at, shown):
            return
        status, printed = self.command(line)
        self.ran += 1
        if status:
            self.faults.append(f"{self.path}:{at}: {shown}: status {status}: {printed.strip()[-300:]}")

    def run_session(self, at, block):
        """Runs the commands of a session, and compares what they print."""
        starts = [number for number, line in enumerate(block) if line.startswith("$ ")]
        for start, end in zip(starts, [*starts[1:], len(block)]):
            line, expected = block[start][2:], "\n".join(block[start + 1:end])
            if self.is_left_out(at + start, line):
                continue
            _, printed = self.command(line)
            self.ran += 1
            printed = printed.replace(self.home, "/home/you").rstrip("\n")
            if printed != expected:
                self.faults.append(f"{self.path}:{at + start}: {line}\nexpected:\n{expected}\nprinted:\n{printed}")

    def is_left_out(self, at, line):
        """Tells whether a line is not run, and notes the reason."""
        reason = next((why for pattern, why in LEFT_OUT if pattern.search(line)), "") or self.missing(line)
        if reason:
            self.left.append(f"{self.path}:{at}: {line.strip()}: {reason}")
        return bool(reason)

    def missing(self, line):
        """Returns what a line needs that is not installed, or an empty text."""
        words = re.sub(r"--(out-dir|flag|seconds|depth|jobs) \S+ ", "", line.partition("#")[0]).strip()
        called = re.search(r"complgen-import (?:-\S+ )*([a-z][a-z ]*)$", words)
        names = called[1].split() if called and "--texts" not in line else []
        names += ["zsh"] if "compinit" in line else ["zsh", "fish"] if names == ["tar"] else []
        names += ["man"] if line.startswith("man ") else []
        names += re.findall(r"lagvtsune\.\w+ (?:--short )?(\w+)", line)
        absent = [name for name in names if not shutil.which(name, path=self.environment()["PATH"])]
        return f"{' and '.join(absent)}: not installed" if absent else ""

    def environment(self):
        return {
            "HOME": self.home, "LC_ALL": "C.UTF-8", "PAGER": "cat", "MANPAGER": "cat", "TERM": "dumb",
            "PATH": f"{self.home}/.local/bin:{self.home}/bin:/usr/bin:/bin:/usr/sbin:/sbin",
            "PYTHONPATH": os.path.join(self.clone, "packages/python"),
        }

    def command(self, line):
        """Runs a command line in bash. Returns its status, and what it prints."""
        try:
            ran = subprocess.run(
                ["bash", "-c", line.replace("CLONE", self.clone)], cwd=self.here, env=self.environment(),
                stdin=subprocess.DEVNULL, stdout=subprocess.PIPE, stderr=subprocess.STDOUT, timeout=LONGEST,
                universal_newlines=True, errors="replace")
        except subprocess.TimeoutExpired:
            return 1, f"no end within {LONGEST} seconds"
        return ran.returncode, ran.stdout


def has_module(name):
    """Tells whether Debian's Python has a module."""
    return not subprocess.run(["/usr/bin/python3", "-c", f"import {name}"], stderr=subprocess.DEVNULL).returncode


def blocks(lines):
    """Yields the blocks of code of a page: the kind, the number of the first line, and the lines without indent."""
    begin, kind = None, ""
    for at, line in enumerate(lines):
        found = re.match(r" *```(\w*)", line)
        if not found:
            continue
        if begin is None:
            begin, kind = at + 1, found[1]
            continue
        block = lines[begin:at]
        margin = min((len(it) - len(it.lstrip()) for it in block if it.strip()), default=0)
        if block:
            yield kind, begin + 1, [it[margin:] for it in block]
        begin = None


def run(paths):
    """Runs the commands of pages, and prints what is not run and what fails. Returns the exit status."""
    complgen, ran, left, faults = common.program("complgen"), 0, [], []
    for path in paths:
        with open(os.path.join(common.TOP, path), encoding="utf-8") as file:
            if not any(kind in ("sh", "console") for kind, _, _ in blocks(file.read().split("\n"))):
                continue
        with tempfile.TemporaryDirectory(prefix="pages.") as room:
            page = Page(path, complgen, room)
            page.run()
        print(f"{path}: {page.ran} commands, {len(page.left)} not run, {len(page.faults)} faults", flush=True)
        ran, left, faults = ran + page.ran, left + page.left, faults + page.faults
    print("\n".join([f"not run: {it}" for it in left] + faults))
    print(f"{ran} commands of the pages run, {len(left)} not run, {len(faults)} faults")
    return 1 if faults else 0
