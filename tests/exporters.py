#!/usr/bin/env python3
"""Tries the exporters of packages/: the tree files that they make of programs, and what they do with bad input.

    tests/exporters.py [--only PART].. [--table [--go PROGRAM]..]

The parts:

- argparse, click, typer, cobra, commander, picocli: a program in exporters.d with everything that the library can tell
  its exporter, and with names that no tree file can contain. Rows of the tree file are compared with a list that was
  written by hand, and so is what is left out. The short form has the same rows. Nothing that the program prints mixes
  with the tree file;
- programs: programs of Debian, each with the counts of `exporters.d/counts.json`, by kind of key. For Cobra, the
  program is built from Debian's sources of Cobra;
- onto: `complgen-import --onto` over such tree files adds no argument twice, and the values that only a help text has;
- bad: programs that fail to load, end early or do not exist, a name that is not plain, and a full disk. The status is 1
  and nothing is written; a file that exists stays as it was;
- check: `complgen check` accepts all of these tree files;
- tab: the values that a program computes reach a Tab in bash, zsh and fish.

Debian's packages are python3-typer, golang-go, golang-github-spf13-cobra-dev, node-commander, libpicocli-java and a JDK.
A part is skipped, with a line that names what is missing, if a library or a program is not installed. --table prints
the counts of tree files beside those of `complgen-import --walk` for each program, instead of trying anything. The
status is 0 if nothing differs.
"""

from __future__ import annotations

import argparse
import difflib
import json
import os
import re
import shlex
import shutil
import subprocess
import sys
import tempfile
from typing import Any, Dict, Iterator, List, NamedTuple, Optional, Sequence, Tuple

sys.path.append(os.path.join(os.path.dirname(os.path.realpath(__file__)), "..", "tools"))
import common

HERE = os.path.join(common.TOP, "tests", "exporters.d")
PACKAGES = os.path.join(common.TOP, "packages")
COUNTS = os.path.join(HERE, "counts.json")
PYTHON = "/usr/bin/python3"
PICOCLI = "/usr/share/java/picocli.jar"
GO_SOURCES = "/usr/share/gocode/src/github.com/spf13/cobra"
LONGEST = 120
# Lines that the programs of exporters.d print in addition to the tree file.
NOISE = ("this is no part of a tree", "nor is this")
FLAGS = ("SetTrue", "SetFalse", "Count", "Help", "Version")
PATHS = ("AnyPath", "FilePath", "DirPath", "ExecutablePath")
KINDS = ("commands", "aliases", "names", "options with values", "positionals", "possible values", "path hints",
         "values_from", "delimiters", "conflicts", "hidden")
FEATURES = ("argparse", "click", "typer", "cobra", "commander", "picocli")
PARTS = (*FEATURES, "programs", "onto", "bad", "check", "tab")
# Programs of Debian by the exporter of their library.
PROGRAMS = {
    "argparse": ("borg", "streamlink", "http", "ansible-vault"), "click": ("black", "flask", "sqlite-utils", "mkdocs"),
    "commander": ("katex", "wb", "cleancss"), "picocli": ("checkstyle", "pgpainless-cli"),
}
# Programs whose help texts are added to their tree files, and how many options get values from them.
ONTO = {"streamlink": 2, "black": 0, "flask": 0, "sqlite-utils": 8, "mkdocs": 0}
# Of programs in Java: the class of the command, and the jars in /usr/share/java.
CLASSES = {
    "checkstyle": ("com.puppycrawl.tools.checkstyle.Main$CliOptions", "checkstyle antlr4-runtime commons-beanutils "
                   "commons-logging guava Saxon-HE"),
    "pgpainless-cli": ("sop.cli.picocli.SopCLI", "sop-java-picocli sop-java"),
}


class Ran(NamedTuple):
    """How a program ended, and what it printed."""

    status: int
    out: str
    err: str


class Missing(Exception):
    """A library or a program that is not installed."""


def run(words: Sequence[str], folder: str = HERE, out: Any = subprocess.PIPE, **variables: str) -> Ran:
    """Runs a program."""
    ran = subprocess.run(words, cwd=folder, env={**environment(), **variables}, stdin=subprocess.DEVNULL, stdout=out,
                         stderr=subprocess.PIPE, timeout=LONGEST, check=False)
    return Ran(ran.returncode, (ran.stdout or b"").decode(), ran.stderr.decode(errors="replace"))


def environment() -> Dict[str, str]:
    """Returns the environment of programs: that of Debian, without what the caller has set up for other versions."""
    kept = {key: it for key, it in os.environ.items() if key in ("HOME", "LANG", "TMPDIR")}
    return {**kept, "PATH": "/usr/local/bin:/usr/bin:/bin", "PYTHONPATH": os.path.join(PACKAGES, "python"),
            "PYTHONDONTWRITEBYTECODE": "1", "NODE_PATH": "/usr/share/nodejs", "COLUMNS": "80"}


def assignments() -> str:
    """Returns the environment of programs, as a shell sets it."""
    return " ".join(f"{key}={shlex.quote(value)}" for key, value in environment().items())


# ---- the exporters

class Room:
    """A directory for what is compiled, and the calls of the exporters."""

    def __init__(self, folder: str) -> None:
        self.folder = folder
        self.java, self.cobra = os.path.join(folder, "java"), os.path.join(folder, "app")

    def prepare(self, library: str) -> None:
        """Compiles what the program of exporters.d needs. Raises `Missing`."""
        if library in ("argparse", "click", "typer"):
            need(run([PYTHON, "-c", f"import {library}"], folder="/").status == 0, f"{PYTHON} has no module {library}")
        elif library == "commander":
            need(run(["node", "-e", "require('commander')"]).status == 0 if which("node") else False,
                 "node or its module commander is not installed")
        elif library == "picocli":
            need(which("javac") and os.path.exists(PICOCLI), f"javac or {PICOCLI} is not installed")
            sources = [os.path.join(PACKAGES, "java/lagvtsune/GenerateTree.java"), os.path.join(HERE, "App.java")]
            if not os.path.isdir(self.java):
                expect_status(run(["javac", "-Xlint:all", "-Werror", "-proc:none", "-cp", PICOCLI, "-d", self.java,
                                   *sources]))
        else:
            need(which("go") and os.path.isdir(GO_SOURCES), f"go or {GO_SOURCES} is not installed")
            if not os.path.exists(self.cobra):
                build_cobra(self.folder, self.cobra)

    def export(self, library: str, program: str, short: bool = False, out: Any = subprocess.PIPE) -> Ran:
        """Runs an exporter over a program, or over the program of exporters.d if it has no name."""
        flags = ["--short"] if short else []
        if library in ("argparse", "click", "typer"):
            module = "click" if library == "typer" else library
            path = program or f"app_{library}.py"
            return run([PYTHON, "-m", f"lagvtsune.{module}", *flags, path], out=out)
        if library == "commander":
            exporter = os.path.join(PACKAGES, "javascript/commander.js")
            path = which(program) or program if program else "app_commander.js"
            return run(["node", *([exporter, "--short"] if short else ["-r", exporter]), path], out=out)
        if library == "picocli":
            name, jars = class_of(program) if program else ("App", "")
            return run(["java", "-cp", f"{self.java}:{PICOCLI}{jars}", "lagvtsune.GenerateTree", *flags, name], out=out)
        return run([program or self.cobra, "__tree", *flags], out=out)

    def app(self, library: str) -> List[str]:
        """Returns the words that run the program of exporters.d."""
        if library == "picocli":
            return ["java", "-cp", f"{self.java}:{PICOCLI}", "App"]
        if library == "commander":
            return ["node", os.path.join(HERE, "app_commander.js")]
        return [self.cobra] if library == "cobra" else [PYTHON, os.path.join(HERE, f"app_{library}.py")]


def build_cobra(folder: str, target: str) -> None:
    """Builds the program of exporters.d with Debian's packages of Cobra."""
    sources = os.path.join(folder, "go", "src")
    for name, path in (("app", f"{HERE}/cobra/main.go"), ("lagvtsune", f"{PACKAGES}/go/lagvtsune/cobra.go")):
        os.makedirs(os.path.join(sources, name))
        shutil.copy(path, os.path.join(sources, name))
    settings = {"GOPATH": f"{folder}/go:/usr/share/gocode", "GO111MODULE": "off", "GOCACHE": f"{folder}/cache"}
    expect_status(run(["go", "build", "-o", target, "."], folder=f"{sources}/app", **settings))


def class_of(program: str) -> Tuple[str, str]:
    """Returns the class of a program in Java, and its jars as a class path."""
    name, jars = CLASSES[program]
    return name, "".join(f":/usr/share/java/{jar}.jar" for jar in jars.split())


def which(name: str) -> Optional[str]:
    return shutil.which(name, path=environment()["PATH"])


def need(has_it: Any, what: str) -> None:
    if not has_it:
        raise Missing(what)


def expect_status(ran: Ran) -> None:
    """Ends the script if something does not compile."""
    if ran.status:
        sys.exit(f"{ran.out}{ran.err}\nstatus {ran.status}")


# ---- rows of a tree file

def rows(node: Dict[str, Any], path: str = "") -> Iterator[str]:
    """Yields a row for each command and each argument, as the lists in exporters.d have them."""
    path = f"{path} {node['name']}".strip()
    names = [path, *node.get("visible_aliases", []), *(["hidden"] if node.get("hide") else [])]
    yield f"{' '.join(names)}: {node.get('about', '')}".rstrip()
    for it in node.get("args", []):
        yield f"{path}: {' '.join(parts(it))}"
    for child in node.get("subcommands", []):
        yield from rows(child, path)


def rows_of_app(tree: Dict[str, Any], library: str) -> List[str]:
    """Returns the rows of the program in exporters.d, which is named after its library or `app`."""
    return [re.sub(f"^app_{library}", "app", row) for row in rows(tree)]


def parts(it: Dict[str, Any]) -> Iterator[str]:
    """Yields the parts of the row of an argument: names, values, and what is said about them."""
    shorts = [it["short"]] if "short" in it else []
    longs = [it["long"]] if "long" in it else []
    names = [f"-{name}" for name in shorts + it.get("visible_short_aliases", [])]
    names += [f"--{name}" for name in longs + it.get("visible_aliases", [])]
    yield from names or [it["id"]]
    if "action" in it:
        yield it["action"]
    if "num_args" in it:
        least, most = it["num_args"]
        yield f"={least}" if least == most else f"={least}..{'' if most is None else most}"
    yield from ("<" + name + ">" for name in it.get("value_names", []) if name != it["id"])
    yield from (value["name"] + (f"({value['help']})" if "help" in value else "")
                for value in it.get("possible_values", []))
    for key in ("value_hint", "value_delimiter"):
        if key in it:
            yield str(it[key])
    if "values_from" in it:
        yield "from " + shlex.join(it["values_from"][1:])
        yield from (["WORD.."] if it.get("values_words") else [])
        yield from (["as " + it["values_protocol"]] if "values_protocol" in it else [])
    yield from ("not " + other for other in it.get("conflicts_with", []))
    for key, word in (("required", "required"), ("global", "global"), ("hide", "hidden"),
                      ("allow_hyphen_values", "hyphens")):
        if it.get(key):
            yield word
    if "help_heading" in it:
        yield f"[{it['help_heading']}]"


def counts(node: Dict[str, Any], inherited: Sequence[Dict[str, Any]] = ()) -> Dict[str, int]:
    """Returns the counts of a tree by kind of key. A global option counts in each command that has it."""
    found = dict.fromkeys(KINDS, 0)
    args = [*inherited, *node.get("args", [])]
    for it in args:
        names = sum(key in it for key in ("long", "short"))
        names += sum(len(it.get(key, [])) for key in ("visible_aliases", "visible_short_aliases"))
        found["names"] += names
        found["options with values"] += bool(names) and it.get("action") not in FLAGS
        found["positionals"] += not names
        found["possible values"] += bool(it.get("possible_values"))
        found["path hints"] += it.get("value_hint") in PATHS
        found["values_from"] += "values_from" in it
        found["delimiters"] += "value_delimiter" in it
        found["conflicts"] += bool(it.get("conflicts_with"))
        found["hidden"] += bool(it.get("hide"))
    found["hidden"] += bool(node.get("hide"))
    for child in node.get("subcommands", []):
        if child["name"] != "help":
            found["commands"] += 1
            found["aliases"] += len(child.get("visible_aliases", []))
            for key, number in counts(child, [it for it in args if it.get("global")]).items():
                found[key] += number
    return found


# ---- the parts

def doubled(node: Dict[str, Any], inherited: List[str], path: str) -> Iterator[Tuple[str, str]]:
    """Yields the names that a command has twice, also by a global option above it."""
    seen, below = set(inherited), list(inherited)
    for it in node.get("args", []):
        names = [word for word in parts(it) if re.match("-[^ ]", word)]
        yield from ((path, name) for name in names if name in seen)
        seen.update(names)
        below += names if it.get("global") else []
    for child in node.get("subcommands", []):
        yield from doubled(child, below, f"{path} {child['name']}")


class Trial:
    """What is tried, and how many differences there are."""

    def __init__(self, room: Room) -> None:
        self.room, self.bad = room, 0
        self.trees: Dict[str, str] = {}

    def differ(self, what: str) -> None:
        self.bad += 1
        print(f"  {what}")

    def compare(self, what: str, expected: List[str], found: List[str]) -> None:
        if expected != found:
            lines = difflib.unified_diff(expected, found, "expected", "found", lineterm="", n=0)
            self.differ(f"{what} differs:\n    " + "\n    ".join(list(lines)[2:]))

    def exported(self, library: str, program: str) -> Dict[str, Any]:
        """Returns a tree, and remembers it for the part `check`."""
        ran = self.room.export(library, program)
        if ran.status:
            self.differ(f"{library}, {program or 'app'}: status {ran.status}\n{ran.err}")
            return {"name": "none"}
        self.trees[f"{library}-{program or 'app'}"] = ran.out
        return json.loads(ran.out)

    # ---- programs of exporters.d

    def features(self, library: str) -> str:
        self.room.prepare(library)
        with open(os.path.join(HERE, f"{library}.expected"), encoding="utf-8") as file:
            listed = [line for line in file.read().splitlines() if not line.startswith("#")]
        expected = [line for line in listed if not line.startswith("! ")]
        ran = self.room.export(library, "")
        found = rows_of_app(self.exported(library, ""), library)
        self.compare(f"{library}: the tree", expected, found)
        with tempfile.TemporaryFile() as file:
            status = self.room.export(library, "", out=file).status
            file.seek(0)
            if status or file.read().decode() != ran.out:
                self.differ(f"{library}: another tree if the standard output is a file, or status {status}")
        said = [line for line in ran.err.splitlines() if line not in NOISE]
        self.compare(f"{library}: what is left out", [line[2:] for line in listed if line.startswith("! ")],
                     [re.sub(f"app_{library}", "app", line) for line in said])
        short = self.room.export(library, "", short=True)
        tree = json.loads(short.out)
        self.compare(f"{library}: the short form", found, rows_of_app(tree, library))
        if re.search('"(long_about|after_help|default_value|subcommand_required)":', short.out):
            self.differ(f"{library}: the short form has keys that no Tab reads")
        return f"{len(found)} rows, {len(said)} lines of what is left out"

    # ---- programs of Debian

    def programs(self) -> str:
        with open(COUNTS, encoding="utf-8") as file:
            known = json.load(file)
        tried, missing = [], []
        for library, names in PROGRAMS.items():
            for name in names:
                try:
                    self.room.prepare(library)
                    need(which(name), name)
                except Missing:
                    missing.append(name)
                    continue
                tree = self.exported(library, str(which(name)) if library in ("argparse", "click") else name)
                self.compare(name, listed_counts(known[name]), listed_counts(counts(tree)))
                if tree["name"] != name and name not in CLASSES:
                    self.differ(f"{name}: the tree is of {tree['name']}")
                tried.append(name)
        need(tried, "no program of Debian is installed")
        return f"{' '.join(tried)}" + (f"; not installed: {' '.join(missing)}" if missing else "")

    # ---- help texts onto exported trees

    def onto(self) -> str:
        tried, missing = [], []
        for library, names in PROGRAMS.items():
            for name in set(names) & set(ONTO):
                try:
                    self.room.prepare(library)
                    need(which(name), name)
                except Missing:
                    missing.append(name)
                    continue
                old = self.exported(library, os.path.realpath(str(which(name))))
                new = import_tree(self.room, str(which(name)), "--onto", old)
                if new is None:
                    self.differ(f"{name}: complgen-import --onto wrote nothing")
                    continue
                before, after = counts(old), counts(new)
                before["possible values"] += ONTO[name]
                kinds = [it for it in KINDS if it != "path hints"]
                self.compare(f"{name}, --onto", [f"{it}: {before[it]}" for it in kinds],
                             [f"{it}: {after[it]}" for it in kinds])
                for path, word in doubled(new, [], name):
                    self.differ(f"{name}, --onto: {path} has {word} twice")
                tried.append(name)
        need(tried, "no program of Debian is installed")
        return " ".join(sorted(tried)) + (f"; not installed: {' '.join(sorted(missing))}" if missing else "")

    # ---- bad input

    def bad_input(self) -> str:
        tried = 0
        for library in ("argparse", "click", "commander", "cobra", "picocli"):
            try:
                self.room.prepare(library)
            except Missing:
                continue
            with open("/dev/full", "wb") as full:
                ran = self.room.export(library, "", out=full)
            self.expect_bad(f"{library}, a full disk", ran, "[Nn]o space left|ENOSPC|write failed")
            tried += 1 if library in ("cobra", "picocli") else self.try_bad(library, self.room.folder)
        need(tried, "no library is installed")
        return f"{tried} calls"

    def try_bad(self, library: str, folder: str) -> int:
        end = ".js" if library == "commander" else ".py"
        texts = BAD_JS if library == "commander" else BAD_PYTHON
        for name, (text, message) in texts.items():
            path = os.path.join(folder, f"{name}{end}")
            with open(path, "w", encoding="utf-8") as file:
                file.write(text.format(library=library))
            self.expect_bad(f"{library}, {name}", self.room.export(library, path), message)
        number = len(texts) + 1
        if library == "commander":
            return number
        self.expect_bad(f"{library}, nothing", self.room.export(library, "/no/such/program"), "not found")
        kept = os.path.join(folder, "kept.json")
        with open(kept, "w", encoding="utf-8") as file:
            file.write("kept")
        module = ["-m", f"lagvtsune.{library}", "--out", kept]
        for name in texts:
            ran = run([PYTHON, *module, os.path.join(folder, f"{name}.py")])
            with open(kept, encoding="utf-8") as file:
                if file.read() != "kept" or ran.status != 1:
                    self.differ(f"{library}, --out: status {ran.status}, or {name} changed a file")
        ran = run([PYTHON, *module, os.path.join(HERE, f"app_{library}.py")])
        with open(kept, encoding="utf-8") as file:
            if ran.status or ran.out or json.load(file)["name"] != f"app_{library}":
                self.differ(f"{library}, --out: wrote no tree file")
        return number + len(texts) + 2

    def expect_bad(self, what: str, ran: Ran, message: str) -> None:
        if ran.status != 1 or ran.out or not re.search(message, ran.err):
            self.differ(f"{what}: status {ran.status}, printed {ran.out!r}, said {ran.err[-300:]!r}")

    # ---- complgen

    def check(self) -> str:
        complgen = common.default_program("complgen")
        need(os.access(complgen, os.X_OK), "complgen is not built")
        need(self.trees, "no tree file: name another part, too")
        for name, text in self.trees.items():
            path = os.path.join(self.room.folder, "tree.json")
            with open(path, "w", encoding="utf-8") as file:
                file.write(text)
            ran = run([complgen, "check", path])
            # A note for each command of values_from does not change the status.
            if ran.status:
                self.differ(f"check, {name}: status {ran.status}: {ran.out[:600]}")
        return f"{len(self.trees)} tree files"

    def tab(self) -> str:
        complgen = common.default_program("complgen")
        need(os.access(complgen, os.X_OK), "complgen is not built")
        from shells import SHELLS, TreeScratch, started  # pylint: disable=import-outside-toplevel

        libraries = []
        for library in FEATURES:
            try:
                self.room.prepare(library)
                libraries.append(library)
            except Missing:
                continue
        shells = [it for it in SHELLS if it != "elvish" and which(it)]
        need(libraries and shells, "no library or no shell")
        with TreeScratch(complgen) as scratch:
            for library in libraries:
                name = f"notes-{library}"
                ran = self.room.export(library, "")
                tree = renamed(json.loads(ran.out), name)
                scratch.program(tree)
                words = shlex.join(self.room.app(library))
                scratch.recorder(name, before=f"case $* in *__complete* | *--complgen-values* | *--values*) "
                                 f"{assignments()} exec {words} \"$@\" ;; esac")
            for shell in shells:
                terminal = started(shell, scratch, scratch.written(shell))
                terminal.go(scratch.here)
                for library in libraries:
                    received = terminal.received(f"notes-{library} remove c")
                    if received != ["remove", "c2"]:
                        self.differ(f"tab, {shell}, {library}: received {received}")
                    offered = terminal.offered(f"notes-{library} remove ")
                    if not {"n1", "c2"} <= {word for text in offered for word in text.split()}:
                        self.differ(f"tab, {shell}, {library}: offered {offered}")
                terminal.close()
        return f"{' '.join(libraries)} in {' '.join(shells)}"


def renamed(tree: Dict[str, Any], name: str) -> Dict[str, Any]:
    """Returns a tree for a program of another name, whose commands are run by that name."""
    text = json.dumps({**tree, "name": name})
    return json.loads(text.replace(json.dumps([tree["name"]])[:-1] + ",", json.dumps([name])[:-1] + ","))


def listed_counts(found: Dict[str, int]) -> List[str]:
    return [f"{key}: {number}" for key, number in found.items()]


BAD_PYTHON = {
    "fails": ("raise OSError('it does not load')", "it does not load"),
    "ends": ("import sys\nsys.exit('ended early')", "ended early(.|\n)*before it parsed"),
    "ends-well": ("print('no tree')", "before it parsed"),
    "missing": ("import no_such_module", "no_such_module"),
    "odd.name": ("import {library}\nif '{library}' == 'argparse':\n    {library}.ArgumentParser().parse_args()\n"
                 "else:\n    {library}.command()(lambda: 0)()", "is not plain"),
}
BAD_JS = {
    "fails": ("throw new Error('it does not load');", "it does not load"),
    "ends": ("console.error('ended early'); process.exit(3);", "ended early"),
    "ends-well": ("console.log('no tree');", "before Commander parsed"),
    "odd.name": ("const {{ Command }} = require('commander'); new Command().parse();", "is not plain"),
}


# ---- the table

def table(room: Room, built: Sequence[str]) -> None:
    """Prints a row for each program: what was exported, beside what is imported from its help texts."""
    print(f"| | {' | '.join(KINDS)} |\n|{'---|' * (len(KINDS) + 1)}")
    apps = [(library, "") for library in FEATURES]
    named = [(library, name) for library, names in PROGRAMS.items() for name in names]
    for library, name in [*apps, *(("cobra", path) for path in built), *named]:
        try:
            room.prepare(library)
            need(not name or which(name) or os.path.exists(name), name)
        except Missing:
            continue
        path = os.path.realpath(which(name) or name) if library in ("argparse", "click") and name else name
        exported = counts(json.loads(room.export(library, path).out))
        shown = imported(room, library, name)
        cells = [f"{exported[it]} / {shown[it] if shown else '-'}" for it in KINDS]
        print(f"| {library}: {os.path.basename(name) or 'app'} | {' | '.join(cells)} |", flush=True)


def imported(room: Room, library: str, name: str) -> Optional[Dict[str, int]]:
    """Returns the counts of what `complgen-import --walk` makes of a program, or nothing if it fails."""
    program = which(name) or name
    if not name or library == "commander":
        # A program that needs the environment of these tests. The importer gives it one of its own.
        words = ["node", os.path.realpath(program)] if name else room.app(library)
        program = os.path.join(room.folder, "bin", name or f"app-{library}")
        os.makedirs(os.path.dirname(program), exist_ok=True)
        with open(program, "w", encoding="utf-8") as file:
            file.write(f"#!/bin/sh\n{assignments()} exec {shlex.join(words)} \"$@\"\n")
        os.chmod(program, 0o755)
    tree = import_tree(room, program, "--force")
    return None if tree is None else counts(tree)


def import_tree(room: Room, program: str, mode: str, old: Optional[Dict[str, Any]] = None) -> Optional[Dict[str, Any]]:
    """Imports a program, perhaps onto an old tree. Returns the tree, or nothing if that fails. Without `complgen`, each
    tree is accepted."""
    path = os.path.join(room.folder, os.path.basename(program) + ".json")
    if old is not None:
        with open(path, "w", encoding="utf-8") as file:
            json.dump(old, file)
    complgen = common.default_program("complgen")
    words = [os.path.join(common.TOP, "complgen-import"), "--walk", mode, "--seconds", "30", "--out-dir", room.folder]
    checked = {"COMPLGEN": complgen if os.access(complgen, os.X_OK) else "/bin/true"}
    ran = subprocess.run([*words, program], env={**environment(), **checked}, stdout=subprocess.DEVNULL,
                         stderr=subprocess.PIPE, check=False)
    if ran.returncode:
        print(f"  {os.path.basename(program)}: {ran.stderr.decode(errors='replace').strip()[-300:]}")
        return None
    with open(path, encoding="utf-8") as file:
        return json.load(file)


def main() -> int:
    parser = argparse.ArgumentParser(usage=common.usage(__doc__))
    parser.add_argument("--only", action="append", choices=PARTS)
    parser.add_argument("--table", action="store_true")
    parser.add_argument("--go", action="append", default=[], metavar="PROGRAM")
    options = parser.parse_args()
    with tempfile.TemporaryDirectory(prefix="exporters.") as folder:
        room = Room(folder)
        if options.table:
            table(room, options.go)
            return 0
        trial = Trial(room)
        others = {"programs": trial.programs, "onto": trial.onto, "bad": trial.bad_input, "check": trial.check,
                  "tab": trial.tab}
        for part in options.only or PARTS:
            before = trial.bad
            try:
                tried = others[part]() if part in others else trial.features(part)
                print(f"{part}: {tried}, {trial.bad - before} differences", flush=True)
            except Missing as missing:
                print(f"{part}: skipped: {missing}", flush=True)
    print(f"{trial.bad} differences")
    return 1 if trial.bad else 0


if __name__ == "__main__":
    sys.exit(main())
