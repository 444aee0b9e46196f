#!/usr/bin/env python3
"""Installs, uses and removes the files of a release, without `rt` and in an empty environment.

    tests/release.py [--out DIR] [--system DIR] [PART..]

The files are those that release/make.py wrote to release/out, or to the directory that --out names. --system
names the root of an older system, as debootstrap makes one; `system` then runs. The parts, all by default:

- sums: SHA256SUMS, and that the header and native.rs declare what the source exports;
- archive: install.sh into a directory, also over an older version, and uninstall.sh. Nothing may be left;
- debian: dpkg installs and removes the package below a root of its own. lintian checks it;
- program: `script`, `check`, `man` and `--version` of the installed program;
- importer: `complgen-import`, one file, makes a tree file of a program's help text or of a text, and removes it;
- system: the older system installs, runs and removes the Debian package, in an empty environment;
- manuals: `man --warnings` and `mandoc -Tlint -Wwarning` find nothing in the man pages;
- live: live completion in bash, zsh, fish and Elvish, by the lines of docs/LIVE.md and docs/TAB.md;
- own: the completions of complgen itself in the same shells, by the lines of docs/INSTALL.md;
- library: symbols, pkg-config, the C examples under valgrind, memory of a program's own, the Python example,
  values from a command;
- tab: a Tab in bash and fish, for the examples in C and Python, also for a value from a command;
- crate: a new cargo project builds offline with the Rust package, writes a script and answers a request.

Prints a line for each part. A part whose tools are not installed is skipped. The status is 0 if none failed.
"""

import argparse
import collections
import filecmp
import os
import re
import shutil
import subprocess
import sys
import tarfile
import tempfile
import time

sys.path.append(os.path.join(os.path.dirname(os.path.realpath(__file__)), "..", "tools"))
import common
import shells
from shells import SHELLS

RELEASE = os.path.join(common.TOP, "release")
# The programs of the system, but nothing of /usr/local/bin, where `rt` may be.
SYSTEM = "/usr/bin:/bin"
# The functions that the library uses: three for memory by its own names, those below them, and the compiler's.
USED = set("rattle_alloc rattle_realloc rattle_dealloc malloc realloc free memcpy memmove memset".split())
USED.add("_GLOBAL_OFFSET_TABLE_")
MANUALS = ("man1/complgen.1", "man1/complgen-import.1", "man5/complgen-tree.5")
# A program that prints a help text.
HELPFUL = """#!/bin/sh
echo 'Usage: app [OPTIONS]

Options:
  -d, --dir <DIR>  The directory
  -h, --help       Print help'
"""
TREE = '{"name": "app", "args": [{"id": "dir", "long": "dir", "value_hint": "DirPath"}]}'
MANIFEST = """[package]
name = "app"
version = "0.1.0"
edition = "2021"

[dependencies]
clap = {{ version = "4", features = ["derive"] }}
lagvtsune = {{ path = "{}" }}
"""


# The words that the examples print if a shell asks for the users of the system, and lines of a command.
USERS = "".join(f"{word}\v" for word in ("cut", "-d:", "-f1", "/etc/passwd"))
LINES = "one\tthe first\ntwo\n"
# The number of bytes of a command's output that count.
LIMIT = 16 << 20


# A Tab to try: a shell, its home directory and the line of its start file; the program to complete and the
# line to type; a directory for the PATH, further variables, and what the program does before it writes down its
# arguments.
Trial = collections.namedtuple("Trial", "shell home line name typed path more before", defaults=("", {}, ""))


class Wrong(Exception):
    """A check that failed."""


class Skipped(Exception):
    """A part that lacks a tool."""


def main():
    parser = argparse.ArgumentParser(usage=common.usage(__doc__))
    parser.add_argument("--out", default=os.path.join(RELEASE, "out"))
    parser.add_argument("--system")
    parser.add_argument("parts", nargs="*", metavar="PART", choices=[[], *PARTS])
    given = parser.parse_args()
    outcomes = []
    with tempfile.TemporaryDirectory(prefix="release-") as folder:
        files = Files(os.path.realpath(given.out), folder, given.system and os.path.realpath(given.system))
        for name in given.parts or PARTS:
            outcomes.append(outcome(name, PARTS[name], files))
    print(", ".join(f"{outcomes.count(it)} {it}" for it in ("passed", "failed", "skipped")))
    return 1 if "failed" in outcomes or "passed" not in outcomes else 0


def outcome(name, part, files):
    """Runs a part and prints its line. Returns whether it passed, failed or was skipped."""
    started = time.monotonic()
    try:
        word, said = "passed", part(files)
    except Skipped as skipped:
        word, said = "skipped", skipped
    except (Wrong, shells.Ended, OSError, subprocess.SubprocessError) as error:
        word, said = "failed", error
    print(f"{word}   {name}, {time.monotonic() - started:.0f} s: {said}", flush=True)
    return word


class Files:
    """The files of a release, and a directory to work in."""

    def __init__(self, out, folder, system):
        self.out, self.folder, self.system, self.number = out, folder, system, 0
        names = os.listdir(out)
        found = [re.fullmatch(r"complgen-(\d+\.\d+\.\d+)-x86_64-linux\.tar\.xz", name) for name in names]
        self.version = next((match[1] for match in found if match), None)
        if self.version is None:
            sys.exit(f"{out} has no release: make it with release/make.py")

    def path(self, name):
        """Returns the path of a file of the release. `name` may contain VERSION."""
        return os.path.join(self.out, name.replace("VERSION", self.version))

    def room(self):
        """Returns a new directory."""
        self.number += 1
        path = os.path.join(self.folder, str(self.number))
        os.mkdir(path)
        return path

    def unpacked(self, name):
        """Returns the directory that an archive contains, unpacked."""
        room = self.room()
        with tarfile.open(self.path(name)) as archive:
            archive.extractall(room)
        return os.path.join(room, os.listdir(room)[0])

    def installed(self, prefix):
        """Installs the program below a directory, and returns the directory."""
        run([os.path.join(self.unpacked("complgen-VERSION-x86_64-linux.tar.xz"), "install.sh"), "--prefix", prefix])
        return prefix


def run(words, status=0, **how):
    """Runs a program in an empty environment and returns its output, with stderr. Checks its status."""
    how = {"env": {"PATH": SYSTEM}, "stderr": subprocess.STDOUT, "timeout": 300, **how}
    how.update({} if "input" in how else {"stdin": subprocess.DEVNULL})
    ran = subprocess.run(words, stdout=subprocess.PIPE, **how)
    text = ran.stdout.decode(errors="replace")
    if ran.returncode != status:
        raise Wrong(f"{' '.join(words)}: status {ran.returncode}: {text[-2000:]}")
    return text


def check(holds, what):
    if not holds:
        raise Wrong(what)


def need(*tools):
    missing = [tool for tool in tools if not common.is_installed(tool)]
    if missing:
        raise Skipped(f"needs {' and '.join(missing)}")


def write(path, text, mode=0o644):
    os.makedirs(os.path.dirname(path), exist_ok=True)
    with open(path, "w", encoding="utf-8") as file:
        file.write(text)
    os.chmod(path, mode)


def names_below(folder):
    """Returns the paths of all files and directories below a directory."""
    return sorted(
        os.path.relpath(os.path.join(at, name), folder)
        for at, folders, names in os.walk(folder) for name in folders + names
    )


# ---- the files

def sums(files):
    run(["sha256sum", "--check", "--strict", "--quiet", "SHA256SUMS"], cwd=files.out)
    run([sys.executable, "-B", os.path.join(RELEASE, "declarations.py")])
    return f"version {files.version}"


def archive(files):
    prefix = os.path.join(files.room(), "a prefix")
    write(os.path.join(prefix, "share/doc/other/kept"), "")
    before = names_below(prefix)
    unpacked = files.unpacked("complgen-VERSION-x86_64-linux.tar.xz")
    install, uninstall = (os.path.join(unpacked, name) for name in ("install.sh", "uninstall.sh"))
    run([install, "--prefix", prefix])
    for name in ("complgen", "complgen-import"):
        check(os.access(os.path.join(prefix, "bin", name), os.X_OK), f"{name} was not installed")
    check(not os.path.exists(os.path.join(prefix, "share/complgen")), "a tree file was installed")
    installed = names_below(prefix)
    remember_older(prefix)
    run([install, "--prefix", prefix])
    check(names_below(prefix) == installed, "a second installation differs from the first one")
    run([uninstall, "--prefix", prefix])
    check(names_below(prefix) == before, f"left after uninstall.sh: {set(names_below(prefix)) ^ set(before)}")
    write(os.path.join(prefix, "bin/complgen"), "of somebody else")
    run([install, "--prefix", prefix], status=1)
    check("share/man" not in names_below(prefix), "install.sh replaced a file that it did not install")
    return f"{len(installed) - len(before)} files and directories, and none of them afterwards"


def remember_older(prefix):
    """Adds a file to an installation, as if an older version had it."""
    write(os.path.join(prefix, "bin/complgen-older"), "")
    with open(os.path.join(prefix, "share/doc/complgen/INSTALLED"), "a", encoding="utf-8") as file:
        file.write("file bin/complgen-older\n")


def debian(files):
    need("dpkg", "lintian")
    if os.geteuid():
        raise Skipped("needs root, for dpkg --root")
    root, package = files.room(), files.path("complgen_VERSION_amd64.deb")
    for name in ("updates", "info", "triggers"):
        os.makedirs(os.path.join(root, "var/lib/dpkg", name))
    libc = run(["dpkg-query", "-W", "-f", "${Version}", "libc6"])
    status = f"Package: libc6\nStatus: install ok installed\nVersion: {libc}\nArchitecture: amd64\nMaintainer: x\nDescription: x\n"
    write(os.path.join(root, "var/lib/dpkg/status"), status)
    environment = {"PATH": "/usr/sbin:/usr/bin:/sbin:/bin"}
    dpkg = ["dpkg", "--root", root, "--log", "/dev/null"]
    run([*dpkg, "--install", package], env=environment)
    run([os.path.join(root, "usr/bin/complgen"), "--version"])
    check(not os.path.exists(os.path.join(root, "usr/share/complgen")), "a tree file was installed")
    number = len(names_below(os.path.join(root, "usr")))
    run([*dpkg, "--purge", "complgen"], env=environment)
    left = names_below(os.path.join(root, "usr")) if os.path.exists(os.path.join(root, "usr")) else []
    check(left == [], f"left after the removal: {left}")
    found = run(["lintian", "--no-tag-display-limit", "--fail-on", "error,warning", package])
    return f"{number} files and directories, lintian: {len(found.splitlines())} lines"


def program(files):
    prefix = files.installed(os.path.join(files.room(), "prefix"))
    complgen, tree = os.path.join(prefix, "bin/complgen"), os.path.join(files.room(), "app.json")
    write(tree, TREE)
    said = run([complgen, "--version"], env={})
    check(files.version in said, f"--version prints {said}")
    for shell in common.SHELLS:
        text = run([complgen, "script", "--shell", shell, "--bin", "app", tree], env={})
        check("dir" in text, f"the script for {shell} lacks the option")
    check(run([complgen, "check", tree], env={}) == "", "check reports something")
    page = run([complgen, "man", "--bin", "app", tree], env={})
    check("\\-\\-dir" in page, "the man page lacks the option")
    for name in ("LICENSES-THIRD-PARTY", "docs/tree.schema.json", "docs/INSTALL.md", "examples/tree.json",
                 "examples/values/docker.json", "NOTICE"):
        check(os.path.exists(os.path.join(prefix, "share/doc/complgen", name)), f"{name} is missing")
    return said.strip()


def importer(files):
    home, room = files.room(), files.room()
    prefix = files.installed(os.path.join(home, ".local"))
    write(os.path.join(room, "app"), HELPFUL, 0o755)
    environment = {"PATH": f"{prefix}/bin:{room}:{SYSTEM}", "HOME": home}
    run(["complgen-import", "app"], env=environment)
    tree = os.path.join(home, ".local/share/complgen/app.json")
    run(["complgen", "check", tree], env=environment)
    words = run(["complgen", "candidates", "--index", "1", tree, "--", "app", "--d"], env=environment)
    check(words.startswith("--dir"), f"the tree file offers {words}")
    with open(tree, encoding="utf-8") as file:
        said = run(["complgen-import", "--texts", "-", "app"], env=environment, input=run([f"{room}/app"]).encode())
        check(said == file.read(), f"--texts prints {said}")
    run(["complgen-import", "--undo", "app"], env=environment)
    check(names_below(os.path.join(home, ".local/share/complgen")) == [], "--undo leaves something")
    installed, again = os.path.join(prefix, "bin/complgen-import"), os.path.join(room, "again")
    run([sys.executable, "-B", os.path.join(RELEASE, "pack.py"), again])
    check(filecmp.cmp(installed, again, shallow=False), "packing again gives other bytes")
    return f"{os.path.getsize(installed):,} bytes; a tree file of a help text, and none after --undo"


def system(files):
    if not files.system:
        raise Skipped("needs --system DIR")
    if os.geteuid():
        raise Skipped("needs root, for chroot")
    package = "complgen.deb"
    shutil.copyfile(files.path("complgen_VERSION_amd64.deb"), os.path.join(files.system, package))
    write(os.path.join(files.system, "app.json"), TREE)
    inside = ["/usr/sbin/chroot", files.system, "/usr/bin/env", "-i"]
    before = names_below(os.path.join(files.system, "usr"))
    paths = ["PATH=/usr/sbin:/usr/bin:/sbin:/bin", "DPKG_FRONTEND_LOCKED=1"]
    try:
        run([*inside, *paths, "dpkg", "--install", package])
        said = run([*inside, "/usr/bin/complgen", "--version"])
        for shell in common.SHELLS:
            text = run([*inside, "/usr/bin/complgen", "script", "--shell", shell, "--bin", "app", "/app.json"])
            check("dir" in text, f"the script for {shell} lacks the option")
        check(run([*inside, "/usr/bin/complgen", "check", "/app.json"]) == "", "check reports something")
        run([*inside, *paths, "dpkg", "--purge", "complgen"])
    finally:
        for name in (package, "app.json"):
            os.remove(os.path.join(files.system, name))
    left = set(names_below(os.path.join(files.system, "usr"))) - set(before)
    check(not left, f"left after the removal: {sorted(left)}")
    with open(os.path.join(files.system, "etc/os-release"), encoding="utf-8") as file:
        name = re.search('PRETTY_NAME="(.*)"', file.read())
    return f"{said.strip()} on {name[1] if name else 'a system without a name'}"


def manuals(files):
    need("man", "mandoc")
    folder = os.path.join(files.unpacked("complgen-VERSION-x86_64-linux.tar.xz"), "share/man")
    pages = [os.path.join(folder, name) for name in MANUALS]
    for page in pages:
        environment = {"PATH": SYSTEM, "LC_ALL": "C.UTF-8", "MANROFFSEQ": "", "MANWIDTH": "80"}
        ran = subprocess.run(["man", "--warnings", "-l", page], env=environment, capture_output=True, timeout=60)
        check(ran.returncode == 0 and ran.stderr == b"", f"man: {ran.stderr.decode()}")
        # A line of more than 80 bytes, such as a help text, is a matter of style.
        run(["mandoc", "-Tlint", "-Wwarning", page])
    return f"{len(pages)} pages"


# ---- shells

def live_lines():
    """Returns the lines that set up live completion, by shell."""
    rows = re.findall(r"^\| (\w+) \| `(~/\S+)`[^|]*\| `(.*)` \|$", document("docs/LIVE.md"), re.MULTILINE)
    lines = {shell.lower(): line.replace("\\|", "|") for shell, file, line in rows}
    check(set(SHELLS) <= lines.keys(), f"docs/LIVE.md has lines for: {sorted(lines)}")
    return lines


def document(name):
    with open(os.path.join(common.TOP, name), encoding="utf-8") as file:
        return file.read()


def live(files):
    home = files.room()
    prefix = files.installed(os.path.join(home, ".local"))
    write(os.path.join(home, ".local/share/complgen/app.json"), TREE)
    tried = [(shell, line) for shell, line in live_lines().items() if shell in SHELLS]
    without_proc = 'eval "$(COMPLETE=bash complgen)"'
    check(without_proc in document("docs/TAB.md"), "docs/TAB.md lacks the line for bash without /proc")
    tried.append(("bash", without_proc))
    done = []
    for shell, line in tried:
        if common.is_installed(shell):
            before = "autoload -U compinit; compinit -u\n" if shell == "zsh" else ""
            words = at_tab(Trial(shell, home, before + line, "app", "app --d", f"{prefix}/bin"))
            check(words == ["--dir"], f"{shell}: {line}: the program received {words}")
            done.append(shell)
    return ", ".join(done)


def own(files):
    home, other = files.room(), os.path.join(files.room(), "local")
    files.installed(os.path.join(home, ".local"))
    files.installed(other)
    text = document("docs/INSTALL.md")
    zsh, elvish = "fpath=(~/.local/share/zsh/site-functions $fpath)", "use complgen"
    fish = "set -a fish_complete_path /usr/local/share/fish/vendor_completions.d"
    for line in (zsh, elvish, fish):
        check(f"`{line}`" in text, f"docs/INSTALL.md lacks the line {line}")
    tried = [
        ("zsh", f"{zsh}\nautoload -U compinit; compinit -u"), ("elvish", elvish), ("fish", ""),
        ("fish", fish.replace("/usr/local", other)),
    ]
    if os.path.exists(shells.BASH_COMPLETION):
        tried.append(("bash", f". {shells.BASH_COMPLETION}"))
    done = []
    for shell, line in tried:
        if common.is_installed(shell):
            where = home if shell != "fish" or not line else files.room()
            words = at_tab(Trial(shell, where, line, "complgen", "complgen cand"))
            check(words == ["candidates"], f"{shell}: {line}: the program received {words}")
            done.append(shell)
    return ", ".join(done)


def at_tab(trial):
    """Returns the arguments that a program receives after a Tab. If it is not what was typed with something added,
    the Tab is tried once more."""
    words = None
    for _ in range(2):
        words = typed_once(trial)
        if words and words != trial.typed.split()[1:]:
            break
    return words


def typed_once(trial):
    """Starts a shell, types a line, a Tab and Enter, and returns the arguments that the program received."""
    with shells.Scratch() as scratch:
        scratch.recorder(trial.name, trial.before)
        folders = [scratch.bin, *([trial.path] if trial.path else []), SYSTEM]
        scratch.environment = {
            "HOME": trial.home, "TERM": "xterm", "LC_ALL": "C.UTF-8", "PATH": ":".join(folders), **trial.more,
        }
        # zsh reads the system's start files too.
        words = ["zsh", "-i"] if trial.shell == "zsh" else []
        with shells.started(trial.shell, scratch, setup=trial.line, words=words) as shell:
            return shell.received(trial.typed)


# ---- the library

def library(files):
    need("cc", "nm", "pkg-config", "valgrind")
    root = files.unpacked("liblagvtsune-VERSION-x86_64-linux.tar.xz")
    exported = run(["nm", "-D", "--defined-only", "--format=just-symbols", f"{root}/lib/liblagvtsune.so"]).split()
    exported = [name for name in exported if not name.startswith("LAGVTSUNE")]
    names = ["lagvtsune_asked", "lagvtsune_live", "lagvtsune_registration", "lagvtsune_script"]
    check([name.split("@")[0] for name in exported] == names, f"exported: {exported}")
    used = run(["nm", "-u", "--format=just-symbols", f"{root}/lib/liblagvtsune.a"]).split()
    used = {name for name in used if not name.endswith(":")} - USED
    check(not used, f"liblagvtsune.a uses {sorted(used)}")
    check(pkg_config(root, "--modversion").strip() == files.version, "lagvtsune.pc has another version")
    greet = build_greet(files, root)
    quiet = ["valgrind", "--quiet", "--error-exitcode=9", "--leak-check=full", "--show-leak-kinds=all"]
    quiet.append("--errors-for-leak-kinds=all")
    environment = {"PATH": SYSTEM, "LD_LIBRARY_PATH": f"{root}/lib", "COMPLETE": "fish", "_COMPLGEN_VALUES": "ask"}
    script = run([*quiet, greet, "--completions", "bash"], env={**environment, "COMPLETE": ""})
    check("--loud" in script, "greet writes no script")
    reply = run([*quiet, greet, "--", "greet", f"{root}/include/lagv"], env=environment)
    check("lagvtsune.h" in reply and "lagvtsune_posix.h" in reply, f"greet replies {reply!r}")
    run([*quiet, greet, "--completions", "tcsh"], env={**environment, "COMPLETE": ""}, status=2)
    values([greet, "--", "greet", "--user", ""], environment, quiet)
    numbers = own_memory(files, root, quiet)
    python = run_pack(root, ["--completions", "fish"], {})
    check("-l level" in python, "pack writes no script")
    check(" --command pack\n" in run_pack(root, ["--register", "fish"], {}), "pack writes no registration")
    reply = run_pack(root, ["--", "pack", "add", "--level", ""], {"COMPLETE": "fish", "_COMPLGEN_VALUES": "ask"})
    check("fast" in reply and "best" in reply, f"pack replies {reply!r}")
    pack = [sys.executable, f"{root}/share/lagvtsune/examples/python/pack", "--", "pack", "add", "--owner", ""]
    values(pack, {"PATH": SYSTEM, **python_environment(root), "COMPLETE": "fish"})
    return f"four exports, both C examples under valgrind, {numbers} refused allocations, Python"


def values(command, environment, quiet=()):
    """Requests a value from a command: its words, then its lines, and nothing if commands are turned off."""
    asks, reads = ({**environment, "_COMPLGEN_VALUES": mode} for mode in ("ask", "stdin"))
    said = run([*quiet, *command], env=asks, status=3)
    check(said == USERS, f"asked for the users: {said!r}")
    said = run([*quiet, *command], env=reads, input=LINES.encode())
    check(said == LINES, f"offered of {LINES!r}: {said!r}")
    for request in (asks, reads):
        said = run([*quiet, *command], env={**request, "COMPLGEN_COMMANDS": "0"}, input=LINES.encode())
        check(said == "", f"commands are off: {said!r}")
    # A line of control characters, which is skipped, and one that begins right before the limit.
    full = LINES.encode().ljust(LIMIT - len("\nlast"), b"\a") + b"\nlast"
    for given, expected in ((full, LINES + "last\n"), (full + b"\n", LINES), (full + b"er\nx\n", LINES)):
        said = run(command, env=reads, input=given)
        check(said == expected, f"offered of {len(given):,} bytes: {said[:200]!r}")


def pkg_config(root, *words):
    return run(["pkg-config", *words, "lagvtsune"], env={"PATH": SYSTEM, "PKG_CONFIG_PATH": f"{root}/lib/pkgconfig"})


def build_greet(files, root):
    """Compiles the example greet.c with the helper, and returns the path of the program."""
    share, program = f"{root}/share/lagvtsune", os.path.join(files.room(), "greet")
    sources = [f"{share}/examples/c/greet.c", f"{share}/lagvtsune_posix.c"]
    flags = ["-std=c11", "-Wall", "-Wextra", "-Werror", *pkg_config(root, "--cflags").split()]
    run(["cc", *flags, "-o", program, *sources, *pkg_config(root, "--libs").split()])
    return program


def own_memory(files, root, quiet):
    """Lets the example own_memory.c refuse each allocation in turn. Returns their number."""
    program = os.path.join(files.room(), "own_memory")
    source = f"{root}/share/lagvtsune/examples/c/own_memory.c"
    run(["cc", "-std=c11", "-o", program, source, *pkg_config(root, "--cflags").split(), f"{root}/lib/liblagvtsune.a"])
    said = run([*quiet, program])
    number = int(re.search(r"(\d+) allocations, 0 blocks are left", said)[1])
    check(number > 0, "the library does not use the program's memory")
    for refused in range(1, number + 1):
        said = run([program, str(refused)], status=1)
        check("out of memory" in said and " 0 blocks are left" in said, f"allocation {refused} refused: {said}")
    run([*quiet, program, "5"], status=1)
    return number


def python_environment(root):
    share = f"{root}/share/lagvtsune"
    return {
        "LAGVTSUNE_SO": f"{root}/lib/liblagvtsune.so.0", "PYTHONPATH": f"{share}:{share}/examples/python",
        "PYTHONDONTWRITEBYTECODE": "1",
    }


def run_pack(root, words, environment):
    pack = f"{root}/share/lagvtsune/examples/python/pack"
    return run([sys.executable, pack, *words], env={"PATH": SYSTEM, **python_environment(root), **environment})


def tab(files):
    need("cc", "pkg-config")
    root = files.unpacked("liblagvtsune-VERSION-x86_64-linux.tar.xz")
    greet = build_greet(files, root)
    pack = f"exec {sys.executable} {root}/share/lagvtsune/examples/python/pack"
    programs = {
        "greet": (f"exec {greet}", [("greet --lo", ["--loud"]), ("greet --user roo", ["--user", "root"])]),
        "pack": (pack, [("pack add --le", ["add", "--level"]), ("pack add --owner roo", ["add", "--owner", "root"])]),
    }
    tried = [(name, real, *pair) for name, (real, pairs) in programs.items() for pair in pairs]
    extra = {**python_environment(root), "LD_LIBRARY_PATH": f"{root}/lib"}
    done = []
    for shell, line in (("bash", "source <(COMPLETE=bash {})"), ("fish", "COMPLETE=fish {} | source")):
        for name, real, typed, expected in tried:
            if common.is_installed(shell):
                before = f'[ -z "${{COMPLETE-}}" ] || {real} "$@"'
                trial = Trial(shell, files.room(), line.format(name), name, typed, more=extra, before=before)
                words = at_tab(trial)
                check(words == expected, f"{shell}: {name} received {words}")
                done.append(f"{typed} in {shell}")
    return ", ".join(done)


# ---- the Rust package

def crate(files):
    need("cargo")
    if not common.cargo_flags():
        raise Skipped("needs Debian's clap 4 (apt-get install librust-clap-dev)")
    package, app = files.unpacked("lagvtsune-VERSION.crate"), files.room()
    write(os.path.join(app, "Cargo.toml"), MANIFEST.format(package))
    os.mkdir(os.path.join(app, "src"))
    shutil.copy(os.path.join(common.EXAMPLES, "from-rust/src/main.rs"), os.path.join(app, "src"))
    environment = {**os.environ, "CARGO_TARGET_DIR": os.path.join(app, "target")}
    environment.pop("LAGVTSUNE_DIR", None)
    run(["cargo", "build", "--quiet", *common.cargo_flags()], cwd=app, env=environment, timeout=600)
    program = os.path.join(app, "target/debug/app")
    check("complete" in run([program, "--completions", "fish"]), "the program writes no script")
    reply = run([program, "--", "app", "--compl"], env={"COMPLETE": "fish", "_COMPLGEN_VALUES": "ask"})
    check("--completions" in reply, f"the program replies {reply!r}")
    return "a new project builds offline, writes a script and replies"


PARTS = {
    part.__name__: part
    for part in (sums, archive, debian, program, importer, system, manuals, live, own, library, tab, crate)
}


if __name__ == "__main__":
    sys.exit(main())
