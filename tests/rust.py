#!/usr/bin/env python3
"""Builds the archive for Rust programs and its package, tests both, and compares them with the original.

    tests/rust.py [--archive FOLDER] [--genuine | --original FOLDER]

`rt lib` proves and builds crates/complgen_c. --archive names a directory that has the archive already.
cargo runs the tests of packages/rust/lagvtsune, and again under valgrind if it is installed. valgrind must report
no error and no leak. examples/from-rust has to build.

Then the program in packages/rust/herd is built with the package, and with the crate `clap_complete`. The two
programs differ only in the name of the crate. It is also built without an archive, with the feature
`original`, if cargo has clap_complete. The script compares their scripts, and their replies to
1,000 random live requests, except those at which the original panics. If Debian's crates are installed,
cargo uses these. Otherwise it fetches crates. If the original has no `CompleteEnv`, only scripts are
compared. --genuine takes the crates of Debian unstable (tools/unstable.py). --original names a directory
with the crates clap and clap_complete, which both programs then use.

The script prints a line for each step, and with valgrind also the instructions of both programs. If
clap_complete is 4.6.11, it also prints each text that differs by more than the differences in
docs/DIFFERENCES.md. The status is 0 if all of it holds. It needs `cargo` and clap 4 with its derive, and
`rt` without --archive.
"""

import argparse
import difflib
import os
import random
import re
import shutil
import subprocess
import sys
import tempfile

sys.path.append(os.path.join(os.path.dirname(os.path.realpath(__file__)), "..", "tools"))
import common
import unstable

ARCHIVE = "libcomplgen_c.a"
SHELLS = list(common.LIVE_SHELLS)
# The version of the original whose scripts have only the known differences.
VERSION = "4.6.11"
MANIFEST = """[package]
name = "other"
version = "0.9.1"
edition = "2021"

[dependencies]
clap = { version = "4", features = ["derive"] }
clap_complete = { version = "4", features = ["unstable-dynamic"] }
"""
# The number of live requests, and the words that they consist of.
REQUESTS = 1000
WORDS = [
    "get", "ls", "describe", "apply", "delete", "rm", "logs", "exec", "node", "rollout", "config", "list",
    "cordon", "drain", "status", "undo", "view", "set", "use", "help", "te", "h", "x", "é", "s p",
    "-c", "--cluster", "--cluster=x", "-o", "--output", "--output=j", "-oj", "-A", "-l", "--selector", "-f",
    "--filename", "--follow", "-Ft", "--now", "--grace", "--force", "--to", "--o", "-", "--", "", "",
    "src/", "src/m", ".", "..", "../", "~/", "nothing/x", "/",
]
# The words of a request at the root, of one for a subcommand of a subcommand, and of one with a path.
ROOT, DEEP, PATH = ["--", "herd", ""], ["--", "herd", "rollout", "undo", ""], ["--", "herd", "apply", "-f", "src/"]
# The status of the original if it panics.
PANICKED = 101
# In a test program, Rust's own library ends with a block that may be lost.
DEFINITE = ["--show-leak-kinds=definite", "--errors-for-leak-kinds=definite"]
# In 20,000 random inputs valgrind would take half an hour.
UNDER_VALGRIND = ["--skip", "any_"]


def main():
    options = arguments()
    with tempfile.TemporaryDirectory() as work:
        cargo = Cargo(work, options.archive or build_archive(), options.original)
        for folder in ("packages/rust", "examples"):
            shutil.copytree(os.path.join(common.TOP, folder), os.path.join(work, folder))
        package = os.path.join(work, "packages", "rust", "lagvtsune")
        has_add = options.original is not None or common.has_completers()
        common.fit_manifest(os.path.join(package, "Cargo.toml"), has_add)
        features = ["--features", "unstable-dynamic"] if has_add else []
        print("tests:", sum_of(cargo.run(package, "test", *features)), "passed")
        under_valgrind(cargo.tests(package))
        print(f"without an archive: {without_archive(cargo, work, package)}")
        cargo.run(os.path.join(work, "examples", "from-rust"), "build", "--quiet")
        print("examples/from-rust: builds")
        return 0 if compare(cargo, work) else 1


def sum_of(said):
    """Returns how many tests passed, by what cargo wrote."""
    return sum(int(count) for count in re.findall(r"^test result: ok\. (\d+) passed", said, re.MULTILINE))


def arguments():
    parser = argparse.ArgumentParser(usage=common.usage(__doc__))
    parser.add_argument("--archive", type=os.path.realpath)
    parser.add_argument("--genuine", action="store_true")
    parser.add_argument("--original", type=os.path.realpath)
    options = parser.parse_args()
    if options.genuine:
        common.use_crates(unstable.crates(unstable.default_folder()))
    return options


def build_archive():
    """Builds the archive, and returns its directory."""
    crate = os.path.join(common.TOP, "crates", "complgen_c")
    subprocess.run(["rt", "lib"], cwd=crate, check=True, stdout=subprocess.DEVNULL)
    size = os.path.getsize(os.path.join(crate, "out", ARCHIVE))
    print(f"archive: proved and built, {size:,} bytes")
    return os.path.join(crate, "out")


class CargoFailed(Exception):
    """An error of cargo, with its output."""


class Cargo:
    """Runs cargo on copies of packages, because it writes its lock file next to the sources."""

    def __init__(self, work, archive, original):
        self.environment = {
            **os.environ,
            "CARGO_TARGET_DIR": os.path.join(work, "target"),
            "LAGVTSUNE_DIR": archive,
        }
        self.built = os.path.join(work, "target")
        self.flags = common.cargo_flags()
        for crate in ("clap", "clap_complete") if original else ():
            self.flags += common.cargo_config(f"patch.crates-io.{crate}.path", os.path.join(original, crate))

    def run(self, package, *words, environment=None):
        """Runs cargo, and returns its output and its messages."""
        command = ["cargo", words[0], *self.flags, *words[1:]]
        environment = {**self.environment, **(environment or {})}
        ran = subprocess.run(command, cwd=package, env=environment, capture_output=True, text=True)
        if ran.returncode:
            raise CargoFailed(ran.stdout + ran.stderr)
        return ran.stdout + ran.stderr

    def tests(self, package):
        """Returns the paths of the package's test programs."""
        said = self.run(package, "test", "--no-run")
        names = re.findall(r"\(\S*?target/(debug/deps/\S+)\)", said)
        return [os.path.join(self.built, name) for name in names]


def without_archive(cargo, work, package):
    """Builds the package as on targets that have no archive."""
    empty = os.path.join(work, "empty")
    os.makedirs(empty)
    environment = {"LAGVTSUNE_DIR": empty, "CARGO_TARGET_DIR": os.path.join(work, "without")}
    try:
        cargo.run(package, "build", "--quiet", environment=environment)
    except CargoFailed as failed:
        if "turn on the feature `original`" not in str(failed):
            raise
    else:
        raise CargoFailed("the package builds without an archive")
    if common.cargo_flags() and not common.has_debian("clap_complete"):
        return "refused; clap_complete is not installed"
    cargo.run(package, "build", "--quiet", "--features", "original", environment=environment)
    return "refused; as clap_complete it builds"


def under_valgrind(programs):
    if not shutil.which("valgrind"):
        print("valgrind: not installed")
        return
    for program in programs:
        command = ["valgrind", "--quiet", "--error-exitcode=1", "--leak-check=full", *DEFINITE, program]
        command += ["--quiet", "--test-threads=1", *UNDER_VALGRIND]
        subprocess.run(command, check=True, stdout=subprocess.DEVNULL)
    print(f"valgrind: no error and no leak in {len(programs)} programs of tests")


def compare(cargo, work):
    """Tells whether both programs write the same, as far as the original is the one to compare with."""
    version, replies = build_other(cargo, work)
    if version is None:
        print("clap_complete: not available")
        return True
    herd = os.path.join(work, "packages", "rust", "herd")
    cargo.run(herd, "build", "--quiet", "--release")
    ours = os.path.join(cargo.built, "release", "herd")
    theirs = os.path.join(cargo.built, "release", "other")
    same = [alike(shell, version, script(ours, shell), script(theirs, shell)) for shell in SHELLS]
    make_files(work)
    same.append(not replies or requests_agree(ours, theirs, work))
    if shutil.which("valgrind"):
        print_instructions(ours, theirs, work, replies)
    return all(same)


def build_other(cargo, work):
    """Builds the program with the original.

    Returns the version of the original, or `None` if it is not available, and whether the program replies
    to live requests.
    """
    other = os.path.join(work, "other")
    os.makedirs(os.path.join(other, "src"))
    common.write(os.path.join(other, "Cargo.toml"), MANIFEST)
    cli = os.path.join(work, "examples", "from-clap", "herd", "src", "cli.rs")
    shutil.copy(cli, os.path.join(other, "src"))
    with open(os.path.join(work, "packages", "rust", "herd", "src", "main.rs"), encoding="utf-8") as file:
        program = re.sub(r"#\[path.*\n", "", file.read()).replace("lagvtsune", "clap_complete")
    scripts_alone = re.sub(r".*CompleteEnv::.*\n", "", program).replace("CompleteEnv, ", "")
    for source in (program, scripts_alone):
        common.write(os.path.join(other, "src", "main.rs"), source)
        try:
            cargo.run(other, "build", "--quiet", "--release")
        except CargoFailed:
            continue
        with open(os.path.join(other, "Cargo.lock"), encoding="utf-8") as file:
            version = re.search(r'name = "clap_complete"\nversion = "(.*)"', file.read())[1]
        return version, source == program
    return None, False


def make_files(work):
    """Makes the directory where both programs run, and the home directory."""
    for name in ("here/src", "here/.git", "home/own"):
        os.makedirs(os.path.join(work, name))
    for name in ("here/a.txt", "here/src/main.rs", "here/src/s p", "home/own/b"):
        common.write(os.path.join(work, name), "")


def requests_agree(ours, theirs, work):
    """Tells whether both programs reply the same to random requests, except those at which the original
    panics."""
    chosen = random.Random(1)
    differ = passed_over = offered = 0
    for _ in range(REQUESTS):
        words = ["herd", *chosen.choices(WORDS, k=chosen.randint(0, 5))]
        index = chosen.choice([len(words) - 1] * 4 + [chosen.randint(0, len(words))])
        asked = {"COMPLETE": chosen.choice(SHELLS), "_CLAP_COMPLETE_INDEX": str(index)}
        asked["_CLAP_IFS"] = chosen.choice(["\n", "\v"])
        own, other = (reply(program, asked, words, work) for program in (ours, theirs))
        passed_over += other[0] == PANICKED
        offered += own[0] == 0 and own[1] != []
        if own != other and other[0] != PANICKED:
            differ += 1
            print(asked, words, own, other, sep="\n    ")
    print(f"{REQUESTS} requests, {offered} with candidates: {differ} differ, clap_complete panics at {passed_over}")
    return differ == 0


def reply(program, asked, words, work):
    """Returns the status of a request, its lines and its message, without the known differences."""
    ran = subprocess.run([program, "--", *words], capture_output=True, **requesting(asked, work))
    lines = known(ran.stdout.decode().replace("\v", "\n"))
    return ran.returncode, [line for line in lines if line], ran.stderr.decode()


def requesting(asked, work):
    """Returns the environment and the directory of a request."""
    environment = {**os.environ, **asked, "HOME": os.path.join(work, "home")}
    return {"env": environment, "cwd": os.path.join(work, "here")}


def print_instructions(ours, theirs, work, replies):
    """Prints the costs of both programs: scripts, a registration, and replies."""
    calls = [(f"script of {shell}", {}, ["--completions", shell]) for shell in SHELLS]
    if replies:
        asked = {"COMPLETE": "fish"}
        calls.append(("registration", asked, []))
        # The safe registration sets this variable, which clap_complete does not read.
        asked = {**asked, "_COMPLGEN_VALUES": "ask"}
        kinds = [("at the root", ROOT), ("two subcommands deep", DEEP), ("with a path", PATH)]
        calls += [(f"reply {kind}", asked, words) for kind, words in kinds]
    for name, asked, words in calls:
        own, other = (instructions(program, asked, words, work) for program in (ours, theirs))
        print(f"{name}: {own:,} instructions, {other:,} for clap_complete")


def instructions(program, asked, words, work):
    return common.callgrind([program, *words], **requesting(asked, work)).total


def script(program, shell):
    ran = subprocess.run([program, "--completions", shell], check=True, capture_output=True)
    return ran.stdout.decode()


def alike(shell, version, ours, theirs):
    """Prints how the scripts differ, and returns whether only known differences were found."""
    names = ("clap_complete", "lagvtsune")
    rows = list(difflib.unified_diff(known(theirs), known(ours), *names, lineterm="", n=0))
    differ = sum(row[0] in "+-" for row in rows[2:])
    print(f"{shell}: {len(ours.splitlines())} lines, {differ} differ from clap_complete {version}")
    if version == VERSION:
        print("\n".join(rows), end="\n" if rows else "")
    return version != VERSION or not rows


def known(text):
    """Returns the lines of a text without the known differences:

    `nushell`, which the original has in a crate of its own; the longer text of a flag `help` if some value
    has a help text; and in fish the excluded children, if one of them is on the path.
    """
    text = re.sub(r"nushell(\\t''\n| |$)", "", text, flags=re.MULTILINE)
    text = re.sub(r"Print help \(see more with ['\\]+--help['\\]+\)", "Print help", text)
    seen = "; and __fish_seen_subcommand_from"
    return re.sub(rf'({seen} \S+); and not __fish_seen_subcommand_from [^"]*', r"\1", text).splitlines()


if __name__ == "__main__":
    sys.exit(main())
