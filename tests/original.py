#!/usr/bin/env python3
"""Runs the tests of clap_complete over the Rust package.

    tests/original.py [SOURCES] [--archive FOLDER] [--genuine | --clap FOLDER] [--verbose]

SOURCES is a directory with the sources of clap_complete 4.6.11, as in its crate. The files may also be in one
directory, with a hyphen for each slash and with `.txt` after the name. None of them is part of this
repository. With --genuine, the crates are those of Debian unstable (tools/unstable.py), which have the
sources too. The script takes these parts, and writes `lagvtsune` instead of `clap_complete` in their `use`
lines, and the module that a test is about instead of `super`:

- the examples in the documentation, each as a program of its own. Those that are marked `ignore` are left
  out, and those that are marked `no_run` are only compiled;
- the modules of tests;
- the programs in `examples`, with their tests.

Nothing else is changed. A small stand-in takes the place of the snapshot crate. The script prints a row for
each part: how many of its tests passed, and otherwise the reason. The status is 0 if some test passes, and
each other one fails for a reason that this script knows.

--archive names the directory with libcomplgen_c.a. Without it, the package is clap_complete itself, by its
feature `original`. Then the script shows only that the tests are taken as they are. --clap names the
directory of another clap than the one that cargo finds. If clap has `Arg::add`, the feature
`unstable-dynamic` is on.
"""

import argparse
import os
import pathlib
import re
import shutil
import subprocess
import sys
import tempfile

TOP = pathlib.Path(__file__).resolve().parent.parent
sys.path.append(str(TOP / "tools"))
import common
import unstable

# The names that replace `super` in the tests of each file.
MODULES = {
    "src/aot/generator/utils.rs": ["lagvtsune::aot::utils::*", "clap::Command"],
    "src/env/shells.rs": ["lagvtsune::env::*"],
    "src/env/mod.rs": ["lagvtsune::env::*"],
}
# The reasons for which parts cannot pass, by parts of the compiler's messages.
REASONS = {
    r"error\[E0603\]|error\[E0624\]|error\[E0433\]: cannot find `shells` in `aot`": "private functions are tested",
    r"no method named `add` found": "this clap has no `Arg::add`",
}
MANIFEST = """[package]
name = "original"
version = "0.0.0"
edition = "2021"

[features]
default = ["unstable-dynamic", "unstable-shell-tests"]
unstable-dynamic = [{dynamic}]
unstable-shell-tests = []

[dependencies]
clap = {{ version = "4", features = ["derive", "string"] }}
lagvtsune = {{ path = "{package}", features = [{original}] }}
snapbox = {{ path = "../snapbox" }}
"""
SNAPBOX = '[package]\nname = "snapbox"\nversion = "0.0.0"\nedition = "2021"\n\n[lib]\npath = "lib.rs"\n'


class Part:
    """A program or a module of tests of the original."""

    def __init__(self, file, name, code, kind):
        self.file, self.name, self.code, self.kind = file, name, code, kind
        self.slug = re.sub(r"\W+", "_", f"{file}_{name}").strip("_").lower()

    @property
    def path(self):
        return ("tests/" if self.kind == "tests" else "examples/") + self.slug + ".rs"


def main():
    options = arguments()
    parts = [part for folder in options.sources for part in parts_of(folder)]
    with tempfile.TemporaryDirectory() as work:
        cargo = Cargo(pathlib.Path(work), options)
        for part in parts:
            cargo.put(part)
        cargo.build_all()
        rows = [(part, *cargo.run(part)) for part in parts]
    return report(rows, options)


def arguments():
    parser = argparse.ArgumentParser(usage=common.usage(__doc__))
    parser.add_argument("sources", type=pathlib.Path, nargs="?")
    parser.add_argument("--archive", type=os.path.realpath)
    parser.add_argument("--genuine", action="store_true")
    parser.add_argument("--clap", type=os.path.realpath)
    parser.add_argument("--verbose", action="store_true")
    options = parser.parse_args()
    named = [options.sources] if options.sources else []
    if options.genuine:
        crates = unstable.crates(unstable.default_folder())
        common.use_crates(crates)
        named = named or sorted(pathlib.Path(crates).glob("clap_complete-4.*"))
    if not named:
        parser.error("name the sources of clap_complete, or add --genuine")
    options.sources = named
    return options


def parts_of(folder):
    """Returns the parts in the files of a directory."""
    found = []
    for path in sorted(folder.rglob("*.rs*")):
        text = path.read_text(encoding="utf-8")
        file = crate_path(str(path.relative_to(folder)))
        sections = re.split(r"^// ===== (.*) =====\n", text, flags=re.MULTILINE)
        if len(sections) > 1:
            for title, section in zip(sections[1::2], sections[2::2]):
                found += section_parts(title.split()[0], section)
        elif file.startswith("src/"):
            found += examples(file, text)
            tests = re.search(r"^#\[cfg\(test\)\]\nmod \w+ \{\n.*^\}\n", text, re.MULTILINE | re.DOTALL)
            found += section_parts(file, tests[0]) if tests else []
        elif file.startswith("examples/"):
            found += section_parts(file, text)
    return found


def crate_path(name):
    """Returns the path of a file in its crate."""
    if not name.endswith(".txt"):
        return name
    stem = re.sub(r"(\.rs)?\.txt$", "", name)
    return stem.replace("-", "/") + ".rs"


def section_parts(file, code):
    """Returns the part of a section, without features of cargo that the package does not have."""
    if file.startswith("examples/"):
        return [Part(file, "", renamed(code), "tests")]
    return [Part(file, "tests", with_module(file, code), "tests")]


def with_module(file, code):
    """Replaces `super` in the `use` lines of tests."""
    code = renamed(code)
    uses = MODULES.get(file, [])
    lines = "".join(f"use {path};\n" for path in uses)
    if not re.search(r"^\s*use super::", code, re.MULTILINE):
        return lines + code
    indented = "".join(f"    use {path};\n" for path in uses)
    if uses:
        return re.sub(r"^\s*use super::\*;\n", lambda _: indented, code, flags=re.MULTILINE)
    module = "lagvtsune::" + "::".join(re.sub(r"^src/|\.rs$", "", file).split("/"))
    return re.sub(r"\bsuper::", module + "::", code)


def renamed(code):
    return re.sub(r"\bclap_complete\b", "lagvtsune", code)


def examples(file, text):
    """Returns the examples in the documentation of a file."""
    found, block, info = [], None, ""
    for number, line in enumerate(text.splitlines(), 1):
        match = re.match(r"\s*//[/!] ?(.*)$", line)
        if not match:
            block = None
        elif match[1].startswith("```"):
            if block is None:
                block, info = [], match[1][3:]
                continue
            if is_run(info):
                kind = "compiles" if "no_run" in info else "runs"
                found.append(Part(file, f"example before line {number}", program(block), kind))
            block = None
        elif block is not None:
            block.append(re.sub(r"^\s*# ?", "", match[1]) if re.match(r"\s*#( |$)", match[1]) else match[1])
    return found


def is_run(info):
    """Tells whether a block is Rust, and meant to be compiled."""
    words = set(re.findall(r"\w+", info))
    return words <= {"rust", "no_run"}


def program(lines):
    code = renamed("\n".join(lines)) + "\n"
    return code if re.search(r"^\s*fn main\(", code, re.MULTILINE) else f"fn main() {{\n{code}}}\n"


class Cargo:
    """Runs cargo on a package with the parts."""

    def __init__(self, work, options):
        self.package = work / "original"
        copy = work / "lagvtsune"
        shutil.copytree(TOP / "packages/rust/lagvtsune", copy, ignore=shutil.ignore_patterns("target", "Cargo.lock"))
        dynamic = has_add(options.clap) if options.clap else common.has_completers()
        common.fit_manifest(copy / "Cargo.toml", dynamic)
        put(work / "snapbox/Cargo.toml", SNAPBOX)
        put(work / "snapbox/lib.rs", (TOP / "tests/original.d/snapbox.rs").read_text(encoding="utf-8"))
        feature = '"lagvtsune/unstable-dynamic"' if dynamic else ""
        original = "" if options.archive else '"original"'
        put(self.package / "Cargo.toml", MANIFEST.format(dynamic=feature, package=copy, original=original))
        put(self.package / "src/lib.rs", "")
        self.flags = common.cargo_flags()
        if options.clap:
            self.flags += common.cargo_config("patch.crates-io.clap.path", options.clap)
        target = str(work / "target")
        self.environment = {**os.environ, "CARGO_TARGET_DIR": target, "LAGVTSUNE_DIR": options.archive or target}
        self.environment.pop("COMPLETE", None)

    def put(self, part):
        put(self.package / part.path, part.code)

    def build_all(self):
        """Builds all parts that can be built, several at once."""
        command = ["cargo", "build", "--quiet", "--examples", "--tests", "--keep-going", *self.flags]
        subprocess.run(command, cwd=self.package, env=self.environment, capture_output=True, check=False)

    def run(self, part):
        """Returns how many tests of a part passed and failed, and what cargo wrote."""
        words = {
            "tests": ["test", "--test", part.slug],
            "compiles": ["build", "--example", part.slug],
            "runs": ["run", "--example", part.slug],
        }[part.kind]
        command = ["cargo", words[0], "--quiet", *self.flags, *words[1:]]
        ran = subprocess.run(command, cwd=self.package, env=self.environment, capture_output=True, text=True)
        said = ran.stdout + ran.stderr
        counts = re.search(r"test result: .* (\d+) passed; (\d+) failed", said)
        if counts:
            return int(counts[1]), int(counts[2]), said
        if part.kind == "tests":
            return 0, len(re.findall(r"#\[test\]", part.code)), said
        return (1, 0, said) if ran.returncode == 0 else (0, 1, said)


def has_add(clap):
    """Tells whether the clap in this directory has the feature that lets arguments have completers."""
    return common.has_feature(os.path.join(clap, "Cargo.toml"))


def put(path, text):
    path.parent.mkdir(parents=True, exist_ok=True)
    path.write_text(text, encoding="utf-8")


def reason(said):
    """Returns the known reason of a failure, or `None`."""
    return next((why for part, why in REASONS.items() if re.search(part, said)), None)


def report(rows, options):
    """Prints a row for each part, and the sums. Returns the status."""
    sums, unknown = {"passed": 0, "failed": 0}, 0
    for part, passed, failed, said in rows:
        why = reason(said) if failed else ""
        unknown += failed if why is None else 0
        sums["passed"] += passed
        sums["failed"] += failed
        ran = f"{passed} passed" + (f", {failed} did not: {why or 'unknown reason'}" if failed else "")
        print(f"{part.file}, {part.name or 'program'} ({part.kind}): {ran}")
        if failed and (why is None or options.verbose):
            print(said)
    print(f"{sum(sums.values())} tests: {sums['passed']} passed, {sums['failed']} did not, {unknown} of these for no known reason")
    return 0 if sums["passed"] and not unknown else 1


if __name__ == "__main__":
    sys.exit(main())
