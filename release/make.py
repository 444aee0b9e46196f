#!/usr/bin/env python3
"""Makes the files of a release from what a proof run left.

    release/make.py [OPTION..]

It needs a commit whose gate passed, and `rt`. Without options, it takes crates/complgen/out/complgen of this
repository, builds the archive for other languages over the libraries in crates/*/out/rlib, and writes to
release/out:

- complgen-VERSION-x86_64-linux.tar.xz, the program with install.sh and uninstall.sh;
- complgen_VERSION_amd64.deb, the same for Debian;
- liblagvtsune-VERSION-x86_64-linux.tar.xz, the library for C and other languages;
- lagvtsune-VERSION.crate, the package for Rust;
- PROVED, which says what was proved, and by which toolchain;
- SHA256SUMS.

The same commit, toolchain and compiler give the same bytes each time. The script stops if the repository has
changes that are not committed, or if the crates differ from those in the directory of the proof run.
release/README.md describes how to check a release.
"""

import argparse
import hashlib
import os
import pathlib
import re
import tempfile

import kit
import library
import program
from packing import fix_environment, fresh, put, run

RELEASE = pathlib.Path(__file__).resolve().parent
TOP = RELEASE.parent
# The two places of the version, in this order.
VERSIONS = {
    "crates/complgen_command_line/src/texts.rt": r'const VERSION: &str = "(\d+\.\d+\.\d+)',
    "packages/rust/lagvtsune/Cargo.toml": r'^version = "(\d+\.\d+\.\d+)"$',
}
NOT_GIVEN = "not given"


def main():
    args = arguments()
    fix_environment()
    args.release = RELEASE
    args.kit = args.kit or kit.kit_folder()
    args.version = version(args.source)
    args.time = int(git(args, "log", "-1", "--format=%ct"))
    check_inputs(args)
    fresh(args.out)
    with tempfile.TemporaryDirectory(prefix="release-") as work:
        args.work = pathlib.Path(work)
        build_missing(args)
        program.put_archive(args)
        program.put_debian_package(args)
        shared = library.put_library(args)
        library.put_crate(args)
        put(args.out / "PROVED", proved(args, shared))
    sums = "".join(f"{sha256(path)}  {path.name}\n" for path in sorted(args.out.iterdir()))
    put(args.out / "SHA256SUMS", sums)
    print(sums, end="")


def arguments():
    parser = argparse.ArgumentParser(usage=__doc__.split("\n\n")[1].strip(), add_help=True)

    def path(text):
        return pathlib.Path(text).resolve()

    parser.add_argument("--source", type=path, default=TOP, help="the repository (default: this one)")
    parser.add_argument("--proved", type=path, help="the directory of the proof run (default: the repository)")
    parser.add_argument("--program", type=path, help="another program than crates/complgen/out/complgen there")
    parser.add_argument("--archive", type=path, help="an archive libcomplgen_c.a, which is then not built")
    parser.add_argument("--kit", type=path, help="the directory of the kit (default: the one that `rt doc` names)")
    parser.add_argument("--out", type=path, default=RELEASE / "out", help="the directory for the files")
    parser.add_argument("--cpu", choices=["x86-64", "x86-64-v2", "x86-64-v3"],
                        help="builds the program and the archive for this processor")
    parser.add_argument("--libc", type=path,
                        help="with --cpu: links the program against the C library of this root of an older Debian")
    parser.add_argument("--anew", action="store_true", help="takes nothing that the proof run kept of a crate that is built")
    parser.add_argument("--jobs", default="2", help="the number of jobs of a build (default: 2)")
    parser.add_argument("--gate", default=NOT_GIVEN, help="the gate's last line for this commit")
    parser.add_argument("--linker", default=NOT_GIVEN, help="the linker's line for the program")
    parser.add_argument("--maintainer", default="Lagvtsune authors <lagvtsune@example.org>")
    parser.add_argument("--changed", action="store_true", help="permits changes that are not committed")
    args = parser.parse_args()
    if args.libc and not args.cpu:
        parser.error("--libc needs --cpu, because the proof run leaves no object file")
    args.proved = args.proved or args.source
    args.program = args.program or args.proved / "crates/complgen/out/complgen"
    return args


def git(args, *words):
    """Returns what git prints about the repository."""
    return run("git", "-C", args.source, *words).strip()


def version(source):
    """Returns the version. Stops if the program and the Rust package have different ones."""
    found = {}
    for name, pattern in VERSIONS.items():
        match = re.search(pattern, (source / name).read_text(), re.MULTILINE)
        found.update({name: match[1]} if match else {})
    if len(set(found.values())) != 1:
        raise SystemExit(f"release: the versions differ, or there is none: {found}")
    return next(iter(found.values()))


def check_inputs(args):
    """Stops if the inputs are not those of the commit."""
    changes = git(args, "status", "--porcelain", "--untracked-files=no")
    if changes and not args.changed:
        raise SystemExit(f"release: these changes are not committed:\n{changes}")
    differing = kit.differing_crates(args.source, args.proved)
    if differing:
        raise SystemExit(f"release: the proof run was about other files of: {' '.join(differing)}")
    if not args.cpu and not os.access(args.program, os.X_OK):
        raise SystemExit(f"release: there is no program {args.program}")


def build_missing(args):
    """Builds the archive if no one is given, and with --cpu also the program."""
    args.verdicts = {}
    if args.cpu:
        compiled, args.program = args.work / "complgen.o", args.work / "complgen"
        args.verdicts["complgen"] = kit.build(args, "complgen", compiled)
        args.linker = kit.link(args, compiled, args.program)
    if not args.archive:
        args.archive = args.work / library.ARCHIVE
        args.verdicts["complgen_c"] = kit.build(args, "complgen_c", args.archive, "--crate-type", "staticlib")


def proved(args, shared):
    """Returns the text of PROVED."""
    changed = " with changes that are not committed" if args.changed and git(args, "status", "--porcelain") else ""
    rows = {
        "version": args.version,
        "commit": git(args, "rev-parse", "HEAD") + changed,
        "toolchain": run("rt", "version").strip(),
        "processor": args.cpu or "x86-64-v2",
        "gate": args.gate,
        "linker of the program": args.linker,
        "linker of the shared library": shared,
        "compiler of memory.o": run("cc", "--version").splitlines()[0],
        "packer of the crate": run("cargo", "--version").strip(),
        **{f"verdict of {crate}": line for crate, line in args.verdicts.items()},
        "compilers in the program": comments(args.program),
        "sha256 of the program as linked": sha256(args.program),
    }
    return "".join(f"{name}: {value}\n" for name, value in rows.items())


def comments(path):
    """Returns the notes that compilers left in a program, which name the logic of the prover."""
    return "; ".join(re.findall(r"^ *\[ *\w+\] *(.*)$", run("readelf", "-p", ".comment", path), re.MULTILINE))


def sha256(path):
    return hashlib.sha256(path.read_bytes()).hexdigest()


if __name__ == "__main__":
    main()
