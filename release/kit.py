"""What a release takes from the Rattle kit: the compiler, and the licences of the crates that are linked."""

import os
import pathlib
import re
import shutil
import subprocess
import sys
import textwrap

from packing import run

TARGET = "x86_64-unknown-linux-gnu"
# The program, and the archive for other languages.
BUILT = ("complgen", "complgen_c")
# The parts of a crate that a proof reads.
PARTS = ("src", "specs", "proofs")
# Archives in C that `rt` links into each program, below the kit.
C_ARCHIVES = ("c/libos_c.a", "c/liblibc_c.a")
# Files of glibc and GCC, of which `rattle-link` links into each program what it needs.
START_FILES = "Scrt1.o crti.o crtbeginS.o crtendS.o crtn.o libc_nonshared.a libgcc.a".split()
# Where a Debian system has these files and its C library.
PLACES_OF_LIBC = ("usr/lib/gcc/x86_64-linux-gnu/*", "lib/x86_64-linux-gnu", "usr/lib/x86_64-linux-gnu")


def kit_folder():
    """Returns the directory of the kit, which `rt doc` names."""
    return pathlib.Path(run("rt", "doc").strip()).parent


def crate_uses(source):
    """Returns what each crate of the repository uses, by crates.txt."""
    rows = [line.split("#")[0].partition(":") for line in (source / "crates.txt").read_text().splitlines()]
    return {name.split()[0]: uses.split() for name, _, uses in rows if name.strip()}


def below(crate, uses):
    """Returns the crates of the repository below a crate, the lowest first."""
    found = []
    for name in filter(uses.__contains__, uses[crate]):
        found += [it for it in [*below(name, uses), name] if it not in found]
    return found


def linked_of_kit(args, crate):
    """Returns the kit's crates that a crate contains, sorted: those of crates.txt, and those that they use."""
    uses, seen, left = crate_uses(args.source), set(), [crate]
    while left:
        name = left.pop()
        if name in seen:
            continue
        seen.add(name)
        if name in uses:
            left += uses[name]
        else:
            left += re.findall(r"^dep (\S+)", (args.kit / f"rlibs/{name}.rlib/format").read_text(), re.MULTILINE)
    return sorted(seen - uses.keys())


def licences(args, crate):
    """Returns the text of LICENSES-THIRD-PARTY for a crate: the parts without a licence, then each text once."""
    texts, without = {}, []
    for name in linked_of_kit(args, crate):
        paths = sorted((args.kit / "rattle" / name).glob("LICENSE*"))
        if not paths:
            without.append(name)
        for path in paths:
            texts.setdefault(path.read_text().strip(), []).append(f"{name} ({path.name})")
    if crate == "complgen":
        without += [*C_ARCHIVES, *(f"toolchain/lib/{name}" for name in START_FILES)]
    print(f"{crate}: linked from the kit without a licence: {' '.join(without)}", file=sys.stderr)
    wrapped = textwrap.fill(" ".join(without), 88, initial_indent="    ", subsequent_indent="    ", break_on_hyphens=False)
    head = (
        "The compiled files of this package may contain the parts of the Rattle toolchain kit\n"
        "that this file names. The kit states no licence for these parts:\n\n"
        f"{wrapped}\n\n"
        "So you may pass the compiled files on only if the owners of the kit permit it.\n\n"
        "The other parts are ports of published crates. Their licences follow.\n"
    )
    rule = "=" * 72
    return head + "".join(
        f"\n{rule}\n{', '.join(names)}\n{rule}\n\n{text}\n" for text, names in texts.items()
    )


def differing_crates(source, proved):
    """Returns the crates in the program and the archive whose files differ from those of the proof run."""
    uses = crate_uses(source)
    contained = {name for top in BUILT for name in [*below(top, uses), top]}
    return sorted(name for name in contained if files_of(source, name) != files_of(proved, name))


def files_of(top, crate):
    """Returns what a proof reads of a crate, by path."""
    folder = top / "crates" / crate
    paths = [path for part in PARTS for path in (folder / part).rglob("*") if path.is_file()]
    return {path.relative_to(folder): path.read_bytes() for path in paths}


def build(args, crate, to, *flags):
    """Proves and compiles a crate of the repository over the libraries that the proof run left.

    Runs `rattle build` as `rt lib` and `rt run` do, but writes only the file `to`. Takes what the proof run
    kept of this crate, unless all is to be proved anew. Returns the line of the verdict.
    """
    folder = args.source / "crates" / crate
    root = "src/main.rt" if (folder / "src/main.rt").exists() else "src/lib.rt"
    words = [args.kit / "bin/rattle", "build", "--crate-name", crate, root, *libraries(args, crate)]
    words += ["--antt-project", args.kit / "rattle/logic/antt-project.json", "--logic-built", args.kit / "logic_built"]
    words += ["--links", f"{crate}=", "--jobs", args.jobs, *flags, *(["--cpu", args.cpu] if args.cpu else [])]
    kept, own = args.proved / "crates" / crate / "out/incremental", args.work / f"{crate}.incremental"
    if kept.is_dir() and not args.anew:
        shutil.copytree(kept, own, symlinks=True)
        words += ["--incremental", own]
    words += ["--toolchain", args.kit / "toolchain", "--backend", "llvm", "-o", to]
    print(f"{crate}: proving and compiling it over the proved libraries", file=sys.stderr)
    said = run(*words, cwd=folder, stderr=subprocess.STDOUT)
    verdicts = [line for line in said.splitlines() if line.startswith("logic=proved ")]
    if not verdicts or not os.path.exists(to):
        raise SystemExit(f"{said[-2000:]}\nrelease: {crate} was not proved")
    return verdicts[-1]


def libraries(args, crate):
    """Returns the words that name the libraries below a crate, those of the kit and those of the proof run."""
    uses, of_kit = crate_uses(args.source), f"{args.kit}/rlibs"
    of_run = {name: f"{args.proved}/crates/{name}/out/rlib" for name in below(crate, uses)}
    words = ["--extern", f"std={of_kit}/std.rlib"]
    for name in uses[crate]:
        words += ["--extern", f"{name}={of_run.get(name, of_kit)}/{name}.rlib"]
    for folder in [of_kit, *of_run.values()]:
        words += ["-L", f"dependency={folder}"]
    return words


def link(args, compiled, to):
    """Links a program as `rt run` does, and returns the linker's line. With --libc, against an older C library."""
    toolchain = older_toolchain(args) if args.libc else args.kit / "toolchain"
    words = [args.kit / "bin/rattle-link", "--target", TARGET, "--toolchain", toolchain, "-o", to, compiled]
    return run(*words, *(args.kit / path for path in C_ARCHIVES), stderr=subprocess.STDOUT).strip()


def older_toolchain(args):
    """Makes a directory with the kit's linker and an older system's C library, and returns it."""
    folder = args.work / "toolchain"
    (folder / "lib").mkdir(parents=True)
    (folder / "bin").symlink_to(args.kit / "toolchain/bin")
    for path in sorted((args.kit / "toolchain/lib").iterdir()):
        found = [it for place in PLACES_OF_LIBC for it in sorted(args.libc.glob(f"{place}/{path.name}"))]
        if not found:
            raise SystemExit(f"release: {args.libc} has no {path.name}: install libc6-dev and libgcc-10-dev there")
        shutil.copyfile(found[-1], folder / "lib" / path.name)
    return folder
