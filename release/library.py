"""Packs the library for C and other languages, and the package for Rust."""

import os
import shutil
import subprocess

import kit
from packing import copy, put, put_tar_xz, run

TARGET = kit.TARGET
ARCHIVE = "libcomplgen_c.a"
# The exporters, apart from those in the package for Python.
EXPORTERS = ("go/lagvtsune/cobra.go", "javascript/commander.js", "java/lagvtsune/GenerateTree.java")
LICENCES = ("NOTICE", "LICENSE-MIT", "LICENSE-APACHE")
# Not part of the Rust package.
LEFT_OUT = shutil.ignore_patterns("target", "native", "Cargo.lock")
PKG_CONFIG = """prefix=${{pcfiledir}}/../..
libdir=${{prefix}}/lib
includedir=${{prefix}}/include

Name: lagvtsune
Description: Shell completions for a command that a tree file describes
Version: {version}
Libs: -L${{libdir}} -llagvtsune
Cflags: -I${{includedir}}
"""


def put_library(args):
    """Writes liblagvtsune-VERSION-x86_64-linux.tar.xz, and returns the linker's command for the shared library."""
    name = f"liblagvtsune-{args.version}-x86_64-linux"
    root, own = args.work / name, args.source / "packages/c"
    (root / "lib").mkdir(parents=True)
    put_static(args, root / "lib/liblagvtsune.a")
    linked = put_shared(args, root / "lib")
    for header in ("lagvtsune.h", "lagvtsune_posix.h"):
        copy(own / header, root / "include" / header)
    put(root / "lib/pkgconfig/lagvtsune.pc", PKG_CONFIG.format(version=args.version))
    share = root / "share/lagvtsune"
    copy(own / "lagvtsune_posix.c", share / "lagvtsune_posix.c")
    for path in sorted((args.source / "packages/python/lagvtsune").glob("*.py")):
        copy(path, share / "lagvtsune" / path.name)
    for path in EXPORTERS:
        copy(args.source / "packages" / path, share / "exporters" / path)
    for language in ("c", "python"):
        examples = args.source / "packages" / language / "examples"
        for path in sorted(examples.rglob("*")):
            if path.is_file() and "__pycache__" not in path.parts:
                to = share / "examples" / language / path.relative_to(examples)
                copy(path, to, path.stat().st_mode & 0o777)
    put_licences(args, root / "share/doc/lagvtsune")
    put_tar_xz(root, args.out / f"{name}.tar.xz", args.time)
    return linked


def put_licences(args, folder):
    """Writes the licences of the library."""
    for licence in LICENCES:
        copy(args.source / licence, folder / licence)
    put(folder / "LICENSES-THIRD-PARTY", kit.licences(args, "complgen_c"))


def put_static(args, to):
    """Writes the static library: the proved archive, and memory.o as a member of its own."""
    objects, own = args.work / "objects", args.source / "packages/c"
    objects.mkdir()
    run("ar", "x", args.archive, cwd=objects)
    words = ["-std=c11", "-O2", "-fPIC", f"-ffile-prefix-map={own}=.", "-I", own, "-c", own / "memory.c"]
    run("cc", *words, "-o", objects / "memory.o")
    run("ar", "rcsD", to, *sorted(path.name for path in objects.iterdir()), cwd=objects)


def put_shared(args, folder):
    """Writes the shared library with its two links, and returns the command that linked it."""
    file, own = f"liblagvtsune.so.{args.version}", args.source / "packages/c"
    words = ["cc", "-shared", "-o", file, "-Wl,-soname,liblagvtsune.so.0", "-Wl,--gc-sections", "-Wl,--build-id=none"]
    words += ["-Wl,--version-script=lagvtsune.map", "-Wl,-z,relro,-z,now,-z,noexecstack"]
    words += ["-Wl,--whole-archive", "liblagvtsune.a", "-Wl,--no-whole-archive"]
    copy(own / "lagvtsune.map", folder / "lagvtsune.map")
    run(*words, cwd=folder)
    (folder / "lagvtsune.map").unlink()
    run("strip", "--strip-unneeded", folder / file)
    for link in ("liblagvtsune.so.0", "liblagvtsune.so"):
        (folder / link).symlink_to(file)
    return " ".join(words)


def put_crate(args):
    """Writes lagvtsune-VERSION.crate by `cargo package`: the Rust package with the archive in it.

    cargo needs no network and no crates for this. It gives all files one time of its own.
    """
    root, target = args.work / "crate", args.work / "target"
    shutil.copytree(args.source / "packages/rust/lagvtsune", root, ignore=LEFT_OUT)
    put_licences(args, root)
    copy(args.archive, root / "native" / TARGET / ARCHIVE)
    for path in root.rglob("*"):
        path.chmod(0o755 if path.is_dir() else 0o644)
    words = ["cargo", "package", "--quiet", "--offline", "--no-verify", "--allow-dirty", "--exclude-lockfile"]
    run(*words, cwd=root, env={**os.environ, "CARGO_TARGET_DIR": str(target)}, stderr=subprocess.DEVNULL)
    name = f"lagvtsune-{args.version}.crate"
    copy(target / "package" / name, args.out / name)
