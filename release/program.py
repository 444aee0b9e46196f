"""Packs the program: the archive with install.sh, and the Debian package."""

import hashlib
import json
import os
import re
import subprocess

from kit import licences
from man import schema_page
from man.roff import escaped
from pack import ANY_PYTHON, packed
from packing import copy, copy_folder, gzipped, put, put_tar_xz, run

# The programs: the proved one, and the one in Python that reads the help texts of others.
PROGRAM, IMPORTER = "complgen", "complgen-import"
PROGRAMS = (PROGRAM, IMPORTER)
# The files below share/ in which shells look for the completions of a program.
COMPLETIONS = {
    "bash": "bash-completion/completions/{}",
    "zsh": "zsh/site-functions/_{}",
    "fish": "fish/vendor_completions.d/{}.fish",
    "elvish": "elvish/lib/{}.elv",
}
DEBIAN_ZSH = "zsh/vendor-completions/_{}"
DEBIAN_PYTHON = "/usr/bin/python3"
TOP_DOCUMENTS = ("README.md", "NOTICE", "LICENSE-MIT", "LICENSE-APACHE")
# How a title begins: `complgen man` writes the name as it is, and no date.
TITLE = '.TH "{}" "1" "{}" '


def put_program(args, root, debian=False):
    """Writes all files of the program below a prefix."""
    stripped = args.work / "complgen.stripped"
    run("strip", "-o", stripped, args.program)
    copy(stripped, root / "bin" / PROGRAM, 0o755)
    put_importer(args, root / "bin" / IMPORTER, debian)
    put_completions(args, root / "share", debian)
    put_manuals(args, root / "share/man")
    put_documents(args, root / "share/doc/complgen", debian)


def put_importer(args, to, debian):
    """Writes complgen-import, which needs no compiler. Debian wants the path of its own interpreter."""
    put(to, packed(args.source, DEBIAN_PYTHON if debian else ANY_PYTHON), 0o755)


def put_completions(args, share, debian):
    """Writes the completions of both programs, one file for each shell."""
    for name in PROGRAMS:
        for shell, place in COMPLETIONS.items():
            place = DEBIAN_ZSH if debian and shell == "zsh" else place
            text = run(args.program, "script", "--shell", shell, "--bin", name, tree_of(args, name))
            put(share / place.format(name), text)


def tree_of(args, name):
    """Returns the path of a program's tree file."""
    return args.source / f"examples/{name}.json"


def put_manuals(args, folder):
    """Writes the man pages."""
    date = run("date", "-u", "-d", f"@{args.time}", "+%Y-%m-%d").strip()
    for name in PROGRAMS:
        put(folder / f"man1/{name}.1", manual(args, name, date))
    schema = args.source / "docs/tree.schema.json"
    put(folder / "man5/complgen-tree.5", schema_page.page(schema, date, args.version))


def manual(args, name, date):
    """Returns the page that `complgen man` writes for a program, with the version and the date of the release.

    What no tree file says, such as the exit status, is in release/man/NAME.end. It comes last.
    """
    tree = {**json.loads(tree_of(args, name).read_text()), "version": args.version}
    put(args.work / f"{name}.json", json.dumps(tree))
    page = run(args.program, "man", "--bin", name, args.work / f"{name}.json")
    begins = TITLE.format(escaped(name), "")
    if not page.startswith(begins):
        raise SystemExit(f"release: {name}.1 does not begin with {begins}")
    end = args.release / f"man/{name}.end"
    dated = page.replace(begins, TITLE.format(escaped(name.upper()), date), 1)
    return dated + (end.read_text() if end.exists() else "")


def put_documents(args, folder, debian):
    """Writes the documents, the schema, the example trees and the licences.

    No tree file goes to share/complgen: it would replace the completion of that program for everybody.
    """
    for name in TOP_DOCUMENTS:
        if not (debian and name.startswith("LICENSE")):
            copy(args.source / name, folder / name)
    copy_folder(args.source / "docs", folder / "docs")
    for path in sorted((args.source / "examples").glob("*.json")):
        copy(path, folder / "examples" / path.name)
    for path in sorted((args.source / "examples/values").iterdir()):
        copy(path, folder / "examples/values" / path.name)
    copy(args.source / "examples/git-tree", folder / "examples/git-tree", 0o755)
    put(folder / "LICENSES-THIRD-PARTY", licences(args, "complgen"))
    for page in sorted(folder.rglob("*.md")):
        put(page, with_live_links(page, folder))


def with_live_links(page, folder):
    """Returns a page without links to files that a release does not have: it keeps their texts."""

    def kept(link):
        file = link[2].partition("#")[0]
        target = os.path.normpath(page.parent / file)
        is_inside = target.startswith(str(folder)) and os.path.exists(target)
        return link[0] if is_inside or not file or "://" in file else link[1]

    return re.sub(r"(?<!!)\[([^\[\]\n]+)\]\(([^()\s]+)\)", kept, page.read_text())


def put_archive(args):
    """Writes complgen-VERSION-x86_64-linux.tar.xz."""
    name = f"complgen-{args.version}-x86_64-linux"
    root = args.work / name
    put_program(args, root)
    files = sorted(str(path.relative_to(root)) for path in root.rglob("*") if path.is_file())
    put(root / "FILES", "".join(f"{path}\n" for path in files))
    copy(args.release / "prefix/README", root / "README")
    for script in ("install.sh", "uninstall.sh"):
        copy(args.release / "prefix" / script, root / script, 0o755)
    put_tar_xz(root, args.out / f"{name}.tar.xz", args.time)


def put_debian_package(args):
    """Writes complgen_VERSION_amd64.deb."""
    root = args.work / "deb"
    put_program(args, root / "usr", debian=True)
    compress_manuals(root / "usr/share/man")
    put_debian_documents(args, root / "usr/share/doc/complgen")
    put(root / "DEBIAN/control", control(args, root))
    put(root / "DEBIAN/md5sums", md5sums(root))
    for path in [root, *root.rglob("*")]:
        path.chmod(0o755 if path.is_dir() or path.stat().st_mode & 0o100 else 0o644)
        os.utime(path, (args.time, args.time))
    to = args.out / f"complgen_{args.version}_amd64.deb"
    environment = {**os.environ, "SOURCE_DATE_EPOCH": str(args.time)}
    run("dpkg-deb", "--root-owner-group", "-Zxz", "--threads-max=1", "-b", root, to, env=environment)


def compress_manuals(folder):
    """Compresses the man pages, as Debian wants it."""
    for page in [path for path in folder.rglob("*") if path.is_file()]:
        put(page.with_name(page.name + ".gz"), gzipped(page.read_bytes()))
        page.unlink()


def put_debian_documents(args, folder):
    """Writes the files `copyright` and `changelog.gz`."""
    date = run("date", "-R", "-u", "-d", f"@{args.time}").strip()
    template = (args.release / "debian/copyright").read_text()
    licence = (args.source / "LICENSE-MIT").read_text().strip().split("\n")
    indented = "\n".join(f" {line}" if line.strip() else " ." for line in licence)
    year = run("date", "-u", "-d", f"@{args.time}", "+%Y").strip()
    put(folder / "copyright", template.replace("@YEAR@", year).replace("@MIT@", indented))
    # A version without a revision is that of a native package, which has only this changelog.
    entry = f"complgen ({args.version}) unstable; urgency=medium\n\n  * Release {args.version}.\n\n -- {args.maintainer}  {date}\n"
    put(folder / "changelog.gz", gzipped(entry.encode()))


def control(args, root):
    """Returns the control file. dpkg-shlibdeps computes the dependency on glibc."""
    put(args.work / "debian/control", "Source: complgen\n\nPackage: complgen\nArchitecture: amd64\n")
    needs = run("dpkg-shlibdeps", "-O", f"-e{root}/usr/bin/complgen", cwd=args.work, stderr=subprocess.DEVNULL)
    kilobytes = sum((path.stat().st_size + 1023) // 1024 if path.is_file() else 1 for path in root.rglob("*"))
    template = (args.release / "debian/control").read_text()
    values = {
        "VERSION": args.version, "MAINTAINER": args.maintainer, "SIZE": str(kilobytes),
        "DEPENDS": re.search("shlibs:Depends=(.*)", needs)[1],
    }
    for name, value in values.items():
        template = template.replace(f"@{name}@", value)
    return template


def md5sums(root):
    """Returns the sums of the package's files."""
    paths = [path for path in sorted(root.rglob("*")) if path.is_file() and "DEBIAN" not in path.parts[-2:]]
    return "".join(f"{hashlib.md5(path.read_bytes()).hexdigest()}  {path.relative_to(root)}\n" for path in paths)
