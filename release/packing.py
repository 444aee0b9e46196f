"""Writes the files of a release, so that the same files give the same bytes each time."""

import gzip
import io
import lzma
import os
import shutil
import subprocess
import tarfile

# The variables that programs called here could depend on.
FIXED = {"LC_ALL": "C.UTF-8", "TZ": "UTC"}
FORGOTTEN = ("COMPLETE", "CFLAGS", "CPPFLAGS", "LDFLAGS", "TAR_OPTIONS", "XZ_OPT", "GZIP", "RUSTFLAGS")


def fix_environment():
    """Fixes what the output could depend on: the permissions of new files, the locale, the time zone."""
    os.umask(0o022)
    os.environ.update(FIXED)
    for name in FORGOTTEN:
        os.environ.pop(name, None)


def run(*words, **how):
    """Runs a program and returns its output. Ends the script if it fails."""
    how = {"check": True, "stdout": subprocess.PIPE, "text": True, "stdin": subprocess.DEVNULL, **how}
    try:
        return subprocess.run([str(word) for word in words], **how).stdout
    except FileNotFoundError:
        raise SystemExit(f"release: there is no program {words[0]}") from None
    except subprocess.CalledProcessError as failed:
        lines = (failed.stdout or "").splitlines()[-20:]
        raise SystemExit("\n".join([*lines, f"release: {words[0]} ended with status {failed.returncode}"])) from None


def put(path, data, mode=0o644):
    """Writes a file of text or bytes, and the directories above it."""
    path.parent.mkdir(parents=True, exist_ok=True)
    path.write_bytes(data if isinstance(data, bytes) else data.encode())
    path.chmod(mode)


def copy(source, to, mode=0o644):
    """Copies the contents of a file."""
    put(to, source.read_bytes(), mode)


def copy_folder(source, to):
    """Copies the contents of a directory, without hidden files."""
    for path in sorted(source.rglob("*")):
        inside = path.relative_to(source)
        if path.is_file() and not any(part.startswith(".") for part in inside.parts):
            copy(path, to / inside)


def tar(folder, time):
    """Returns the bytes of a tar archive of a directory: sorted names, one time, owner 0."""
    raw = io.BytesIO()
    with tarfile.open(fileobj=raw, mode="w", format=tarfile.USTAR_FORMAT) as archive:
        for path in [folder, *sorted(folder.rglob("*"))]:
            member = archive.gettarinfo(path, path.relative_to(folder.parent))
            member.uid = member.gid = 0
            member.uname = member.gname = "root"
            member.mtime = time
            member.mode = 0o755 if member.isdir() or member.mode & 0o100 else 0o644
            with open(path, "rb") if member.isreg() else io.BytesIO() as data:
                archive.addfile(member, data if member.isreg() else None)
    return raw.getvalue()


def put_tar_xz(folder, to, time):
    """Writes a directory as a `.tar.xz`."""
    put(to, lzma.compress(tar(folder, time), preset=9 | lzma.PRESET_EXTREME))


def gzipped(data):
    """Returns data as gzip writes it, without a name and a time."""
    made = io.BytesIO()
    with gzip.GzipFile(fileobj=made, mode="wb", compresslevel=9, mtime=0) as file:
        file.write(data)
    return made.getvalue()


def fresh(folder):
    """Empties a directory, or creates it."""
    shutil.rmtree(folder, ignore_errors=True)
    folder.mkdir(parents=True)
    return folder
