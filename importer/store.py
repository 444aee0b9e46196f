"""The tree files: written as a whole or not at all, remembered, and removed again.

Beside the tree files, the directory `.complgen-import` has a record for each file that contains nothing but what this
program wrote: the file's checksum, as `sha256sum` prints it. Only such a file is removed."""

from __future__ import annotations

import contextlib
import hashlib
import os
import tempfile
from typing import Optional

from importer.failures import Failure

RECORDS = ".complgen-import"


class TreeFile:
    """The tree file of a program."""

    def __init__(self, folder: str, name: str) -> None:
        self.name, self.place = name, os.path.join(folder, name + ".json")
        # If the file is a link, its target is written.
        self.target = os.path.realpath(self.place)
        self.record = os.path.join(folder, RECORDS, name)

    def exists(self) -> bool:
        """Tells whether there is a file, of whatever kind."""
        return os.path.lexists(self.target)

    def data(self) -> bytes:
        """Returns what is in the file."""
        try:
            with open(self.target, "rb") as file:
                return file.read()
        except OSError:
            raise Failure(f"{self.name}: {self.target}: tree: unreadable") from None

    def write(self, data: bytes, old: Optional[bytes], may_replace: bool) -> None:
        """Writes the file. `old` is what it contained, if that is a part of `data`. Fails if another program has
        changed it meanwhile, and it may not be replaced."""
        if not may_replace and (self.data() if self.exists() else None) != old:
            raise Failure(f"{self.name}: {self.target} was changed meanwhile, and was kept")
        is_ours = not os.path.islink(self.place) and (old is None or self.recorded() == checksum(old))
        write_whole(self.target, data)
        if is_ours:
            write_whole(self.record, f"{checksum(data)}  {self.name}.json\n".encode())
        else:
            self.forget()

    def recorded(self) -> Optional[str]:
        """Returns the checksum in the record, if there is one."""
        try:
            with open(self.record, encoding="ascii", errors="replace") as file:
                return file.read(64)
        except OSError:
            return None

    def forget(self) -> None:
        """Removes the record, and the directory of records if it is empty."""
        with contextlib.suppress(OSError):
            os.unlink(self.record)
        with contextlib.suppress(OSError):
            os.rmdir(os.path.dirname(self.record))

    def remove(self, even_if_changed: bool) -> None:
        """Removes the file if this program wrote it, and nobody else changed it since."""
        if not os.path.lexists(self.place):
            self.forget()
            raise Failure(f"{self.name}: {self.place} does not exist")
        recorded = self.recorded()
        if recorded is None or os.path.islink(self.place):
            raise Failure(f"{self.name}: {self.place} was kept, because not all of it is from complgen-import")
        if recorded != checksum(self.data()) and not even_if_changed:
            raise Failure(f"{self.name}: {self.place} was changed since, and was kept (--force removes it)")
        os.unlink(self.place)
        self.forget()


def checksum(data: bytes) -> str:
    """Returns the SHA-256 of some bytes, in digits."""
    return hashlib.sha256(data).hexdigest()


def write_whole(target: str, data: bytes) -> None:
    """Writes a file as a whole or not at all."""
    part = ""
    try:
        os.makedirs(os.path.dirname(target), exist_ok=True)
        descriptor, part = tempfile.mkstemp(dir=os.path.dirname(target), prefix=".complgen-import.")
        with open(descriptor, "wb") as file:
            file.write(data)
            file.flush()
            os.fsync(file.fileno())
        os.chmod(part, 0o666 & ~mask())
        os.replace(part, target)
    except OSError as error:
        raise Failure(f"{target}: write failed: {error.strerror}") from None
    finally:
        with contextlib.suppress(OSError):
            os.unlink(part)


def mask() -> int:
    """Returns the permissions that new files do not get."""
    found = os.umask(0o022)
    os.umask(found)
    return found
