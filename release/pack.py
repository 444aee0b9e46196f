#!/usr/bin/env python3
"""Packs complgen-import into one executable file.

    release/pack.py FILE [PYTHON]

The file holds the package `importer` without its tests, and needs Python 3.8 or later and nothing else. PYTHON is the
path of the interpreter in its first line (default: /usr/bin/env python3). The same sources give the same bytes each time.
"""

import io
import pathlib
import sys
import zipfile

from packing import put

TOP = pathlib.Path(__file__).resolve().parent.parent
PACKAGE = "importer"
ANY_PYTHON = "/usr/bin/env python3"
# The earliest time that a ZIP archive can have.
TIME = (1980, 1, 1, 0, 0, 0)
# What Python runs of an archive.
START = """import sys
from importer.main import main
sys.exit(main())
"""


def packed(source, python=ANY_PYTHON):
    """Returns the bytes of complgen-import, packed from the repository at a path."""
    files = {f"{PACKAGE}/{path.name}": path.read_bytes() for path in (source / PACKAGE).glob("*.py")}
    files["__main__.py"] = START.encode()
    made = io.BytesIO()
    made.write(f"#!{python}\n".encode())
    with zipfile.ZipFile(made, "a") as archive:
        for name in sorted(files):
            member = zipfile.ZipInfo(name, TIME)
            member.create_system, member.external_attr = 3, 0o644 << 16
            archive.writestr(member, files[name], zipfile.ZIP_DEFLATED, 9)
    return made.getvalue()


def main():
    if len(sys.argv) not in (2, 3):
        sys.exit(__doc__.split("\n\n")[1].strip())
    put(pathlib.Path(sys.argv[1]), packed(TOP, *sys.argv[2:]), 0o755)


if __name__ == "__main__":
    main()
