"""The run of a program up to the place where its library has the whole command line.

SPDX-License-Identifier: MIT OR Apache-2.0
"""

from __future__ import annotations

import argparse
import os
import runpy
import shutil
import sys
import tempfile
import traceback
from typing import Callable, NoReturn

from lagvtsune.trees import NotPlain, program_name, write_all


class Run:
    """The words of the exporter's own command line, and the run of the program that they name.

    What that program prints goes to the standard error, also what the programs print that it starts.
    """

    def __init__(self, module: str, about: str) -> None:
        parser = argparse.ArgumentParser(prog=f"python3 -m lagvtsune.{module}", description=about)
        parser.add_argument("--short", action="store_true", help="leave out the keys that no Tab reads")
        parser.add_argument("-o", "--out", metavar="FILE", help="write the tree file here, as a whole or not at all")
        parser.add_argument("program", metavar="PROGRAM", help="a program on the PATH, or the path of a script")
        options = parser.parse_args()
        self.short, self.out, self.name = options.short, options.out, program_name(options.program)
        path = shutil.which(options.program)
        if not path and os.path.isfile(options.program):
            path = options.program
        if not path:
            sys.exit(f"{options.program}: not found")
        self.path = os.path.abspath(path)
        self.stdout = os.dup(1)

    def start(self, *words: str) -> NoReturn:
        """Runs the program with these words. Ends with status 1 if it never comes to `end`."""
        os.dup2(2, 1)
        # A new stream, because the old one may have been a file's, and would still seek in it.
        stdout = open(1, "w", encoding=sys.stdout.encoding, errors=sys.stdout.errors, closefd=False)
        sys.stdout = sys.__stdout__ = stdout
        sys.argv[:] = [self.path, *words]
        sys.path[0] = os.path.dirname(os.path.realpath(self.path))
        try:
            runpy.run_path(self.path, run_name="__main__")
        except SystemExit as ended:
            if isinstance(ended.code, str):
                print(ended.code, file=sys.stderr)
        sys.exit(f"{self.name}: the program ended before it parsed its command line, so there is no tree file")

    def end(self, made: Callable[[], str]) -> NoReturn:
        """Writes the text that a function returns, and ends the process at once, so that the program does not go on.
        Ends with status 1 if that fails."""
        status = 1
        try:
            self.write(made().encode())
            status = 0
        except OSError as error:
            print(f"{self.out or 'standard output'}: write failed: {error.strerror}", file=sys.stderr)
        except NotPlain as error:
            print(error, file=sys.stderr)
        except BaseException:  # pylint: disable=broad-exception-caught
            traceback.print_exc()
        finally:
            for stream in (sys.stdout, sys.stderr):
                stream.flush()
            os._exit(status)

    def write(self, data: bytes) -> None:
        """Writes the file as a whole or not at all, or the standard output. Raises `OSError`."""
        if not self.out:
            write_all(self.stdout, data)
            return
        target = os.path.realpath(self.out)
        part = tempfile.NamedTemporaryFile(dir=os.path.dirname(target), prefix=".tree.", delete=False)
        try:
            with part:
                part.write(data)
            mask = os.umask(0o022)
            os.umask(mask)
            os.chmod(part.name, 0o666 & ~mask)
            os.replace(part.name, target)
        except OSError:
            os.unlink(part.name)
            raise
