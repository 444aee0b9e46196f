"""A scratch directory with made-up programs, and the importer, which runs them. A stub stands for complgen."""

import json
import os
import shutil
import signal
import subprocess
import sys
import tempfile
import time
import unittest

TOP = os.path.dirname(os.path.dirname(os.path.dirname(os.path.abspath(__file__))))
# Far more than a run takes, also on a busy machine.
LONGEST = 120


class Room(unittest.TestCase):
    """A directory for each test: programs in `bin`, the home directory, and the directory of scratch files."""

    maxDiff = None

    def setUp(self):
        self.room = os.path.realpath(tempfile.mkdtemp(prefix="importer-test."))
        self.addCleanup(shutil.rmtree, self.room)
        self.bin, self.home, self.temporary, self.trees = (
            self.path(name) for name in ("bin", "home", "temporary", "data/complgen"))
        for folder in (self.bin, self.home, self.temporary):
            os.mkdir(folder)
        self.script("complgen", 'printf "%s\\n" "$*" >>"$0.log"', "exit 0")
        # Sleeping programs of this test have this number of seconds, by which they are found.
        self.nap = f"9876.{os.getpid()}"

    def path(self, *names):
        return os.path.join(self.room, *names)

    def write(self, path, data):
        os.makedirs(os.path.dirname(path), exist_ok=True)
        with open(path, "wb") as file:
            file.write(data if isinstance(data, bytes) else data.encode())
        return path

    def script(self, name, *lines):
        """Makes a program for the shell."""
        path = self.write(os.path.join(self.bin, name), "\n".join(["#!/bin/sh", *lines, ""]))
        os.chmod(path, 0o755)
        return path

    def printing(self, name, text):
        """Makes a program that prints a text."""
        self.script(name, f"cat '{self.write(self.path('texts', name), text)}'")

    def environment(self, **more):
        return {"PATH": self.bin + ":/usr/bin:/bin", "HOME": self.home, "XDG_DATA_HOME": self.path("data"),
                "XDG_DATA_DIRS": self.path("system"), "FPATH": self.path("functions"), "TMPDIR": self.temporary,
                "COMPLGEN": os.path.join(self.bin, "complgen"), "PYTHONPATH": TOP, "PYTHONDONTWRITEBYTECODE": "1",
                **more}

    def begin(self, *words, **more):
        """Starts the importer. Each program gets a minute, because the machine may be busy."""
        how = {"stdin": subprocess.DEVNULL, "stdout": subprocess.PIPE, "stderr": subprocess.PIPE,
               "env": self.environment(), "cwd": self.room, **more}
        return subprocess.Popen([sys.executable, "-m", "importer", "--seconds", "60", *words], **how)

    def run_importer(self, *words, **more):
        """Runs the importer. Returns its status, its output and its messages without the program's name."""
        given = more.pop("input", None)
        more.update({"stdin": subprocess.PIPE} if given is not None else {})
        process = self.begin(*words, **more)
        out, errors = process.communicate(given, timeout=LONGEST)
        self.assertEqual([], os.listdir(self.temporary), "left in the scratch directory")
        self.assertNotIn(b"Traceback", errors or b"")
        messages = (errors or b"").decode().replace("complgen-import: ", "")
        return process.returncode, (out or b"").decode(), messages

    def tree(self, name):
        with open(os.path.join(self.trees, name + ".json"), encoding="utf-8") as file:
            return json.load(file)

    def names(self, name):
        return [it.get("long", it.get("short")) for it in self.tree(name).get("args", [])]

    def has_tree(self, name):
        return os.path.lexists(os.path.join(self.trees, name + ".json"))

    def sleeping(self):
        """Returns the processes that sleep for the seconds of this test."""
        found = []
        for process in filter(str.isdigit, os.listdir("/proc")):
            try:
                with open(f"/proc/{process}/cmdline", "rb") as file:
                    found += [int(process)] if self.nap.encode() in file.read().split(b"\0") else []
            except OSError:
                pass
        return found

    def left_sleeping(self):
        """Returns the processes that still sleep after a while. One that was killed may be there for a moment."""
        end = time.monotonic() + LONGEST
        while self.sleeping() and time.monotonic() < end:
            time.sleep(0.05)
        return self.sleeping()

    def end_sleeping(self):
        for process in self.sleeping():
            os.kill(process, signal.SIGKILL)
