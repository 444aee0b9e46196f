"""Types into bash, which completes an imported program."""

from __future__ import annotations

import os
import subprocess
from typing import Any

import common
import shells
from importing.room import IMPORTER, LONGEST, Room, TEXTS

LIVE = (
    # what is typed, what the program receives
    ("weft sp", ["spin"]), ("weft --out", ["--output"]), ("weft --color=al", ["--color=always"]),
    ("weft warp tie --kn", ["warp", "tie", "--knot"]),
    ("weft warp tie --knot gr", ["warp", "tie", "--knot", "granny"]), ("weft w t", ["w", "tie"]),
    ("weft --output note", ["--output", "notes.txt"]),
)


def try_live(room: Room, options: Any) -> None:
    """Types into bash, which has loaded the registration, and compares what the program receives."""
    if not room.proved or not common.is_installed("bash"):
        print(f"  live: skipped, because {'bash is not installed' if room.proved else 'no proved complgen is built'}")
        return
    with shells.TreeScratch(room.proved) as scratch:
        scratch.recorder("record-weft")
        scratch.script("weft", f"#!/bin/sh\ncase $* in *--help*) ;; *) exec record-weft \"$@\" ;; esac\n"
                       f"at='{TEXTS}/clap'\nfor word do case $word in -*) ;; *) at=$at/$word ;; esac; done\ncat \"$at/help.txt\"\n")
        words = ["--walk", "--force", "--out-dir", scratch.trees, "weft"]
        environment = {**scratch.environment, "COMPLGEN": room.proved, "PYTHONPATH": common.TOP}
        ran = subprocess.run([*IMPORTER, *words], env=environment, stdin=subprocess.DEVNULL, stdout=subprocess.PIPE,
                             stderr=subprocess.PIPE, timeout=LONGEST)
        room.expect("status", 0, ran.returncode)
        common.write(os.path.join(scratch.here, "notes.txt"), "")
        with shells.started("bash", scratch, scratch.written("bash")) as shell:
            for typed, expected in LIVE:
                room.expect(typed, expected, shell.received(typed))
