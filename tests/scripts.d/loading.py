"""Puts a script where a shell looks for it, and types lines there."""

from __future__ import annotations

import os
from typing import List

import compared
import model
import shells

WORDS = (("app", "in"), ("app", ""), ("app", "src", "key", ""), ("app", "install", "--fr"), ("app", "--verbose", "--"))


def tried(name: str, complgen: str, tree: str) -> List[str]:
    """Returns what is not as expected, if a shell loads the script by itself."""
    with compared.scratch_with_files() as scratch:
        setup = put(name, scratch, compared.script_of(complgen, name, tree))
        faults = typed(name, scratch, setup, tree)
        if name == "zsh":
            with open(os.path.join(scratch.home, ".zcompdump"), encoding="utf-8") as file:
                if "'app' '_app'" not in file.read():
                    faults.append("the dump of compinit does not name _app")
            faults += typed(name, scratch, setup, tree)
        return faults


def put(name: str, scratch: shells.Scratch, script: str) -> str:
    """Writes the script of a shell to its place, and returns the lines of the start file that docs/INSTALL.md names."""
    place = {"bash": ".local/share/bash-completion/completions/app", "zsh": ".zfunc/_app",
             "fish": ".config/fish/completions/app.fish", "elvish": ".config/elvish/lib/app.elv"}[name]
    shells.write(os.path.join(scratch.home, place), script)
    return {"bash": f"source {shells.BASH_COMPLETION}",
            "zsh": "fpath=(~/.zfunc $fpath); autoload -U compinit; compinit",
            "fish": "", "elvish": "use app"}[name]


def typed(name: str, scratch: shells.Scratch, setup: str, tree: str) -> List[str]:
    root, version = compared.root_of(tree), compared.version_of(name)
    faults = []
    with shells.started(name, scratch, setup=setup) as shell:
        shell.settle(0.2)
        for words in WORDS:
            line = model.Line(words[:-1], words[-1], "loading")
            outcome = compared.tried(shell, root, line, version)
            if outcome.told:
                faults.append(f"{line.text!r}: {outcome.told}")
        if name == "bash" and "install" not in shell.offered("sudo app in"):
            faults.append("nothing is offered behind sudo")
    return faults
