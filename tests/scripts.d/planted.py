"""Errors that are planted in the scripts of examples/larder.json. The lines have to show each."""

from __future__ import annotations

from typing import List, NamedTuple, Optional, Tuple

import compared
import model
import shells


class Error(NamedTuple):
    """An error: what it is, the text of the script that is replaced everywhere, and a text of the lines that are typed."""

    shell: str
    what: str
    old: str
    new: str
    near: str


ERRORS = (
    Error("bash", "an alias is missing in the list of the root", " remove rm update ", " remove update ", "app r"),
    Error("bash", "two names are swapped", " install i add ", " i install add ", "app i"),
    Error("bash", "a label is broken", 'cmd="app__subcmd__install"', 'cmd="app__subcmd__instal"', " install "),
    Error("bash", "a possible value is missing", '"auto always never"', '"auto never"', "--colo"),
    Error("fish", "a condition names another command", "__fish_app_using_subcommand install\"",
          "__fish_app_using_subcommand instal\"", " install "),
    Error("fish", "a condition lacks `not`", "; and not __fish_seen_subcommand_from",
          "; and __fish_seen_subcommand_from", "app src "),
    Error("fish", "an option of the root is read as a flag", " root= ", " root ", "app --root"),
    Error("fish", "a description is another one's", "-d 'Update packages", "-d 'Remove packages", "app u"),
    Error("zsh", "two conflicts are swapped", "'(-q --quiet)*--verbose[", "'(-v --verbose)*--verbose[", "--verbose -"),
    Error("zsh", "an option may not be used again", "*--verbose[", "--verbose[", "--verbose -"),
    Error("zsh", "an alias leads nowhere", "\n(i)\n", "\n(ii)\n", " i "),
    Error("zsh", "an option takes no value", "'--from=[Take the packages from this source]:SOURCE:_default'",
          "'--from[Take the packages from this source]'", "--fr"),
    Error("elvish", "an option lacks its `--`", "cand --color ", "cand color ", "app s"),
    Error("elvish", "a table has another name", "&'app;src;rm'=", "&'app;src;rn'=", "src rm "),
)


def tried(error: Error, complgen: str, tree: str, seed: int) -> str:
    """Returns the first line that shows an error, and is as expected without it, or an empty text."""
    script = compared.script_of(complgen, error.shell, tree)
    if error.old not in script:
        return ""
    lines = [line for line in model.drawn(compared.root_of(tree), "", 10000, seed) if error.near in line.text + " "]
    line, told = first_fault(error.shell, script.replace(error.old, error.new), lines, tree)
    if not line or first_fault(error.shell, script, [line], tree)[0]:
        return ""
    return f"{line.text!r}: {told}"


def first_fault(name: str, script: str, lines: List[model.Line], tree: str) -> Tuple[Optional[model.Line], str]:
    """Returns the first line that is not as expected, and what is not."""
    root, version = compared.root_of(tree), compared.version_of(name)
    with compared.scratch_with_files() as scratch:
        with shells.started(name, scratch, script) as shell:
            shell.settle(0.2)
            for line in lines:
                told = compared.tried(shell, root, line, version).told
                if told:
                    return line, told
    return None, ""
