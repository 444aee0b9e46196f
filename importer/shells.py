"""The completions that shells have of their own for a program. Only files are looked at: no shell is started."""

from __future__ import annotations

import functools
import glob
import itertools
import os
import re
import shutil
from typing import Callable, Dict, Iterable, List, Optional

BASH_FILES = ("{}", "{}.bash", "_{}")
ZSH_FOLDERS = ("~/.zfunc", "~/.local/share/zsh/site-functions", "/usr/local/share/zsh/site-functions",
               "/usr/share/zsh/vendor-functions", "/usr/share/zsh/vendor-completions", "/usr/share/zsh/site-functions",
               "/usr/share/zsh/functions/**/", "/usr/share/zsh/[0-9]*/functions/**/",
               "/usr/local/share/zsh/[0-9]*/functions/**/")
# The zsh of Debian searches the first of these two directories in place of the second.
DEBIAN_FOLDER, OTHERS_FOLDER = "/usr/share/zsh/vendor-completions", "/usr/share/zsh/site-functions"
COMPDEF = "#compdef"
# The options in a first line, which patterns and keys follow.
COMPDEF_OPTION = re.compile("-[a-zA-Z]")


def own_completions(name: str) -> Dict[str, Optional[str]]:
    """Returns for each shell that is installed the file with which it completes a program, if there is one."""
    finders: Dict[str, Callable[[str], Optional[str]]] = {"bash": bash_file, "zsh": zsh_file, "fish": fish_file}
    return {shell: finder(name) for shell, finder in finders.items() if shutil.which(shell)}


def replaced(name: str) -> str:
    """Returns a line about the completions of a program beside which a tree file would come. It is empty if there are
    none. bash and zsh use the tree file alone, and fish offers both."""
    found = {shell: path for shell, path in own_completions(name).items() if path}
    theirs = [f"that of {shell} ({found[shell]})" for shell in ("bash", "zsh") if shell in found]
    parts = [f"replaces {' and '.join(theirs)}"] if theirs else []
    parts += [f"adds to that of fish ({found['fish']})"] if "fish" in found else []
    return f"{name}: in new shells, this completion {' and '.join(parts)}" if parts else ""


def used_now(name: str) -> str:
    """Returns with what each shell completes a program whose tree file was removed."""
    tree = first_file(os.path.join(folder, name + ".json") for folder in tree_folders())
    if tree:
        return f"the tree file {tree}"
    return ", ".join(f"{path or 'no file'} ({shell})" for shell, path in own_completions(name).items())


def bash_file(name: str) -> Optional[str]:
    """Returns the file that bash-completion reads for a program."""
    user = os.environ.get("BASH_COMPLETION_USER_DIR") or os.path.join(home_of_data(), "bash-completion")
    folders = [user, *(os.path.join(it, "bash-completion") for it in data_folders())]
    files = [os.path.join(folder, "completions", it.format(name)) for folder in folders for it in BASH_FILES]
    return first_file([*files, *(os.path.join("/etc/bash_completion.d", it.format(name)) for it in BASH_FILES[:2])])


def fish_file(name: str) -> Optional[str]:
    """Returns the file that fish reads for a program."""
    settings = os.environ.get("XDG_CONFIG_HOME") or os.path.expanduser("~/.config")
    folders = [os.path.join(settings, "fish/completions"), "/etc/fish/completions"]
    folders += [os.path.join(it, "fish/vendor_completions.d") for it in (home_of_data(), *data_folders())]
    folders += ["/usr/local/share/fish/completions", "/usr/share/fish/completions"]
    folders += [os.path.join(home_of_data(), "fish/generated_completions")]
    return first_file(os.path.join(folder, name + ".fish") for folder in folders)


def zsh_file(name: str) -> Optional[str]:
    """Returns the function that zsh uses for a program."""
    return zsh_functions(os.environ.get("FPATH", "")).get(name)


@functools.lru_cache(maxsize=1)
def zsh_functions(folders: str) -> Dict[str, str]:
    """Returns the first function for each program that the functions name in their first lines. The directories are
    those of the variable FPATH, which is seldom exported, or else the usual ones."""
    usual = [it for it in ZSH_FOLDERS if it != OTHERS_FOLDER or not os.path.isdir(DEBIAN_FOLDER)]
    places = folders.split(":") if folders else [path for it in usual for path in sorted(
        glob.glob(os.path.expanduser(it), recursive=True))]
    found: Dict[str, str] = {}
    for path in (file for place in places for file in sorted(glob.glob(os.path.join(glob.escape(place), "_*")))):
        for name in names_in(path):
            found.setdefault(name, path)
    return found


def names_in(path: str) -> List[str]:
    """Returns the names of programs in the first line of a function of zsh. Contexts, such as `-value-`, are left out,
    and so is what follows an option."""
    try:
        with open(path, encoding="utf-8", errors="replace") as file:
            words = file.readline(10_000).split()
    except OSError:
        return []
    if words[:1] != [COMPDEF]:
        return []
    names = itertools.takewhile(lambda word: not COMPDEF_OPTION.fullmatch(word), words[1:])
    return [word.partition("=")[0] for word in names if not word.startswith("-")]


def tree_folders() -> List[str]:
    """Returns the directories in which live completion looks for tree files."""
    named = os.environ.get("COMPLGEN_PATH")
    if named is not None:
        return list(filter(None, named.split(":")))
    return [os.path.join(it, "complgen") for it in (home_of_data(), *data_folders())]


def home_of_data() -> str:
    """Returns the user's directory of data."""
    return os.environ.get("XDG_DATA_HOME") or os.path.expanduser("~/.local/share")


def data_folders() -> List[str]:
    """Returns the system's directories of data."""
    folders = (os.environ.get("XDG_DATA_DIRS") or "/usr/local/share:/usr/share").split(":")
    return [it for it in folders if os.path.isabs(it)]


def first_file(paths: Iterable[str]) -> Optional[str]:
    """Returns the first of some paths that is a file."""
    return next((it for it in paths if os.path.isfile(it)), None)
