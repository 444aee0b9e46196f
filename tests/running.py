#!/usr/bin/env python3
"""Tries in bash and zsh which texts of a tree a shell runs at a Tab.

    tests/running.py [--seed N] [--pairs N]

bash reads the two lines of a bash script that hold possible values, with pairs of random values. They
are values of which `check` says that bash may split or change them. None may run the program `h`. Then
bash and zsh read scripts with texts that docs/SECURITY.md lists. Each of these has to run it, because
the page says so. At last, bash inserts the name of a file at a Tab, and runs the line.

The script prints each text for which this does not hold, and how many it tried. It skips a shell that is
not installed. The status is 0 if all of it holds. It needs no program of this repository.
"""

import argparse
import os
import random
import shutil
import subprocess
import sys
import tempfile

import shells

SIGNS = list(";&|<>(){}[]!*?~#%^'=, \t\n\\-+./:@_,") + ["h", "h", " h ", "/h", "(h)", "{h,x}", "é", "!!"]

BASH_RUNS = ["$(h)", "`h`", "$((1+$(h)))", "$[1+$(h)]", "${x:=$(h)}", "$V", 'a";h;"', "<(h)", ">(h)", "<{(h),}"]

ZSH_RUNS = {
    "--o=[o]:{}:_default": ["N:{h}:", "N:$(h):"],
    ":{} -- help:_default": ["N:$(h)"],
    ":id -- {}:_default": ["x\\\\:$(h)"],
    '--o=[o]:N:((a\\:"{}"))': ['" <(h) "', '"); h; ("'],
}

BASH = """_f{0}() {{
    local opts="-h --help {1} {2} sub"
    case "$1" in
        a)
            COMPREPLY=( $(compgen -W "${{opts}}" -- "") )
            ;;
        b)
            COMPREPLY=($(compgen -W "{1} {2}" -- ""))
            ;;
    esac
}}
"""

# The lines by which bash's script offers files, before a line that may set a mode. With the mode, bash quotes them.
BASH_FILES = """_app() {
    COMPREPLY=($(compgen -f "$2"))
    %s
}
complete -F _app -o nosort -o bashdefault -o default app
"""

# The lines that may follow `compgen -f`, and whether a name such as `x$(h)` then runs `h`.
MODES = {"": True, "compopt -o filenames": False}

ZSH = """_app() {
    _arguments -s -S -C : \\
'%s' \\
'-h[Print help]'
}
compdef _app app
"""


def main():
    options = argparse.ArgumentParser()
    options.add_argument("--seed", type=int, default=1)
    options.add_argument("--pairs", type=int, default=8000)
    given = options.parse_args()
    random.seed(given.seed)
    folder = tempfile.mkdtemp()
    try:
        faults, count = tried(folder, given.pairs)
    finally:
        shutil.rmtree(folder)
    for fault in faults:
        print(fault)
    print(f"{count} texts tried, {len(faults)} faults")
    sys.exit(1 if faults else 0)


def tried(folder, pairs):
    os.mkdir(f"{folder}/bin")
    with open(f"{folder}/bin/h", "w") as file:
        file.write("#!/bin/sh\n: > \"$D/hit\"\n")
    os.chmod(f"{folder}/bin/h", 0o755)
    faults, count = [], 0
    if shutil.which("bash"):
        faults += quiet_faults(folder, pairs)
        faults += [f"bash does not run {v!r}" for v in BASH_RUNS if not bash_runs(folder, [(v, "b")])]
        faults += [f"bash, a file name, {mode!r}: runs: {not runs}" for mode, runs in MODES.items()
                   if bash_runs_file(folder, mode) != runs]
        count += 2 * pairs + len(BASH_RUNS) + len(MODES)
    if shutil.which("zsh"):
        lines = [line.replace("{}", t) for line, texts in ZSH_RUNS.items() for t in texts]
        faults += [f"zsh does not run {line!r}" for line in lines if not zsh_runs(folder, line)]
        count += len(lines)
    return faults, count


def may_run(value):
    """Decides as `may_run_value` of complgen_lints does."""
    return any(c in value for c in '$`"') or value.endswith("\\") or ("(" in value and any(c in value for c in "<>"))


def quiet_faults(folder, pairs):
    faults = []
    for _ in range(0, pairs, 40):
        batch = [(let_through(), let_through()) for _ in range(40)]
        if bash_runs(folder, batch):
            found = [pair for pair in batch if bash_runs(folder, [pair])]
            faults += [f"bash runs {pair!r}" for pair in found or [batch]]
    return faults


def let_through():
    while True:
        value = "".join(random.choice(SIGNS) for _ in range(random.randint(1, 7)))
        if not may_run(value):
            return value


def environment(folder):
    """Returns the variables of a shell but its home."""
    return {"PATH": f"{folder}/bin:/usr/bin:/bin", "D": folder, "LC_ALL": "C.UTF-8", "TERM": "xterm", "V": "$(h)"}


def bash_runs(folder, pairs):
    """Tells whether a Tab in a script with one of these pairs of values runs the program `h`."""
    text = "".join(BASH.format(i, v, w) for i, (v, w) in enumerate(pairs))
    text += "".join(f"_f{i} a\n_f{i} b\n" for i in range(len(pairs)))
    with open(f"{folder}/script", "wb") as file:
        file.write(text.encode())
    forget(folder)
    command = ["bash", "--norc", "--noprofile", "-c", ". \"$D/script\"; sleep 0.05"]
    os.makedirs(f"{folder}/here", exist_ok=True)
    subprocess.run(command, env={**environment(folder), "HOME": folder}, cwd=f"{folder}/here", stdin=subprocess.DEVNULL,
                   stdout=subprocess.DEVNULL, stderr=subprocess.DEVNULL, timeout=60)
    return os.path.exists(f"{folder}/hit")


def bash_runs_file(folder, mode):
    """Tells whether bash runs `h` if the name `x$(h)` is inserted at a Tab, and Enter is pressed."""
    with shells.Scratch() as scratch:
        path = f"{scratch.bin}:{environment(folder)['PATH']}"
        scratch.environment.update(environment(folder), PATH=path)
        scratch.recorder("app")
        shells.write(os.path.join(scratch.here, "x$(h)"), "")
        with shells.started("bash", scratch, BASH_FILES % mode) as shell:
            forget(folder)
            if shell.received("app x") is None and shell.received("app x") is None:
                return None
    return os.path.exists(f"{folder}/hit")


def zsh_runs(folder, line):
    """Tells whether a Tab after `app ` or `app --o ` runs it, if `_arguments` gets this line."""
    forget(folder)
    with shells.Scratch() as scratch:
        scratch.environment.update(environment(folder))
        with shells.started("zsh", scratch, ZSH % line.replace("'", "'\\''")) as shell:
            shell.tab("app --o " if line.startswith("--o") else "app ")
            # zsh does not wait for a program in `<(..)`
            return shell.wait(f"{folder}/hit")


def forget(folder):
    if os.path.exists(f"{folder}/hit"):
        os.remove(f"{folder}/hit")


if __name__ == "__main__":
    main()
