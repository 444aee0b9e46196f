"""Helpers for the scripts of bench/, tests/ and tools/: paths, programs, callgrind and cargo.

The scripts run the proved programs. The variables COMPLGEN, LARDER and LIBRARY_CALLS name others:

    COMPLGEN=../other/complgen tests/hostile.py
"""

import collections
import glob
import os
import re
import shutil
import subprocess
import sys
import tempfile

TOP = os.path.dirname(os.path.dirname(os.path.realpath(__file__)))
EXAMPLES = os.path.join(TOP, "examples")
# The shells of `complgen script`, and those of `complgen register`.
SHELLS = ("bash", "elvish", "fish", "nushell", "powershell", "zsh")
LIVE_SHELLS = ("bash", "elvish", "fish", "powershell", "zsh")
# Commands that build the programs.
BUILDERS = {
    "complgen": "./complgen --prove", "larder": "rt run in crates/larder",
    "library_calls": "rt run in crates/library_calls",
}
# The directory of Debian's packages of crates, and the one that is used instead.
DEBIAN = "/usr/share/cargo/registry"
crates_folder = DEBIAN

# The result of callgrind for a run: its standard output, the number of all instructions, and the
# instructions of all calls of each function.
Counted = collections.namedtuple("Counted", "output total costs")


def default_program(name):
    """Returns the path of a program: the value of its variable, or the proved program."""
    proved = os.path.join(TOP, "crates", name, "out", name)
    return os.path.realpath(os.environ.get(name.upper()) or proved)


def program(name):
    """Returns the path of a program, or ends the script if it does not exist."""
    path = default_program(name)
    if not os.access(path, os.X_OK):
        sys.exit(f"no program {path}: build it with `{BUILDERS[name]}`, or name one by {name.upper()}")
    return path


def example_trees():
    """Returns the paths of the tree files in examples/, sorted."""
    return sorted(glob.glob(os.path.join(EXAMPLES, "*.json")))


def usage(text):
    """Returns the lines of a script's description that show how to call it."""
    return text.split("\n\n")[1].strip()


def crate_lines():
    """Returns the lines of crates.txt by the names of the crates, in their order."""
    with open(os.path.join(TOP, "crates.txt"), encoding="utf-8") as file:
        lines = [line.partition("#")[0].strip() for line in file]
    return {line.split(":")[0].split()[0]: line for line in lines if line}


def write(path, text):
    """Writes a text into a file."""
    with open(path, "w", encoding="utf-8") as file:
        file.write(text)


def write_page(name, text):
    """Writes a page into the directory `out` at the top, and prints its path. Returns the exit status."""
    path = os.path.join(TOP, "out", name)
    os.makedirs(os.path.dirname(path), exist_ok=True)
    write(path, text)
    print(os.path.relpath(path))
    return 0


def callgrind(call, *functions, **how):
    """Counts the instructions of a run.

    Functions are parts of symbols of the program. An inlined function counts for its caller.
    Further options go to `subprocess.run`.
    """
    with tempfile.TemporaryDirectory() as folder:
        profile = os.path.join(folder, "profile")
        words = ["valgrind", "--quiet", "--tool=callgrind", "--compress-strings=no", "--compress-pos=no"]
        words += [f"--callgrind-out-file={profile}", *call]
        ran = subprocess.run(words, check=True, stdout=subprocess.PIPE, **how)
        with open(profile, encoding="utf-8", errors="replace") as file:
            return Counted(ran.stdout, *read_profile(file, functions))


def read_profile(lines, functions):
    """Returns the total of a profile, and what the calls of each function cost."""
    total, costs, called = 0, dict.fromkeys(functions, 0), ""
    for line in lines:
        if line.startswith(("summary:", "totals:")):
            total = int(line.split()[1])
        elif line.startswith("cfn="):
            called = line[4:].strip()
        elif line.startswith("calls="):
            inclusive = int(next(lines).split()[1])
            for function in functions:
                # A recursive call has a number after a `'`. The outer call's cost includes it.
                if function in called and "'" not in called:
                    costs[function] += inclusive
    for function in functions:
        if costs[function] == 0:
            sys.exit(f"the profile has no call of {function}")
    return total, list(costs.values())


def use_crates(folder):
    """Makes this the directory of Debian's packages of crates."""
    global crates_folder
    crates_folder = folder


def has_debian(crate):
    """Tells whether Debian's package of a crate of version 4 is installed."""
    return bool(glob.glob(os.path.join(crates_folder, f"{crate}-4.*")))


def has_completers():
    """Tells whether Debian's clap has the feature that lets arguments have completers."""
    manifests = glob.glob(os.path.join(crates_folder, "clap-4.*", "Cargo.toml"))
    return any(has_feature(path) for path in manifests)


def has_feature(manifest):
    with open(manifest, encoding="utf-8") as file:
        return "unstable-ext" in file.read()


def cargo_flags():
    """Returns the flags that make cargo use Debian's crates, if Debian's clap 4 is installed."""
    if not has_debian("clap"):
        return []
    return [
        "--offline", *cargo_config("source.crates-io.replace-with", "debian"),
        *cargo_config("source.debian.directory", crates_folder),
    ]


def fit_manifest(path, has_add):
    """Takes out of the manifest of the Rust package what the crates that cargo finds do not have.

    Without `has_add`, clap has no feature for completers at arguments. Debian may lack clap_complete.
    """
    with open(path, encoding="utf-8") as file:
        text = file.read()
    if not has_add:
        text = text.replace('unstable-dynamic = ["clap/unstable-ext"]', "unstable-dynamic = []")
    if cargo_flags() and not has_debian("clap_complete"):
        text = re.sub(r'^(clap_complete|original) = .*\n', "", text, flags=re.MULTILINE)
    write(path, text)


def cargo_config(key, value):
    """Returns the flags that set a key of cargo's configuration."""
    return ["--config", f'{key}="{value}"']


def is_installed(name):
    """Tells whether a command is on the PATH."""
    return shutil.which(name) is not None
