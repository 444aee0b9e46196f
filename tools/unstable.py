"""The crates of Debian unstable: clap 4.6 and the original, in a root that is made once.

The variable GENUINE names the directory that keeps this root and what is built with its crates. Without it,
that is `lagvtsune/genuine` in the directory of caches. Cargo takes the crates from there, and nothing is
installed on the machine itself.

Making the root needs debootstrap, and root's rights. The mirror is the one from which this machine takes
Debian's packages.
"""

from __future__ import annotations

import glob
import os
import re
import shutil
import subprocess
import sys
from typing import Iterator, List, Tuple

PACKAGES = [
    "librust-clap-complete-dev", "librust-clap-complete-nushell-dev", "librust-clap-derive-dev",
    "librust-serde-json-dev",
]
SUITE = "unstable"
CRATES = os.path.join("usr", "share", "cargo", "registry")
# The release file of a mirror that is no longer updated has expired. Its signature is checked all the same.
APT = 'Acquire::Check-Valid-Until "false";\nAPT::Install-Recommends "false";\n'


def default_folder() -> str:
    """Returns the directory that keeps the root."""
    caches = os.environ.get("XDG_CACHE_HOME") or os.path.expanduser("~/.cache")
    return os.path.realpath(os.environ.get("GENUINE") or os.path.join(caches, "lagvtsune", "genuine"))


def crates(folder: str) -> str:
    """Returns the directory of the crates in a root in `folder`. Makes the root if it is not there."""
    root = os.path.join(folder, "root")
    found = os.path.join(root, CRATES)
    if not glob.glob(os.path.join(found, "clap_complete-4.*")):
        make_root(root)
    return found


def make_root(root: str) -> None:
    """Makes a root of Debian unstable, and installs the crates in it."""
    if os.geteuid() or not shutil.which("debootstrap"):
        sys.exit(f"no crates of Debian {SUITE} in {root}: making it needs debootstrap, and root's rights")
    print(f"{root}: being made, in some minutes", file=sys.stderr, flush=True)
    unfinished = root + ".part"
    shutil.rmtree(unfinished, ignore_errors=True)
    os.makedirs(unfinished)
    call(["debootstrap", "--variant=minbase", SUITE, unfinished, mirror()])
    with open(os.path.join(unfinished, "etc/apt/apt.conf.d/90crates"), "w", encoding="utf-8") as file:
        file.write(APT)
    call(["chroot", unfinished, "apt-get", "update"])
    call(["chroot", unfinished, "apt-get", "install", "--yes", *PACKAGES])
    shutil.rmtree(root, ignore_errors=True)
    os.rename(unfinished, root)


def call(words: List[str]) -> None:
    """Runs a command, and shows its output only if it fails."""
    environment = {**os.environ, "DEBIAN_FRONTEND": "noninteractive", "LC_ALL": "C"}
    ran = subprocess.run(
        words, env=environment, stdin=subprocess.DEVNULL, stdout=subprocess.PIPE, stderr=subprocess.STDOUT, text=True
    )
    if ran.returncode:
        sys.exit(f"{' '.join(words)}:\n{ran.stdout}")


def mirror() -> str:
    """Returns the mirror of this machine's own release of Debian."""
    with open("/etc/os-release", encoding="utf-8") as file:
        suite = re.search(r"^VERSION_CODENAME=(\w+)$", file.read(), re.MULTILINE)
    for uri, suites in sources():
        if suite and suite[1] in suites:
            return uri
    return sys.exit("no mirror of Debian in /etc/apt")


def sources() -> Iterator[Tuple[str, List[str]]]:
    """Returns the URIs and the suites of the lists in /etc/apt, of both formats."""
    for path in ["/etc/apt/sources.list", *sorted(glob.glob("/etc/apt/sources.list.d/*"))]:
        if not os.path.exists(path):
            continue
        with open(path, encoding="utf-8") as file:
            text = file.read()
        for uri, suite in re.findall(r"^deb\s+(?:\[.*?\]\s+)?(\S+)\s+(\S+)", text, re.MULTILINE):
            yield uri, [suite]
        for paragraph in text.split("\n\n"):
            fields = dict(re.findall(r"^(URIs|Suites):\s*(.*)$", paragraph, re.MULTILINE))
            if len(fields) == 2:
                yield fields["URIs"].split()[0], fields["Suites"].split()
