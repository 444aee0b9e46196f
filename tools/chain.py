#!/usr/bin/env python3
"""Shows which crates and functions take long to prove, and what a change costs.

    tools/chain.py [--number N] [CRATE..]   the longest chain of crates, and the N (10) slowest crates and functions
    tools/chain.py --costs                  a table in Markdown: the processor minutes of a crate and those above it
    tools/chain.py --sizes [CRATE..]        how large the files of the proofs are: by crate, by kind and by function

With CRATE, only functions of these crates are listed, and with --sizes only these crates.

A size repeats to the byte on every machine, whatever else runs there, so it shows what a change of form gains. A
megabyte is about a second of a check with one job, and more if a search runs. The sizes of a library are those in what
`rt lib` built. Those of a program are of all files in `out/incremental`, where some may be of earlier versions: remove
that directory and check the program whole. The gate leaves neither.

A crate is proved after all that it uses. So on many processors the longest chain decides how long all proofs take.
The times are those of the files that `rt` writes into crates/NAME/out as each part of a proof ends. They are right
if each crate was proved from nothing with one job, as by `rt all check --jobs 3` in a fresh clone, and not changed
since. They leave out tests, planted faults, and up to 20 seconds of loading for each crate.

A part counts from the part before it. A pause of more than ten minutes does not count, so what a later check
proved anew counts once more at most. The status is 1 if no crate has such files.
"""

import argparse
import collections
import glob
import json
import os
import re
import sys

import common

# Seconds without a file, after which the next one belongs to another check.
PAUSE = 600
# The file that a check writes first, and changes each time.
LAST_USED = "rattle-last-used"
# The upper ends of the rows of the table of costs, in minutes.
ROWS = (1, 2, 4, 6, 8, 10, 15, 20, 25, 30, 40, 50, 60, 80, 100, 120, 160, 200)

# A proof of a crate: its seconds, and those of its parts by the names of their files.
Proof = collections.namedtuple("Proof", "seconds parts")


def main():
    parser = argparse.ArgumentParser(usage=common.usage(__doc__))
    parser.add_argument("--costs", action="store_true")
    parser.add_argument("--sizes", action="store_true")
    parser.add_argument("--number", type=int, default=10, metavar="N")
    parser.add_argument("crates", nargs="*", metavar="CRATE")
    options = parser.parse_args()
    if options.sizes:
        return print_sizes(options.crates or common.crate_lines(), options.number)
    below = uses()
    proofs = {crate: proof for crate, proof in ((it, proof_of(it)) for it in below) if proof}
    lacking = [it for it in below if it not in proofs]
    if lacking:
        print(f"not proved here: {', '.join(lacking)}", file=sys.stderr)
    if not proofs:
        return 1
    seconds = {crate: proofs[crate].seconds if crate in proofs else 0 for crate in below}
    if options.costs:
        print_costs(below, seconds)
        return 0
    if not options.crates:
        print_chain(below, seconds)
        print_crates(seconds, options.number)
    print_functions(proofs, options.crates or proofs, options.number)
    return 0


def uses():
    """Returns the crates that each crate uses, by its name, in the order of crates.txt."""
    lines = common.crate_lines()
    return {crate: [it for it in line.partition(":")[2].split() if it in lines] for crate, line in lines.items()}


def files_of(crate):
    """Returns the paths of the files that `rt` keeps of a crate's proof."""
    paths = glob.glob(os.path.join(common.TOP, "crates", crate, "out", "incremental", "*", "*"))
    return [it for it in paths if os.path.basename(it) != LAST_USED]


def proof_of(crate):
    """Returns the proof of a crate, or None if `rt` keeps none."""
    out = os.path.join(common.TOP, "crates", crate, "out")
    paths = files_of(crate)
    if not paths:
        return None
    stamp = os.path.join(out, "rlib", "stamp")
    ended = sorted((os.stat(it).st_mtime, os.path.basename(it)) for it in paths + [stamp] * os.path.exists(stamp))
    parts, before = collections.Counter(), ended[0][0]
    for time, name in ended:
        if time - before <= PAUSE:
            parts[name] += time - before
        before = time
    return Proof(sum(parts.values()), parts)


def print_chain(below, seconds):
    """Prints the chain of crates, each of which uses the one before it, that takes longest."""
    total, before = {}, {}
    for crate, used in below.items():
        before[crate] = max(used, key=total.get, default=None)
        total[crate] = seconds[crate] + total.get(before[crate], 0)
    last = max(total, key=total.get)
    chain = [last]
    while before[chain[0]]:
        chain.insert(0, before[chain[0]])
    print(f"The longest chain: {total[last]:.0f} seconds. All crates: {sum(seconds.values()):.0f} seconds.")
    for crate in chain:
        print(f"{seconds[crate]:8.0f} {crate}")


def print_crates(seconds, number):
    print("\nThe slowest crates, in seconds:")
    for crate in sorted(seconds, key=seconds.get, reverse=True)[:number]:
        print(f"{seconds[crate]:8.0f} {crate}")


def print_functions(proofs, crates, number):
    """Prints the functions of these crates that take longest, each with its slowest parts."""
    parts = collections.defaultdict(collections.Counter)
    for crate in crates:
        for name, seconds in proofs[crate].parts.items() if crate in proofs else ():
            if name.startswith("Rattle-"):
                function, part = split(crate, name)
                parts[crate, function][part] += seconds
    slowest = sorted(parts, key=lambda it: -sum(parts[it].values()))[:number]
    print("\nThe slowest functions, in seconds, with their slowest parts:")
    for crate, function in slowest:
        times = parts[crate, function]
        shown = ", ".join(f"{part} {seconds:.0f}" for part, seconds in times.most_common(3) if seconds >= 0.5)
        print(f"{sum(times.values()):8.1f} {crate} {function}: {shown}")


def split(crate, name):
    """Returns the path of the function to which a file belongs, and its part. The parts' names begin with a capital.

    A file of lemmas or of definitions is a part of none. Its name stands for the function.
    """
    name = re.sub(rf"^Rattle-{crate}[-.](proofs|specs\.contracts|specs\.declared|specs)\.", "", name)
    path = re.sub(r"\.oantt$", "", name).split(".")
    end = len(path)
    while end and not re.match("[a-z]", path[end - 1].split("+")[-1]):
        end -= 1
    if not any(re.match("[a-z_+]", it) for it in path[:end]):
        return ".".join(path), "all"
    return "::".join(path[:end]), ".".join(path[end:]) or "other"


def sizes_of(crate):
    """Yields the names and sizes of the checked modules of a crate: those in its library, or else those kept."""
    index = os.path.join(common.TOP, "crates", crate, "out", "rlib", f"{crate}.rlib", "toolchain", "checked.json")
    if os.path.exists(index):
        with open(index, encoding="utf-8") as lines:
            for name, _, size in map(json.loads, lines):
                yield name, size
    else:
        for path in files_of(crate):
            yield re.sub(r"\.oantt$", "", os.path.basename(path)), os.path.getsize(path)


def print_sizes(crates, number):
    """Prints the sizes of these crates' proofs, in MB, largest first. Returns the exit status."""
    kinds, functions = {}, collections.defaultdict(collections.Counter)
    for crate in crates:
        sizes = collections.Counter()
        for name, size in sizes_of(crate):
            function, part = split(crate, name)
            # Modules whose names go on with a number are pieces of one part.
            part = part.partition("-")[0]
            sizes[part] += size / 1e6
            functions[crate, function][part] += size / 1e6
        if sizes:
            kinds[crate] = sizes
    if not kinds:
        return 1
    total = sum(kinds.values(), collections.Counter())
    print(f"{sum(total.values()):8.1f} MB together: {shown_parts(total)}")
    for crate in sorted(kinds, key=lambda it: -sum(kinds[it].values())):
        print(f"{sum(kinds[crate].values()):8.1f} {crate}: {shown_parts(kinds[crate])}")
    print("\nThe largest functions, in MB, with their largest parts:")
    for crate, function in sorted(functions, key=lambda it: -sum(functions[it].values()))[:number]:
        parts = functions[crate, function]
        print(f"{sum(parts.values()):8.2f} {crate} {function}: {shown_parts(parts)}")
    return 0


def shown_parts(sizes, most=5):
    """Returns the largest parts with their sizes, as a text."""
    return ", ".join(f"{part} {size:.1f}" for part, size in sizes.most_common(most))


def print_costs(below, seconds):
    """Prints a table: the processor minutes of each crate together with those above it."""
    above = {crate: {crate} for crate in below}
    for crate in reversed(list(below)):
        for used in below[crate]:
            above[used] |= above[crate]
    minutes = {crate: sum(seconds[it] for it in above[crate]) / 60 for crate in below}
    rows = collections.defaultdict(list)
    for crate in sorted(minutes, key=minutes.get):
        rows[next(end for end in (*ROWS, float("inf")) if minutes[crate] <= end)].append(crate)
    print("| A change in | Processor minutes, with the crates above |\n|---|---|")
    for crates in rows.values():
        least, most = (f"{minutes[it]:.0f}" for it in (crates[0], crates[-1]))
        names = ", ".join(f"`{it}`" for it in sorted(crates))
        print(f"| {names} | {least if least == most else f'{least} to {most}'} |")


if __name__ == "__main__":
    sys.exit(main())
