#!/usr/bin/env python3
"""Measures how long `complgen check` takes on files with many mistakes.

    bench/check_findings.py [--write FOLDER] [COUNT ..]

For each COUNT, which is 100, 1,000 and 10,000 by default, the script makes a tree file with COUNT
mistakes, checks it with `complgen check`, and prints the best processor time of five runs. Each
argument of the tree has one misspelt key, so COUNT lines are expected. The whole file is one line of
text in the second of two layouts, since columns are counted from the start of a line.

With --write, the files stay in FOLDER. The status is 1 if the number of lines is wrong, if ten times
the mistakes take more than twenty times as long, or if 10,000 mistakes take half a second or more.
"""

import argparse
import json
import os
import resource
import subprocess
import sys
import tempfile

sys.path.append(os.path.join(os.path.dirname(os.path.realpath(__file__)), "..", "tools"))
import common

RUNS = 5


def tree(count):
    """Makes a tree with `count` mistakes."""
    args = [{"id": f"option-{i}", "long": f"option-{i}", "hlep": "Shows this"} for i in range(count)]
    return {"name": "app", "args": args}


def seconds(program, path):
    """Returns the processor time of one check, and how many lines it printed."""
    before = resource.getrusage(resource.RUSAGE_CHILDREN)
    done = subprocess.run([program, "check", path], capture_output=True)
    after = resource.getrusage(resource.RUSAGE_CHILDREN)
    used = after.ru_utime + after.ru_stime - before.ru_utime - before.ru_stime
    return used, done.stdout.count(b"\n")


def main():
    parser = argparse.ArgumentParser(usage=common.usage(__doc__))
    parser.add_argument("--write")
    parser.add_argument("counts", nargs="*", type=int, default=[100, 1000, 10000])
    options = parser.parse_args()
    program, good = common.program("complgen"), True
    with tempfile.TemporaryDirectory() as temporary:
        folder = options.write or temporary
        for layout, indent in (("lines", 1), ("one-line", None)):
            last = None
            for count in options.counts:
                path = os.path.join(folder, f"findings-{layout}-{count}.json")
                with open(path, "w", encoding="utf-8") as file:
                    json.dump(tree(count), file, indent=indent)
                runs = [seconds(program, path) for _ in range(RUNS)]
                best = min(used for used, _ in runs)
                size = os.path.getsize(path)
                print(f"{layout:9} {count:7,} findings  {size:10,} bytes  {best * 1000:9.1f} ms")
                good &= all(lines == count for _, lines in runs)
                good &= last is None or best < 20 * max(last, 0.002)
                good &= count != 10000 or best < 0.5
                last = best
    return 0 if good else 1


if __name__ == "__main__":
    sys.exit(main())
