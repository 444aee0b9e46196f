"""Texts that try to take long: `python3 -m importer.tests.hostile` prints the seconds and the memory that each takes.

Each shape is a beginning, and a part that is repeated up to the size of the text. `#` in it is a number that counts up.
With the words `--search SECONDS`, random shapes of the same signs are tried for so long, and the slowest are printed.
"""

import random
import re
import resource
import subprocess
import sys
import time

from importer.read import read_help
from importer.tree import tree_of, written

SIZES = (1 << 16, 1 << 18, 1 << 20)
# How many times the search repeats a sign.
TIMES = (1, 1, 1, 2, 8, 150, 10_000)
SHAPES = (
    # Lines.
    ("", "-\n"), ("", "-a\n"), ("", "\n"), ("", "\n\n \n"), ("", "x\n"), ("", "  -a\n"), ("", "  -a\n\n"), ("", "  --a=\n"),
    ("", "  -a, --all <X>  Help text\n"), ("", "  --opt-# <X>  Help text\n"), ("", "  --#=A\n"), ("", "  -a\n     x\n"),
    ("  -a <X>\n", "    x\n"), ("  -a <X>\n", "\n    [x]\n"), ("  -a <X>\n    Possible values:\n", "    - a#: x\n"),
    ("", "-a  x      -b x\n"), ("", "  [ -a <x> | --a# ]\n"), ("", "  -Xa\n"), ("", "  -X#\n"), ("", "Options:\n"), ("", "A:\n  b\n"),
    ("", "usage: a\n"), ("usage:\n", "  a [-b]\n"), ("", "synopsis:\n\n"), ("", "  - a\n"), ("", "\t-a\t\n"), ("", "commands:\n a b\n"),
    # Names and values in a line.
    ("", "  " + "-a," * 24 + "\n"), ("", "  " + "-a," * 23 + "#\n"), ("", "  " + "--a " * 23 + "\n"), ("  ", "-a,"), ("  ", "--a "),
    ("  ", "--a#, "), ("  -a", " A"), ("  -a", " <a>"), ("  -a", " [a]"), ("  --a=", "["), ("  --a=", "<a"), ("  --a={", "a#,"),
    ("  -a {", "#|"), ("  -a", "-"), ("  -a  ", "-"), ("  -a [", "|"), ("  [ -a", " "), ("  [ -a", " |"), ("  ", "-V[ersion]"),
    ("  ", "-?, "), ("  -a ", "a,"), ("  ", "-Xa"), ("  -a ", "\""), ("  -a ", "'\""), ("  -a", "."), ("  --[no-]a", " --[no-]b"),
    # Help texts.
    ("  -a <X>  ", "one of "), ("  -a <X>  ", "one of a, "), ("  -a <X>  one of ", "a#,"), ("  -a <X>  ", "(a|"), ("  -a <X>  ", "(a|b)x"),
    ("  -a <X>  ", "[possible values: "), ("  -a <X>  ", "can be 'a' or "), ("  -a <X>  ", "one of a, b. c "), ("  -a <X>  ", "X is 'a', "),
    ("  -a <X>  ", "values: " + "a or " * 180 + ". "), ("  -a <X>  ", "(default"), ("  -a <X>  one of a", "(default)"),
    ("  -a <X>  ", "{a|"), ("  -a <X>  ", "{#|"),
    # Usages.
    ("usage: app ", "[-a] "), ("usage: app", " [--a# X]"), ("usage: app ", "[-a "), ("usage: app [", "-a|"), ("usage: app", " A#"),
    ("usage: app ", "[" ), ("usage: app ", "a|"), ("usage: app ", "<"), ("usage: app A ", "[ "), ("usage: app ", "{a,"), ("usage: app ", "-"),
    ("", "usage: app [-a] [-b B] A#\n"), ("", "usage: a {b#,c} ...\n"), ("OPTIONS := {", "-a | "), ("OPTIONS := {\n", "-a |\n"),
    ("usage: app [-", "aB0"), ("usage: app A", "[A]"), ("usage: app ", "A "), ("usage: app [-a", " [b]"), ("usage: app {<", "a "),
    # Subcommands and positionals.
    ("Commands:\n", "  a b\n"), ("Commands:\n", "  a#  Help\n"), ("Commands:\n", "  a#, b#  Help\n"), ("Commands:\n  ", "a, "),
    ("Commands:\n  ", "a#, "), ("Commands:\n", "  a#, b#, c#\n"), ("Commands:\n  a", " (b"), ("Commands:\n  a", " [aliases: "),
    ("Commands:\n  a  ", "[aliases: b]"), ("Commands:\n  a  [aliases: ", "b#,"), ("Commands:\n  a", "|b#"), ("Commands:\n  ", "app "),
    ("Commands:\n", "  app a#  x\n"), ("Arguments:\n", "  a\n"), ("Arguments:\n", "  a#  x\n"), ("Arguments:\n", "  {a#,b}  x\n"),
    ("Arguments:\n  {", "a#,"), ("usage: app c ...\n\n", "  c\n    a#\n"), ("usage: app c ...\n\n", "  {a,b}\n    a\n"),
    # One long line, and signs that a terminal does not show.
    ("", "a"), ("", "A "), ("", "7"), ("", " "), ("", "["), ("", "]"), ("", "("), ("", "|"), ("", "a|"), ("", "a,"), ("", "="), ("", "."),
    ("", "-a "), ("", "a\t"), ("", "\t"), ("  -a\t", "a\t"), ("", "\b"), ("", "a\b"), ("", "\r"), ("", "\x1b["), ("", "\x1b]"), ("", "\x1b"),
    ("", "\xff"), ("", "\xc2\x9b"), ("", "\xe2\x80\xa8"), ("", "\xe2\x80\xae"), ("", "\xc3\xa9"), ("", "\xf0\x9f\x98\x80"), ("", "\0"),
)
# Parts that are long themselves, so that only texts of 1 MiB have many of them.
LONG_SHAPES = (
    ("", "  -a" * 600 + "\n"), ("", "  -a <X>  " * 6000 + "\n"), ("  -a <X>  ", "one of " * 140 + "a."),
)
ALL_SHAPES = SHAPES + LONG_SHAPES


def text_of(head, unit, size):
    """Returns the bytes of a text of this shape and size."""
    if "#" in unit:
        parts = (unit.replace("#", str(number)) for number in range(size // max(len(unit), 2) + 1))
    else:
        parts = [unit] * (size // len(unit) + 1)
    return (head + "".join(parts))[:size].encode("latin-1")


def tree_bytes(data):
    """Returns the tree file of a text."""
    return written(tree_of(("app",), {("app",): read_help(data, ("app",))}))


def seconds(data):
    """Returns the seconds of the processor that a text takes."""
    began = time.process_time()
    tree_bytes(data)
    return time.process_time() - began


def loop_seconds():
    """Returns the seconds of a loop that does nothing, which tell how busy the machine is."""
    began = time.process_time()
    for _ in range(10_000_000):
        pass
    return time.process_time() - began


def search(most_seconds):
    """Prints the slowest of random shapes, which repeat signs of the shapes above many times."""
    chance, slowest, end = random.Random(), [], time.monotonic() + most_seconds
    signs = sorted({part for shape in SHAPES for part in shape if part})
    while time.monotonic() < end:
        repeated = [(chance.choice(signs), chance.choice(TIMES)) for _ in range(chance.randint(1, 5))]
        head, unit = chance.choice(SHAPES)[0], "".join(sign * times for sign, times in repeated)
        slowest.append((seconds(text_of(head, unit, SIZES[-1])), head, repeated))
        slowest = sorted(slowest, reverse=True)[:10]
    for took, head, repeated in slowest:
        print(f"{took:8.2f}  {head!r} and then {' + '.join(f'{sign!r} * {times}' for sign, times in repeated)}")


def main(words):
    """Prints a row for each shape, each measured in a process of its own, or measures the shape with this number, or
    searches for slow shapes."""
    if words[:1] == ["--search"]:
        return search(float(words[1]))
    if words[:1] == ["--shape"]:
        times = [seconds(text_of(*ALL_SHAPES[int(words[1])], size)) for size in SIZES]
        memory = resource.getrusage(resource.RUSAGE_SELF).ru_maxrss / 1024
        return print("".join(f"{it:8.2f}" for it in times) + f"{memory:8.0f}")
    print(f"A loop of ten million rounds takes {loop_seconds():.2f} s. It took 0.13 s for the figures of importer/README.md.")
    print(f"{'begins':24}{'repeated':28}  64 KiB 256 KiB   1 MiB      MB")
    for number, (head, unit) in enumerate(ALL_SHAPES):
        if words and not re.search(words[0], head + unit):
            continue
        ran = subprocess.run([sys.executable, "-m", "importer.tests.hostile", "--shape", str(number)], stdout=subprocess.PIPE,
                             check=True)
        print(f"{head[-20:]!r:24}{unit[:20]!r:28}{ran.stdout.decode()}", end="", flush=True)


if __name__ == "__main__":
    main(sys.argv[1:])
