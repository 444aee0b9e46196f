#!/usr/bin/env python3
"""Runs the programs thousands of times on bad input.

    tests/hostile.py [--seed N] [--runs N] [--only N]

Four of eight runs are of `complgen` over a changed tree file of examples/, one of these with `check`.
The changes are these: bytes flipped, cut out or doubled, keys exchanged, numbers out of range, values
of another kind, and objects nested as deep as a file may nest and deeper. One run is `complgen
candidates` with random words and a random index. One is `larder`, and one is `complgen` as a shell runs
it, both with random words and environment values. For `complgen` the directories of tree files then
have changed files and odd names, or do not exist. The last run is `complgen` as a shell runs it over a
tree file, changed or not, whose arguments have values from commands, files and hints, with random lines
on the standard input. The input need not be UTF-8.

Each run has to end within a second, or on a busy machine after less than a second of processor time. It
has to end by no signal, with status 0, 1 or 2, or with 3 or 4 if a shell requests something. With status 0
or 4, it prints nothing to the standard error, except how many tree files it skipped. With status 3, it
prints words to the standard output, each with a vertical tab after it, and nothing else. With another
status, it prints nothing to the standard output. To the standard error it prints one of the texts that docs/TEXTS.md lists,
or the command line's own text, or nothing if a program has no tree file. Only `check` prints findings to
the standard output, at least one if the status is 1.

Before these runs, `complgen` completes the words after a thousand others, and words of 100,000 bytes. It
also gets each beginning of a tree file, which has to be refused as no JSON.

The script prints each run that fails with its number, which --only repeats. Then it prints how many
runs ended with which text. The status is 0 if no run failed.
"""

import argparse
import collections
import concurrent.futures
import json
import os
import random
import re
import resource
import shutil
import subprocess
import sys
import tempfile

sys.path.append(os.path.join(os.path.dirname(os.path.realpath(__file__)), "..", "tools"))
import common

SHELLS = list(common.SHELLS)
# The greatest depth to which objects and lists of a tree file may nest.
DEEPEST = 127
SECONDS = 1
# A run that takes longer is repeated with a limit of processor time: the machine may do other things.
LONGEST = 60

UNKNOWN_SHELL = "unknown shell `.*`, expected one of `bash`, `elvish`, `fish`, `powershell`, `zsh`"
# The texts of refused runs, by status.
REFUSALS = {
    "complgen": {
        1: [
            "invalid variant: .*", "tree: unreadable", "tree: not JSON", "tree: bad form",
            "two commands share the label .*", UNKNOWN_SHELL, "no completion generated",
            ".*: tree: unreadable", r".*: tree: (not JSON|bad form) \(run complgen check .*\)",
        ],
        2: ["index: bad number", "words: not UTF-8", "error: .*"],
    },
    "larder": {
        1: [
            f"larder: {text}"
            # The last one is the system's text for words that are not UTF-8.
            for text in (UNKNOWN_SHELL, "no completion generated", "no arguments", "invalid data")
        ],
        # Without a request of a shell, the words are a command line.
        2: ["error: .*"],
    },
}

# The text for tree files whose names are not plain.
PASSED_OVER = r"complgen: tree files skipped because their names are not plain: [0-9]+\n"

# A line of `complgen check`.
FINDING = r"[0-9]+:[0-9]+: (error|warning|note): .*: .*"

# The tree of long lines.
LONG_TREE = {"name": "app", "args": [
    {"id": "color", "short": "c", "long": "color", "action": "Set"},
    {"id": "verbose", "short": "v", "long": "verbose", "action": "SetTrue"},
]}

# A run: the program, its words, the environment, and the standard input.
Case = collections.namedtuple("Case", "kind words environment given", defaults=[b""])


def main():
    options = arguments()
    complgen = common.program("complgen")
    programs = {"complgen": complgen, "check": complgen, "larder": common.program("larder")}
    numbers = [options.only] if options.only is not None else range(options.runs)
    with tempfile.TemporaryDirectory() as folder:
        faults = [] if options.only is not None else faults_of_known_runs(complgen, folder)
        trees = read_trees()

        def attempt(number):
            chance = random.Random(f"{options.seed} {number}")
            path = os.path.join(folder, f"{number}.json")
            case = case_of(chance, number, trees, path)
            outcome = run(case, programs[case.kind], folder)
            if options.only is None:
                remove(path)
            return number, case, outcome

        with concurrent.futures.ThreadPoolExecutor(os.cpu_count()) as pool:
            return reported(pool.map(attempt, numbers), faults)


# Runs whose output is known.


def faults_of_known_runs(complgen, folder):
    return [*faults_of_long_lines(complgen, folder), *faults_of_beginnings(complgen, folder)]


def faults_of_long_lines(complgen, folder):
    """Yields what is wrong with the candidates after many words, and for long words."""
    path = os.path.join(folder, "long.json")
    with open(path, "w", encoding="utf-8") as file:
        json.dump(LONG_TREE, file)
    vs = "v" * 100_000
    every = ["--color", "--verbose", "--help"]
    for words, expected in (
        ([*["x"] * 1000, ""], every), ([*["-v"] * 1000, ""], every), ([*["--"] * 1000, ""], []), ([vs], []),
        ([f"-{vs}"], [f"-{vs}{short}" for short in "cvh"]), ([f"-{vs}", ""], every), ([f"--{vs}"], []),
    ):
        call = [complgen, "candidates", "--index", str(len(words)), path, "--", "app", *words]
        done = subprocess.run(call, capture_output=True, text=True, timeout=LONGEST, check=False)
        found = [line.split("\t")[0] for line in done.stdout.splitlines()]
        if (done.returncode, found) != (0, expected):
            yield f"{len(words)} words, the first of {len(words[0])} bytes: {done.stdout[:100]!r} {done.stderr[:100]!r}"


def faults_of_beginnings(complgen, folder):
    """Yields the beginnings of a tree file, which ends with its last brace, that are not refused as no JSON."""
    with open(os.path.join(common.EXAMPLES, "tree.json"), "rb") as file:
        text = file.read().rstrip()
    path = os.path.join(folder, "beginning.json")
    for end in range(len(text)):
        with open(path, "wb") as file:
            file.write(text[:end])
        call = [complgen, "script", "--shell", "elvish", "--bin", "app", path]
        done = subprocess.run(call, capture_output=True, check=False)
        if (done.returncode, done.stdout, done.stderr) != (1, b"", b"tree: not JSON\n"):
            yield f"the first {end} bytes of tree.json: status {done.returncode}, {done.stderr!r}"


def remove(path):
    """Removes the tree file of a run, and its directory of tree files."""
    if os.path.exists(path):
        os.remove(path)
    shutil.rmtree(path + ".d", ignore_errors=True)


def arguments():
    parser = argparse.ArgumentParser(usage=common.usage(__doc__))
    parser.add_argument("--seed", type=int, default=1)
    parser.add_argument("--runs", type=int, default=20000)
    parser.add_argument("--only", type=int, help="the number of the one run to repeat")
    return parser.parse_args()


def reported(results, faults):
    """Prints the faults, which runs failed, and how many ended in which way. Returns the status."""
    ended, failed = collections.Counter(), len(faults)
    for fault in faults:
        print(fault)
    for number, case, (ending, fault) in results:
        ended[f"{case.kind}: {ending}"] += 1
        if fault:
            failed += 1
            told = f"{case.kind} {case.words!r} {case.environment!r}"
            print(f"run {number}: {fault}: {told[:400]}")
    for ending, count in sorted(ended.items()):
        print(f"{count:>7}  {ending}")
    print(f"{sum(ended.values())} runs, {failed} failed")
    return 1 if failed else 0


def run(case, program, folder):
    """Returns how a run ended, and what is wrong with that, or `None`."""
    environment = {"PATH": os.environ["PATH"], "HOME": folder, **case.environment}
    for seconds, before in ((SECONDS, None), (LONGEST, limit_processor_time)):
        try:
            done = subprocess.run(
                [program, *case.words], env=environment, cwd=folder, input=case.given,
                capture_output=True, timeout=seconds, preexec_fn=before,
            )
        except subprocess.TimeoutExpired:
            continue
        return judged(case.kind, done.returncode, done.stdout, done.stderr.decode(errors="replace"))
    return "no end", f"no end within {SECONDS} s"


def limit_processor_time():
    resource.setrlimit(resource.RLIMIT_CPU, (SECONDS, SECONDS))


def judged(kind, status, written, printed):
    if kind == "check":
        return f"status {status}", fault_of_check(status, written, printed)
    if status == 0 or status == 4 and kind == "complgen":
        known = not printed or kind == "complgen" and re.fullmatch(PASSED_OVER, printed)
        return f"status {status}", None if known else f"prints {printed!r}"
    if status == 3 and kind == "complgen":
        whole = written.endswith(b"\v") and b"\0" not in written and not printed
        return "status 3", None if whole else f"prints {written!r} and {printed!r}"
    if status == 1 and kind == "complgen" and not printed:
        return "status 1, no tree file", f"wrote {len(written)} bytes" if written else None
    for text in REFUSALS[kind].get(status, []):
        if re.fullmatch(text + "\n", printed, re.DOTALL):
            fault = f"refused, and wrote {len(written)} bytes" if written else None
            return f"status {status}, {text}", fault
    return f"status {status}", f"prints {printed!r}"


def fault_of_check(status, written, printed):
    lines = written.decode(errors="replace").splitlines()
    if printed or not all(re.fullmatch(FINDING, line) for line in lines):
        return f"prints {written!r} and {printed!r}"
    return None if status == 0 or status == 1 and lines else f"status {status}, and {len(lines)} lines"


# The cases.


def case_of(chance, number, trees, path):
    kind = number % 8
    if kind == 5:
        return requested(chance, trees, path)
    if kind == 7:
        return with_lines(chance, path)
    if kind < 3 or kind == 6:
        with open(path, "wb") as file:
            file.write(changed_tree(chance, trees))
        if kind == 6:
            return Case("check", ["check", path], {})
        return Case("complgen", words_over(chance, path), {})
    if kind == 3:
        tree = os.path.join(common.EXAMPLES, chance.choice(sorted(trees)))
        words = odd_words(chance, 12)
        words = ["candidates", "--index", index(chance), tree, "--", *words]
        return Case("complgen", words, {} if chance.randrange(4) else odd_value(chance, ["HOME"]))
    return Case("larder", ["--", *odd_words(chance, 12)][chance.randrange(2):], asking(chance))


ODD_NAMES = [
    b"app", b"larder", b"complgen", b"a b", b"$(touch hit)", b";x", b"-x", b".x", b"a\nb", b"'", b'"', b"",
    b"\xff", b"x" * 200,
]


def requested(chance, trees, path):
    """Returns a run of `complgen` as a shell runs it, over directories of tree files."""
    folder = os.fsencode(path + ".d")
    os.makedirs(folder, exist_ok=True)
    names = [chance.choice(ODD_NAMES) for _ in range(chance.randrange(6))]
    for name in names:
        with open(os.path.join(folder, name + b".json"), "wb") as file:
            file.write(changed_tree(chance, trees) if chance.randrange(3) else trees["larder.json"])
    called = chance.choice([*names, b"app", b"/usr/bin/larder", b"./complgen", b"..", b"../larder", b"/", b""])
    words = chance.choice([[], ["--"], ["--", called, *odd_words(chance, 6)], odd_words(chance, 3)])
    if chance.randrange(2) and names:
        words = ["--", names[0], *odd_words(chance, 4)]
    variables = asking(chance)
    if chance.randrange(4):
        variables["COMPLGEN_PATH"] = chance.choice(
            [folder, folder + b"::" + folder, b"", b":", b"/no/such", path, b"\xff", b"relative"]
        )
    else:
        variables["XDG_DATA_HOME"] = chance.choice([folder, b"", b"\xff"])
        variables["XDG_DATA_DIRS"] = chance.choice([folder, b"", b":", b"relative:" + folder])
    return Case("complgen", words, variables)


# A tree whose arguments have values from outside the tree.
SOURCES = json.dumps({
    "name": "app", "disable_help_flag": True,
    "args": [
        {"id": "onto", "long": "onto", "short": "o", "values_from": ["git", "branch"]},
        {"id": "image", "long": "image", "values_from": ["docker", "images", ""], "values_split": " "},
        {"id": "server", "long": "server", "values_from": ["hcloud", "__complete"], "values_words": True,
         "values_protocol": "cobra"},
        {"id": "package", "long": "package", "values_file": "lines"},
        {"id": "user", "long": "user", "value_hint": "Username"},
        {"id": "host", "long": "host", "value_hint": "Hostname"},
        {"id": "program", "long": "program", "value_hint": "CommandName"},
        {"id": "branch", "num_args": [0, None], "values_from": ["git", "branch"], "values_split": ":"},
    ],
}).encode()

LINE_PIECES = [
    b"main", b"-x", b"--exec=touch hit", b"$(touch hit)", b"`hit`", b"a b", b"\t", b":", b" ", b"\r", b"\0",
    b"\x1b[31m", b"\xff", b"\xc3", b"\xc3\xa9", b"'", b'"', b"", b"x" * 5000, b"_activeHelp_ ",
]


def with_lines(chance, path):
    """Returns a run of `complgen` as a shell runs it, over a tree with values from outside it."""
    folder = os.fsencode(path + ".d")
    os.makedirs(folder, exist_ok=True)
    tree = SOURCES if chance.randrange(2) else changed_tree(chance, {"sources": SOURCES})
    with open(os.path.join(folder, b"app.json"), "wb") as file:
        file.write(tree)
    with open(os.path.join(folder, b"lines"), "wb") as file:
        file.write(odd_lines(chance))
    asked = chance.choice([b"--onto", b"-o", b"--image", b"--server", b"--package", b"--user", b"--host", b"--program"])
    before = chance.choice([[], [asked], [asked + b"="], odd_words(chance, 3)])
    variables = {
        **asking(chance),
        "COMPLETE": chance.choice(SHELLS), "COMPLGEN_PATH": folder,
        "_COMPLGEN_VALUES": chance.choice(["ask", "stdin"]),
    }
    if not chance.randrange(6):
        variables["COMPLGEN_COMMANDS"] = chance.choice(["0", "1", "", b"\xff"])
    words = ["--", b"app", *before, chance.choice([b"", b"m", odd_word(chance)])]
    return Case("complgen", words, variables, odd_lines(chance))


def odd_lines(chance):
    ends = [b"\n", b"\n", b"\n", b"\r\n", b""]
    lines = (chance.choice(LINE_PIECES) + chance.choice(LINE_PIECES) + chance.choice(ends) for _ in range(40))
    last = chance.choice([b"", b"", b":0", b":2\n", b":4\r\n", b":8", b":18\n", b":1\n\n", b":99999", b":100000"])
    return b"".join(lines) + last if chance.randrange(8) else chance.getrandbits(24000).to_bytes(3000, "little")


def words_over(chance, path):
    """Returns the words of a run that reads this tree file."""
    shell = chance.choice(SHELLS + ["csh", "", "Bash"])
    kind = chance.choice(["script", "script", "register", "candidates"])
    if kind == "candidates":
        words = odd_words(chance, 4)
        return [kind, "--index", index(chance), path, "--", *words]
    return [kind, "--shell", shell, "--bin", chance.choice(["app", "my-app", "a b'c", "-x"]), path]


def index(chance):
    if chance.randrange(4):
        return str(chance.randrange(8))
    return chance.choice(["", "+1", "-1", "x", "1.5", "99", str(2**64 - 1), str(2**64), "0x1"])


# Environment values that are not UTF-8: invalid bytes, truncated characters, an overlong encoding, half
# of a surrogate pair, and a code point past the last.
NOT_UTF_8 = [
    b"\xff", b"bash\xff", b"\xfffish", b"/bin/zsh\xc3", b"1\xc3", b"\xe2\x82", b"\n\xf0\x9f",
    b"\xc0\xaf", b"\xed\xa0\x80", b"\xf4\x90\x80\x80", b"/home/\xe9",
]


def asking(chance):
    """Returns environment values by which a shell requests something, or nearly."""
    shells = SHELLS + ["", "0", "1", "/bin/zsh", "/usr/bin/bash.exe", "csh", "-", "é", "bash\n"]
    values = {
        "COMPLETE": chance.choice(shells),
        "_CLAP_COMPLETE_INDEX": index(chance),
        "_CLAP_IFS": chance.choice(["\n", "\013", "", " ", "é", "abc"]),
        "_CLAP_COMPLETE_COMP_TYPE": chance.choice(["9", "63", ""]),
        "_CLAP_COMPLETE_SPACE": chance.choice(["true", "false", ""]),
        "_COMPLGEN_VALUES": chance.choice(["ask", "stdin", "", "x"]),
        "_COMPLGEN_ASCII": chance.choice(["", "1", "x"]),
        "_COMPLGEN_KEPT": chance.choice(["", "", "--color=", "a b", "'", "\\", "é", "\n"]),
        "_COMPLGEN_QUOTE": chance.choice(["", "'", '"', "`", "''", "é"]),
        "_COMPLGEN_SPACE": chance.choice(["1", "1", "", "x"]),
        "_COMPLGEN_WIDTH": chance.choice(["", "0", "40", "80", "65535", "99999", "100000", "-80", "8é", "+80"]),
    }
    asked = {name: value for name, value in values.items() if chance.randrange(5)}
    return asked if chance.randrange(4) else {**asked, **odd_value(chance, [*values, "HOME"])}


def odd_value(chance, names):
    """Returns one of these variables with a value that is not UTF-8."""
    return {chance.choice(names): chance.choice(NOT_UTF_8)}


PIECES = [
    b"-", b"--", b"=", b"", b" ", b"'", b'"', b"\\", b"\n", b"\t", b"$", b",", b":", b"~", b"/", b"..",
    b"\xc3\xa9", b"a", b"x" * 300, b"install", b"remove", b"source", b"src", b"add", b"key", b"help",
    b"--color", b"--root", b"--verbose", b"-v", b"-vq", b"-1", b"never", b"\xff", b"\xc3", b"\xf0\x9f",
]


def odd_words(chance, most):
    return [odd_word(chance) for _ in range(chance.randrange(most + 1))]


def odd_word(chance):
    pieces = b"".join(chance.choice(PIECES) for _ in range(chance.choice([1, 1, 1, 2, 3])))
    if chance.randrange(8):
        return pieces.decode(errors="ignore").encode()
    return pieces


# Tree files.


def read_trees():
    trees = {}
    for name in ("larder.json", "tree-with-children.json", "tree.json"):
        with open(os.path.join(common.EXAMPLES, name), "rb") as file:
            trees[name] = file.read()
    return trees


def changed_tree(chance, trees):
    text = trees[chance.choice(sorted(trees))]
    change = chance.choice([flipped, cut, doubled, exchanged, replaced, nested])
    for _ in range(chance.choice([1, 1, 2, 5])):
        text = change(chance, text)
    return text


def flipped(chance, text):
    """Changes one bit of a byte."""
    place = chance.randrange(len(text))
    return text[:place] + bytes([text[place] ^ 1 << chance.randrange(8)]) + text[place + 1:]


def cut(chance, text):
    """Leaves out some bytes, or all after a place."""
    begin = chance.randrange(len(text))
    end = len(text) if chance.randrange(2) else begin + chance.randrange(1, 40)
    return text[:begin] + text[end:] or b" "


def doubled(chance, text):
    """Writes some bytes twice."""
    begin = chance.randrange(len(text))
    end = min(len(text), begin + chance.randrange(1, 200))
    return text[:end] + text[begin:]


def exchanged(chance, text):
    """Exchanges two strings of the file, keys or values."""
    spots = [found.span() for found in re.finditer(rb'"[^"\\]*"', text)]
    if len(spots) < 2:
        return text
    (a, b), (c, d) = sorted(chance.sample(spots, 2))
    return text[:a] + text[c:d] + text[b:c] + text[a:b] + text[d:]


ODD_VALUES = [
    "0", "1", "-1", "1.5", "1e400", "1e3", str(2**64), str(2**64 - 1), "255", "256", "null", "true",
    "[]", "{}", '""', '"ab"', '"\\u0000"', '"\\ud800"', "[2, 1]", "[256, 256]", "[0, null]", "[null, 0]",
    '"\\n"', "nul", "'x'", "[1,]",
]


def replaced(chance, text):
    """Replaces the value of a key by one of another kind or range."""
    keys = list(re.finditer(rb'"[a-z_]+": *("[^"\\]*"|\[[^\[\]{}]*\]|[a-z0-9]+)', text))
    if not keys:
        return text
    begin, end = chance.choice(keys).span(1)
    return text[:begin] + chance.choice(ODD_VALUES).encode() + text[end:]


def nested(chance, _):
    """Returns a tree file whose lists or commands nest nearly as deep as a file may, or deeper."""
    depth = DEEPEST + chance.choice([-2, -1, 0, 1, 2, 1000])
    if chance.randrange(2):
        depth = chance.choice([depth, depth, depth, 1_000_000])
        return b'{"name": "app", "aliases": ' + b"[" * (depth - 1) + b"]" * (depth - 1) + b"}"
    command = {"name": "app"} if depth % 2 else {"name": "app", "aliases": []}
    for _ in range((depth - 1) // 2):
        command = {"name": "app", "subcommands": [command]}
    return written(command)


def written(command):
    """Returns JSON of a tree that may nest too deep for the module `json`."""
    front, back = [], []
    while "subcommands" in command:
        front.append(f'{{"name": {json.dumps(command["name"])}, "subcommands": [')
        back.append("]}")
        command = command["subcommands"][0]
    return "".join([*front, json.dumps(command), *back]).encode()


if __name__ == "__main__":
    sys.exit(main())
