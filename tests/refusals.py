#!/usr/bin/env python3
"""Makes each allocation of each call fail in turn, and each sink after each byte.

    tests/refusals.py [CALL..]
    tests/refusals.py --whole

The proved program `library_calls` makes a call of the library over a small command. `cc` compiles
tests/refusals.d/refuse.c, a preloaded library that makes allocations fail. Without a CALL, all calls are
made, and then `complgen` runs as a whole. With --whole, only `complgen` runs. The variables LIBRARY_CALLS
and COMPLGEN name other programs.

These rules are checked:

- a call that gets no memory fails with `Memory`. If its sink fails after some bytes, it fails with `Write`
  and the kind of the sink, also if that was interrupted. If its sink accepts nothing more, the kind is
  `WriteZero`. The sink accepts a byte at a time;
- what the sink accepted before a failure is a beginning of the text, and fills the sink if that failed;
- then the command and all below it are as they were before the call, or as the call leaves them. After
  `build` they are as before, and if the sink failed, as the call leaves them. `state.rt` of
  `library_calls` reads them by the getters;
- the same call, repeated with enough memory and room, writes the text or the file that it writes if
  nothing fails;
- the script of a sink that accepts a byte at a time, and that of a file, is the one that `complgen script`
  prints for the same command. `generate_to` replaces a longer file, and fails with the kind of a device
  that is full;
- if the last allocation of `complete` fails, which a completer, a list or a directory may make, the
  command is built;
- calls over a chain of 1,000 commands, each the only child of the one before it, succeed. In Elvish each
  command has a table, in bash the last one has its level, and its flag is completed;
- no slice of a script with 500 flags has more than 1,024 bytes;
- a generator whose first allocation fails has written nothing. `write_complete` and `try_complete` have
  written nothing, whichever allocation fails;
- `complgen` ends with status 1 and `out of memory`. Its output is the beginning of the usual output, and
  empty for candidates;
- a block that should become smaller stays as it is if that allocation fails. Such a call has to end as
  if nothing failed. It counts as spared.

The script prints a line for each call: its runs, how many got no memory, how many of these were spared,
how many sinks failed, and how many runs were wrong. The last line has the totals. The status is 0 if no
run was wrong.
"""

import argparse
import collections
import concurrent.futures
import json
import os
import re
import subprocess
import sys
import tempfile

sys.path.append(os.path.join(os.path.dirname(os.path.realpath(__file__)), "..", "tools"))
import common

SOURCES = os.path.join(common.TOP, "tests", "refusals.d")
TREE = os.path.join(common.EXAMPLES, "tree-with-children.json")
ENOUGH = str(2**64 - 1)
SECONDS = 20
# Calls that build the command that they get.
BUILDING = ("bash_script", "build", "complete", "generate ", "generate_to ", "write_complete ")
# Calls that write nothing to the sink before they end.
SINKLESS = ("build", "complete", "generate_to ")
# Calls that write nothing if an allocation fails.
REPLIES = (*SINKLESS, "write_complete ", "try_complete ")

# The call whose sink is interrupted too, which counts as a failure like any other.
INTERRUPTED = "write_registration fish"

# Calls over a chain, and its depth; and how many flags there are, and how long a slice may be.
CHAINED = ("is_plain", "has_quiet_values", "build", "all_subcommands", "complete")
LARGE = (*(f"chain {it}" for it in CHAINED),
         *(f"{of} generate {it}" for of in ("chain", "many") for it in common.SHELLS))
DEPTH = 1000
FLAGS = 500
LONGEST = 1024

# The command of `library_calls`, without the numbers of its completer and its list.
COMMAND = {
    "name": "app", "about": "Does it",
    "args": [
        {"id": "root", "long": "root", "help": "It's", "value_names": ["DIR"], "value_hint": "AnyPath"},
        {"id": "color", "long": "color", "help": "It's", "value_names": ["WHEN"], "possible_values": [
            {"name": "auto", "help": "It's here"}, {"name": "never", "help": "It's not"}]},
        {"id": "key", "long": "key", "help": "It's", "value_names": ["KEY"]},
        {"id": "level", "long": "level", "help": "It's", "value_names": ["LEVEL"]},
    ],
    "subcommands": [{
        "name": "run", "about": "Runs it", "visible_aliases": ["r"],
        "args": [
            {"id": "verbose", "long": "verbose", "short": "v", "help": "It's", "action": "SetTrue", "global": True}],
    }],
}

Ended = collections.namedtuple("Ended", "status outcome taken state text refused")
totals = collections.Counter()


def main():
    options = arguments()
    calls = [] if options.whole else options.calls or None
    with tempfile.TemporaryDirectory() as folder:
        refuse = os.path.join(folder, "refuse.so")
        source = os.path.join(SOURCES, "refuse.c")
        subprocess.run(["cc", "-O2", "-shared", "-fPIC", "-o", refuse, source], check=True)
        with concurrent.futures.ThreadPoolExecutor(os.cpu_count()) as pool:
            scripts = {} if calls or options.whole else scripts_of(common.program("complgen"), folder)
            if calls != []:
                try_calls(common.program("library_calls"), calls, scripts, refuse, pool)
            if scripts:
                tried_files(common.program("library_calls"), scripts["generate_to fish"])
            for name in LARGE if scripts else []:
                tried_large(common.program("library_calls"), name)
            for words in [] if calls else whole_runs(folder):
                tried_run(common.program("complgen"), words, folder, refuse, pool)
    print(
        f"{totals['runs']} runs, {totals['refused']} allocations refused, {totals['spared']} spared, "
        f"{totals['bytes']} sinks failed, {totals['wrong']} wrong"
    )
    return 1 if totals["wrong"] else 0


def arguments():
    parser = argparse.ArgumentParser(usage=common.usage(__doc__))
    parser.add_argument("--whole", action="store_true")
    parser.add_argument("calls", nargs="*", metavar="CALL")
    return parser.parse_args()


def scripts_of(complgen, folder):
    """Returns the scripts of `complgen` by the calls that write them."""
    path = os.path.join(folder, "command.json")
    with open(path, "w", encoding="utf-8") as file:
        json.dump(COMMAND, file)
    scripts = {}
    for shell in common.SHELLS:
        words = [complgen, "script", "--shell", shell, "--bin", "app", path]
        script = subprocess.run(words, capture_output=True, check=True, text=True).stdout
        scripts[f"generate {shell}"] = scripts[f"generate_to {shell}"] = script
    return scripts


def try_calls(program, names, scripts, refuse, pool):
    """Tries these calls, or all that the program names."""
    before = Call(program, "write_registration bash", refuse).run().state
    for name in names or calls_of(program):
        tried_call(Call(program, name, refuse), before, scripts.get(name), pool)


def calls_of(program):
    """Returns the names of the calls."""
    return subprocess.run([program], capture_output=True, check=True, text=True).stdout.splitlines()


class Call:
    """A call of the library, by its name."""

    def __init__(self, program, name, refuse):
        self.program, self.name, self.refuse = program, name, refuse

    def run(self, room=ENOUGH, refused=0, kind=()):
        environment = {"LD_PRELOAD": self.refuse, "REFUSE": str(refused)}
        with tempfile.TemporaryDirectory() as folder:
            try:
                done = subprocess.run(
                    [self.program, self.name, room, *kind], cwd=folder, env=environment,
                    timeout=SECONDS, capture_output=True, text=True, errors="replace",
                )
            except subprocess.TimeoutExpired:
                return Ended("no end", "", "", "", "", False)
            files = [contents(os.path.join(folder, name)) for name in sorted(os.listdir(folder))]
        _, _, after = done.stdout.partition("begin\nend\n")
        told, _, text = after.partition("\nagain\n")
        told, _, taken = told.partition("\ntaken\n")
        outcome, _, state = told.partition("\n")
        refused = done.stderr.endswith("refused\n")
        return Ended(done.returncode, outcome, taken, state, "".join([text, *files]), refused)


def contents(path):
    with open(path, encoding="utf-8") as file:
        return file.read()


def tried_call(call, before, script, pool):
    """Tries a call, prints its line, and counts the wrong runs. If there is a script, the call writes it."""
    whole = call.run()
    wrong = []

    def judge(told, ended, outcome, states):
        if (ended.status, ended.outcome, ended.text) != (0, outcome, whole.text):
            wrong.append(f"{told}: {ended}")
        elif ended.state not in states:
            wrong.append(f"{told}: the command is\n{ended.state}")

    builds = call.name.startswith(BUILDING)
    judge("nothing refused", whole, "done", [whole.state])
    if (whole.state != before) != builds or (builds and not whole.state.startswith("built; ")):
        wrong.append(f"nothing refused: the command is\n{whole.state}")
    # After the script of a sink, the program prints a line feed. Before that of a file, it prints a path.
    written = whole.text.partition("\n")[2] if call.name.startswith("generate_to ") else whole.text[:-1]
    if script and written != script:
        wrong.append("nothing refused: complgen writes another script")
    refused, last = refused_runs(call, pool)
    judge("one allocation more than there are", last, "done", [whole.state])
    spared = 0
    for number, ended in enumerate(refused, 1):
        if ended.outcome == "done":
            spared += 1
            judge(f"allocation {number}", ended, "done", [whole.state])
        else:
            states = [before] if call.name == "build" else [before, whole.state]
            judge(f"allocation {number}", ended, "out of memory", states)
            first = number == 1 and call.name.startswith("generate ")
            nothing = first or call.name.startswith(REPLIES)
            if not whole.text.startswith(ended.taken) or (ended.taken and nothing):
                wrong.append(f"allocation {number}: {ended.taken!r} was put")
    failed = [ended.state for ended in refused if ended.outcome == "out of memory"]
    if call.name.startswith("complete") and failed[-1:] != [whole.state]:
        wrong.append("the last allocation: the command is not built")
    room = 0 if call.name.startswith(SINKLESS) else len(whole.text.encode()) - 1
    kinds = [("no room", ()), ("nothing taken", ("nothing",))]
    if call.name == INTERRUPTED:
        kinds.append(("interrupted", ("interrupted",)))
    for outcome, kind in kinds:
        runs = pool.map(lambda count: call.run(str(count), kind=kind), range(room))
        for count, ended in enumerate(runs):
            judge(f"room for {count} bytes, {outcome}", ended, outcome, [whole.state])
            if ended.taken.encode() != whole.text.encode()[:count]:
                wrong.append(f"room for {count} bytes, {outcome}: {ended.taken!r} was taken")
    report(call.name, 2, len(refused), spared, len(kinds) * room, wrong)


def refused_runs(call, pool):
    """Returns the runs in which the first allocation fails, the second and so on, and the run after the
    last."""
    refused, step = [], 64
    while True:
        first = len(refused) + 1
        for ended in pool.map(lambda n: call.run(refused=n), range(first, first + step)):
            if not ended.refused:
                return refused, ended
            refused.append(ended)


def tried_files(program, script):
    """Tries `generate_to` over what has the path of its file. Prints a line, and counts the wrong runs."""
    wrong = []
    with tempfile.TemporaryDirectory() as folder:
        path = os.path.join(folder, "app.fish")

        def judge(told, outcome):
            done = subprocess.run(
                [program, "generate_to fish", ENOUGH], cwd=folder, timeout=SECONDS, capture_output=True, text=True,
                check=False)
            ended = done.stdout.partition("begin\nend\n")[2].partition("\n")[0]
            if ended != outcome:
                wrong.append(f"{told}: {ended}")

        os.symlink("/dev/full", path)
        judge("a device that is full", "no room")
        os.remove(path)
        os.mkdir(path)
        judge("a directory", "another error")
        os.rmdir(path)
        with open(path, "w", encoding="utf-8") as file:
            file.write(script + "# more\n" * 1000)
        judge("a longer file", "done")
        if contents(path) != script:
            wrong.append("a longer file: it holds another text than the script")
    report("generate_to, over files", 3, 0, 0, 0, wrong)


def tried_large(program, name):
    """Tries a call over a chain of commands or many flags, prints its line, and counts a wrong run."""
    number = DEPTH if name.startswith("chain ") else FLAGS
    done = subprocess.run([program, name, str(number)], timeout=SECONDS, capture_output=True, text=True, check=False)
    found = re.fullmatch("made\ncalled ([0-9]+)\n(.*)\ndropped\n", done.stdout, re.DOTALL)
    if done.returncode or done.stderr or not found:
        wrong = [f"status {done.returncode}: {done.stdout[:100]!r} {done.stderr!r}"]
    else:
        wrong = [] if holds_of(name, int(found[1]), found[2]) else [f"a slice of {found[1]} bytes, or another text"]
    report(name, 1, 0, 0, 0, wrong)


def holds_of(name, longest, text):
    """Tells whether a call over a chain or many flags wrote this text, whose longest slice is given."""
    lines = text.split("\n")
    if name == "chain complete":
        return text == "--end\n"
    if name == "chain generate elvish":
        tables = sum(line.endswith("'= {") for line in lines)
        return tables == DEPTH + 1 and lines.count("            cand --end 'It ends here'") == 1
    if name == "chain generate bash":
        return f"${{COMP_CWORD}} -eq {DEPTH + 1} " in text and f"${{COMP_CWORD}} -eq {DEPTH + 2} " not in text
    if name.startswith("many "):
        return len(text) > 5 * LONGEST and longest <= LONGEST
    return bool(text) == name.startswith("chain generate ")


def report(name, whole, refused, spared, failed, wrong):
    """Prints the line of a call. In `whole` of its runs nothing failed."""
    runs = whole + refused + failed
    totals.update(runs=runs, refused=refused, spared=spared, bytes=failed, wrong=len(wrong))
    print(
        f"{name:<30}{runs:>7} runs{refused:>7} refused{spared:>4} spared{failed:>7} sinks"
        f"{len(wrong):>4} wrong",
        flush=True,
    )
    for told in wrong[:5]:
        print(f"    {told[:400]}")


# The program as a whole.


def whole_runs(folder):
    """Yields the words of the runs. The last one lists the files of the directory, which this makes."""
    for shell in common.SHELLS:
        yield ["script", "--shell", shell, "--bin", "app", TREE]
    for shell in common.LIVE_SHELLS:
        yield ["register", "--shell", shell, "--bin", "app", TREE]
    yield ["candidates", "--index", "1", TREE, "--", "app", ""]
    with open(os.path.join(folder, "tree.json"), "w", encoding="utf-8") as file:
        file.write('{"name": "app", "args": [{"id": "path", "value_hint": "AnyPath"}]}')
    os.mkdir(os.path.join(folder, "folder"))
    yield ["candidates", "--index", "1", "tree.json", "--", "app", ""]


def tried_run(program, words, folder, refuse, pool):
    """Tries a run of `complgen` in the directory, prints its line, and counts the wrong runs."""
    refused, spared, wrong = 0, 0, []

    def run(number):
        environment = {"LD_PRELOAD": refuse, "REFUSE": str(number), "COUNT": "all"}
        try:
            done = subprocess.run(
                [program, *words], cwd=folder, env=environment, timeout=SECONDS,
                capture_output=True, text=True, stdin=subprocess.DEVNULL,
            )
        except subprocess.TimeoutExpired:
            return "no end", "", ""
        return done.returncode, done.stderr, done.stdout

    whole = run(0)[2]
    while True:
        for status, printed, text in pool.map(run, range(refused + 1, refused + 65)):
            if not printed.endswith("refused\n"):
                if not whole or (status, printed, text) != (0, "", whole):
                    wrong.append(f"no allocation refused: status {status}, {printed!r}, {text!r}")
                return report(" ".join(["complgen", *words[:3]]), 1, refused, spared, 0, wrong)
            refused += 1
            if (status, printed, text) == (0, "refused\n", whole):
                spared += 1
            elif (status, printed) != (1, "out of memory\nrefused\n"):
                wrong.append(f"allocation {refused}: status {status}, {printed!r}, {text!r}")
            elif text and (words[0] == "candidates" or not whole.startswith(text)):
                wrong.append(f"allocation {refused}: printed {text!r}")


if __name__ == "__main__":
    sys.exit(main())
