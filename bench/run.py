#!/usr/bin/env python3
"""Measures `complgen` over large trees, and checks limits of time, memory and instructions.

    bench/run.py [--shells NAME,NAME..] [--runs N]
    bench/run.py --instructions [--shells NAME,NAME..]
    bench/run.py --candidates

The first form times `complgen script` over these trees, which it writes as files:

- wide: a root with all other commands as its children;
- deep: a root with chains below it. A chain is 39 commands long, so the tree is 40 deep;
- options: one command with 10,000 options, each with a long name, a help text and one value.

Wide and deep trees have 100, 1,000 and 10,000 commands. A command has a name of six letters and
digits, a description of some forty characters, and no arguments or aliases. Its help flag and help
subcommand are disabled, because the subcommand `help` copies the whole tree below it. So a script has
one table for each command, or one row for each option, and the script checks their number. In a fish
script each command and each option is one record. The files have no spaces between their tokens.

It prints a line for each shell and tree:

- the best time of several runs, minus the best of as many runs over a tree of one command. Both take
  turns. The time is given as microseconds for each command or option, and as megabytes of the script
  for each second;
- the peak of the program's memory, and its limit.

The time is the processor's, user and system. It depends less on what else the machine does, and the
program has one thread and waits for nothing. Timed runs write to /dev/null.

The status is 0 if these limits hold:

- time: from 1,000 to 10,000 commands of one shape, the time for each command grows by at most a third;
- memory: the peak stays below ten times the size of the tree file plus 8 MB (8,000,000 bytes).

With --instructions, valgrind counts the instructions of one run for each shell: over the wide trees of
1,000 and 10,000 commands, over one command, over one command with 1,000 options, and over a chain of
39 commands. The columns are these:

- wide, options, chain: all instructions of the process over 1,000 commands, 1,000 options and the chain.
  At most 60 million for the first, and 11.5 million for the second;
- times: how many times as many instructions 10,000 commands take, at most 10.5;
- a command: `wide` minus the same run over one command, divided by 999;
- writing: the cost of the generator in the run over the wide tree, with everything that it calls;
- a row: the writing of one command with 1,000 options, minus that of one without, divided by 1,000.

Then it counts `complgen check` of the 10,000 options, which may take 2.3 times the instructions of
reading them in a run of `script`. The last measurement has 90.7 million for 47.6 million.

With --candidates, valgrind counts the instructions of `complete`, without the build, in runs of
`complgen candidates`. The runs are over 100, 1,000 and 10,000 children and options, for a word that
begins none, one and all of their names, and after 10, 100 and 1,000 words. A child or an option that
is not offered may cost 250 instructions. Among ten times as many, a child, an option or a word may cost
at most a third more. Then it counts a run of `larder` that replies to a shell, and a run of `complgen
candidates` for the same words over examples/larder.json.

It runs on Linux only, because it gets the memory peak from the system (see `peak_memory`).
"""

import argparse
import ctypes
import json
import os
import subprocess
import sys
import tempfile

sys.path.append(os.path.join(os.path.dirname(os.path.realpath(__file__)), "..", "tools"))
import common

COUNTS = (100, 1000, 10000)
OPTIONS = 10000
DEPTH = 40
MOST_GROWTH = 4 / 3
MOST_TIMES_THE_FILE = 10
MOST_BESIDES = 8_000_000
PR_SET_CHILD_SUBREAPER = 36


def main():
    options = arguments()
    program = common.program("complgen")
    shells = options.shells.split(",")
    if options.instructions:
        return counted(program, shells)
    if options.candidates:
        larder = common.program("larder")
        status = counted_candidates(program)
        counted_reply(program, larder)
        return status
    adopt_orphans()
    kept = True
    with tempfile.TemporaryDirectory() as folder:
        trees = write_trees(folder)
        print(
            f"{'shell':<11}{'tree':<9}{'count':>6}{'us each':>9}{'MB/s':>7}"
            f"{'file kB':>9}{'peak kB':>9}{'limit kB':>10}"
        )
        for shell in shells:
            kept &= measured_shell(program, shell, trees, options.runs)
    print("all limits are kept" if kept else "a limit is not kept")
    return 0 if kept else 1


def arguments():
    parser = argparse.ArgumentParser(usage=common.usage(__doc__))
    parser.add_argument("--shells", default=",".join(common.SHELLS), help="names joined by commas")
    parser.add_argument("--instructions", action="store_true", help="count instructions, time nothing")
    parser.add_argument(
        "--candidates", action="store_true", help="count instructions of live completion"
    )
    parser.add_argument("--runs", type=int, default=20, help="runs of which the best counts")
    return parser.parse_args()


# Trees.


def command(number, children=()):
    tree = {
        "name": f"c{number:05}",
        "about": f"Command {number:05} does one thing and then ends",
        "disable_help_flag": True,
        "disable_help_subcommand": True,
    }
    if children:
        tree["subcommands"] = list(children)
    return tree


def wide(count):
    return command(0, [command(number) for number in range(1, count)])


def chain(first, end):
    tree = command(end - 1)
    for number in reversed(range(first, end - 1)):
        tree = command(number, [tree])
    return tree


def deep(count):
    length = DEPTH - 1
    firsts = range(1, count, length)
    return command(0, [chain(first, min(first + length, count)) for first in firsts])


def option(name):
    help_text = f"Option {name} says one thing and no more"
    return {"id": name, "long": name, "help": help_text, "num_args": [1, 1]}


def with_options(count):
    names = [f"o{number:05}" for number in range(count)]
    tree = command(0)
    tree["args"] = [option(name) for name in names]
    return tree


def write_trees(folder):
    """Writes the tree files, and returns their paths by shape and count."""
    trees = {("one", 1): wide(1)}
    for count in COUNTS:
        trees["wide", count] = wide(count)
        trees["deep", count] = deep(count)
    trees["options", OPTIONS] = with_options(OPTIONS)
    paths = {}
    for (shape, count), tree in trees.items():
        paths[shape, count] = write_tree(folder, f"{shape}-{count}", tree)
    return paths


def write_tree(folder, name, tree):
    path = os.path.join(folder, f"{name}.json")
    with open(path, "w", encoding="utf-8") as file:
        json.dump(tree, file, separators=(",", ":"))
    return path


# Measures.


def adopt_orphans():
    """Makes this process the parent of processes whose own parent ended."""
    if ctypes.CDLL(None).prctl(PR_SET_CHILD_SUBREAPER, 1, 0, 0, 0) != 0:
        sys.exit("bench: the system does not adopt processes whose parent ended")


def words(program, shell, tree):
    return [program, "script", "--shell", shell, "--bin", "app", tree]


def ended_well(pid):
    """Waits for a process, and returns what it used. Ends the script if the process failed."""
    _, status, usage = os.wait4(pid, 0)
    if os.waitstatus_to_exitcode(status) != 0:
        sys.exit("bench: the program refused a tree")
    return usage


def seconds_of(call):
    """Returns the processor time of a run, including the system's."""
    nothing = [(os.POSIX_SPAWN_OPEN, 1, os.devnull, os.O_WRONLY, 0)]
    usage = ended_well(os.posix_spawn(call[0], call, {}, file_actions=nothing))
    return usage.ru_utime + usage.ru_stime


def best_seconds(call, call_of_one, runs):
    """Returns the best of several runs, minus the best of as many runs over a tree of one command."""
    best = best_of_one = float("inf")
    for _ in range(runs):
        best_of_one = min(best_of_one, seconds_of(call_of_one))
        best = min(best, seconds_of(call))
    return max(best - best_of_one, 1e-9)


def peak_memory(call, script):
    """Returns the peak of the program's memory in bytes, in a run that writes the script to this file.

    The system's count for a process includes what its parent held at the start. Python alone is above some
    limits. So a small shell starts the process and ends. The process waits for that at a gate, and then its
    parent is this script, which learns how it ended.
    """
    start = 'script=$1; shift; exec 3<&0; { read go <&3; exec "$@" 3<&-; } >"$script" & echo $!'
    gate, key = os.pipe()
    started = subprocess.run(
        ["sh", "-c", start, "sh", script, *call], check=True, stdin=gate, stdout=subprocess.PIPE
    )
    os.write(key, b"\n")
    os.close(key)
    os.close(gate)
    return ended_well(int(started.stdout)).ru_maxrss * 1024


def script_of(call, tree):
    """Returns the script of a tree, and its memory peak."""
    path = tree + ".script"
    peak = peak_memory(call, path)
    with open(path, "rb") as file:
        return file.read(), peak


# Texts that a script has once for each command, and once for each option: the beginning of an arm in
# bash, of a record in fish and of a block or line in zsh, the end of a block in Nushell, and the ends
# of a table and a row in the others.
COMMAND_MARKS = {
    "bash": b'\n            opts="',
    "fish": b"\ncomplete -c app",
    "nushell": b"\n  ]\n",
    "zsh": b'_arguments "${_arguments_options[@]}"',
}
OPTION_MARKS = {
    "bash": b"\n                --",
    "fish": b"\ncomplete -c app",
    "zsh": b"\n'--",
}
TABLE_END, ROW_END = b"\n        }", b"\n"


def is_whole(shell, shape, count, script, script_of_one):
    """Tells whether the script has all tables or rows, one for each command or option."""
    if shape == "options":
        mark, wanted = OPTION_MARKS.get(shell, ROW_END), count
    else:
        mark, wanted = COMMAND_MARKS.get(shell, TABLE_END), count - 1
    return marks(mark, script) - marks(mark, script_of_one) == wanted


def marks(mark, script):
    """Counts the lines of a script that begin with the mark."""
    return (b"\n" + script).count(mark)


def measured_shell(program, shell, trees, runs):
    """Prints a line for each tree, and returns whether all limits are kept."""
    call_of_one = words(program, shell, trees["one", 1])
    script_of_one, _ = script_of(call_of_one, trees["one", 1])
    kept = True
    seconds_each = {}
    for (shape, count), tree in trees.items():
        if shape == "one":
            continue
        call = words(program, shell, tree)
        script, peak = script_of(call, tree)
        if not is_whole(shell, shape, count, script, script_of_one):
            sys.exit(f"bench: the {shell} script of {shape} {count} is not whole")
        seconds = best_seconds(call, call_of_one, runs if count == COUNTS[-1] else 5 * runs)
        seconds_each[shape, count] = seconds / count
        size = os.path.getsize(tree)
        print_line(shell, shape, count, seconds, len(script), size, peak)
        kept &= peak < most_memory(size)
    return judged_growth(shell, seconds_each) and kept


def most_memory(size):
    return MOST_TIMES_THE_FILE * size + MOST_BESIDES


def print_line(shell, shape, count, seconds, length, size, peak):
    limit = most_memory(size)
    print(
        f"{shell:<11}{shape:<9}{count:>6}{seconds / count * 1e6:>9.2f}{length / seconds / 1e6:>7.1f}"
        f"{size / 1000:>9.0f}{peak / 1000:>9.0f}{limit / 1000:>10.0f}"
        f"{'' if peak < limit else '  too much'}"
    )


def judged_growth(shell, seconds_each):
    """Prints how the time for each command grows, and returns whether it keeps its limit."""
    kept = True
    for shape in ("wide", "deep"):
        growth = seconds_each[shape, 10000] / seconds_each[shape, 1000]
        fits = growth <= MOST_GROWTH
        print(
            f"{shell:<11}{shape:<9}time a command from 1,000 to 10,000: {growth:.2f} times, "
            f"limit {MOST_GROWTH:.2f}{'' if fits else '  too much'}"
        )
        kept &= fits
    return kept


# Instructions.


# Parts of the symbols of the generator, the reader of trees, `complete_from`, the calls that make a
# program's command and answer a request over it, and `build`.
GENERATE = "ShellGenerator::generate"
READ_TREE = "read_tree"
COMPLETE = "completion::complete_from::<"
MAKES = "complete_env::CompleteEnv::command::<"
ANSWERS = "answers::answer_call::<"
BUILD = "command::Command::build"
# The build within `complete`, in the program `complgen`.
BUILD_WITHIN = "command::build::build_under"


# Limits of the instructions of a whole run over 1,000 wide commands and over 1,000 options, and of a
# run over 10,000 commands in comparison with 1,000.
MOST_WIDE = 60_000_000
MOST_OPTIONS = 11_500_000
MOST_TIMES = 10.5

# The limit of a check of 10,000 options, in comparison with reading them.
MOST_CHECK = 2.3


def script_costs(program, shell, tree):
    """Returns the instructions of writing a script, all and those of the generator."""
    counted = common.callgrind(words(program, shell, tree), GENERATE)
    return counted.total, counted.costs[0]


def counted(program, shells):
    """Prints for each shell the instructions of 1,000 commands, of 1,000 options and of a chain."""
    kept = True
    with tempfile.TemporaryDirectory() as folder:
        trees = write_trees(folder)
        rows = write_tree(folder, "rows", with_options(1000))
        line = write_tree(folder, "line", chain(0, DEPTH - 1))
        for shell in shells:
            whole, writing = script_costs(program, shell, trees["wide", 1000])
            many, _ = script_costs(program, shell, trees["wide", 10000])
            one, writing_one = script_costs(program, shell, trees["one", 1])
            options, writing_rows = script_costs(program, shell, rows)
            deep_line, _ = script_costs(program, shell, line)
            kept &= whole <= MOST_WIDE and options <= MOST_OPTIONS and many <= MOST_TIMES * whole
            print(
                f"{shell:<11}wide {whole:>11,}  times {many / whole:>5.2f}  options {options:>11,}  "
                f"chain {deep_line:>10,}  of one command {one:>10,}  "
                f"a command {(whole - one) // 999:>7,}  writing {writing:>11,}  "
                f"a row {(writing_rows - writing_one) // 1000:>6,}",
                flush=True,
            )
        kept &= counted_check(program, trees["options", OPTIONS])
    print("all limits are kept" if kept else "a limit is not kept")
    return 0 if kept else 1


def counted_check(program, tree):
    """Prints the instructions of a check and those of reading the tree. Returns whether they keep the
    limit."""
    (reading,) = common.callgrind(words(program, "elvish", tree), READ_TREE).costs
    checking = common.callgrind([program, "check", tree]).total
    print(
        f"check of {OPTIONS:,} options {checking:>11,}  reading {reading:>11,}  "
        f"times {checking / reading:>5.2f}, limit {MOST_CHECK}"
    )
    return checking <= MOST_CHECK * reading


def completing(program, tree, words):
    """Returns the command line that requests candidates for the last of the words."""
    return [program, "candidates", "--index", str(len(words) - 1), tree, "--", *words]


# The limit of the cost of a child or an option that is examined and not offered. Among ten times as many, this cost may
# grow by MOST_GROWTH.
MOST_EACH = 250


def counted_candidates(program):
    """Prints the costs of `complete` without the build, and returns whether they keep the limits.

    The baseline is the cost for the value of an option, because then neither children nor options are
    examined.
    """
    with tempfile.TemporaryDirectory() as folder:

        def cost(tree, *words):
            call = completing(program, tree, ["app", *words])
            completed, built = common.callgrind(call, COMPLETE, BUILD_WITHIN).costs
            return completed - built

        print("                     word                        in all      each   looking      each")
        kept = [counted_word(cost, folder, kind) for kind in WORDS]
        for count in (1, 1000):
            tree = write_tree(folder, "option", with_options(count))
            kept.append(counted_line(cost, tree, f"--o{count - 1:05}", f"of {count:,} options"))
    return 0 if all(kept) else 1


def counted_line(cost, tree, last, of):
    """Prints the costs of many words before a value of an option, and returns whether they are linear.

    The words are the last of the options and a value in turn.
    """
    none = cost(tree, last, "zzz")
    each = []
    for count in (10, 100, 1000):
        walked = cost(tree, *[last, "x"] * (count // 2), last, "zzz") - none
        each.append(walked / count)
        print(f"{count:>6,} words {of:<20}{walked:>26,}{walked // count:>10,}")
    return judged_each(f"a word before, {of},", each, None)


# Words that begin none, one and all of the names.
WORDS = {"children": ("zzz", "c00050", ""), "options": ("--zzz", "--o00050", "--", "")}


def counted_word(cost, folder, kind):
    """Prints the costs for each count and each word, and returns whether they keep the limits."""
    kept = []
    for word in WORDS[kind]:
        wholes, each = [], []
        for count in COUNTS:
            path = write_tree(folder, kind, counted_tree(kind, count + 1))
            whole = cost(path, word)
            looked = whole - cost(path, "--o00000", "zzz")
            wholes.append(whole / count)
            each.append(looked / count)
            print(
                f"{count:>6,} {kind:<14}{word or 'empty':<22}{whole:>14,}{whole // count:>10,}"
                f"{looked:>10,}{looked // count:>10,}"
            )
        most = MOST_EACH if word == WORDS[kind][0] else None
        kept.append(judged_each(f"one of the {kind}, at {word or 'empty'},", each, most))
        kept.append(judged_each(f"one of the {kind}, at {word or 'empty'}, in all", wholes, None))
    return all(kept)


def counted_tree(kind, count):
    """Returns a command with that many options, or with that many children and one option."""
    if kind == "options":
        return with_options(count)
    tree = wide(count)
    tree["args"] = [option("o00000")]
    return tree


def judged_each(what, each, most):
    """Prints if the cost of one is too high or grows with the count, and returns whether it does not."""
    kept = True
    if most is not None and max(each) > most:
        print(f"too much: {what} costs {max(each):.0f} instructions, and {most} are allowed")
        kept = False
    if each[-1] > each[-2] * MOST_GROWTH:
        print(f"not linear: {what} costs {each[-1] / each[-2]:.2f} times as much among ten times as many")
        kept = False
    return kept


def counted_reply(program, larder):
    """Prints what a reply costs `larder`, and what the candidates for the same words cost `complgen`.

    The reply has four parts: making the command, its build, `complete` of the built command, and the rest,
    which makes the text of the reply. `complgen` reads the tree of a larger tool
    from a file.
    """
    words = ["larder", "in"]
    replying, asked = [larder, "--", *words], {**os.environ, "COMPLETE": "fish"}
    replied = common.callgrind(replying, MAKES, ANSWERS, BUILD, COMPLETE, env=asked)
    made, call, build, completed = replied.costs
    print(
        f"larder replies:      {replied.total:>10,} in all: {made:,} command, {build:,} build, "
        f"{completed:,} complete, {call - build - completed:,} reply"
    )
    tree = os.path.join(common.EXAMPLES, "larder.json")
    counted = common.callgrind(completing(program, tree, words), COMPLETE)
    print(f"complgen candidates: {counted.total:>10,} in all, {counted.costs[0]:,} complete")


if __name__ == "__main__":
    sys.exit(main())
