#!/usr/bin/env python3
"""Compares what two builds of `complgen` do.

    tests/compare.py OLD [NEW] [--seed N] [--trees N] [--files N] [--changes N] [--words N] [--only KIND:N]

OLD and NEW are programs. OLD may come from an earlier commit; NEW is the proved program by default.
There are four kinds of random runs:

- tree: the script and the registration of each shell for a tree file with any keys (--trees, 2,000);
- file: a tree file of examples/, changed as tests/hostile.py changes it (--files, 3,000);
- change: the script of a shell and the findings of `check` for a good tree file, random or of
  examples/, with the changes of tests/check.py and others: a key that appears twice, a key or a value
  of another object, a number out of range (--changes, 10,000);
- words: candidates for words and an index, over random tree files and those of examples/ (--words,
  10,000).

The status, the output and the messages have to be the same, byte for byte. The script prints each run
that differs, with its kind and number, which --only repeats. Then it prints how many runs ended with
which status. The status is 0 if no run differs.
"""

import argparse
import collections
import concurrent.futures
import json
import os
import random
import re
import subprocess
import sys
import tempfile

sys.path.append(os.path.join(os.path.dirname(os.path.realpath(__file__)), "..", "tools"))
import check
import common
import hostile

# The number of random trees for the lists of words.
WORD_TREES = 200


def main():
    options = arguments()
    counts = {
        "tree": options.trees, "file": options.files, "change": options.changes, "words": options.words,
    }
    runs = [(kind, number) for kind, count in counts.items() for number in range(count)]
    if options.only:
        kind, number = options.only.split(":")
        runs = [(kind, int(number))]
    examples = hostile.read_trees()
    with tempfile.TemporaryDirectory() as folder:
        make_home(folder)

        def attempt(run):
            return run, compared(options, folder, examples, *run)

        with concurrent.futures.ThreadPoolExecutor(os.cpu_count()) as pool:
            return reported(pool.map(attempt, runs))


def arguments():
    parser = argparse.ArgumentParser(usage=common.usage(__doc__))
    parser.add_argument("old", metavar="OLD")
    parser.add_argument("new", metavar="NEW", nargs="?", default=common.default_program("complgen"))
    parser.add_argument("--seed", type=int, default=1)
    parser.add_argument("--trees", type=int, default=2000)
    parser.add_argument("--files", type=int, default=3000)
    parser.add_argument("--changes", type=int, default=10000)
    parser.add_argument("--words", type=int, default=10000)
    parser.add_argument("--only", metavar="KIND:N", help="the one run to repeat")
    return parser.parse_args()


def reported(results):
    """Prints what differs, and how the runs ended. Returns the status."""
    ended, differ = collections.Counter(), 0
    for (kind, number), outcomes in results:
        for words, old, new in outcomes:
            ended[kind, old[0]] += 1
            if old != new:
                differ += 1
                print(f"{kind}:{number} {words[:8]!r}\n  old {old!r:.300}\n  new {new!r:.300}")
    for (kind, status), count in sorted(ended.items()):
        print(f"{count:>7}  {kind}: status {status}")
    print(f"{sum(ended.values())} runs, {differ} differ")
    return 1 if differ else 0


def make_home(folder):
    """Makes a directory with some files, in which the programs run, because candidates may be paths."""
    os.makedirs(os.path.join(folder, "home", "src"))
    for name in ("a.txt", "notes", ".hidden", "src/main.rs"):
        with open(os.path.join(folder, "home", name), "w", encoding="utf-8"):
            pass


def compared(options, folder, examples, kind, number):
    """Returns the words of each call, with what each of the two programs did."""
    chance = random.Random(f"{options.seed} {kind} {number}")
    path = os.path.join(folder, f"{kind}-{number}.json")
    with open(path, "wb") as file:
        file.write(tree_file(chance, examples, kind, options.seed))
    calls = calls_of(chance, kind, path)
    outcomes = [(words, done(options.old, words, folder), done(options.new, words, folder)) for words in calls]
    if not options.only:
        os.remove(path)
    return outcomes


def done(program, words, folder):
    home = os.path.join(folder, "home")
    environment = {"PATH": os.environ["PATH"], "HOME": home}
    ran = subprocess.run(
        [program, *words], env=environment, cwd=home, stdin=subprocess.DEVNULL, capture_output=True
    )
    return ran.returncode, ran.stdout, ran.stderr


def tree_file(chance, examples, kind, seed):
    if kind == "file":
        return hostile.changed_tree(chance, examples)
    if kind == "change":
        return changed_members(chance, examples)
    if kind == "words" and chance.randrange(4) == 0:
        return examples[chance.choice(sorted(examples))]
    if kind == "words":
        chance = random.Random(f"{seed} tree {chance.randrange(WORD_TREES)}")
    return json.dumps(command(chance, 3)).encode()


def calls_of(chance, kind, path):
    if kind == "words":
        words = some_words(chance, path)
        index = str(len(words) - 1) if words and chance.randrange(8) else hostile.index(chance)
        return [["candidates", "--index", index, path, "--", *words]]
    if kind == "file":
        return [hostile.words_over(chance, path)]
    if kind == "change":
        return [["script", "--shell", chance.choice(hostile.SHELLS), "--bin", "app", path], ["check", path]]
    shells = [("script", shell) for shell in hostile.SHELLS]
    shells += [("register", shell) for shell in hostile.SHELLS]
    bin_name = chance.choice(["app", "my-app", "a b'c"])
    return [[what, "--shell", shell, "--bin", bin_name, path] for what, shell in shells]


def changed_members(chance, examples):
    """Returns a good tree file with some changes of its members, as bytes."""
    tree = chance.choice([*(text.decode() for text in examples.values()), *[json.dumps(command(chance, 2))] * 3])
    text = check.changed(chance, [tree]) if chance.randrange(2) else json.dumps(json.loads(tree)).encode()
    for _ in range(chance.choice([0, 1, 1, 2])):
        text = chance.choice([repeated, moved, hostile.replaced])(chance, text)
    return text


# A member of an object whose value is no object: its key and its value.
MEMBER = re.compile(rb'("[a-z_]+"): *("[^"\\\\]*"|\[[^\[\]{}]*\]|[-+.a-z0-9]+)')


def repeated(chance, text):
    """Writes the key of a member once more: before it or after it, with its value or with another."""
    members = list(MEMBER.finditer(text))
    if not members:
        return text
    member = chance.choice(members)
    values = [member[2], chance.choice(members)[2], chance.choice(hostile.ODD_VALUES).encode()]
    again = member[1] + b": " + chance.choice(values)
    both = chance.choice([[again, member[0]], [member[0], again]])
    return text[: member.start()] + b", ".join(both) + text[member.end() :]


def moved(chance, text):
    """Writes a member of some object also at the beginning of another one."""
    members = list(MEMBER.finditer(text))
    if not members:
        return text
    at = chance.choice([found.end() for found in re.finditer(rb"\{", text)])
    return text[:at] + chance.choice(members)[0] + b", " + text[at:]


def some_words(chance, path):
    """Returns words, most of which lead somewhere in the tree of a file."""
    with open(path, "rb") as file:
        node = json.load(file)
    words = [b"app"] if chance.randrange(8) else []
    for _ in range(chance.randrange(6)):
        children = node.get("subcommands", [])
        options = [it for it in node.get("args", []) if "long" in it or "short" in it]
        if children and chance.randrange(2):
            node = chance.choice(children)
            word = chance.choice([node["name"], *node.get("visible_aliases", []), *node.get("aliases", [])])
        elif options and chance.randrange(3):
            word = typed_option(chance, chance.choice(options))
        else:
            words.append(hostile.odd_word(chance))
            continue
        words.append(word.encode()[: chance.choice([1, 3, 100, 100])])
    return words + [chance.choice([b"", b"-", b"--", hostile.odd_word(chance)])] * chance.randrange(2)


def typed_option(chance, option):
    word = f"--{option['long']}" if "long" in option and chance.randrange(2) else f"-{option.get('short', 'q')}"
    return word + chance.choice(["", "", "=", "=a", "b"])


# Trees.

NAMES = ["add", "b", "c-d", "e_f", "list", "key", "x1", "re-move", "show", "Go", "odd name", "it's", "é", "a:b"]
TEXTS = [
    "Does one thing", "It's $HOME", 'a "b" [c]: d\\e', "two\nlines", "é`x`", "", "‘q’ ‚r‛", "{a} (b) #c", "tab\there", "%s",
]
HINTS = [
    "Unknown", "Other", "AnyPath", "FilePath", "DirPath", "ExecutablePath", "CommandName", "CommandString",
    "CommandWithArguments", "Username", "Hostname", "Url", "EmailAddress",
]
ACTIONS = ["Set", "Append", "SetTrue", "SetFalse", "Count", "Help", "HelpShort", "HelpLong", "Version"]


def command(chance, depth):
    tree = {"name": name(chance)}
    some(chance, tree, 2, "about", lambda: chance.choice(TEXTS))
    some(chance, tree, 4, "version", lambda: "1.0")
    some(chance, tree, 8, "bin_name", lambda: name(chance))
    some(chance, tree, 8, "subcommand_help_heading", lambda: chance.choice(TEXTS))
    for key in ("aliases", "visible_aliases"):
        some(chance, tree, 4, key, lambda: [name(chance) for _ in range(chance.randrange(3))])
    some(chance, tree, 8, "display_order", lambda: chance.randrange(2000))
    for key in ("hide", "disable_version_flag", "disable_help_flag", "disable_help_subcommand"):
        some(chance, tree, 6, key, lambda: bool(chance.randrange(2)))
    for key in ("allow_external_subcommands", "no_binary_name", "subcommand_required", "arg_required_else_help"):
        some(chance, tree, 12, key, lambda: bool(chance.randrange(2)))
    for key in ("long_about", "after_help"):
        some(chance, tree, 12, key, lambda: chance.choice(TEXTS))
    some(chance, tree, 1, "args", lambda: [argument(chance) for _ in range(chance.randrange(5))])
    if depth:
        some(chance, tree, 1, "subcommands", lambda: [command(chance, depth - 1) for _ in range(chance.randrange(4))])
    return tree


def argument(chance):
    found = {"id": name(chance)}
    if chance.randrange(4):
        some(chance, found, 2, "short", lambda: chance.choice("abcvqxX1é"))
        some(chance, found, 2, "long", lambda: name(chance))
    some(chance, found, 2, "help", lambda: chance.choice(TEXTS))
    some(chance, found, 8, "help_heading", lambda: chance.choice(TEXTS))
    some(chance, found, 3, "action", lambda: chance.choice(ACTIONS))
    some(chance, found, 3, "num_args", lambda: values(chance))
    for key in ("short_aliases", "visible_short_aliases"):
        some(chance, found, 8, key, lambda: [chance.choice("stuvw") for _ in range(chance.randrange(3))])
    for key in ("aliases", "visible_aliases", "value_names", "conflicts_with"):
        some(chance, found, 6, key, lambda: [name(chance) for _ in range(chance.randrange(3))])
    some(chance, found, 6, "value_delimiter", lambda: chance.choice(",:é"))
    some(chance, found, 4, "possible_values", lambda: [possible(chance) for _ in range(chance.randrange(4))])
    some(chance, found, 4, "value_hint", lambda: chance.choice(HINTS))
    some(chance, found, 8, "index", lambda: chance.randrange(1, 4))
    some(chance, found, 8, "display_order", lambda: chance.randrange(2000))
    some(chance, found, 8, "value_terminator", lambda: ";")
    some(chance, found, 8, "default_value", lambda: chance.choice(["auto", "a b", ""]))
    for key in ("required", "last", "global", "hide", "allow_hyphen_values"):
        some(chance, found, 5, key, lambda: bool(chance.randrange(2)))
    return found


def values(chance):
    least = chance.randrange(3)
    return [least, chance.choice([None, least, least + 1, least + 300])]


def possible(chance):
    found = {"name": chance.choice([name(chance), "auto", "it's", "a b", "é"])}
    some(chance, found, 2, "help", lambda: chance.choice(TEXTS))
    some(chance, found, 4, "hide", lambda: bool(chance.randrange(2)))
    return found


def name(chance):
    # Most names are plain, because otherwise hardly any tree would be plain.
    return chance.choice(NAMES[:9] if chance.randrange(8) else NAMES)


def some(chance, found, one_in, key, value):
    """Sets the key in one of `one_in` cases."""
    if chance.randrange(one_in) == 0:
        found[key] = value()


if __name__ == "__main__":
    sys.exit(main())
