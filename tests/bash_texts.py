#!/usr/bin/env python3
"""Compares whole bash scripts of the example trees with docs/TEXTS.md.

    tests/bash_texts.py

For each tree file in examples/, it compares the script that `complgen` writes with one that it makes in
another way. It reads the frame and the arm from the section on bash scripts in docs/TEXTS.md. Then it
fills them in as the tables of that section say, for the tree with what building adds.

It prints a line for each tree. The status is 0 if all scripts are equal.
"""

import json
import os
import subprocess
import sys

sys.path.append(os.path.join(os.path.dirname(os.path.realpath(__file__)), "..", "tools"))
import common

BIN = "app"
LINE = "\n" + 20 * " "


def main():
    program = common.program("complgen")
    with open(os.path.join(common.TOP, "docs", "TEXTS.md"), encoding="utf-8") as file:
        section = file.read().split("\n## Bash script\n")[1].split("\n## ")[0]
    frame, arm = (block.split("\n```\n")[0] for block in section.split("\n\n```\n")[1:])
    equal = [is_equal(program, tree, frame + "\n", arm) for tree in common.example_trees()]
    return 0 if equal and all(equal) else 1


def is_equal(program, path, frame, arm):
    """Tells whether the program writes the script that is made here."""
    words = [program, "script", "--shell", "bash", "--bin", BIN, path]
    written = subprocess.run(words, stdout=subprocess.PIPE, check=True).stdout
    with open(path, encoding="utf-8") as file:
        made = script(built(json.load(file)), frame, arm)
    equal = written == made.encode()
    print(f"{os.path.basename(path)}: {'equal' if equal else 'different'}, {len(written)} bytes")
    return equal


# Additions of building.


def built(command, inherited=()):
    """Returns a command of a tree file with the arguments and the child that building adds."""
    children = list(command.get("subcommands", []))
    taken = [name for child in children for name in all_names(child)]
    if children and not command.get("disable_help_subcommand") and "help" not in taken:
        children.append({"name": "help", "generated": True, "subcommands": copies(children)})
    args = with_missing(command.get("args", []), inherited)
    propagated = [arg for arg in args if arg.get("global")]
    return {
        "names": [command["name"], *command.get("visible_aliases", [])],
        "args": args + flags(command, args),
        "children": [built_child(child, propagated) for child in children],
    }


def with_missing(args, further):
    """Returns the arguments, and those of the further ones that have a new id."""
    args = list(args)
    for arg in further:
        if arg["id"] not in [each["id"] for each in args]:
            args.append(arg)
    return args


def built_child(child, inherited):
    if "generated" not in child:
        return built(child, inherited)
    below = [built_child(each, ()) for each in child.get("subcommands", [])]
    return {"names": [child["name"]], "args": [], "children": below}


def copies(children):
    """Returns the children of a generated `help`: copies of the command's children, and a last `help`."""
    return [*map(copy, children), {"name": "help", "generated": True}]


def copy(command):
    below = [copy(child) for child in command.get("subcommands", [])]
    return {"name": command["name"], "generated": True, "subcommands": below}


def all_names(command):
    return [command["name"], *command.get("visible_aliases", []), *command.get("aliases", [])]


def flags(command, args):
    """Returns the flags for the help text and the version, unless they are disabled or exist."""
    ids = [arg["id"] for arg in args]
    added = []
    if not command.get("disable_help_flag") and "help" not in ids:
        added.append({"id": "help", "short": "h", "long": "help", "action": "Help"})
    if "version" in command and not command.get("disable_version_flag") and "version" not in ids:
        added.append({"id": "version", "short": "V", "long": "version", "action": "Version"})
    return added


# The script.


def script(root, frame, arm):
    label = BIN.replace("-", "__")
    cases, arms = [], []
    collect(root, label, BIN, 1, cases, arms)
    arms = arms[:1] + sorted(arms[1:], key=lambda one: one[0].encode())
    texts = {
        "«fn»": label,
        "«bin»": BIN,
        "«cases»": "".join(map(case_text, sorted(cases, key=bytes_of))),
        "«arms»": "".join("\n        " + arm_text(arm, *one[1:]) for one in arms),
    }
    return filled(frame, texts)


def filled(text, texts):
    for place, filling in texts.items():
        text = text.replace(place, filling)
    return text


def bytes_of(case):
    return [part.encode() for part in case]


def collect(command, label, full_name, level, cases, arms):
    """Adds the cases that lead to the commands below a command, and the arms of all of them."""
    arms.append((full_name.replace(" ", "__subcmd__"), label, level, command))
    for child in command["children"]:
        name = child["names"][0]
        below = label + "__subcmd__" + name.replace("-", "__subcmd__")
        cases += [(label, word, below) for word in child["names"]]
        collect(child, below, full_name + " " + name, level + 1, cases, arms)


def case_text(case):
    return '\n            {},{})\n                cmd="{}"\n                ;;'.format(*case)


def arm_text(arm, label, level, command):
    details = "".join(detail_texts(arg) for arg in command["args"])
    texts = {"«label»": label, "«level»": str(level), "«details»": details}
    return filled(arm, {**texts, "«opts»": " ".join(words(command))})


def words(command):
    args = command["args"]
    shorts = [word for arg in args for word in dashed(arg, "short", last=True)]
    longs = [word for arg in args for word in dashed(arg, "long", last=True)]
    values = [value["name"] for arg in args if is_positional(arg) for value in values_of(arg)]
    names = [name for child in command["children"] for name in child["names"]]
    return shorts + longs + values + names


def dashed(arg, kind, last=False):
    """Returns the shorts or longs of an argument as a user types them, the name first or last."""
    if kind not in arg:
        return []
    aliases = arg.get("visible_short_aliases" if kind == "short" else "visible_aliases", [])
    names = [*aliases, arg[kind]] if last else [arg[kind], *aliases]
    return [("-" if kind == "short" else "--") + name for name in names]


def is_positional(arg):
    return "short" not in arg and "long" not in arg


def takes_values(arg):
    if "num_args" in arg:
        return arg["num_args"][1] != 0
    return arg.get("action", "Set") in ("Set", "Append")


def values_of(arg):
    return arg.get("possible_values", []) if takes_values(arg) else []


def detail_texts(arg):
    if is_positional(arg) or not takes_values(arg):
        return ""
    before, after = around(arg.get("value_hint"))
    lines = [*before, f"COMPREPLY=({offered(arg)})", *after, "return 0", ";;"]
    body = "".join(LINE + line for line in lines)
    words = dashed(arg, "long") + dashed(arg, "short")
    return "".join(f"\n                {word}){body}" for word in words)


def offered(arg):
    if "possible_values" in arg:
        shown = [value["name"] for value in arg["possible_values"] if not value.get("hide")]
        return '$(compgen -W "' + " ".join(shown) + '" -- "${cur}")'
    return {"DirPath": "", "Other": '"${cur}"'}.get(arg.get("value_hint"), '$(compgen -f "${cur}")')


def around(hint):
    """Returns the lines before and after the candidates."""
    if hint == "FilePath":
        kept = ['if [ -n "${IFS+x}" ]; then', '    oldifs="$IFS"', "fi"]
        before = ["local oldifs", *kept, "IFS=$'\\n'"]
        after = ['if [ -n "${oldifs+x}" ]; then', '    IFS="$oldifs"', "fi"]
        return before, after + mode("filenames")
    return [], {"DirPath": mode("plusdirs"), "Other": mode("nospace")}.get(hint, [])


def mode(word):
    return ['if [[ "${BASH_VERSINFO[0]}" -ge 4 ]]; then', f"    compopt -o {word}", "fi"]


if __name__ == "__main__":
    sys.exit(main())
