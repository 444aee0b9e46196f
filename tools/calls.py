#!/usr/bin/env python3
"""Lists the public calls, and checks that none is missing.

    tools/calls.py           writes out/CALLS.md, the page of all public calls
    tools/calls.py --check   checks that each call of tools/calls.txt is there

The page has a section for each module of crates/clap_complete, and for the crates next to it. A section has
the public functions, types and traits, with their signatures and the first sentences of their doc comments.
Contracts, bodies and ghost lines are left out.

The list in tools/calls.txt names the calls that users rely on. A call is a function, a type, or a type with
its methods. The module of crates/clap_complete has to re-export the name, or the named crate has to declare
it public. Each method has to be public in an `impl` or a trait of that type.

Each call of the list that returns a `Result` has to be called by a crate that tests run, because a body that always
fails with `Memory` meets most contracts. A call is looked for by its name. THROUGH names those that another call makes.

The script searches the sources, and builds nothing. With --check it prints what is missing, and the number of
calls. The status is 0 if nothing is missing.
"""

import functools
import os
import re
import sys
import textwrap

import common
from source import (
    CLAUSE, aliases, exported, find, implementations, items, private_traits, public_names, sought, sources)

LIST = os.path.join(common.TOP, "tools", "calls.txt")
MODULES = ["", "aot", "aot::utils", "command", "describe", "engine", "env", "parser", "program", "quote"]
CRATES = [
    "complgen_tree_file", "complgen_command_line", "complgen_scripts", "complgen_check", "complgen_plans", "complgen_c",
]
# The crates that tests run: tests, programs, and the crates that only the program uses.
RUN = ["cc_tests", "library_calls", "larder", "pantry", *(it for it in common.crate_lines() if it.startswith("complgen"))]
# Calls that tests make through others: each `write_complete`, `candidates_and_parser`, `candidates_and_reached_parser`
# and `run`. The crate is the one in which these call them.
THROUGH = {
    "write_complete_from": "cc_env", "parser": "cc_program", "local_parser": "cc_program", "run_over": "cc_program",
}
LAW = {"Model", "Drop"}
SHOWN = {"ThisError": "Error"}

HEAD = """# Calls

All public calls with their signatures, by module, as a program finds them in `clap_complete`. The last sections are
those of the crates beside it. Each call has the first sentence of its doc comment. Its contract is in the source: the
head of a group names the directory. `requires` means that the call has a precondition.

If several modules re-export an item, it is listed in one of them, and the others name that one.
"""


def main():
    if sys.argv[1:] == ["--check"]:
        return check()
    if sys.argv[1:]:
        sys.exit(__doc__)
    return common.write_page("CALLS.md", make_page())


# ---- the page

def make_page():
    places = homes()
    parts = [HEAD]
    for module in MODULES:
        parts.append(f"## `{'clap_complete' + ('::' + module if module else '')}`\n")
        names = exported(module)
        elsewhere = [(name, places[name, crate]) for name, crate in names if places[name, crate] != module]
        for home in sorted({home for _, home in elsewhere}):
            listed = ", ".join(f"`{name}`" for name, of in elsewhere if of == home)
            parts.append(f"As in `{home}`: {listed}.\n")
        parts += group([(name, crate) for name, crate in names if places[name, crate] == module])
    for crate in CRATES:
        parts.append(f"## `{crate}`\n")
        parts += group([(name, crate) for name in public_names(crate) if sought(crate, name)])
    return "\n".join(parts).rstrip("\n") + "\n"


def homes():
    """Returns the module of each item: the last that re-exports it.

    So that is the root of the crate only if no module has the item. A type of commands is under `command`.
    """
    found = {}
    for module in ["", "describe", "engine", "env", "parser", "program", "quote", "aot", "aot::utils", "command"]:
        for name, crate in exported(module):
            found[name, crate] = module
    return found


def group(names):
    """Returns the parts for the functions of a module, and then those for its types and traits."""
    functions, types = [], []
    for name, crate in names:
        item = find(crate, name)
        (functions if item.kind in ("fn", "const") else types).append((item, crate))
    parts = []
    if functions:
        parts.append(block([line for item, crate in functions for line in call(item, aliases(crate), 0)]))
    parts += [of_type(item, crate) for item, crate in types]
    return parts


def of_type(item, crate):
    """Returns the part of the page for a type or a trait."""
    impls = list(implementations(crate, item.name))
    lines = [f"### `{item.name}`\n", f"{item.comment or 'See its module.'} (`crates/{crate}`)"]
    traits = item.attributes + sorted({it.split("::")[-1] for it, _, _ in impls if it})
    own = private_traits(crate)
    has = list(dict.fromkeys(SHOWN.get(it, it) for it in traits if it not in LAW | own))
    if has:
        lines[-1] += " Implements " + ", ".join(f"`{it}`" for it in has) + "."
    out = []
    if item.kind == "trait":
        if item.lines[0] != f"pub trait {item.name} {{":
            out.append("// " + item.lines[0].replace("pub ", "").rstrip(" {"))
        out += members(item.lines, "    ", aliases(crate), True)
        ghosts = re.findall(r"^    ghost (\w+):", "\n".join(item.lines), re.MULTILINE)
        kinds = re.findall(r"^    type (\w+)", "\n".join(item.lines), re.MULTILINE)
        if kinds:
            lines[-1] += " Associated types: " + ", ".join(f"`{it}`" for it in kinds) + "."
        if ghosts:
            lines[-1] += " Ghost members: " + ", ".join(f"`{it}`" for it in ghosts) + "."
    else:
        out += fields(item)
    for trait, head, body in impls:
        if not trait:
            inner = members(body, "    ", aliases(crate), False)
            if inner and head != f"impl {item.name}":
                out += [f"// {head}"] if not out else ["", f"// {head}"]
            out += inner
    return "\n".join(lines) + "\n" + ("\n" + block(out) if out else "")


def block(lines):
    return "```rattle\n" + "\n".join(lines).strip("\n") + "\n```\n"


def fields(item):
    """Returns the variants of an enum, or the public fields of a struct."""
    if item.kind == "enum":
        names = []
        for line in item.lines:
            if found := re.match(r"    (\w+(?:\([^)]*\))?),$", line):
                names.append(found[1])
            elif found := re.match(r"    (\w+) \{$", line):
                names.append(found[1] + " { ")
            elif found := re.match(r"        (\w+: .*),$", line):
                names[-1] += found[1] + ", "
            elif line == "    },":
                names[-1] = names[-1].rstrip(", ") + " }"
        text = f"enum {item.name} {{ {', '.join(names)} }}"
        return textwrap.wrap(text, 96, subsequent_indent="    ", break_on_hyphens=False)
    if re.match(r"pub struct .*\(pub ", item.lines[0]):
        return [item.lines[0].replace("pub ", "").rstrip(";")]
    names = re.findall(r"^    pub (\w+: .*),$", "\n".join(item.lines), re.MULTILINE)
    return [f"struct {item.name} {{ {', '.join(names)}, .. }}"] if names else []


def members(lines, indent, aliases_there, of_trait):
    """Returns the signatures of the methods in the body of an impl or a trait."""
    out = []
    for it in items(lines, indent):
        if it.kind == "fn" and (of_trait or it.lines[0].startswith(indent + "pub ")):
            out += call(it, aliases_there, len(indent))
    return out


def call(item, aliases_there, indent):
    """Returns the lines of the page for a function."""
    signature, requires = [], False
    for line in item.lines:
        if CLAUSE.match(line):
            break
        signature.append(line[indent:].rstrip())
        if line.endswith((" {", ";")):
            break
    for line in item.lines[len(signature):]:
        if line.strip().startswith("requires"):
            requires = True
        if line.strip() == "{" or line.endswith(";") and line.startswith(" " * indent + "}"):
            break
    text = re.sub(r"( \{|;)$", "", "\n".join(signature))
    text = re.sub(r"^pub |( =.*)$", "", text) if item.kind == "const" else re.sub(r"^pub ", "", text)
    text = re.sub(r"(?<!&)\bmut self\b", "self", text)
    for name, meaning in aliases_there.items():
        text = re.sub(rf"\b{name}\b", meaning, text)
    comment = item.comment + (" (`requires`)" if requires else "")
    return wrapped("/// ", comment) + text.split("\n")


def wrapped(begin, text):
    return textwrap.wrap(text, 96, initial_indent=begin, subsequent_indent=begin, break_on_hyphens=False)


# ---- the check

def check():
    """Prints the calls of the list that are missing. Returns the exit status."""
    count, missing = 0, []
    for module, name, methods in listed():
        crate = crate_of(module, name)
        count += max(1, len(methods))
        if crate is None:
            missing.append(f"{module}: {name} is not public")
            continue
        there = methods_of(crate, name) if methods else set()
        missing += [f"{module}: {name}::{it}" for it in methods if it not in there]
        missing += [f"{module}: no crate that tests run calls {it}" for it in uncalled(crate, name, methods)]
    print("\n".join([*missing, f"{count} calls and types, {len(missing)} missing"]))
    return 1 if missing else 0


def listed():
    """Yields the calls of the list: the module, the name and the methods.

    A line in brackets names the module of those below it. A line is a name, or a name, a colon and methods.
    A line that is indented goes on with the methods.
    """
    module, name, methods = "", "", []
    with open(LIST, encoding="utf-8") as file:
        for line in [*file, "["]:
            if line.startswith(" "):
                methods += line.split()
                continue
            if name:
                yield module, name, methods
            name, _, text = line.strip().partition(":")
            methods = text.split()
            if line.startswith("["):
                module, name = line.strip("[]\n"), ""


def uncalled(crate, name, methods):
    """Returns those of these methods, or the function of this name, that may fail and that no test calls."""
    if methods:
        bodies = [body for _, _, body in implementations(crate, name)]
        found = {it.name: it for body in bodies for it in items(body, "    ") if it.kind == "fn" and it.name in methods}
    else:
        item = find(crate, name)
        found = {name: item} if item.kind == "fn" else {}
    return [it for it, item in found.items() if may_fail(item) and not is_called(it)]


def is_called(name):
    """Tells whether a crate that tests run calls a function of this name, or the crate of THROUGH."""
    crates = (THROUGH[name],) if name in THROUGH else tuple(RUN)
    return re.search(rf"(?<!fn )\b{name}(?:::<[^>]*>)?\(", text_of(crates))


def may_fail(item):
    """Tells whether a function returns a `Result`."""
    signature = "\n".join(call(item, {}, 0))
    return bool(re.search(r"-> (?:Option<)?Result<", signature))


@functools.lru_cache(maxsize=None)
def text_of(crates):
    """Returns the sources of these crates as one text, without comments."""
    lines = [line for crate in crates for lines in sources(crate) for line in lines]
    return "\n".join(line for line in lines if not line.lstrip().startswith("//"))


def crate_of(module, name):
    """Returns the crate that has the item which the module exports under this name, or `None`."""
    if module.startswith("crate "):
        crate = module.split()[1]
        return crate if name in public_names(crate) else None
    return dict(exported(module)).get(name)


def methods_of(crate, name):
    """Returns the public methods of a type, and those of its traits."""
    found = set()
    for trait, _, body in implementations(crate, name):
        found |= set(re.findall(rf"^    {'' if trait else 'pub '}(?:const )?fn (\w+)", "\n".join(body), re.MULTILINE))
        # The trait has a default for it.
        found |= {"try_generate"} if trait == "Generator" else set()
    for lines in sources(crate):
        for item in items(lines, ""):
            if item.kind == "trait" and item.name == name:
                found |= set(re.findall(r"^    fn (\w+)", "\n".join(item.lines), re.MULTILINE))
    return found


if __name__ == "__main__":
    sys.exit(main())
