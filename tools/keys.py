#!/usr/bin/env python3
"""Writes the texts that repeat the keys of docs/tree.schema.json, and checks that the code has the keys.

    tools/keys.py --write    writes the tables and the definitions between their markers
    tools/keys.py --check    compares, and changes nothing

From the schema come:

- the tables of docs/TREE_FILE.md. A row is a key, in the order of the schema: its name, the kind of its value and its
  `description`. The kind of value is the `title` of the definition that the schema refers to, or follows from the type;
- the fields of `new_arg` and `new_node`, the definitions of a new argument and a new command. A field has the
  `default` of its key, or the one in `DEFAULTS`, and `None` if the key has neither. Fields without a key are written
  by hand.

`--check` prints a line for each difference, and exits with status 1 if there is one:

- a table or a definition is not the one that `--write` writes;
- a key of the schema has no description;
- complgen_tree_file reads other keys, actions, value hints or protocols than the schema has;
- the tree in examples/complgen.json is not the one that complgen_live has built in;
- packages/rust/lagvtsune/src/tree_file.rs does not write a key of the schema that clap has, or writes another one.

`--write` prints the markers that it does not find, and then exits with status 1.
"""

import difflib
import json
import pathlib
import re
import sys

TOP = pathlib.Path(__file__).resolve().parent.parent
SCHEMA = TOP / "docs/tree.schema.json"
WRITER = TOP / "packages/rust/lagvtsune/src/tree_file.rs"
SOURCES = TOP / "crates/complgen_tree_file/src"

PAGE = "docs/TREE_FILE.md"
DEFINITIONS = {
    "argument": "crates/cc_arg/specs/Arguments.antt",
    "command": "crates/cc_command/specs/Made.antt",
}

# The fields whose names are not their keys, and the keys that the definitions write by hand or have elsewhere.
FIELDS = {"conflicts_with": "conflicts", "args": "arguments"}
BY_HAND = {"id", "name", "subcommands"}

# The defaults that no value of the key means.
DEFAULTS = {"values_protocol": "Lines"}

# The keys that the writer never writes: an argument of clap cannot name a file that lists its values, or the text
# that ends a value. The words of a command come from `CompleteEnv::values_from`, which always reads lines, and passes
# no words.
WITHOUT_CLAP = {"argument": {"values_file", "values_split", "values_words", "values_protocol"}}

# The functions of the writer that write the keys of an object. The methods of `object`, such as `text` and `flag`,
# take the key as their first argument, and `order` writes `display_order`.
FUNCTIONS = {
    "command": ["command_object", "command_texts", "about", "command_aliases", "command_flags", "parser_flags"],
    "argument": ["arg_object", "arg_values", "arg_lists", "arg_names"],
    "possible_value": ["value_object"],
}


def main():
    if sys.argv[1:] not in (["--write"], ["--check"]):
        sys.exit(__doc__)
    schema = json.loads(SCHEMA.read_text(encoding="utf-8"))["definitions"]
    faults = []
    for name, parts in generated(schema).items():
        old = (TOP / name).read_text(encoding="utf-8")
        new = old
        for begin, text, end in parts:
            found = re.split(f"({re.escape(begin)}\n).*?( *{re.escape(end)}\n)", new, flags=re.S)
            if len(found) == 4:
                new = found[0] + found[1] + text + found[2] + found[3]
            else:
                faults.append(f"{name} does not have this marker once: {begin}")
        if sys.argv[1] == "--write":
            (TOP / name).write_text(new, encoding="utf-8")
        else:
            faults += difflib.unified_diff(old.split("\n"), new.split("\n"), name, "schema", lineterm="", n=0)
    if sys.argv[1] == "--check":
        faults += undescribed(schema)
        faults += unread(schema)
        faults += other_own_tree()
        faults += unwritten(schema, WRITER.read_text(encoding="utf-8"))
    for fault in faults:
        print(fault)
    if not faults:
        print(", ".join(f"{len(schema[kind]['properties'])} keys of {kind}" for kind in FUNCTIONS))
    return 1 if faults else 0


def generated(schema):
    """Returns the texts for each file: the line before a text, the text, and the line after it."""
    parts = {PAGE: [(f"<!-- the keys of {kind}: tools/keys.py --write makes this table from tree.schema.json -->",
                     table(schema, kind), "<!-- end of the table -->") for kind in FUNCTIONS]}
    for kind, name in DEFINITIONS.items():
        parts[name] = [("  -- the keys: tools/keys.py --write makes these lines from docs/tree.schema.json",
                        fields(schema, kind), "-- end of the keys")]
    return parts


def table(schema, kind):
    required = schema[kind]["required"]
    rows = ["| Key | Value | What it does |", "|---|---|---|"]
    for key, shape in schema[kind]["properties"].items():
        value = value_of(schema, shape) + (", required" if key in required else "")
        rows.append(f"| `{key}` | {value} | {shape.get('description', '')} |")
    return "\n".join(rows) + "\n"


def value_of(schema, shape):
    """Returns the kind of a value, as the page names it."""
    if "enum" in shape:
        return ", ".join(f"`{word}`" for word in shape["enum"])
    if "$ref" in shape:
        return definition(schema, shape)["title"]
    if shape["type"] == "array":
        return f"list of {definition(schema, shape['items'])['title']}s"
    return {"string": "text", "boolean": "`true` or `false`"}[shape["type"]]


def definition(schema, shape):
    return schema[shape["$ref"].rpartition("/")[2]]


def fields(schema, kind):
    """Returns the lines of a definition: each field with its default."""
    keys = {key: shape for key, shape in schema[kind]["properties"].items() if key not in BY_HAND}
    firsts = {key: shape.get("default", DEFAULTS.get(key)) for key, shape in keys.items()}
    return "".join(f"  {FIELDS.get(key, key)} = {term(first)};\n" for key, first in firsts.items())


def term(default):
    if default in (None, True, False):
        return str(default) if default is None else str(default).lower()
    return default or "[]"


def undescribed(schema):
    return [f"docs/tree.schema.json: the key {key} of {kind} has no description"
            for kind in FUNCTIONS
            for key, shape in schema[kind]["properties"].items() if not shape.get("description")]


def keys_read(file):
    """Returns the keys in the table of an object, each on a line of its own."""
    return re.findall(r'^            \d+ "(\w+)" \w+ \w+,$', (SOURCES / file).read_text(encoding="utf-8"), re.M)


def spelled(macro):
    """Returns the names in a macro that lists variants, each after its name. A name may differ from it in case."""
    text = (SOURCES / "kinds.rt").read_text(encoding="utf-8")
    return re.findall(r'"(\w+)" (?i:\1),', re.search(rf"macro_rules! {macro} {{(.*?)\n}}", text, re.S).group(1))


def value_keys():
    """Returns the keys of a possible value, which are in one list."""
    text = (SOURCES / "possible_values.rt").read_text(encoding="utf-8")
    return re.findall(r'"(\w+)"', re.search(r"KEYS: &\[&str\] = &\[(.*?)\]", text, re.S).group(1))


def unread(schema):
    """Yields the keys, actions and value hints that only the code has, or only the schema."""
    argument = schema["argument"]["properties"]
    pairs = {
        "key of a command": (keys_read("commands.rt"), schema["command"]["properties"]),
        "key of an argument": (keys_read("args.rt"), argument),
        "key of a possible value": (value_keys(), schema["possible_value"]["properties"]),
        "action": (spelled("each_action"), argument["action"]["enum"]),
        "value hint": (spelled("each_hint"), argument["value_hint"]["enum"]),
        "protocol": (spelled("each_protocol"), argument["values_protocol"]["enum"]),
    }
    for what, (code, shown) in pairs.items():
        yield from (f"{what} in the code alone: {name}" for name in sorted(set(code) - set(shown)))
        yield from (f"{what} in the schema alone: {name}" for name in sorted(set(shown) - set(code)))


def other_own_tree():
    """Yields a fault if the built-in tree is not examples/complgen.json."""
    source = (TOP / "crates/complgen_live/src/own_tree.rt").read_text(encoding="utf-8")
    own = re.search(r'r#"(.*?)"#', source, re.S)[1]
    if own.rstrip() != (TOP / "examples/complgen.json").read_text(encoding="utf-8").rstrip():
        yield "the built-in tree is not examples/complgen.json"


def unwritten(schema, source):
    """Returns the keys that the writer lacks, and those that the schema or clap lacks."""
    for kind, functions in FUNCTIONS.items():
        bodies = "".join(body(source, function) for function in functions)
        keys = set(re.findall(r'\bobject\s*\.(?!new\b)\w+\("(\w+)"', bodies))
        if ".order(" in bodies:
            keys.add("display_order")
        shown = set(schema[kind]["properties"]) - WITHOUT_CLAP.get(kind, set())
        yield from (f"{WRITER.name} does not write the key {key} of {kind}" for key in sorted(shown - keys))
        yield from (f"{WRITER.name} writes a key {key} of {kind}, which the schema or clap lacks"
                    for key in sorted(keys - shown))


def body(source, function):
    """Returns the text of a function, which ends at the first line that is only a brace."""
    found = re.search(rf"^fn {function}\b.*?^\}}$", source, re.M | re.S)
    if not found:
        sys.exit(f"{WRITER.name} has no function {function}")
    return found.group()


if __name__ == "__main__":
    sys.exit(main())
