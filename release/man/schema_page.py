"""Makes the man page complgen-tree(5) from docs/tree.schema.json."""

import json
import re

from man.roff import bold, escaped, head, inline, prose

KINDS = {"string": "text", "boolean": "true or false"}
SECTIONS = (
    ("command", "KEYS OF A COMMAND"), ("argument", "KEYS OF AN ARGUMENT"), ("possible_value", "KEYS OF A POSSIBLE VALUE"),
)
RULES = """A tree file is a JSON object in UTF-8 that describes a command, with the keys of a command. A key that is not
listed here is an error. If a key appears twice, the last one wins. `complgen check` reports what is wrong with a tree
file, and where."""
EXAMPLE = '{"name": "app", "args": [{"id": "dir", "long": "dir", "value_hint": "DirPath"}]}'


def page(schema_file, date, version):
    """Returns the page."""
    schema = json.loads(without_links(schema_file.read_text()))
    lines = [*head("complgen-tree", 5, date, f"complgen {version}", "File Formats")]
    lines += [".SH NAME", f"complgen\\-tree \\- {escaped(schema['title'][:1].lower() + schema['title'][1:])}"]
    lines += [".SH DESCRIPTION", prose(schema["description"]), ".PP", prose(" ".join(RULES.split()))]
    for name, title in SECTIONS:
        definition = schema["definitions"][name]
        lines += [f".SH {title}", *([prose(definition["description"])] if "description" in definition else [])]
        lines += keys(definition, schema["definitions"])
    lines += [".SH EXAMPLES", ".nf", escaped(EXAMPLE), ".fi", ".SH SEE ALSO", ".BR complgen (1)"]
    return "\n".join(lines) + "\n"


def without_links(text):
    """Returns a text with the title and the page of each Markdown link, because a man page has no links."""
    return re.sub(r"\[([^]]*)\]\(([^)#]+)(?:#[^)]*)?\)", title_and_page, text)


def title_and_page(link):
    title, page = link.groups()
    return title if title == page else f"{title} in {page}"


def keys(definition, definitions):
    """Returns the lines of the keys of an object."""
    lines = []
    for key, said in definition["properties"].items():
        needed = ", required" if key in definition.get("required", []) else ""
        lines += [".TP", f"{bold(key)} ({kind(said, definitions)}{needed})", prose(said.get("description", "")) or "\\&"]
        if "enum" in said:
            lines += [".br", prose("One of " + ", ".join(f"`{it}`" for it in said["enum"]) + ".")]
    return lines


def kind(said, definitions):
    """Returns the kind of a value: the title of its definition, or its type."""
    if "$ref" in said:
        return inline(definitions[said["$ref"].rsplit("/", 1)[1]]["title"])
    if said.get("type") == "array":
        return f"list, each: {kind(said['items'], definitions)}"
    return KINDS[said.get("type", "string")]
