"""Reads the sources of the crates, in the layout of `rt fmt`: items, impls, exports and clauses.

The readers search the text line by line, and build nothing.
"""

import glob
import os
import re

import common

CLAUSE = re.compile(r"\s*(ensures|requires|decreases|measure|ghost|\{)")
ITEM = re.compile(r"(pub )?(?:const |extern \"C\" )?(fn|struct|enum|trait|type|const|static) (\w+)")
FUNCTION = re.compile(r'(pub )?(?:const )?(?:extern "C" )?fn (\w+)')
KEYWORD = re.compile(r"\s*(?://[^\n]*\n\s*)*(ensures|requires|decreases|measure)\b\s*(\w+)?\s*")


class Item:
    """A function, a type or a trait: its kind, name, signature, comment, derives and members."""

    def __init__(self, kind, name, lines, comment, attributes):
        self.kind, self.name, self.lines = kind, name, lines
        self.comment, self.attributes = comment, attributes


def sources(crate):
    pattern = os.path.join(common.TOP, "crates", crate, "src", "**", "*.rt")
    for path in sorted(glob.glob(pattern, recursive=True)):
        with open(path, encoding="utf-8") as file:
            yield file.read().split("\n")


def exported(module):
    """Returns the names that a module re-exports or declares, each with its crate."""
    crate, file = ("cc_generator", "utils") if module == "aot::utils" else ("clap_complete", module or "lib")
    with open(os.path.join(common.TOP, "crates", crate, "src", f"{file}.rt"), encoding="utf-8") as source:
        text = source.read()
    found = []
    for of, names in re.findall(r"pub use (\w+)::(?:\w+::)*(\w+|\{[^}]*\});", text):
        found += [(name, of) for name in re.findall(r"\w+", names)]
    found += [(name, crate) for name in re.findall(r"^pub fn (\w+)", text, re.MULTILINE)]
    return [(name, of) for name, of in found if name != "utils"]


def public_names(crate):
    with open(os.path.join(common.TOP, "crates", crate, "src", "lib.rt"), encoding="utf-8") as source:
        text = source.read()
    found = re.findall(r"^pub use (?:crate::)?(?:\w+::)*(\w+|\{[^}]*\});", text, re.MULTILINE)
    names = [name for part in found for name in re.findall(r"\w+", part)]
    return names + re.findall(r"^pub (?:fn|struct|enum|trait) (\w+)", text, re.MULTILINE)


def find(crate, name):
    """Returns the public item of this name in a crate."""
    found = sought(crate, name)
    if not found:
        raise SystemExit(f"tools/source.py: no public {name} in crates/{crate}")
    return found


def sought(crate, name):
    """Returns the public item of this name in a crate, or `None` if the name is from a library of the toolchain."""
    for lines in sources(crate):
        for item in items(lines, ""):
            if item.name == name and item.kind != "type" and item.lines[0].startswith("pub "):
                return item
    return None


def items(lines, indent):
    """Yields the items that begin at this indent."""
    comment, attributes = [], []
    for at, line in enumerate(lines):
        text = line[len(indent):] if line.startswith(indent) else ""
        if text.startswith("///"):
            comment.append(text[3:].strip())
            continue
        if text.startswith("#["):
            derived = re.match(r"#\[derive\((.*)\)\]", text)
            attributes += derived.group(1).split(", ") if derived else []
            continue
        found = ITEM.match(text)
        if found:
            end = at
            while end + 1 < len(lines) and not closes(lines[end], indent, end == at, found.group(2)):
                end += 1
            yield Item(found.group(2), found.group(3), lines[at:end + 1], first_sentence(comment), attributes)
        if text.strip() and not text.startswith(" "):
            comment, attributes = [], []


def closes(line, indent, is_first, kind):
    """Tells whether an item ends with this line, or the clauses of a function."""
    if line.startswith(indent + "}") or is_first and line.endswith((";", "}")):
        return True
    return kind in ("fn", "const", "type") and line.endswith(";") and not line.endswith(" });")


def first_sentence(comment):
    text = ""
    for line in comment:
        if not line:
            break
        text += (" " if text else "") + line
    return re.split(r"(?<=[.])\s(?=[A-Z`])", text)[0]


def implementations(crate, name):
    """Yields the impls of a type: the trait or an empty text, the head, and the lines of the body."""
    for lines in sources(crate):
        for at, line in enumerate(lines):
            if not line.startswith("impl"):
                continue
            end = at
            while not lines[end].endswith("{") and not lines[end].endswith("{}") and end + 1 < len(lines):
                end += 1
            head = " ".join(it.strip() for it in lines[at:end + 1]).rstrip("{} ")
            close = end
            while not lines[close].startswith("}") and not lines[close].endswith("{}"):
                close += 1
            plain = without_parameters(head)
            trait, _, of = plain.rpartition(" for ")
            if re.match(rf"{name}\b", of or plain):
                yield trait, head, lines[end + 1:close]


def without_parameters(head):
    """Returns the head of an impl without `impl` and its type parameters."""
    text, depth, at = head[len("impl"):].replace("->", "  "), 0, 0
    while text[0] == "<" and (at == 0 or depth):
        depth += {"<": 1, ">": -1}.get(text[at], 0)
        at += 1
    return head[len("impl") + at:].strip()


def aliases(crate):
    """Returns the private names of types, which signatures show in full."""
    found = {}
    for lines in sources(crate):
        for at, line in enumerate(lines):
            named = re.match(r"(?:pub(?:\(crate\))? )?type (\w+) =(.*)", line)
            if named:
                text = named.group(2)
                while not text.endswith(";"):
                    at += 1
                    text += " " + lines[at].strip()
                text = re.sub(r",? >", ">", text.strip().rstrip(";"))
                found[named.group(1)] = text.replace("< ", "<")
    return found


def private_traits(crate):
    found = set()
    for lines in sources(crate):
        for line in lines:
            found.update(re.findall(r"^(?:pub\(crate\) )?trait (\w+)", line))
    return found


# ---- clauses

def functions(lines, indent, keywords=("ensures",)):
    """Yields the functions that begin at this indent: the name, whether it is public, and its clauses.

    A clause is its name, its text and the parameters of the function. Those with these keywords count.
    """
    for at, line in enumerate(lines):
        found = FUNCTION.match(line[len(indent):]) if line.startswith(indent) else None
        if not found:
            continue
        end = at
        while not CLAUSE.match(lines[end]) and not lines[end].endswith((" {", ";", "}")) and end + 1 < len(lines):
            end += 1
        if CLAUSE.match(lines[end]):
            parameters = set(re.findall(r"\b(\w+):(?!:)", "\n".join(lines[at:end])))
            clauses = stated("\n".join(lines[end:]), keywords)
            yield found[2], bool(found[1]), [(name, text, parameters) for name, text in clauses]
        else:
            yield found[2], bool(found[1]), []


def stated(text, keywords):
    """Returns the name and the text of each clause with one of these keywords at the beginning of a text."""
    found, at = [], 0
    while keyword := KEYWORD.match(text, at):
        begin = keyword.end()
        if text[begin:begin + 1] != "{":
            at = text.find("\n", begin) + 1
            continue
        at = closing(text, begin) + 1
        if keyword[1] in keywords:
            found.append((keyword[2], text[begin + 1:at - 1]))
    return found


def closing(text, begin):
    """Returns the place of the brace that closes the one at `begin`."""
    depth = 0
    for at in range(begin, len(text)):
        depth += {"{": 1, "}": -1}.get(text[at], 0)
        if depth == 0:
            return at
    raise SystemExit(f"tools/source.py: a clause without its end: {text[begin:begin + 80]}")
