#!/usr/bin/env python3
"""Lists the clauses of public functions, and checks those that pages cite.

    tools/clauses.py           writes out/CLAUSES.md
    tools/clauses.py --check   checks the clauses and the planted faults that pages cite

The page has a table for each library crate: each public function with the clauses that it ensures, and the
definitions of this project that each clause cites.

--check reads the pages of PAGES. It finds a citation of a clause by its form, in words that are code:

- CLAUSE of FUNCTION, and FUNCTION, clause CLAUSE, also with several of each;
- FUNCTION: CLAUSE in a table, below the head "Clause";
- in other rows of such a table, the function is in the column "Function" or "Of", or in the row above, or in
  the head. If no function is named there, any function may have the clause.

The function has to have such a clause, an `ensures` or a `requires`. It may also be a definition that a clause
of it cites, or a field or a case of that definition. Instead of a function, a citation may name a definition,
a type or a trait with its methods, or a crate. A planted fault is cited as CRATE/NAME, and has to be in
`must-fail/` or `more-faults/` of the crate.

The script searches the sources, in the layout of `rt fmt`, and builds nothing. With --check it prints what is
wrong, and the numbers of citations. The status is 0 if nothing is wrong.
"""

import collections
import glob
import os
import re
import sys

import common
import source

NAMES = ("PROOFS", "SECURITY", "LIBRARY", "EXTENDING", "TREE_FILE", "LIVE", "COMPLGEN", "TERMS")
PAGES = [os.path.join("docs", f"{it}.md") for it in NAMES] + ["README.md"]
# Tests, their trees and callers that show how contracts are used.
NO_LIBRARY = {
    "cc_caller", "cc_tests", "complgen_cases",
}
DEFINED = re.compile(r"^(?:(?:pub|abbrev|unfoldable|data|record) +)+(\w+)\b", re.MULTILINE)

HEAD = """# Clauses

This page lists what each public function of the library crates ensures. docs/PROOFS.md explains what a clause is, and
`tools/definitions.py` lists the definitions with their meanings.

- A clause has the name after `ensures`. "the clause" is one without a name.
- The last column has the definitions in `crates/*/specs` whose names are in the text of the clause. If it is empty, the
  clause compares values alone, or cites only definitions of the toolchain and its libraries, such as `OnOk`.
  `tools/definitions.py NAME` prints a definition with its comment.
- A method is listed under its type, or under its trait if the trait states the clauses. `Sink::put of Held` is a
  method of a trait with clauses of its own for this type.
- A precondition, `requires`, is in CALLS.md, which `tools/calls.py` writes. A function that is not listed has no
  clause of its own.
"""


def main():
    if sys.argv[1:] == ["--check"]:
        return check()
    if sys.argv[1:]:
        sys.exit(__doc__)
    return common.write_page("CLAUSES.md", make_page())


def make_page():
    defined = definitions()
    parts = [HEAD]
    for crate in library_crates():
        rows = [row for function, clauses in public_functions(crate) for row in rows_of(function, clauses, defined)]
        if rows:
            table = "".join(f"| {function} | {clause} | {cited} |\n" for function, clause, cited in rows)
            parts.append(f"## `{crate}`\n\n| Function | Clause | Definitions |\n|---|---|---|\n{table}")
    return "\n".join(parts)


def library_crates():
    """Returns the crates with a library, in the order of crates.txt, without tests and callers."""
    sources = os.path.join(common.TOP, "crates", "{}", "src", "lib.rt")
    return [it for it in common.crate_lines() if it not in NO_LIBRARY and os.path.exists(sources.format(it))]


def rows_of(function, clauses, defined):
    """Yields the rows of a function. Only the first row names it."""
    for at, (name, text, parameters) in enumerate(clauses):
        cited = ", ".join(f"`{it}`" for it in cited_in(text, defined - parameters))
        yield f"`{function}`" if at == 0 else "", f"`{name}`" if name else "the clause", cited


def cited_in(text, defined):
    """Returns the definitions that a clause cites, in order, each once, without fields and bound names."""
    binders = re.findall(r"λ ([\w ]+)\.|\(([\w ]+) :", text)
    bound = {name for names in binders for name in " ".join(names).split()}
    words = re.findall(r"(?<![\w.])(?:\w+\.)*?([A-Za-z_]\w*)\b(?!\s*=[^=])", without_members(text))
    return list(dict.fromkeys(it for it in words if it in defined and it not in bound))


def without_members(text):
    """Returns a clause without what follows a dot in a word, such as the field in `self.now.node`."""
    return re.sub(r"(?<=[\w)])\.\w+", "", text)


def definitions():
    found = set()
    for path in glob.glob(os.path.join(common.TOP, "crates", "*", "specs", "**", "*.antt"), recursive=True):
        with open(path, encoding="utf-8") as file:
            found.update(DEFINED.findall(file.read()))
    return found


def public_functions(crate):
    """Yields the public functions of a crate that have clauses: the name, and the clauses as in `functions`."""
    names = public_names(crate)
    for lines in source.sources(crate):
        for name, is_public, clauses in source.functions(lines, ""):
            if is_public and name in names and clauses:
                yield name, clauses
    for name in names:
        for lines in source.sources(crate):
            yield from of_trait(lines, name)
        for trait, _, body in source.implementations(crate, name):
            trait = re.sub(r"<.*", "", trait.split("::")[-1])
            for method, is_public, clauses in source.functions(body, "    "):
                if clauses and (trait or is_public):
                    yield f"{trait}::{method} of {name}" if trait else f"{name}::{method}", clauses


def of_trait(lines, name):
    """Yields the methods of a trait with their clauses, if these lines have it."""
    for item in source.items(lines, ""):
        if item.kind == "trait" and item.name == name and item.lines[0].startswith("pub "):
            for method, _, clauses in source.functions(item.lines, "    "):
                if clauses:
                    yield f"{name}::{method}", clauses


def public_names(crate):
    """Returns what a crate exports, also in its public modules."""
    names = source.public_names(crate)
    folder = os.path.join(common.TOP, "crates", crate, "src")
    with open(os.path.join(folder, "lib.rt"), encoding="utf-8") as file:
        modules = re.findall(r"^pub mod (\w+);", file.read(), re.MULTILINE)
    for module in modules:
        path = os.path.join(folder, f"{module}.rt")
        if os.path.exists(path):
            with open(path, encoding="utf-8") as file:
                names += re.findall(r"^pub (?:fn|struct|enum|trait) (\w+)", file.read(), re.MULTILINE)
    return list(dict.fromkeys(names))


# ---- the check

CODES = r"`[^`]+`(?:(?:,| and|, and| or) `[^`]+`)*"
CITED_OF = re.compile(rf"({CODES}) of (?:the (?:record|trait) )?({CODES})(?!')")
CITED_BEHIND = re.compile(rf"({CODES}), clauses? ({CODES})")
CITED_BY = re.compile(rf"({CODES}): ({CODES})")
CODE_NAME = re.compile(r"(?:requires )?((?:\w+(?:::|\.))*[A-Za-z_]\w*)$")
# Modules and files, which have no clauses of their own.
ELSEWHERE = re.compile(r"^clap_complete::|\.(?:rt|antt)$")
FAULT = re.compile(r"`(\w+)/([a-z0-9]+(?:-[a-z0-9]+)+)`")


def check():
    """Prints the citations that are wrong. Returns the exit status."""
    known, clauses, faults, wrong = Known(), 0, 0, []
    for page in PAGES:
        for at, line, head in numbered(page):
            for functions, clause in citations(line, head):
                clauses += 1
                if not any(known.has(function, clause) for function in functions or known.crates):
                    wrong.append(f"{page}:{at}: no clause `{clause}` of {' or '.join(functions) or 'a function'}")
            for crate, fault in FAULT.findall(line):
                faults += 1
                if not is_planted(crate, fault):
                    wrong.append(f"{page}:{at}: no planted fault {crate}/{fault}")
    print("\n".join([*wrong, f"{clauses} clauses and {faults} planted faults cited, {len(wrong)} wrong"]))
    return 1 if wrong else 0


def numbered(page):
    """Yields the lines of a page outside blocks of code, with their numbers and the head of their table.

    An empty first cell of a table becomes that of the row above.
    """
    head, first, is_code = [], "", False
    with open(os.path.join(common.TOP, page), encoding="utf-8") as file:
        for at, line in enumerate(file, 1):
            is_code ^= line.lstrip().startswith("```")
            if not line.startswith("|"):
                head = []
            elif not head:
                head = cells_of(line)
            elif re.match(r"\|\s*\|", line) and head[0]:
                line = f"| {first} |" + line.split("|", 2)[2]
            else:
                first = cells_of(line)[0]
            if not is_code:
                yield at, line, head


def cells_of(row):
    return [it.strip() for it in row.strip()[1:-1].replace("\\|", " ").split("|")]


def citations(line, head):
    """Yields the citations of a line: functions, one of which has a clause, and the clause."""
    at = 0
    while cited := CITED_OF.search(line, at):
        # In "A of B, C of D", the second list of code begins with C. What follows a crate is a list of its own.
        first = re.match("`([^`]+)`", cited[2])
        is_alone = line.startswith(" of ", cited.end()) or first[1] in common.crate_lines()
        function = first[0] if is_alone else cited[2]
        yield from pairs(function, cited[1])
        at = cited.start(2) + len(function)
    for cited in CITED_BEHIND.finditer(line):
        yield from pairs(cited[1], cited[2])
    if "Clause" not in head or not line.startswith("|"):
        return
    cells = dict(zip(head, cells_of(line)))
    clause = CITED_OF.sub("", cells["Clause"])
    for cited in CITED_BY.finditer(clause):
        yield from pairs(cited[1], cited[2])
    functions = names(cells.get("Function", cells.get("Of", " ".join(head))))
    if not CITED_BY.search(clause):
        yield from ((functions, it) for it in names(clause))


def pairs(functions, clauses):
    return [([function], clause) for function in names(functions) for clause in names(clauses)]


def names(text):
    """Returns the names in code, without `requires`, the types before them and the fields behind them."""
    found = [CODE_NAME.match(code) for code in re.findall(r"`([^`]+)`", text)]
    return [it[1].split("::")[-1].split(".")[0] for it in found if it and not ELSEWHERE.search(it[1])]


def is_planted(crate, fault):
    folder = os.path.join(common.TOP, "crates", crate)
    return any(os.path.exists(os.path.join(folder, it, f"{fault}.edit")) for it in ("must-fail", "more-faults"))


class Known:
    """What the sources name: the clauses of each function, of what it belongs to, and the parts of definitions."""

    def __init__(self):
        # By function, type, trait and crate: names of clauses, functions, types and definitions.
        self.named = collections.defaultdict(set)
        # By the same names and by definition: the words of clauses or of the definition.
        self.words = collections.defaultdict(set)
        self.clauses, self.defined, self.crates = set(), definitions(), list(common.crate_lines())
        for crate in self.crates:
            for path in glob.glob(os.path.join(common.TOP, "crates", crate, "specs", "**", "*.antt"), recursive=True):
                self.read_definitions(crate, path)
            for lines in source.sources(crate):
                self.read_functions([crate], lines, "")
                for owners, body in blocks(lines):
                    self.named[crate] |= owners
                    self.read_functions([crate, *owners], body, "    ")

    def read_definitions(self, crate, path):
        with open(path, encoding="utf-8") as file:
            parts = DEFINED.split(re.sub(r"--.*", "", file.read()))
        for name, text in zip(parts[1::2], parts[2::2]):
            self.named[crate].add(name)
            self.words[name] |= words_of(text)
            # Its fields or its cases.
            self.named[name] |= set(re.findall(r"^  (?:pub )?(\w+) :", text, re.MULTILINE))

    def read_functions(self, owners, lines, indent):
        """Adds the functions at this indent, and the ghost members beside them."""
        for it in owners:
            self.named[it] |= {*owners[1:], *re.findall(r"^    ghost (\w+)", "\n".join(lines), re.MULTILINE)}
        ghost = words_of("\n".join(ghosts(lines)))
        for function, _, clauses in source.functions(lines, indent, ("ensures", "requires")):
            names = {name or "ensures" for name, _, _ in clauses}
            self.clauses |= names
            for it in (function, *owners):
                self.named[it] |= names | {function}
                self.words[it] |= ghost | words_of(" ".join(text for _, text, _ in clauses))

    def has(self, function, clause):
        """Tells whether a function has a clause. If there is no such function, no other one may have it."""
        if function not in self.named and function not in self.defined:
            return clause not in self.clauses
        cited = self.words[function] & self.defined
        if function[0].isupper() and {function, clause} <= self.defined:
            # A definition whose argument is another one.
            return True
        inner = set().union(*(self.words[it] & self.defined for it in cited))
        return clause in self.named[function] | cited | inner or any(clause in self.named[it] for it in cited)


def words_of(text):
    return set(re.findall(r"\w+", text))


def blocks(lines):
    """Yields each `impl`, trait and type of a source: the names in its head, and its lines."""
    begin = None
    for at, line in enumerate(lines):
        if re.match(r"(?:pub(?:\(crate\))? )?(?:impl|trait|struct|enum)\b", line):
            begin = at
        if line == "}" and begin is not None:
            head = "\n".join(lines[begin:at]).partition("{")[0]
            yield set(re.findall(r"\b[A-Z]\w+", head)), lines[begin + 1:at]
            begin = None


def ghosts(lines):
    """Yields the lines of the ghost members of a block, such as its invariant."""
    is_ghost = False
    for line in lines:
        is_ghost = line.startswith("    ghost ") and " use " not in line or is_ghost and line.startswith("     ")
        if is_ghost:
            yield line


if __name__ == "__main__":
    sys.exit(main())
