#!/usr/bin/env python3
"""Compares the declarations of the library's functions with the source.

    release/declarations.py             compares
    release/declarations.py --write     writes the comments of the declarations from the source

The source is crates/complgen_c/src. Each function that it exports must be declared in
packages/c/lagvtsune.h and in packages/rust/lagvtsune/src/native.rs with these parameters, and neither file may
declare another function. Its comment there must be the doc comment of the source, and the clause of its
contract. A function must have one clause, and no precondition. A record that a function takes must have the
same fields there, in the same order.

Prints a line for each difference. The status is 0 if there is none.
"""

import pathlib
import re
import sys
import textwrap

TOP = pathlib.Path(__file__).resolve().parent.parent
SOURCES = TOP / "crates/complgen_c/src"
HEADER = TOP / "packages/c/lagvtsune.h"
NATIVE = TOP / "packages/rust/lagvtsune/src/native.rs"

# The declarations of a parameter and a result of each type.
C = {
    "&[u8]": "const uint8_t *{0}, size_t {0}_length", "&mut [u8]": "uint8_t *{0}, size_t {0}_length",
    "&[&[u8]]": "const lagvtsune_bytes *{0}, size_t {0}_length",
    "&mut u8": "uint8_t *{0}", "Global": "", "usize": "size_t", "bool": "bool {0}",
    "&PassedNames<'_>": "const lagvtsune_names *{0}", "&PassedRequest<'_>": "const lagvtsune_request *{0}",
}
RUST = {
    "&[u8]": "{0}: *const u8, {0}_length: usize", "&mut [u8]": "{0}: *mut u8, {0}_length: usize",
    "&[&[u8]]": "{0}: *const Bytes<'_>, {0}_length: usize",
    "&mut u8": "{0}: *mut u8", "Global": "", "usize": "usize", "bool": "{0}: bool",
    "&PassedNames<'_>": "{0}: *const Names<'_>", "&PassedRequest<'_>": "{0}: *const PassedRequest<'_>",
}
# The names of a record in the header and in native.rs, and the declarations of its fields.
RECORDS = {"PassedNames": ("lagvtsune_names", "Names"), "PassedRequest": ("lagvtsune_request", "PassedRequest")}
FIELDS = {
    "&[u8]": ("lagvtsune_bytes {};", "{}: Bytes<'_>,"), "&[&[u8]]": ("lagvtsune_list {};", "{}: List<'_>,"),
}
EXPORT = re.compile(
    r'((?:^///[^\n]*\n)+)#\[unsafe\(no_mangle\)\]\npub extern "C" fn (\w+)\(([^)]*)\) -> (\w+)\n(.*?)^\{', re.MULTILINE | re.DOTALL,
)
RECORD = re.compile(r"#\[repr\(C\)\]\n(?:#[^\n]*\n)*pub struct (\w+)<'\w+> \{\n(.*?)^\}", re.MULTILINE | re.DOTALL)


class Export:
    """A function that the source exports."""

    def __init__(self, file, found):
        self.file, self.comment, self.name, self.parameters, self.result, self.clauses = file, *found

    def declared(self, forms):
        """Returns the parameters as another language declares them."""
        pairs = [part.split(":") for part in self.parameters.split(",") if part.strip()]
        return ", ".join(filter(None, (forms[kind.strip()].format(name.strip()) for name, kind in pairs)))

    def contract(self):
        """Returns the clause of the contract, or an empty text."""
        found = re.fullmatch(r"\s*ensures \{(.*)\}\s*", self.clauses, re.DOTALL)
        return flat(found[1]) if found else ""

    def documented(self, width):
        """Returns the lines of the doc comment, wrapped at a width, and where it is from."""
        text = re.sub(r"^/// ?", "", self.comment, flags=re.MULTILINE).strip()
        lines, was_item = [], False
        for block in re.split(r"\n\n|\n(?=- )", text):
            is_item = block.startswith("- ")
            lines += [""] if lines and not (is_item and was_item) else []
            indent = "  " if is_item else ""
            lines += textwrap.wrap(flat(block), width, subsequent_indent=indent, break_on_hyphens=False)
            was_item = is_item
        return [*lines, "", f"Proved (`{self.file.relative_to(TOP)}`):", ""]

    def clause(self, width):
        """Returns the lines of the contract, wrapped at a width."""
        return textwrap.wrap(self.contract(), width, break_long_words=False, break_on_hyphens=False)

    def header_comment(self):
        """Returns the comment of the header."""
        lines = [*self.documented(97), *(f"    {line}" for line in self.clause(93))]
        return "/*\n" + "\n".join(f" * {line}".rstrip() for line in lines) + "\n */\n"

    def rust_comment(self):
        """Returns the doc comment of the declaration in Rust."""
        lines = [*self.documented(92), "```text", *self.clause(92), "```"]
        return "".join(f"    /// {line}".rstrip() + "\n" for line in lines)


def flat(text):
    return " ".join(text.split())


def found_in_source(pattern):
    """Returns what a pattern finds in the files of the source, each with its file."""
    paths = sorted(SOURCES.glob("*.rt"))
    return [(path, found) for path in paths for found in pattern.findall(path.read_text(encoding="utf-8"))]


def exports():
    """Returns the functions that the source exports."""
    return [Export(path, found) for path, found in found_in_source(EXPORT)]


def with_comments(header, native, found):
    """Returns the header and native.rs with the comments of the source."""
    for export in found:
        in_c, in_rust = export.header_comment(), export.rust_comment()
        pattern = rf"/\*\n(?:(?!\*/).)*? \*/\n(?=size_t {export.name}\()"
        header = re.sub(pattern, lambda _, text=in_c: text, header, flags=re.DOTALL)
        pattern = rf"(?: +///.*\n)*(?= +fn {export.name}\()"
        native = re.sub(pattern, lambda _, text=in_rust: text, native, count=1)
    return header, native


def faults(header, native, found):
    """Returns the differences."""
    lines = [] if found else [f"{SOURCES}: no export was found"]
    names = {export.name for export in found}
    for export in found:
        c = f"{C[export.result]} {export.name}({export.declared(C)});"
        rust = f"fn {export.name}( {export.declared(RUST)}, ) -> {RUST[export.result]};"
        lines += [f"{HEADER.name} does not declare: {c}"] * (c not in flat(header))
        lines += [f"{NATIVE.name} does not declare: {rust}"] * (rust not in flat(native))
        for name, has_comment in ((HEADER.name, export.header_comment() in header), (NATIVE.name, export.rust_comment() in native)):
            lines += [] if has_comment else [f"{name}: the comment of {export.name} is not that of the source"]
        lines += [f"{export.name} has no contract of one clause without a precondition"] * (not export.contract())
    for name, declared in ((HEADER.name, re.findall(r"^\w.*\b(lagvtsune_\w+)\(", header, re.MULTILINE)),
                           (NATIVE.name, re.findall(r"fn (lagvtsune_\w+)\(", native))):
        lines += [f"{name} declares {it}, which the source does not export" for it in sorted({*declared} - names)]
    return lines


def record_faults(header, native):
    """Returns the records that the header or native.rs declares with other fields."""
    lines = []
    for _, (name, body) in found_in_source(RECORD):
        fields = [(field, without_lifetimes(kind)) for field, kind in re.findall(r"^    pub (\w+): (.*),$", body, re.MULTILINE)]
        for place, (file, text) in enumerate(((HEADER, header), (NATIVE, native))):
            expected = " ".join(FIELDS[kind][place].format(field) for field, kind in fields)
            if declared_fields(text, RECORDS[name][place]) != expected:
                lines.append(f"{file.name} does not declare {RECORDS[name][place]} with the fields: {expected}")
    return lines


def without_lifetimes(kind):
    return re.sub(r"&'\w+ ", "&", kind)


def declared_fields(text, name):
    """Returns the fields of a record in the header or in native.rs, without comments."""
    found = re.search(rf"\bstruct {name}\b[^{{]*\{{(.*?)^\}}", text, re.MULTILINE | re.DOTALL)
    fields = re.sub(r"/\*.*?\*/|//[^\n]*|\bpub\(crate\) ", "", found[1] if found else "", flags=re.DOTALL)
    return flat(re.sub(r"<'\w+>", "<'_>", fields))


def main():
    if sys.argv[1:] not in ([], ["--write"]):
        sys.exit(__doc__)
    found = exports()
    header, native = (path.read_text(encoding="utf-8") for path in (HEADER, NATIVE))
    if sys.argv[1:]:
        header, native = with_comments(header, native, found)
        HEADER.write_text(header, encoding="utf-8")
        NATIVE.write_text(native, encoding="utf-8")
    wrong = faults(header, native, found) + record_faults(header, native)
    print("\n".join(wrong) or f"{len(found)} functions: the same in the source, the header and native.rs")
    return 1 if wrong else 0


if __name__ == "__main__":
    sys.exit(main())
