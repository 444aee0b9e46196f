#!/usr/bin/env python3
"""Checks what the documents name, and how long sentences and pages are.

    tools/documents.py [--sentences]
    tools/documents.py --run [PAGE..]

The documents are the pages at the top, those of docs/, and each README.md of examples/, importer/, packages/, release/
and tests/.

- Each code block in Rattle or Rust is in a file of crates/ or examples/, line by line, at any indentation.
  What it imports is imported there.
- Each file, function and definition in the walks of docs/ARCHITECTURE.md exists.
- Each link leads to a file, and to a heading of that file if it names one.
- Each named source file exists, such as `quote/src/escape.rt`, `escape.rt` or `proofs/Lemmas`, and so does each
  named script of bench/, release/, tests/ and tools/. `complgen WORD` calls a command that exists.
- Numbers of crates, commands, keys and promises are those of the repository.
- tests/README.md lists the scripts that tests/run leaves out.

The script prints how many sentences of each page have more than 30 words, and with --sentences these
sentences. It prints the number of words of all pages, and then what does not hold. The status is 0 if all of it holds,
whatever the sentences are.

With --run, it runs each command of the pages once, or of each PAGE, in a fresh clone with an empty home, and compares
what it prints. tools/pages.py lists what is not run, such as what takes an hour. It needs the proved `complgen`, and
takes some minutes. The status is 0 if each command ends and prints what its page says.
"""

import functools
import glob
import os
import re
import sys

import common

TOP = common.TOP
WALKS = os.path.join("docs", "ARCHITECTURE.md")
WITHOUT_SENTENCES = {os.path.join("docs", "TEXTS.md")}
LONG_SENTENCE = 30


def main():
    if "--run" in sys.argv:
        import pages as runner
        return runner.run([it for it in sys.argv[1:] if it != "--run"] or pages())
    found, long = [], {}
    for page in pages():
        lines = lines_of(page)
        found += [f"{page}:{at}: no such file or heading: {link}" for at, link in broken_links(page, lines)]
        found += [f"{page}:{at}: no such file: {name}" for at, name in unknown_files(lines)]
        found += [f"{page}:{at}: no such command: complgen {word}" for at, word in unknown_commands(lines)]
        found += [f"{page}:{at}: not {right}: {text}" for at, text, right in wrong_numbers(lines)]
        if page not in WITHOUT_SENTENCES:
            long[page] = [it for it in sentences(lines) if len(it.split()) > LONG_SENTENCE]
        # cargo tests the code of a package's page.
        blocks = () if page.startswith("packages") else unknown_blocks(lines)
        found += [f"{page}:{at}: this code is in no source: {line}" for at, line in blocks]
        if page == WALKS:
            found += [f"{page}:{at}: there is no {name}" for at, name in unknown_names(lines)]
    found += [f"tests/README.md: does not say that tests/run leaves out {script}" for script in unlisted()]
    print_long(long)
    words = sum(len(line.split()) for page in pages() for line in lines_of(page))
    print(f"{words} words in {len(pages())} pages")
    print("\n".join(found + [f"{len(found)} faults in the documents"]))
    return 1 if found else 0


def unlisted():
    """Yields the scripts that tests/all.py leaves out, and that tests/README.md does not list as such."""
    left_out = "\n".join(lines_of("tests/all.py")).partition("LEFT_OUT = (")[2].partition("\n)\n")[0]
    listed = "\n".join(lines_of("tests/README.md")).partition("leaves out\n")[2].partition("\n### ")[0]
    yield from (it for it in re.findall(r'^    \("([\w/.]+)', left_out, re.MULTILINE) if f"`{it}" not in listed)


def print_long(long):
    """Prints the number of long sentences of each page, and with --sentences the sentences."""
    for page, found in long.items():
        if found:
            print(f"{page}: {len(found)} sentences above {LONG_SENTENCE} words")
        for sentence in found if "--sentences" in sys.argv else []:
            print(f"    {sentence}")
    print(f"{sum(map(len, long.values()))} sentences above {LONG_SENTENCE} words")


def pages():
    folders = (".", "docs", "bench", "examples/*", "importer", "packages/*", "packages/*/*", "release", "tests", "tools")
    return [os.path.relpath(path, TOP) for folder in folders for path in paths(f"{folder}/*.md")]


def sentences(lines):
    """Yields the sentences of paragraphs, list items and table cells. A piece of code counts as a word."""
    text, is_code = "", False
    for line in [*lines, ""]:
        if line.lstrip().startswith("```"):
            is_code = not is_code
            line = ""
        begins, is_row = re.match(r" *([-*#]|\d+\.) |$", line), line.lstrip().startswith("|")
        if (begins or is_code or is_row) and text:
            yield from parts(text)
            text = ""
        if is_row:
            for cell in line.strip("| ").split(" | "):
                yield from parts(cell)
        elif not is_code and line.strip():
            text += " " + re.sub(r"^ *([-*#]+|\d+\.) ", "", line)


def parts(text):
    """Splits a text into its sentences."""
    plain = re.sub(r"\]\([^)]*\)", "]", re.sub(r"`[^`]*`", "`code`", text))
    return [it for it in re.split(r"(?<=[.!?:])[*_)]* (?=[A-Z\"`\[*])", plain.strip()) if it]


def broken_links(page, lines):
    folder = os.path.dirname(page)
    for at, line in enumerate(lines, 1):
        for link in re.findall(r"\]\(([^)\s]+)\)", line):
            file, _, anchor = link.partition("#")
            path = os.path.normpath(os.path.join(folder, file)) if file else page
            if "://" in link:
                continue
            if not os.path.exists(os.path.join(TOP, path)) or anchor and anchor not in anchors(path):
                yield at, link


@functools.lru_cache(maxsize=None)
def anchors(path):
    """Returns the anchors of the headings of a page, as GitHub makes them."""
    found, is_code = [], False
    for line in lines_of(path):
        is_code ^= line.lstrip().startswith("```")
        if line.startswith("#") and not is_code:
            text = re.sub(r"\]\([^)]*\)", "", line.lstrip("#").strip().lower())
            found.append(re.sub(r"[^\w -]", "", text).replace(" ", "-"))
    # A heading that a page has again gets a number.
    again = [f"{it}-{found[:at].count(it)}" for at, it in enumerate(found) if it in found[:at]]
    return {*found, *again}


def unknown_files(lines):
    """Yields source files and scripts that do not exist. A name in capitals is a placeholder."""
    for at, line in enumerate(lines, 1):
        for name in re.findall(r"(?:`|^\s*\$? ?)((?:bench|release(?!/out)|tests|tools)/[\w./-]+)", line):
            if not os.path.exists(os.path.join(TOP, name)) and not re.search("[A-Z]", name):
                yield at, name
        for name in re.findall(r"`([\w/.-]+\.(?:rt|antt|rs))`", line):
            if not name.split(".")[0].isupper() and not any(path.endswith(f"/{name}") for path in PATHS):
                yield at, name
        for name in re.findall(r"`(?:crates/)?((?:\w+/)?(?:specs|proofs|must-fail|more-faults)/\w[\w./-]*)`", line):
            if not any(f"/{name}" in path for path in OF_CRATES):
                yield at, name


def unknown_commands(lines):
    """Yields words that follow `complgen` in code, and are none of its commands."""
    is_code = False
    for at, line in enumerate(lines, 1):
        is_code ^= line.lstrip().startswith("```")
        codes = re.split(r"[|;&]", line) if is_code else re.findall(r"`([^`]+)`", line)
        for code in codes:
            for word in re.findall(r"^\s*(?:\$ )?(?:\./)?complgen ([a-z]+)(?=[ `]|$)", code):
                if word not in COMMANDS:
                    yield at, word


def wrong_numbers(lines):
    """Yields numbers of things in the repository that are not as stated, each with the right number."""
    for at, line in enumerate(lines, 1):
        for things, right in COUNTS.items():
            for found in re.finditer(things, line):
                if int(found[1]) != right:
                    yield at, found[0], right


def unknown_blocks(lines):
    """Yields the blocks that no source has, each as the number and the text of its first line."""
    begin = None
    for at, line in enumerate(lines):
        if not re.match(r" *```", line):
            continue
        if begin is None:
            begin = at + 1 if line.strip() in ("```rust", "```rattle") else 0
            continue
        block = dedented(lines[begin:at]) if begin else []
        if block and not any(is_in(block, source) for source in SOURCES):
            yield begin + 1, block[0]
        begin = None


def is_in(block, source):
    """Tells whether a file has the lines of a block, and imports what the block imports."""
    sought, there = without_imports(block), without_imports(source)
    if not imported(block) <= imported(source):
        return False
    return any(there[at:at + len(sought)] == sought for at in range(len(there) - len(sought) + 1))


def without_imports(lines):
    """Returns the other lines, without empty ones, which a document may leave out."""
    return [line.strip() for line in lines if line.strip() and not line.startswith("use ")]


def imported(lines):
    return {word for line in lines if line.startswith("use ") for word in re.findall(r"\w+", line)}


def dedented(lines):
    margin = min((len(line) - len(line.lstrip()) for line in lines if line.strip()), default=0)
    return [line[margin:].rstrip() for line in lines]


def unknown_names(lines):
    """Yields what does not exist of the files, functions and definitions in the rows of a walk."""
    for at, line in enumerate(lines, 1):
        cells = line.strip("| ").split(" | ")
        if len(cells) != 4 or not re.match(r"\w+ `\w+\.rt`", cells[1]):
            continue
        text, crate = "", None
        for of, file in re.findall(r"(?:(\w+) )?`(\w+\.rt)`", cells[1]):
            crate = of or crate
            paths = glob.glob(os.path.join(TOP, "crates", crate, "src", "**", file), recursive=True)
            if not paths:
                yield at, f"{file} in {crate}"
            text += "".join("\n".join(lines_of(path)) for path in paths)
        for name in re.findall(r"`(?:\w+::)?([a-z_]\w*)`", cells[2]):
            if not re.search(rf"\bfn {name}\b", text):
                yield at, f"function {name} in {cells[1]}"
        for name in re.findall(r"`(\w+)`", cells[3]):
            if not re.search(rf"^(?:pub|abbrev|unfoldable|data|record| )+ {name}\b", DEFINITIONS, re.MULTILINE):
                yield at, f"definition {name}"


def lines_of(path):
    with open(os.path.join(TOP, path), encoding="utf-8") as file:
        return file.read().split("\n")


def files(pattern):
    return [lines_of(path) for path in paths(pattern)]


def paths(pattern):
    return sorted(glob.glob(os.path.join(TOP, pattern), recursive=True))


OF_CRATES = paths("crates/*/[spm]*/**/*")
PATHS = [path for end in ("rt", "antt", "rs") for path in paths(f"*/**/*.{end}")]
SOURCES = files("crates/*/src/**/*.rt") + files("examples/**/*.rs")
COMMANDS = set(re.findall(r'Some\(\("([a-z]+)"', "\n".join(lines_of("crates/complgen_command_line/src/words.rt"))))
COUNTS = {
    r"\b(\d\d+) crates\b": sum(":" in line and line[0] != "#" for line in lines_of("crates.txt")),
    r"\b(\d+) commands of `complgen`": len(COMMANDS),
    r"`P1` to `P(\d+)`": sum(bool(re.match(r"\| P\d+ \|", line)) for line in lines_of("docs/PROOFS.md")),
    r"\bclauses have it as (\d+)\b": int(re.findall(r"MOST_KEYS: usize = (\d+)", "\n".join(
        lines_of("crates/complgen_tree_file/src/values.rt")))[0]),
}
DEFINITIONS = "\n".join(line for lines in files("crates/*/specs/**/*.antt") for line in lines)

if __name__ == "__main__":
    sys.exit(main())
