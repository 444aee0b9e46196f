"""Writes texts in roff, the language of man pages."""

import re
import textwrap


def escaped(text):
    """Returns a text of one line so that roff reads it as it is."""
    for sign, code in (("\\", "\\e"), ("-", "\\-"), ("'", "\\(aq"), ("`", "\\(ga"), ("^", "\\(ha"), ("~", "\\(ti"), ('"', "\\(dq")):
        text = text.replace(sign, code)
    return "\\&" + text if text.startswith(".") else text


def bold(text):
    """Returns a text in bold."""
    return f"\\fB{escaped(text)}\\fR"


def inline(text):
    """Returns a text as one line, with the code between backticks in bold."""
    parts = re.split("`([^`]*)`", text)
    return "".join(bold(part) if place % 2 else escaped(part) for place, part in enumerate(parts))


def prose(text):
    """Returns a text as lines, with the code between backticks in bold."""
    lines = textwrap.wrap(inline(text), 78, break_long_words=False, break_on_hyphens=False)
    return "\n".join("\\&" + line if line.startswith(".") else line for line in lines)


def head(name, section, date, source, title):
    """Returns the first lines of a page: its name, and no hyphenation."""
    return [f'.TH {escaped(name.upper())} {section} "{date}" "{escaped(source)}" "{title}"', ".nh"]
