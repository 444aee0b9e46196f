"""A model of what docs/IMPORT.md states, written apart from the importer: from this page alone.

It has the form of option lines ("Options"), to tell which names have to be found, and the places that a name may
come from, to tell which names must not. It shares no pattern with the package `importer`.
"""

from __future__ import annotations

import re
import unicodedata
from typing import Optional, Set

# ---- the text as a terminal shows it

COLOR = re.compile(r"\x1b\[[0-9;]*m")
STRUCK = re.compile(r"([^\x00-\x20\x7f-\x9f])\x08(?=\1)|_\x08(?=[^\x00-\x1f\x7f-\x9f])")
# Control characters, signs without a width, and line separators, as Unicode has them.
UNSEEN = ("Cc", "Cf", "Zl", "Zp")


def shown(data: bytes) -> Optional[str]:
    """Returns a text without colours, overstrikes and control characters. Returns `None` if it has other escapes or
    backspaces, of which the page does not say what a terminal shows."""
    text = STRUCK.sub("", COLOR.sub("", data.decode("utf-8", "replace")))
    if "\x1b" in text or "\b" in text:
        return None
    return "".join(it for it in text.replace("\xa0", " ") if it in "\t\n" or unicodedata.category(it) not in UNSEEN)


# ---- complete: the names in lines of the stated form

WORD = r"[A-Za-z0-9]+(?:[-_.][A-Za-z0-9]+)*"
# A name ends before any character but letters, digits and `_.:+-`. Dots say that it may be repeated.
NAME = r"(?:--\[no-\]" + WORD + r"|--" + WORD + r"|-[A-Za-z0-9])(?:\.\.\.)?(?![A-Za-z0-9_.:+-])"
HELD = r"(?:<[^<>]*>|\{[^{}]*\})"
JOINED = r"(?:" + HELD + r"(?:\.\.\.)?|[A-Za-z0-9_.:+/@%-]+)"
SPACED = r" (?:" + HELD + r"|[A-Z][A-Z0-9_-]*)(?:\.\.\.)?"
GROUP = r" \[[^\[\]]*\]"
VALUES = r"(?:=" + JOINED + r"|\[=" + JOINED + r"\]|(?:" + SPACED + r")+(?:" + GROUP + r")?|" + GROUP + r")"
LOWER = r" [a-z][A-Za-z0-9_.:/-]*"
BETWEEN = r"(?:, |,| \| |\|| / | or | )"
JOINT = r"(?:" + BETWEEN + r"|/|" + VALUES + BETWEEN + r"|" + LOWER + r", )"
LINE = re.compile(r" *(" + NAME + r"(?:" + JOINT + NAME + r")*(?:" + VALUES + r"|" + LOWER + r")?)(?:  .*)?", re.DOTALL)
BRACKETS = re.compile(HELD + r"|(?<!--)\[[^\[\]]*\]|=[A-Za-z0-9_.:+/@%-]+")
NAMES = re.compile(r"(?:^|[ ,|/])(--\[no-\]|--|-)(" + WORD + r")(?:\.\.\.)?(?![A-Za-z0-9_.:+-])")


def stated_names(text: str) -> Set[str]:
    """Returns the plain names in the lines of the stated form."""
    found: Set[str] = set()
    for line in text.split("\n"):
        match = LINE.fullmatch(line.rstrip(" \t").replace("\t", "  "))
        for dashes, word in NAMES.findall(BRACKETS.sub("", match[1])) if match else ():
            if "." not in word:
                found.add(("-" if dashes == "-" else "--") + word)
                found.update({"--no-" + word} if dashes == "--[no-]" else ())
    return found


# ---- sound: where a name may come from

# The start of a line, a space, a separator, or a bracket, before a name.
BEFORE = r"(?:^|(?<=[\s,|/\[({]))"
# `--[no-]color` is `--color` and `--no-color`. Other beginnings of a name may be in brackets, too.
OPTIONAL = re.compile(BEFORE + r"--\[([a-z]+-?)\](" + WORD + r")(?![A-Za-z0-9_+-])", re.MULTILINE)
# `[-abC]` is `-a`, `-b` and `-C`.
CLUSTER = re.compile(r"[\[({|] *-([A-Za-z0-9]{2,})(?=[\])}| ]|$)", re.MULTILINE)


def is_said(name: str, text: str) -> bool:
    """Tells whether an option name is in a text, or follows from brackets there."""
    after = r"(?![A-Za-z0-9_+-])" if name.startswith("--") else ""
    if re.search(BEFORE + re.escape(name) + after, text, re.MULTILINE):
        return True
    if name.startswith("--"):
        return any(name in ("--" + word, "--" + begin + word) for begin, word in OPTIONAL.findall(text))
    return any(name[1:] in letters for letters in CLUSTER.findall(text))


def is_word(word: str, text: str) -> bool:
    """Tells whether a text has a word that is no part of a longer one."""
    return re.search(r"(?<![A-Za-z0-9])" + re.escape(word) + r"(?![A-Za-z0-9])", text) is not None
