"""What the tests that drive shells share: how a user types a value, what a shell must leave out, and counts.

`forms` lists the ways to type a value before a Tab. `left_out` has the rules for values that a registration does
not insert. A `Count` judges what a program received.
"""

from __future__ import annotations

import collections
import re
from typing import Any, Callable, Counter, Iterator, Optional, Sequence, Tuple

from shells import fish_hides_dots

# The reason for a value that a shell leaves out at some Tabs only.
MAY_LEAVE_OUT = "bash may complete nothing after a `"
SPECIAL = set("$`\"'\\;&|*?[](){}<>#!~=^% \u00a0\u2003\u3000‘")


def has_control(text: str) -> bool:
    return any(ord(letter) < 32 or 127 <= ord(letter) < 160 for letter in text)


def left_out(shell: str, quote: str, value: str, typed: str = "") -> Optional[str]:
    """Returns why a value must not be inserted after this open quote, or `None`."""
    if has_control(value):
        return "control character"
    if shell == "bash":
        return left_out_in_bash(quote, value, typed)
    if shell == "zsh":
        return left_out_in_zsh(quote, value, typed)
    if shell == "fish":
        return left_out_in_fish(value, typed)
    return None


def left_out_at_tabs(shell: str, quote: str, typed: str, values: Sequence[str]) -> Optional[str]:
    """Returns why one of some Tabs must not insert its value, or `None`. Each value begins with the one before it, and
    the first one with what was typed."""
    reasons = (left_out(shell, quote, value, before) for before, value in zip([typed, *values], values))
    return next((reason for reason in reasons if reason), None)


def left_out_in_bash(quote: str, value: str, typed: str) -> Optional[str]:
    if quote == "'" and set("'$`") & set(value):
        return "', $ or ` between '"
    if quote == '"' and "!" in value[len(typed):]:
        return '! between "'
    if not quote and value.rpartition("/")[0].count("`") % 2:
        return MAY_LEAVE_OUT
    return None


def left_out_in_zsh(quote: str, value: str, typed: str) -> Optional[str]:
    if quote == '"' and "$'" in value:
        return "$' between \" in zsh"
    if any("\ue000" <= letter <= "\ue0ff" for letter in value):
        return "U+E000 to U+E0FF in zsh"
    if quote == "'" and "`" in typed:
        return "` between ' in zsh"
    return None


def begins_blank(value: str) -> bool:
    """Tells whether the value begins with a blank that fish would drop: one that is not ASCII."""
    return value[:1].isspace() and not value[:1].isascii()


def left_out_in_fish(value: str, typed: str) -> Optional[str]:
    if value.startswith("~"):
        return "~ in fish"
    if begins_blank(value):
        return "a blank of Unicode in fish"
    if value.startswith(".") and not typed and fish_hides_dots():
        return "fish hides a leading dot"
    if typed == "*" and value != typed:
        return "fish completes nothing after *"
    return None


def letter_in(shell: str, quote: str, letter: str) -> Optional[str]:
    """Returns the letter as a user types it, bare or after a quote, or `None` if that is impossible."""
    if has_control(letter) or "\ue000" <= letter <= "\uf8ff":
        return None
    if shell == "elvish":
        return {"": None if letter in SPECIAL else letter, "'": letter.replace("'", "''"),
                '"': re.sub(r'(["\\])', r"\\\1", letter)}[quote]
    if quote == "'":
        if shell == "fish":
            return re.sub(r"(['\\])", r"\\\1", letter)
        return None if letter == "'" else letter
    if quote == '"':
        if letter == "!" and shell != "fish":
            return None
        return re.sub(r'(["\\$])' if shell == "fish" else r'(["\\$`])', r"\\\1", letter)
    return "\\" + letter if letter in SPECIAL else letter


def forms(shell: str, value: str) -> Iterator[Tuple[str, str, str]]:
    """Yields triples: the open quote, the value that was typed, and how it was typed."""
    for quote in ("", "'", '"'):
        yield quote, "", quote
        letter = letter_in(shell, quote, value[0])
        if letter is not None:
            yield quote, value[0], quote + letter


class Count:
    """The outcomes of a part in a shell. A quiet one prints the counts alone."""

    def __init__(self, shell: str, part: str, verbose: bool, quiet: bool = False) -> None:
        self.name, self.verbose, self.quiet = f"{shell}, {part}", verbose, quiet and not verbose
        self.found: Counter[str] = collections.Counter()
        self.reasons: Counter[str] = collections.Counter()

    def tried(self, attempt: Callable[[], Tuple[Any, Sequence[str]]], what: Any, typed: str, expected: Any,
              reason: Optional[str] = None, prefixes: Sequence[Any] = ()) -> None:
        """Makes an attempt, which returns the received words and what ran, and judges it. An attempt that is wrong
        although nothing ran is made once more, because a busy machine can delay a shell's answer."""
        got, marks = attempt()
        is_left_out = reason is not None and got in prefixes
        if not marks and not is_left_out and (got != expected or reason not in (None, MAY_LEAVE_OUT)):
            got, marks = attempt()
        self.judge(what, typed, expected, got, reason, marks, prefixes)

    def judge(self, what: Any, typed: str, expected: Any, got: Any, reason: Optional[str], marks: Sequence[str],
              prefixes: Sequence[Any]) -> None:
        """Counts a try: the expected words, the received words, and what ran."""
        if marks:
            self.say("EVALUATED", what, typed, got, marks)
        elif got == expected and reason in (None, MAY_LEAVE_OUT):
            self.found["received"] += 1
        elif got in prefixes:
            self.found["not inserted"] += 1
            self.reasons[reason or "NOT EXPECTED"] += 1
            if reason is None:
                self.say("NOT INSERTED", what, typed, got)
            elif self.verbose:
                print(f"  {self.name}: {what!r} typed as {typed!r}: not inserted: {reason}")
        elif got == expected:
            self.say("INSERTED AGAINST THE RULES", what, typed, got)
        else:
            self.say("CHANGED", what, typed, got)

    def leave(self, outcome: str, why: str) -> None:
        """Counts a try that neither inserts nor runs anything."""
        self.found[outcome] += 1
        if self.verbose:
            print(f"  {self.name}: {why}: {outcome}")

    def say(self, kind: str, what: Any, typed: str, got: Any, *more: Any) -> None:
        """Counts a try that is wrong, and prints it."""
        if kind != "NOT INSERTED":
            self.found[kind.lower()] += 1
        self.found["bad"] += 1
        if not self.quiet:
            print(f"  {self.name}: {kind}: {what!r} typed as {typed!r}: received {got!r}", *more)

    def end(self) -> bool:
        """Prints the counts. Returns whether nothing was wrong."""
        bad = self.found.pop("bad", 0)
        counts = [f"{self.found.pop(name, 0)} {name}" for name in ("received", "not inserted", "changed", "evaluated")]
        counts += [f"{count} {name}" for name, count in self.found.items()]
        why = "; ".join(f"{count} {reason}" for reason, count in sorted(self.reasons.items()))
        print(f"{self.name}: " + ", ".join(counts) + (f" ({why})" if why else ""), flush=True)
        return bad == 0
