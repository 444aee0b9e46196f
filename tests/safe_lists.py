"""What bash lists and inserts: the part `descriptions` of tests/safe_live.py.

The same keys are typed into two shells, one of them with COMPLGEN_DESCRIPTIONS=0. The command lines have to be equal
after them, so bash inserts no description. `described` has the rules for a list with descriptions, and `rows` those
by which readline shows it.
"""

import collections
import contextlib
import os
import re

import safe_places
import shells
from judging import has_control

LONG = "this help text is so long that it fits into no line of eighty letters, so it has to be cut"
HELPED = (
    ("alpha", "The first"), ("alpine", LONG), ("beta", None), ("two words", "A blank"), ("it's", "A (quote)"),
    ('d"q', "Another  quote)"), ("x$(touch hit)", "$(touch hit) `touch hit`; touch hit"), ("ümlaut", "größer – ÄÖÜ" * 12),
    ("tab", "a\tb"), ("esc", "a\x1b[31mb"), ("c1", "a\x9b31mb"), ("lines", "one\ntwo"), ("~/home", "at home"),
)
VALUES = {
    "few": HELPED,
    "common": (("value-1", "one"), ("value-2", "two")),
    "one": (("only", "The only one"),),
    "twin": (("twin", "one"), ("twin", "two")),
    "kept": (("k=", "nothing"), ("k=v", "something")),
    "keys": (("k=a", "the a"), ("k=b", "the b"), ("k=ccc", None)),
    "long": tuple((f"{letter * 50}", LONG) for letter in "ab"),
    "bare": (("one", None), ("two", None)),
    "wide": (("漢字", "漢字" * 40), ("kanji", "two cells for a letter")),
}
FLAGS = (("--color", "The colours"), ("--colour", None), ("--verbose", LONG))
FILES = (("folder/", None), ("one file", None), ("other", None))
# Texts that are typed after the program: in all settings, and more without any. Then keys that list or insert.
TYPED = ("few ", "few al", "few 'tw", "one ", "keys k=", "file ")
MORE_TYPED = ('few "', "common ", "twin ", "kept k=", "keys k", "bare ", "--")
WIDTHS = (40, 80, 200)
TAB, LIST, INSERT_ALL, DELETE_OR_LIST = "\t", "\x1b?", "\x1b*", "\x04"
KEYS = (TAB, TAB * 2, TAB * 3, LIST, INSERT_ALL, LIST + TAB, DELETE_OR_LIST)
# A completion that finds nothing. After it, bash inserts a single line that it should list.
FAILED = "zzz" + TAB + "\b\b\b"
ONE_IN_A_ROW = "bind 'set completion-display-width 0'"
# In vi mode: `=` lists, `*` inserts all, and a backslash completes.
TO_COMMANDS = "\x18\x16"
VI = "set -o vi; bind '\"\\C-x\\C-v\": vi-movement-mode'"

# A setting has its name, what sets it, the keys that are typed, those that list the words with descriptions, and those
# that list the words alone.
Setting = collections.namedtuple("Setting", "name setup keys lists bare")
SETTINGS = (
    Setting("plain", ":", KEYS, LIST, None),
    Setting("show-all-if-ambiguous", "bind 'set show-all-if-ambiguous on'", KEYS, TAB * 2, TAB),
    Setting("show-all-if-unmodified", "bind 'set show-all-if-unmodified on'", KEYS, TAB * 2, TAB),
    Setting("menu-complete", "bind 'TAB: menu-complete'", KEYS, LIST, None),
    Setting("menu-complete, show-all-if-ambiguous, menu-complete-display-prefix", "bind 'TAB: menu-complete'; "
            "bind 'set show-all-if-ambiguous on'; bind 'set menu-complete-display-prefix on'", KEYS, LIST, TAB),
    Setting("old-menu-complete", "bind 'TAB: old-menu-complete'", KEYS, LIST, None),
    Setting("completion-query-items", "bind 'set completion-query-items 1'",
            tuple(keys + answer for keys in (TAB * 2, LIST) for answer in "yn"), LIST + "y", None),
    Setting("mark-directories off", "bind 'set mark-directories off'", KEYS, LIST, None),
    Setting("skip-completed-text", "bind 'set skip-completed-text on'", KEYS, LIST, None),
    Setting("completion-prefix-display-length", "bind 'set completion-prefix-display-length 2'", KEYS, None, None),
    Setting("colours", "bind 'set colored-stats on'; bind 'set colored-completion-prefix on'; "
            "bind 'set visible-stats on'", KEYS, LIST, None),
    Setting("set -u, set -f", "set -u -f", KEYS, LIST, None),
    Setting("FIGNORE", "FIGNORE=':a:)'", KEYS, LIST, None),
    Setting("vi", VI, (TAB, TAB * 2, TAB * 3, *(TO_COMMANDS + key for key in ("=a", "==a", "*", "\\"))),
            TAB * 2, None),
)


# ---- the rules

def word(value, quote):
    """Returns a value as bash inserts it, without the quote at its end."""
    if quote == "'":
        return value
    if quote == '"':
        return re.sub(r'(["\\$`])', r"\\\1", value)
    start = "~/" if value.startswith("~/") else ""
    return start + re.sub(r"([ !\"#$&'()*;<>?\[\\\]^`{|}~])", r"\\\1", value[len(start):])


def is_offered(value, quote, kept):
    """Returns whether bash offers a value after the part that it keeps, in an open quote."""
    left_out = {"": set(), "'": set("'$`"), '"': set("!")}[quote]
    return value.startswith(kept) and not left_out & set(value[len(kept):])


def described(values, width, quote="", kept=""):
    """Returns the lines of a list in a terminal of this width, by the rules of docs/TEXTS.md."""
    words = {value: word(value[len(kept):], quote) for value, _ in values if is_offered(value, quote, kept)}
    helps = {value: (help_text or "").split("\n")[0] for value, help_text in values}
    shown = {value: text for value, text in helps.items() if value in words and text and not has_control(text)}
    longest = max((len(words[value] + quote) for value in shown), default=0)
    room = width - longest - 4
    if room < 22 or len(set(words.values()) - {""}) < 2:
        shown = {}
    lines = []
    for value, written in words.items():
        if value in shown:
            text = shown[value] if len(shown[value]) <= room else shown[value][:room - 2] + ".."
            written = f"{(written + quote).ljust(longest)}  ({text})"
        # the registration adds a backslash where the home directory was not typed
        lines.append("\\" + written if written.startswith("~/") and not quote + kept else written)
    return [line for line in lines if line]


def rows(lines, width):
    """Returns the rows in which readline shows the lines of a list."""
    cell = max(map(len, lines)) + 2
    in_row = width // cell
    in_row = max(in_row - (in_row != 1 and in_row * cell == width), 1)
    count = -(-len(lines) // in_row)
    return ["".join(line.ljust(cell) for line in lines[at::count]).rstrip() for at in range(count)]


# ---- typing

def tree():
    """Returns the command `lists`, with a subcommand for each group of values."""
    def values(given):
        return [{"name": value, **({"help": help_text} if help_text else {})} for value, help_text in given]

    flags = [{"id": name, "long": name[2:], "action": "SetTrue", **({"help": help_text} if help_text else {})}
             for name, help_text in FLAGS]
    return {"name": "lists", "disable_help_flag": True, "disable_help_subcommand": True, "args": flags, "subcommands": [
        *({"name": name, "disable_help_flag": True, "args": [{"id": "v", "possible_values": values(given)}]}
          for name, given in VALUES.items()),
        {"name": "file", "disable_help_flag": True, "args": [{"id": "f", "value_hint": "FilePath"}]}]}


def listed(terminal, text, keys):
    """Types a text and keys. Returns the command line after them, and the rows that bash listed last."""
    terminal.seen = b""
    line, _ = terminal.tab("lists " + text, keys)
    while terminal.read(0.02):
        pass
    shown = re.sub(r"\x1b\[[\d;]*[mK]", "", terminal.seen.decode("utf-8", "backslashreplace"))
    screens = [part.rpartition("\r\n")[0] for part in shown.split(shells.READY)]
    found = [screen.split("\r\n")[1:] for screen in screens if screen]
    terminal.clear()
    return line, [row.rstrip() for row in found[-1] if "possibilities?" not in row] if found else []


@contextlib.contextmanager
def started(scratch, width, setup):
    """Starts a bash in a terminal of this width, in the directory with the files."""
    scratch.columns = width
    with shells.started("bash", scratch, scratch.written("bash"), setup) as terminal:
        del scratch.columns
        terminal.go(scratch.lists)
        yield terminal


def make(scratch):
    """Makes the program and a directory with files."""
    scratch.program(tree())
    scratch.lists = os.path.join(scratch.path, "lists")
    os.makedirs(os.path.join(scratch.lists, "folder"))
    for name in ("one file", "other"):
        shells.write(os.path.join(scratch.lists, name), "")


def marks(scratch):
    return scratch.marks(scratch.lists, ("folder", "one file", "other"))


def try_lists(scratch, count):
    """Tries each setting, each width, and locales."""
    make(scratch)
    for setting in SETTINGS:
        try_setting(scratch, count, setting)
    for width in WIDTHS:
        try_width(scratch, count, width)
    try_charsets(scratch, count)


def try_setting(scratch, count, setting):
    """Types the same keys with descriptions and without. The command lines have to be equal."""
    with started(scratch, 80, setting.setup) as terminal, \
            started(scratch, 80, setting.setup + "; COMPLGEN_DESCRIPTIONS=0") as plain:
        for text in TYPED + (MORE_TYPED if setting == SETTINGS[0] else ()):
            for keys in (*setting.keys, FAILED + setting.keys[-1], FAILED + (setting.lists or LIST)):
                expected = listed(plain, text, keys)[0]
                count.tried(lambda: (listed(terminal, text, keys)[0], marks(scratch)),
                            "the line", f"{setting.name}: {text}{keys!r}", expected)
        for keys, width in ((setting.lists, 80), (setting.bare, 0)):
            if keys:
                try_list(scratch, count, terminal, f"{setting.name}: ", "few ", keys, rows(described(HELPED, width), 80))
                try_list(scratch, count, plain, f"{setting.name}, off: ", "few ", keys, rows(described(HELPED, 0), 80))


def try_list(scratch, count, terminal, what, text, keys, expected):
    """Compares the rows that bash lists with the expected ones."""
    count.tried(lambda: (listed(terminal, text, keys)[1], marks(scratch)), "the list", f"{what}{text}{keys!r}", expected)


def try_width(scratch, count, width):
    """Lists groups of values in a terminal of this width."""
    cases = [(f"{name} ", VALUES[name], "", "") for name in ("few", "common", "twin", "long", "bare")]
    cases += [("few '", HELPED, "'", ""), ('few "', HELPED, '"', ""), ("keys k=", VALUES["keys"], "", "k="),
              ("kept k=", VALUES["kept"], "", "k="), ("--", FLAGS, "", ""), ("file ", FILES, "", "")]
    with started(scratch, width, ":") as terminal:
        for text, values, quote, kept in cases:
            expected = rows(described(values, width, quote, kept), width)
            try_list(scratch, count, terminal, f"{width}: ", text, LIST, expected)
    with started(scratch, width, ONE_IN_A_ROW) as terminal:
        try_list(scratch, count, terminal, f"{width}: ", "wide ", LIST, described(VALUES["wide"], width))


def try_charsets(scratch, count):
    """Lists values in each locale. Where bytes of letters may be control characters, there are no descriptions."""
    folder = os.path.realpath(scratch.options.locales or os.path.join(scratch.path, "locales"))
    before = dict(scratch.environment)
    for charset, source in safe_places.LOCALES:
        variables = safe_places.make_locale(folder, charset, source)
        if variables is None or charset == "SHIFT_JIS":
            continue  # in that charset, the registration does not see an empty last word
        scratch.environment.update(variables)
        values, width = HELPED, 80
        if charset not in ("UTF-8", "C", "ISO-8859-1"):
            values = [it for it in HELPED if it[0].isascii()]
        if charset in ("ISO-8859-1", "EUC-JP"):
            width = 0
        with started(scratch, 80, ONE_IN_A_ROW) as terminal:
            try_list(scratch, count, terminal, charset + ": ", "few ", LIST, described(values, width))
        scratch.environment.clear()
        scratch.environment.update(before)
