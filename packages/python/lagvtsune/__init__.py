"""Shell completions for Python programs, by the shared library liblagvtsune.so.0.

`complete` answers a completion request of a shell, and `script` makes a script. Both take a tree file,
as text or bytes. `registration` makes a registration, which needs no tree. The library is looked up at the
first call as the system does it, or the variable LAGVTSUNE_SO names it.

The modules `lagvtsune.argparse` and `lagvtsune.click` make tree files. They do not need the library.

SPDX-License-Identifier: MIT OR Apache-2.0
"""

import ctypes
import functools
import os
import sys

MADE, FAILED, NOT_UTF8, NOT_REQUESTED, WANTS_FOLDER, RUN, MADE_WITHOUT_SPACE = range(7)
# The variables that registrations set.
REQUESTS = (
    "COMPLETE", "_COMPLGEN_VALUES", "_COMPLGEN_ASCII", "_COMPLGEN_KEPT", "_COMPLGEN_QUOTE",
    "_COMPLGEN_WIDTH", "_COMPLGEN_SPACE", "_CLAP_COMPLETE_INDEX", "_CLAP_IFS",
)
# The exit statuses after an answer. After the second one, the shell runs the command whose words were written, and
# after the third one, no space follows a value.
EXITS = {MADE: 0, RUN: 3, MADE_WITHOUT_SPACE: 4}
# The most bytes of a command's output that count.
MOST_OUTPUT = 16 << 20
# The size of the first room for a text. A longer text takes a second call.
FIRST_ROOM = 1 << 16
# The number of directories that one request may need. The library asks for at most one.
MOST_DIRECTORIES = 4


class Bytes(ctypes.Structure):
    """A slice of bytes."""

    _fields_ = [("start", ctypes.c_char_p), ("length", ctypes.c_size_t)]


class List(ctypes.Structure):
    """A list of such slices."""

    _fields_ = [("start", ctypes.POINTER(Bytes)), ("length", ctypes.c_size_t)]


class Names(ctypes.Structure):
    """The names in a registration."""

    _fields_ = [(name, Bytes) for name in ("variable", "name", "bin", "completer")]


class Request(ctypes.Structure):
    """A live request."""

    _fields_ = [
        ("tree", Bytes), ("words", List), ("variables", List), ("output", Bytes), ("listed", Bytes), ("names", List),
        ("folders", List), ("files", List),
    ]


SLICE = [ctypes.c_char_p, ctypes.c_size_t]
ROOM = [ctypes.c_char_p, ctypes.c_size_t, ctypes.POINTER(ctypes.c_uint8)]


class Failed(Exception):
    """The library's message instead of a text."""


def script(shell, bin_name, tree):
    """Returns the script for a shell as text, of the command in a tree file. Raises `Failed`."""
    return _made("lagvtsune_script", [*_slice(shell), *_slice(bin_name), *_slice(tree)])


def registration(shell, bin_name, completer, variable="COMPLETE", name=None, safe=True):
    """Returns the registration for a shell as text. Raises `Failed`.

    It makes the shell run `completer` at a Tab in the words of the program `bin_name`, with `variable` set.
    `name` is part of the names of functions, and is `bin_name` if you leave it out. If `safe` is false, it is
    the registration of the original, whose names have to be plain.
    """
    names = Names(*map(_bytes, (variable, name or bin_name, bin_name, completer)))
    return _made("lagvtsune_registration", [safe, *_slice(shell), ctypes.byref(names)])


def answer(tree, words, variables, current_dir=None, output=b""):
    """Returns an exit status and the bytes that a shell requests, or `None` if the variables request nothing.

    `words` are the program's arguments, starting with its name. `output` is what a command printed, if the
    variable _COMPLGEN_VALUES is `stdin`. The status is 0 with a registration or a reply, 3 with the words of a
    command, which the shell then runs, and 4 with a reply after whose values no space follows. Raises `Failed`.
    """
    requests = {name: variables[name] for name in REQUESTS if name in variables}
    others = {**{name: variables.get(name) for name in ("HOME", "COMPLGEN_COMMANDS")}, "PWD": current_dir}
    requests.update({name: text for name, text in others.items() if text and _is_utf8(text)})
    pairs = [text for pair in requests.items() for text in pair]
    listed, names, paths = "", [], []
    for _ in range(1 + MOST_DIRECTORIES):
        folders, files = ([it for it in paths if leads_to(it)] for leads_to in (os.path.isdir, os.path.isfile))
        request = Request(
            _bytes(tree), _list(words), _list(pairs), _bytes(output), _bytes(listed), _list(names), _list(folders),
            _list(files),
        )
        status, text = _call("lagvtsune_live", [ctypes.byref(request)])
        if status != WANTS_FOLDER:
            break
        listed = os.fsdecode(text)
        names = _names(listed)
        paths = [listed, *(os.path.join(listed, name) for name in names)]
    if status == NOT_REQUESTED:
        return None
    if status not in EXITS:
        raise _failure(status, text)
    return EXITS[status], text


def complete(tree, words=None):
    """Answers a completion request of a shell, if there is one, and ends the process.

    Call it before your program does anything else. `tree` is a tree file, or a function that returns one. If
    _COMPLGEN_VALUES is `stdin`, the function reads the standard input, which has what a command printed. The
    exit status is 0, 3 after the words of a command, 4 if no space follows a value, or 2 after a message on
    stderr.
    """
    if os.environ.get("COMPLETE", "0") in ("", "0"):
        return
    try:
        output = _output() if os.environ.get("_COMPLGEN_VALUES") == "stdin" else b""
        answered = answer(tree() if callable(tree) else tree, words or sys.argv, os.environ, os.getcwd(), output)
    except (Failed, OSError) as error:
        print(error, file=sys.stderr)
        sys.exit(2)
    if answered is not None:
        status, text = answered
        sys.stdout.buffer.write(text)
        sys.stdout.flush()
        sys.exit(status)


@functools.lru_cache(maxsize=None)
def _library():
    """Loads the shared library. Raises `OSError` if it is not found."""
    library = ctypes.CDLL(os.environ.get("LAGVTSUNE_SO", "liblagvtsune.so.0"))
    library.lagvtsune_script.argtypes = SLICE * 3 + ROOM
    library.lagvtsune_registration.argtypes = [ctypes.c_bool, *SLICE, ctypes.POINTER(Names), *ROOM]
    library.lagvtsune_live.argtypes = [ctypes.POINTER(Request), *ROOM]
    for function in (library.lagvtsune_script, library.lagvtsune_registration, library.lagvtsune_live):
        function.restype = ctypes.c_size_t
    return library


def _output():
    """Returns what a command printed, from the standard input: the lines in the first 16 MiB."""
    with open(0, "rb", closefd=False) as stdin:
        output = stdin.read(MOST_OUTPUT + 1)
    return output if len(output) <= MOST_OUTPUT else output[: output.rfind(b"\n", 0, MOST_OUTPUT) + 1]


def _made(name, arguments):
    """Returns the text of a call of this name. Raises `Failed`."""
    status, text = _call(name, arguments)
    if status != MADE:
        raise _failure(status, text)
    return text.decode()


def _failure(status, text):
    return Failed("an argument is not UTF-8" if status == NOT_UTF8 else text.decode(errors="replace").strip())


def _is_utf8(text):
    try:
        os.fsencode(text).decode()
    except UnicodeDecodeError:
        return False
    return True


def _names(directory):
    """Returns the names in a directory that are UTF-8; none if it is unreadable."""
    try:
        return [name for name in os.listdir(directory) if _is_utf8(name)]
    except OSError:
        return []


def _slice(text):
    data = text if isinstance(text, bytes) else os.fsencode(text)
    return data, len(data)


def _bytes(text):
    return Bytes(*_slice(text))


def _list(texts):
    slices = [_bytes(text) for text in texts]
    # The pointer must not be null, even if there are no slices.
    return List((Bytes * max(len(slices), 1))(*slices), len(slices))


def _call(name, arguments):
    """Makes a call, again if its text needs more room. Returns the status and the text."""
    called, size, status = getattr(_library(), name), FIRST_ROOM, ctypes.c_uint8()
    while True:
        room = ctypes.create_string_buffer(size)
        length = called(*arguments, room, size, ctypes.byref(status))
        if length <= size:
            return status.value, room.raw[:length]
        size = length
