"""Drives bash, zsh, fish and Elvish in a pseudo terminal: types, presses Tab, and reads what happens.

    with shells.Scratch() as scratch:
        scratch.recorder("app")
        with shells.started("bash", scratch, loaded=script) as shell:
            shell.offered("app --")         # ["--color", "--help"]: what the shell offers for the last word
            shell.inserted("app --he")      # "app --help ": the command line after a Tab
            shell.clear()
            shell.received("app --he")      # ["--help"]: what the program receives after a Tab and Enter

A `Scratch` has an empty home, an empty directory in which the shells run, a directory `bin` at the front of the
PATH, and the environment of the shells, which a caller may change before the start. `TreeScratch` also has a
directory of tree files, and what `complgen` writes for them.

A shell reads its own start file in that home. It sources `loaded`, after the lines `setup`. Then come
the lines of this library: a prompt, and keys that write the command line into a file. So a call does not guess
how long a shell takes: it waits until the shell has written its line after a Tab, at most a minute.

The command line has to be empty before `offered`, `inserted` and `received`, and it is so after `offered` and
`received`. `clear` and `interrupt` empty it.
"""

from __future__ import annotations

import fcntl
import functools
import json
import os
import pty
import re
import select
import shutil
import signal
import struct
import subprocess
import tempfile
import termios
import time
from typing import Any, Dict, Iterator, List, Optional, Sequence, Tuple, Type

SHELLS = ("bash", "zsh", "fish", "elvish")
# The library of Debian's package bash-completion.
BASH_COMPLETION = "/usr/share/bash-completion/bash_completion"
LONGEST = 60
READY, MORE = "<ready> ", "<more> "
# Questions of a shell to the terminal, and the answers: the place of the cursor, and the kind of terminal.
ANSWERS = ((b"\x1b[6n", b"\x1b[1;1R"), (b"\x1b[c", b"\x1b[?62c"), (b"\x1b[0c", b"\x1b[?62c"))
CLEAR_LINE, INTERRUPT = "\x15", "\x03"


class Ended(Exception):
    """A shell that ended, or that does not give back its command line."""


# ---- files

def write(path: str, text: str) -> None:
    os.makedirs(os.path.dirname(path), exist_ok=True)
    with open(path, "w", encoding="utf-8") as file:
        file.write(text)


def read(path: str) -> str:
    """Returns the text of a file, of whatever bytes."""
    with open(path, encoding="utf-8", errors="surrogateescape", newline="") as file:
        return file.read()


def unlink(path: str) -> None:
    if os.path.lexists(path):
        os.unlink(path)


class Scratch:
    """A home, a directory to run in, programs, and an environment. All of it is removed at the end."""

    # The width of the terminals in which shells start.
    columns = 400

    def __init__(self) -> None:
        self.path = tempfile.mkdtemp(prefix="shells.")
        self.home, self.bin, self.here = (os.path.join(self.path, name) for name in ("home", "bin", "here"))
        self.record, self.line = os.path.join(self.path, "record"), os.path.join(self.path, "line")
        for folder in (self.home, self.bin, self.here):
            os.mkdir(folder)
        self.environment = {
            "HOME": self.home, "LC_ALL": "C.UTF-8", "TERM": "xterm", "PATH": self.bin + ":" + os.environ["PATH"],
            # without the completions of the machine's packages
            "XDG_DATA_DIRS": self.path + "/none",
        }

    def script(self, name: str, text: str) -> None:
        """Makes a program."""
        path = os.path.join(self.bin, name)
        write(path, text)
        os.chmod(path, 0o755)

    def recorder(self, name: str, before: str = "") -> None:
        """Makes a program that writes down the words that it receives. First it runs the lines `before`."""
        self.script(name, f"""#!/bin/sh
{before}
for word; do printf '%s\\0' "$word"; done >'{self.record}.part'
mv '{self.record}.part' '{self.record}'
""")

    def recorded(self) -> Optional[List[str]]:
        """Returns the words that a program has received, or `None` if none has run."""
        return read(self.record).split("\0")[:-1] if os.path.exists(self.record) else None

    def remove(self) -> None:
        shutil.rmtree(self.path, ignore_errors=True)

    def __enter__(self) -> Scratch:
        return self

    def __exit__(self, *_: Any) -> None:
        self.remove()


class TreeScratch(Scratch):
    """A scratch directory for live completion: tree files, their programs, and a mark of what ran."""

    def __init__(self, complgen: str) -> None:
        super().__init__()
        self.trees, self.ran = os.path.join(self.path, "trees"), os.path.join(self.path, "ran")
        os.mkdir(self.trees)
        os.symlink(os.path.realpath(complgen), os.path.join(self.bin, "complgen"))
        self.script("touch", f"#!/bin/sh\ncase $* in hit*) : >'{self.ran}' ;; esac\n")
        self.environment["COMPLGEN_PATH"] = self.trees

    def program(self, tree: Dict[str, Any]) -> None:
        """Makes a tree file, and a program of its name that writes down the words that it receives."""
        write(os.path.join(self.trees, tree["name"] + ".json"), json.dumps(tree))
        self.recorder(tree["name"])

    def printed(self, *words: str, **variables: str) -> str:
        """Returns what `complgen` prints."""
        ran = subprocess.run(
            ["complgen", *words], env={**self.environment, **variables}, cwd=self.here, stdout=subprocess.PIPE,
            check=True, executable=os.path.join(self.bin, "complgen"))
        return ran.stdout.decode()

    def written(self, shell: str, **variables: str) -> str:
        """Returns what `complgen` writes for a shell to load."""
        return self.printed(COMPLETE=shell, **variables)

    def original(self, shell: str) -> str:
        """Returns the registrations in the original's form for all programs. With them a shell calls
        `complgen`."""
        texts = []
        for name in sorted(os.listdir(self.trees)):
            bin_name = os.path.splitext(name)[0]
            text = self.printed("register", "--shell", shell, "--bin", bin_name, os.path.join(self.trees, name))
            texts.append(re.sub(rf'(["\s]){bin_name}("?) -- ', r"\1complgen\2 -- ", text))
        return "".join(texts)

    def marks(self, folder: str, known: Sequence[str]) -> List[str]:
        """Returns what ran or appeared since the last call, and removes it."""
        found = sorted(set(os.listdir(folder)) - set(known))
        for name in found:
            os.unlink(os.path.join(folder, name))
        if os.path.exists(self.ran):
            os.unlink(self.ran)
            found.append("touch ran")
        return found


# ---- a shell

class Shell:
    """A shell in a pseudo terminal. The subclasses have what differs between the shells."""

    name = ""
    start_file = ""
    # Keys that write the command line into the file `line.0`, and into `line.1`. They are used in turn, so that
    # an answer to keys that were sent again is not taken for the next one.
    dumps = ("\x18\x18", "\x18\x19")
    # The keys that write what is offered.
    offering = "\x18\x0f"

    def __init__(self, scratch: Scratch, loaded: str = "", setup: str = "", words: Sequence[str] = ()) -> None:
        """Starts the shell, by these words instead of the usual ones, and waits for its prompt."""
        self.scratch, self.turn, self.folder = scratch, 0, scratch.here
        # kept, because a test may change them for its next shell
        self.columns, self.environment = scratch.columns, dict(scratch.environment)
        source = os.path.join(scratch.path, "loaded." + self.name)
        self.offers = os.path.join(scratch.path, "offered")
        write(source, loaded)
        home = scratch.environment["HOME"]
        write(os.path.join(home, self.start_file), self.start_text(source if loaded else os.devnull, setup))
        self.starting = list(words or self.words(home))
        self.start()

    def start(self) -> None:
        """Starts the shell in its directory, and waits for its prompt."""
        self.seen = b""
        self.began = time.monotonic()
        self.process, self.terminal = pty.fork()
        if self.process == 0:
            # As for a user's shell: Python ignores some signals, and so does a script in the background.
            for number in (signal.SIGINT, signal.SIGQUIT, signal.SIGPIPE, signal.SIGXFSZ):
                signal.signal(number, signal.SIG_DFL)
            # Before the shell starts, because bash notices a later change only when a command ends.
            fcntl.ioctl(0, termios.TIOCSWINSZ, struct.pack("HHHH", 50, self.columns, 0, 0))
            os.chdir(self.folder)
            os.execvpe(self.starting[0], self.starting, self.environment)
        if not self.ready() or self.tab("", "")[0] is None:
            raise Ended(f"{self.name}: does not start within {LONGEST} seconds: {self.seen[-300:]!r}")

    def start_text(self, source: str, setup: str) -> str:
        """Returns the text of the start file."""
        raise NotImplementedError

    def words(self, home: str) -> List[str]:
        """Returns the words that start the shell."""
        raise NotImplementedError

    def escapes(self, quote: str) -> bool:
        """Returns whether a backslash escapes the next letter within this quote."""
        return quote != "'"

    # ---- the terminal

    def send(self, text: str) -> None:
        os.write(self.terminal, text.encode("utf-8", "surrogateescape"))

    def read(self, seconds: float) -> bool:
        """Reads what the shell prints. Returns whether it printed anything within these seconds."""
        if not select.select([self.terminal], [], [], seconds)[0]:
            return False
        try:
            data = os.read(self.terminal, 65536)
        except OSError:
            raise Ended(f"{self.name}: ended: {self.seen[-300:]!r}") from None
        for question, answer in ANSWERS:
            for _ in range(data.count(question)):
                os.write(self.terminal, answer)
        self.seen += data
        return True

    def ready(self, seconds: float = LONGEST) -> bool:
        """Waits for the prompt that ends a command."""
        end = time.monotonic() + seconds
        while READY.encode() not in self.seen:
            if time.monotonic() > end:
                return False
            self.read(0.05)
        self.seen = self.seen.rpartition(READY.encode())[2]
        return True

    def wait(self, path: str, seconds: float = LONGEST, again: str = "") -> bool:
        """Waits until a file exists. Keys are sent again now and then."""
        began = last = time.monotonic()
        while not os.path.exists(path):
            now = time.monotonic()
            if now > began + seconds:
                return False
            if again and now > last + 5:
                self.send(again)
                last = now
            self.read(0.001)
        return True

    def settle(self, seconds: float = 0.05) -> None:
        """Waits until the shell has printed nothing for these seconds."""
        while self.read(seconds):
            pass
        self.seen = b""

    def close(self) -> None:
        os.kill(self.process, signal.SIGKILL)
        os.waitpid(self.process, 0)
        os.close(self.terminal)

    def __enter__(self) -> Shell:
        return self

    def __exit__(self, *_: Any) -> None:
        self.close()

    # ---- what is typed

    def tab(self, text: str, keys: str = "\t") -> Tuple[Optional[str], float]:
        """Types a text and keys, by default a Tab. Returns the command line after them, and the seconds that they
        took. The line is `None` if the shell does not answer."""
        self.turn = 1 - self.turn
        path, dump = f"{self.scratch.line}.{self.turn}", self.dumps[self.turn]
        unlink(path)
        self.send(text)
        began = time.monotonic()
        self.send(keys + dump)
        there = self.wait(path, LONGEST, dump)
        return (self.dumped(read(path)) if there else None), time.monotonic() - began

    def dumped(self, text: str) -> str:
        """Returns the command line that the shell has written into a file."""
        return text

    def inserted(self, text: str, tabs: int = 1, keys: str = "") -> Optional[str]:
        """Types a text, other keys and Tabs. Returns the command line."""
        line = None
        for at in range(tabs):
            line, _ = self.tab("" if at else text + keys)
        return line

    def received(self, text: str, tabs: int = 1, keys: str = "") -> Optional[List[str]]:
        """Types a text, other keys and Tabs, closes an open quote, and presses Enter. Returns the words that the
        program received. A shell that does not answer is started anew, for the next attempt."""
        unlink(self.scratch.record)
        self.seen = b""
        line = self.inserted(text, tabs, keys)
        if line is None:
            self.renew()
            return None
        self.seen = b""
        self.send(self.open_quote(line) + "\r")
        return self.outcome()

    def offered(self, text: str) -> List[str]:
        """Types a text and returns what the shell offers for its last word, which has no quotes. Then the command
        line is empty."""
        unlink(self.offers)
        line, _ = self.tab(text, self.offering)
        found = self.offers_of(text, line)
        self.clear()
        return found

    def offers_of(self, text: str, line: Optional[str]) -> List[str]:
        """Returns what was offered, from the file of offers or from the command line."""
        raise NotImplementedError

    def outcome(self) -> Optional[List[str]]:
        """Waits for the end of a command. Returns the words that the program received, or `None` if it did not
        run."""
        line, _ = self.tab("", "")  # the shell reads these keys when it is ready
        if line is None:
            self.renew()
        elif line or self.is_incomplete():
            self.interrupt()
        self.seen = b""
        self.wait(self.scratch.record, 2)
        return self.scratch.recorded()

    def renew(self) -> None:
        """Starts the shell anew in its directory, because it does not answer."""
        print(f"{self.name}: no answer within {LONGEST} seconds, started anew", flush=True)
        self.close()
        self.start()

    def forget(self) -> None:
        """Begins a new command: no words were received, and the command line is empty."""
        unlink(self.scratch.record)
        if self.tab("", "")[0]:
            self.interrupt()
        self.seen = b""

    def interrupt(self) -> None:
        """Presses ^C until the command line is empty."""
        line: Optional[str] = ""
        for _ in range(LONGEST):
            self.settle(0.1)  # ^C must not reach what the last key started
            self.send(INTERRUPT)
            self.ready(1)
            line, _ = self.tab("", "")
            if line == "" and not self.is_incomplete():
                self.seen = b""
                return
        raise Ended(f"{self.name}: the command line stays {line!r}")

    def clear(self) -> None:
        """Leaves the command line empty."""
        if self.tab("", CLEAR_LINE)[0]:
            self.interrupt()
        self.seen = b""

    def go(self, folder: str) -> None:
        """Changes the directory."""
        self.seen, self.folder = b"", folder
        self.send(f"cd '{folder}'\r")
        self.ready()
        self.tab("", "")
        self.seen = b""

    def is_incomplete(self) -> bool:
        """Returns whether the shell waits for more lines of the command."""
        return MORE.encode() in self.seen

    def open_quote(self, line: str) -> str:
        """Returns the quote that is open at the end of a line, or an empty text."""
        quote, escaped = "", False
        for letter in line:
            if escaped:
                escaped = False
            elif letter == "\\" and self.escapes(quote):
                escaped = True
            elif not quote and letter in "'\"":
                quote = letter
            elif letter == quote:
                quote = ""
        return quote


def unescaped_words(text: str) -> List[str]:
    """Returns the words of a text whose spaces may be escaped by backslashes."""
    return [re.sub(r"\\(.)", r"\1", word) for word in re.findall(r"(?:\\.|[^ \\])+", text)]


class Bash(Shell):
    """bash. It offers by the key that inserts all completions."""

    name = "bash"
    start_file = ".bashrc"
    offering = "\x1b*"
    # After one of these signs, readline completes only the end of a word.
    breaks = "=:@"

    def start_text(self, source: str, setup: str) -> str:
        line = self.scratch.line
        return f"""bind 'set bell-style none'; bind 'set enable-bracketed-paste off'; bind 'set page-completions off'
bind 'set completion-query-items -1'
{setup}
source '{source}'
_shells_dump() {{ printf '%s' "$READLINE_LINE" >'{line}.part'; mv '{line}.part' "{line}.$1"; }}
bind -x '"\\C-x\\C-x": _shells_dump 0'
bind -x '"\\C-x\\C-y": _shells_dump 1'
PS1='{READY}' PS2='{MORE}'
"""

    def words(self, home: str) -> List[str]:
        return ["bash", "-i"]

    def offers_of(self, text: str, line: Optional[str]) -> List[str]:
        word = re.findall(r"(?:\\.|[^ \\])*$", text)[0]
        kept = word[:max(word.rfind(sign) for sign in self.breaks) + 1]
        before = text[:len(text) - len(word)] + kept
        if line in (None, text) or not line.startswith(before):
            return []
        kept = "".join(unescaped_words(kept))
        return [kept + found for found in unescaped_words(line[len(before):])]


class Zsh(Shell):
    """zsh. It offers by a widget that inserts all matches."""

    name = "zsh"
    start_file = ".zshrc"

    def start_text(self, source: str, setup: str) -> str:
        line = self.scratch.line
        # A caller that sets up the completion system itself does it with its own directories.
        system = "" if "compinit" in setup else "autoload -Uz compinit; compinit -C -u"
        return f"""{system}
LISTMAX=100000
{setup}
source '{source}'
_shells_dump() {{ print -rn -- "$BUFFER" >'{line}.part'; mv '{line}.part' "{line}.${{WIDGET##*-}}"; }}
_shells_offer() {{ _main_complete; compstate[insert]=all compstate[list]=; }}
zle -N shells-0 _shells_dump; zle -N shells-1 _shells_dump; zle -C shells-offer complete-word _shells_offer
bindkey '^X^X' shells-0; bindkey '^X^Y' shells-1; bindkey '^X^O' shells-offer
PS1='{READY}' PS2='{MORE}'; unsetopt prompt_cr prompt_sp
"""

    def words(self, home: str) -> List[str]:
        return ["zsh", "-d", "-i"]

    def offers_of(self, text: str, line: Optional[str]) -> List[str]:
        before = text[:text.rfind(" ") + 1]
        if line in (None, text) or not line.startswith(before):
            return []
        return unescaped_words(line[len(before):])


class Fish(Shell):
    """fish. It offers by `complete --do-complete` for the line that is typed."""

    name = "fish"
    start_file = ".config/fish/config.fish"

    def start_text(self, source: str, setup: str) -> str:
        line = self.scratch.line
        return f"""set -g fish_greeting
set -g fish_autosuggestion_enabled 0
{setup}
source '{source}'
function _shells_dump; commandline | string collect -N >'{line}.part'; mv '{line}.part' '{line}'.$argv[1]; end
function _shells_offer; complete --do-complete (commandline --cut-at-cursor | string collect) >'{self.offers}'; end
function fish_user_key_bindings
    bind \\cx\\cx '_shells_dump 0'; bind \\cx\\cy '_shells_dump 1'; bind \\cx\\co _shells_offer
end
function fish_prompt; printf '{READY}'; end
"""

    def words(self, home: str) -> List[str]:
        # With this directory, fish does not begin to read all man pages.
        os.makedirs(os.path.join(home, ".local/share/fish/generated_completions"), exist_ok=True)
        return ["fish", "--private", "-i"]

    def escapes(self, quote: str) -> bool:
        return True

    def dumped(self, text: str) -> str:
        return text[:-1] if text.endswith("\n") else text

    def offers_of(self, text: str, line: Optional[str]) -> List[str]:
        rows = read(self.offers).split("\n")[:-1] if os.path.exists(self.offers) else []
        return [row.partition("\t")[0] for row in rows]


class Elvish(Shell):
    """Elvish. It offers by Tab, with a matcher that also writes down what matches."""

    name = "elvish"
    start_file = ".config/elvish/rc.elv"
    dumps = ("\x18", "\x19")
    offering = "\t"
    # Begins a line that is written down while candidates are listed.
    listed = "\x01"

    def start_text(self, source: str, setup: str) -> str:
        line, offers = self.scratch.line, self.offers

        def dump(number: int, before: str) -> str:
            return (f"{{ print {before}$edit:current-command > '{line}.part'; mv '{line}.part' '{line}.{number}' }}")

        return f"""{setup}
eval (slurp < '{source}')
set edit:insert:binding[Ctrl-X] = {dump(0, "")}
set edit:insert:binding[Ctrl-Y] = {dump(1, "")}
set edit:completion:binding[Ctrl-X] = {dump(0, '"' + chr(92) + 'x01"')}
set edit:completion:binding[Ctrl-Y] = {dump(1, '"' + chr(92) + 'x01"')}
set edit:completion:binding[Ctrl-U] = {{ edit:close-mode; edit:kill-line-left }}
set edit:completion:matcher[''] = {{|seed|
    var stems = [(all)]
    var matching = [(edit:match-prefix $seed $stems)]
    range (count $stems) | each {{|at| if $matching[$at] {{ print $stems[$at]"\\x00" }} }} > '{offers}.part'
    mv '{offers}.part' '{offers}'
    all $matching
}}
set edit:prompt = {{ print '{READY}' }}
set edit:rprompt = {{ }}
"""

    def words(self, home: str) -> List[str]:
        path = self.scratch.path
        return ["elvish", "-db", os.path.join(path, "db"), "-sock", os.path.join(path, "sock")]

    def escapes(self, quote: str) -> bool:
        return quote == '"'

    def inserted(self, text: str, tabs: int = 1, keys: str = "") -> Optional[str]:
        line = None
        for at in range(tabs):
            line, _ = self.tab("" if at else text + keys)
            if line and line.startswith(self.listed):
                # Elvish shows a single candidate in a list, and Enter selects it
                line, _ = self.tab("", "\r")
        return line

    def offers_of(self, text: str, line: Optional[str]) -> List[str]:
        return read(self.offers).split("\0")[:-1] if os.path.exists(self.offers) else []


@functools.lru_cache(maxsize=None)
def fish_hides_dots() -> bool:
    """Returns whether the installed fish offers names that begin with a dot only after a dot, as before fish 4."""
    said = subprocess.run(["fish", "--version"], stdout=subprocess.PIPE, check=True).stdout.decode()
    return int(re.findall(r"\d+", said)[0]) < 4


CLASSES: Dict[str, Type[Shell]] = {it.name: it for it in (Bash, Zsh, Fish, Elvish)}


def installed(names: Sequence[str]) -> Iterator[str]:
    """Yields the shells that are installed. Prints a line for each of the others."""
    for name in names:
        if shutil.which(name):
            yield name
        else:
            print(f"{name}: not installed, skipped")


def started(name: str, scratch: Scratch, loaded: str = "", setup: str = "", words: Sequence[str] = ()) -> Shell:
    """Starts the shell of this name, and waits for its prompt."""
    return CLASSES[name](scratch, loaded, setup, words)
