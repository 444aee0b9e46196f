"""Where and how a value is typed: the parts `places`, `settings` and `locales` of tests/safe_live.py.

Each value of PROBES would run the program `hit` if the shell took it for anything but a part of a word. A
program that receives words writes them down, and `hit` leaves a mark.
"""

import collections
import os
import shutil
import subprocess

PROBES = ("x$(hit)", "x`hit`", "x;hit", "x';hit;\"", "x\\$(hit)", "x\\x41y")

# A place has a name, what is typed before and after the word, and the shells in which a value must be
# inserted there at least once. `app` means the name of a program. At a line feed, the script presses
# Enter.
Place = collections.namedtuple("Place", "name before after inserts")


def pasted(text):
    """Returns the keys of a terminal that pastes a text."""
    return f"\x1b[200~{text}\x1b[201~"


POSIX_PLACES = (
    Place("alone", "app ", "", "bash zsh"),
    Place("after =", "app --option=", "", "bash zsh"),
    Place("$(..)", "echo $(app ", ")", "zsh"),
    Place('$(..) between "', 'echo "$(app ', ')"', "zsh"),
    Place("${a:-$(..)}", "echo ${a:-$(app ", ")}", "zsh"),
    Place('${a:-$(..)} between "', 'echo "${a:-$(app ', ')}"', "zsh"),
    Place("${a:-..}", "app ${a:-", "}", ""),
    Place('${a:-..} between "', 'app "${a:-', '}"', ""),
    Place("backticks", "echo `app ", "`", ""),
    Place("backticks after ;", "echo `true; app ", "`", ""),
    Place('backticks between "', 'echo "`app ', '`"', ""),
    Place("${a:-`..`}", "echo ${a:-`app ", "`}", ""),
    Place("backticks over lines", "echo `\napp ", "\n`", ""),
    Place("two backticks", "app ``", "", ""),
    Place('" over lines', 'echo "\n; app ', '\n"', ""),
    Place("' over lines", "echo '\n; app ", "\n'", ""),
    Place("here-document", "cat <<E\napp ", "\nE", ""),
    Place("here-document after ;", "cat <<E\n;app ", "\nE", ""),
    Place("here-document of -", "cat <<-'E' <<F\nE\napp ", "\nF", ""),
    Place("here-document, pasted", pasted("cat <<E\napp "), "\nE", ""),
    Place("here-document after ;, pasted", pasted("cat <<E\n;app "), "\nE", ""),
    Place("own here-document, pasted", pasted("app <<E\n"), "\nE", ""),
    Place("here-string", "app <<<", "", ""),
    Place("continued line", "true && \\\napp ", "", "zsh"),
    Place("word on a continued line", "app \\\n", "", "zsh"),
    Place("array", "a=(app ", ') && "${a[@]}"', "bash"),
    Place("after a=b", "a=b app ", "", "bash zsh"),
    Place("( )", "(app ", ")", "bash zsh"),
    Place("function", "f() { app ", "; }; f", "bash zsh"),
    Place("loop", "for i in 1; do app ", "; done", "zsh"),
    Place("after &&", "true && app ", "", "bash zsh"),
    Place("after |", "true | app ", "", "bash zsh"),
    Place("<(..)", "cat <(app ", ")", "zsh"),
    Place("[[ ]]", "[[ $(app ", ") ]]", "zsh"),
    Place("$((..))", "echo $(( 1 + $(app ", ") ))", "zsh"),
    Place("sudo", "sudo app ", "", "zsh"),
    Place("env", "env app ", "", "zsh"),
    Place("command", "command app ", "", "zsh"),
    Place("eval", "eval 'app ", "'", ""),
)
FISH_PLACES = (
    Place("alone", "app ", "", "fish"),
    Place("after =", "app --option=", "", "fish"),
    Place("(..)", "echo (app ", ")", "fish"),
    Place('$(..) between "', 'echo "$(app ', ')"', ""),
    Place("begin", "begin; app ", "; end", "fish"),
    Place("over lines", "begin\napp ", "\nend", "fish"),
    Place("continued line", "app \\\n", "", ""),
    Place('" over lines', 'echo "\n; app ', '\n"', ""),
    Place("array", "set a (app ", ")", "fish"),
    Place("after a=b", "a=b app ", "", "fish"),
    Place("after |", "true | app ", "", "fish"),
    Place("after and", "true; and app ", "", "fish"),
    Place("sudo", "sudo app ", "", ""),
    Place("env", "env app ", "", ""),
    Place("command", "command app ", "", ""),
    Place("eval", "eval 'app ", "'", ""),
)
ELVISH_PLACES = (
    Place("alone", "app ", "", "elvish"),
    Place("after =", "app --option=", "", ""),
    Place("(..)", "echo (app ", ")", "elvish"),
    Place("{ }", "{ app ", " }", "elvish"),
    Place("over lines", "if $true {\napp ", "\n}", ""),
    Place("array", "put [(app ", ")]", "elvish"),
    Place("after |", "nop | app ", "", "elvish"),
    Place("env", "env app ", "", ""),
)
PLACES = {"bash": POSIX_PLACES, "zsh": POSIX_PLACES, "fish": FISH_PLACES, "elvish": ELVISH_PLACES}
OPENINGS = {"bash": ("", "'", '"', "$'", '$"'), "zsh": ("", "'", '"', "$'", '$"'), "fish": ("", "'", '"'),
            "elvish": ("", "'", '"')}


def program_tree(name, *values, **keys):
    """Returns a command that offers values for its positional and for `--option`."""
    offered = {"possible_values": [{"name": value} for value in values], **keys}
    return {"name": name, "disable_help_flag": True, "args": [
        {"id": "option", "long": "option", **offered}, {"id": "v", "num_args": [0, None], **offered}]}


def make_programs(scratch):
    """Makes the programs of these parts, and `hit`, which leaves a mark."""
    scratch.script("hit", f"#!/bin/sh\n: >'{scratch.ran}'\n")
    scratch.script("sudo", '#!/bin/sh\nexec "$@"\n')
    for at, probe in enumerate(PROBES):
        scratch.program(program_tree(f"app{at}", probe))
    for at, setting in enumerate(SETTINGS):
        scratch.program(program_tree(f"set{at}", setting.value))
    for at, value in enumerate(LETTERED):
        scratch.program(program_tree(f"let{at:02}", value))
    asked = program_tree("asks", values_from=["printf", "%s\\n", "x;hit"])
    del asked["args"][1]["possible_values"], asked["args"][0]
    scratch.program(asked)


# ---- typing

def type_lines(terminal, text):
    """Types a text, with Enter at each line feed that is not pasted. Returns the line after it."""
    if "\x1b" in text:
        return terminal.tab(text, "")[0]
    *lines, last = text.split("\n")
    for line in lines:
        terminal.send(line + "\r")
        terminal.tab("", "")
    return terminal.tab(last, "")[0]


def complete_at(terminal, before, typed, after):
    """Types a word in a place, presses Tab, and completes the command if the line changed.

    Returns whether the line changed, and the words that the program received, or `None`.
    """
    terminal.forget()
    line = type_lines(terminal, before + typed)
    changed = terminal.inserted("")
    if changed == line:
        (terminal.interrupt if "\n" in before else terminal.clear)()
        return False, None
    # Elvish quotes all of `--option=VALUE`.
    word = (changed or "")[0 if terminal.name == "elvish" else len(line) - len(typed):]
    close = "" if word.endswith(" ") else terminal.open_quote(word)
    terminal.seen = b""
    type_lines(terminal, close + after)
    terminal.seen = b""
    terminal.send("\r")
    return True, terminal.outcome()


# ---- places

def try_places(terminal, scratch, count):
    """Completes each probe in each place, after each quote that may be open."""
    for place in PLACES[terminal.name]:
        inserted = 0
        for at, probe in enumerate(PROBES):
            for opening in OPENINGS[terminal.name]:
                inserted += try_place(terminal, scratch, count, place, f"app{at}", opening + "x")
        if inserted == 0 and terminal.name in place.inserts.split():
            count.say("NEVER INSERTED", place.name, place.before, None)


def try_place(terminal, scratch, count, place, program, typed):
    """Completes a word in a place, and once more if the program received another word. Returns whether
    something was inserted."""
    before = place.before.replace("app", program)
    probe = PROBES[int(program[3:])]
    expected = ["--option=" + probe] if "--option=" in before else [probe]
    for _ in range(2):
        changed, got = complete_at(terminal, before, typed, place.after)
        marks = scratch.marks(scratch.here, ())
        if marks or got in (None, expected):
            break
    if not changed:
        count.leave("not inserted", place.name)
    elif got is None and not marks:
        count.leave("not run", place.name)
    else:
        count.judge(probe, place.name + ": " + typed, expected, got, None, marks, ())
    return changed


# ---- settings

# A setting has the shells that have it, what they run before they load the registration, what is typed at
# the prompt, the value, the beginnings of the word that are typed, and the shells that must insert the value.
Setting = collections.namedtuple("Setting", "shells before line value typed inserts")
FUNCTIONS = {"bash": "env() { touch hit; }", "zsh": "env() { touch hit; }", "fish": "function env; touch hit; end",
             "elvish": "fn env {|@words| touch hit }"}
SETTINGS = (
    Setting("bash", "", "set -k", "k=v", ("", "k", "'k", '"k'), ""),
    Setting("bash", "", "histchars='@^#'", "x@@y", ("x", "'x", '"x'), ""),
    Setting("bash", "", "set +H", "x@@y", ("x", "'x", '"x'), "bash"),
    Setting("zsh", "", "histchars='@^#'", "x@@y", ("x", "'x", '"x'), "zsh"),
    Setting("zsh", "", "histchars='!^,'; setopt interactivecomments", ",x", ("", "'", '"'), ""),
    Setting("zsh", "", "unsetopt multibyte", "xあ;hit", ("x", "'x", '"x'), "zsh"),
    # bash keeps what is before an open quote, or before the last `:`, and would expand it.
    Setting("bash zsh", "", "", "$x\\x41y", ("$'", '$"', "$'x", '$"x'), ""),
    Setting("bash", "", "", "$x:y", ("$x:",), ""),
    Setting("bash", "", "", "{a,b}:y", ("{a,b}:",), ""),
    Setting("bash", "", "", "~:y", ("~:",), ""),
    Setting("bash zsh fish elvish", "function env", "", "x;hit", ("x", '"x'), "bash zsh fish elvish"),
)


def try_setting(terminal, scratch, count, at):
    """Completes the value of a setting in a shell that has it."""
    setting = SETTINGS[at]
    if setting.line:
        terminal.seen = b""
        terminal.send(setting.line + "\r")
        terminal.ready()
    program = "asks " if setting.before else f"set{at} "
    for typed in setting.typed:
        must_insert = terminal.name in setting.inserts.split()
        for _ in range(2):
            changed, got = complete_at(terminal, program, typed, "")
            marks = scratch.marks(scratch.here, ())
            if marks or (got == [setting.value] if changed else not must_insert):
                break
        what = f"{setting.line or setting.before or 'kept'}: {typed}"
        if changed or marks:
            count.judge(setting.value, what, [setting.value], got, None, marks, ())
        elif must_insert:
            count.say("NEVER INSERTED", setting.value, what, got)
        else:
            count.leave("not inserted", what)


# ---- locales

# The charset, and the locale that it is made from. The letters end with bytes that begin a letter with the sign
# after it, in one of these charsets: 0x82, 0x83, 0xA2, 0xA4, 0xBF.
LOCALES = (("GBK", "zh_CN"), ("GB18030", "zh_CN"), ("BIG5", "zh_TW"), ("SHIFT_JIS", "ja_JP"), ("EUC-JP", "ja_JP"),
           ("ISO-8859-1", "de_DE"), ("UTF-8", "de_DE"), ("C", None))
SIGNS = (";hit", "|hit", "$(hit)", "`hit`", "';hit;\"", "\\;hit")
LETTERED = tuple("x" + letter + sign for letter in "あぃアä快" for sign in SIGNS)


def make_locale(folder, charset, source):
    """Makes a locale in a directory, unless it is there. Returns the variables that choose it, or `None` if it
    cannot be made."""
    if source is None:
        return {"LC_ALL": charset}
    name = f"{source}.{charset}"
    path = os.path.join(folder, name)
    if shutil.which("localedef") and not os.path.exists(path):
        os.makedirs(folder, exist_ok=True)
        subprocess.run(["localedef", "-c", "-i", source, "-f", charset, path],
                       stdout=subprocess.DEVNULL, stderr=subprocess.DEVNULL, check=False)
    return {"LC_ALL": name, "LOCPATH": folder} if os.path.exists(path) else None


def try_locale(terminal, scratch, count, left_out):
    """Completes each value, bare and after each quote."""
    for at, value in enumerate(LETTERED):
        for quote in ("", "'", '"'):
            reason = left_out(quote, value)
            for _ in range(2):
                changed, got = complete_at(terminal, f"let{at:02} ", quote + "x", "")
                marks = scratch.marks(scratch.here, ())
                if marks or got == [value] or reason and not changed:
                    break
            count.judge(value, quote + "x", [value], got if changed else ["x"], reason, marks, (["x"],))
