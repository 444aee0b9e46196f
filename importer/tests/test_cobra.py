"""Programs of Cobra: which are asked for values, what counts as an answer, and which arguments get these values."""

import os
import unittest

from importer.cobra import has_form
from importer.tests.common import read
from importer.tests.room import Room

HELP = """Keeps notes

Usage:
  app [command]

Available Commands:
  add         Adds notes
  completion  Generate the autocompletion script for the specified shell

Flags:
      --at string      The place
      --color string   When (auto|never)
      --from file      A file
      --host string    The host
  -h, --help           help for app

Use "app [command] --help" for more information about a command.
"""
ADD = """Usage:
  app add ID FILE SERVER [flags]

Flags:
      --topic strings   Topics

Global Flags:
      --at string      The place
      --color string   When (auto|never)
      --from file      A file
      --host string    The host
"""
# Texts, and whether they have the form.
FORMS = (
    (HELP, True),
    (HELP.rstrip() + " \n\n", True),
    (HELP.replace('"app ', '"app sub '), True),
    (HELP.replace("completion ", "completions"), False),
    (HELP.replace("--help\"", "-h\""), False),
    (HELP.replace(" about a command", ""), False),
    (HELP.replace("Use \"app", "Use 'app"), False),
    (HELP + "More.\n", False),
    (HELP.replace("\nUse", "\nOr use"), False),
    ("", False),
)
# What a program prints for `__complete ''`, and whether that is an answer.
ANSWERED = (
    ("printf 'add\\tAdds notes\\n:4\\n'", True),
    ("echo :0", True),
    ("printf ':36'", True),
    ("printf 'add\\n:4\\n \\n\\n'; echo Completion ended >&2", True),
    ("echo :4; exit 1", True),
    ("printf 'add\\n:4\\nremove\\n'", False),
    ("echo :4 >&2", False),
    ("printf ':4 \\n'", False),
    ("echo :x", False),
    ("echo :-1", False),
    ("echo :", False),
    ("true", False),
    ("echo unknown command; exit 1", False),
)
SOURCE = {"values_from": ["app", "__complete"], "values_words": True, "values_protocol": "cobra"}
NOT_USED = "; so no values come from app itself\n"
NO_DIRECTIVE = "app __complete '': its last line is not one such as :4"


class Cobra(Room):
    def app(self, answer, text=HELP):
        """Makes a program that notes the words of each call, prints help texts, and answers in some way."""
        for name, held in (("help", text), ("add", ADD)):
            self.write(self.path("texts", name), held)
        texts = self.path("texts")
        self.script("app", f"printf '<%s>' \"$@\" >>'{self.path('calls')}'; echo >>'{self.path('calls')}'",
                    f"case $1 in __complete) {answer} ;; --help) cat '{texts}/help' ;; add) cat '{texts}/add' ;; *) sed -n '/^Global/,$p' '{texts}/add' ;; esac")

    def calls(self):
        with open(self.path("calls"), encoding="utf-8") as file:
            return file.read().splitlines()

    def sourced(self, node=None, path=""):
        """Returns the ids of the arguments with values from the program."""
        node = node or self.tree("app")
        args = [f"{path}{it['id']}" for it in node.get("args", []) if SOURCE.items() <= it.items()]
        self.assertEqual([], [it["id"] for it in node.get("args", []) if ("values_words" in it) is not ("values_protocol" in it)])
        return args + [name for it in node.get("subcommands", []) for name in self.sourced(it, f"{path}{it['name']} ")]

    def test_forms(self):
        for text, expected in FORMS:
            with self.subTest(text=text[-120:]):
                self.assertIs(expected, has_form(text.encode(), read(text)))

    def test_answers(self):
        for answer, is_answer in ANSWERED:
            with self.subTest(answer):
                self.app(answer)
                status, out, message = self.run_importer("--force", "app")
                expected = ("; values of 2 arguments come from app itself, as complgen check notes", "") if is_answer else (
                    "", NO_DIRECTIVE + NOT_USED)
                line = f"app: 2 commands, 5 options, 0 lines dropped{expected[0]}; --walk also reads the options of 2 commands\n"
                self.assertEqual((0, line, expected[1]), (status, out, message))
                self.assertEqual(["at", "host"] if is_answer else [], self.sourced())
                status, out, message = self.run_importer("--force", "--cobra", "app")
                refused = f"{NO_DIRECTIVE}; without --cobra, only the help text is used\n"
                self.assertEqual((0, line, "") if is_answer else (1, "", refused), (status, out, message))

    def test_walk(self):
        """The program is asked once. Global options, and the positionals below, get the values, but paths do not."""
        self.app("printf 'add\\n:4\\n'")
        status, out, message = self.run_importer("--walk", "app")
        self.assertEqual((0, ""), (status, message))
        self.assertIn("; values of 5 arguments come from app itself", out)
        self.assertEqual(["<--help>", "<__complete><>", "<add><--help>", "<completion><--help>"], sorted(self.calls()))
        self.assertEqual(["at", "host", "add topic", "add ID", "add SERVER"], self.sourced())
        hints = {it["id"]: it.get("value_hint") for it in self.tree("app")["subcommands"][0]["args"]}
        self.assertEqual({"topic": None, "ID": None, "FILE": "FilePath", "SERVER": "Hostname"}, hints)

    def test_the_place(self):
        """The program is asked with no input, in the empty directory that it has for its help text."""
        self.app(f"(pwd; env | grep ^HOME=; ls -A; readlink /proc/self/fd/0) >'{self.path('place')}'; touch here; echo :4")
        self.assertEqual(0, self.run_importer("app")[0])
        with open(self.path("place"), encoding="utf-8") as file:
            place, *rest = file.read().splitlines()
        self.assertEqual([f"HOME={place}", "/dev/null"], rest)
        self.assertTrue(place.startswith(self.temporary))

    def test_hangs(self):
        self.addCleanup(self.end_sleeping)
        late = "app __complete '': did not end within 1 second"
        for answer, message in ((f"echo :4; sleep {self.nap}", late), (f"(sleep {self.nap} &) ; sleep {self.nap}", late),
                                ("exec yes", "app __complete '': printed more than 1 MiB"),
                                ("kill -SEGV $$", "app __complete '': ended by the signal SIGSEGV")):
            with self.subTest(answer):
                self.app(answer)
                status, _, found = self.run_importer("--force", "--seconds", "1", "app")
                self.assertEqual((0, message + NOT_USED, []), (status, found, self.sourced()))
                status, _, found = self.run_importer("--force", "--seconds", "1", "--cobra", "app")
                self.assertEqual((1, message + "; without --cobra, only the help text is used\n"), (status, found))
        self.assertEqual([], self.left_sleeping())

    def test_others_are_not_asked(self):
        """Without Cobra's form, no program is run with further words, unless --cobra is given."""
        for text, is_form in FORMS[:-1]:
            with self.subTest(text=text[-120:]):
                self.write(self.path("calls"), "")
                self.app("echo :4", text)
                self.assertEqual(0, self.run_importer("--force", "app")[0])
                self.assertEqual(["<--help>", "<__complete><>"][:1 + is_form], self.calls())
                self.assertEqual(0, self.run_importer("--force", "--cobra", "app")[0])
                self.assertEqual("<__complete><>", self.calls()[-1])
                self.assertEqual(["at", "host"], self.sourced())

    def test_help_on_two_outputs(self):
        """A warning on the standard error does not hide the last line of the help text."""
        self.app("echo :4")
        self.script("app", f"case $1 in __complete) echo :4 ;; *) echo Old >&2; cat '{self.path('texts', 'help')}' ;; esac")
        self.assertEqual(0, self.run_importer("app")[0])
        self.assertEqual(["at", "host"], self.sourced())

    def test_texts_run_nothing(self):
        self.app("echo :4")
        place = self.path("texts", "help")
        for words in (["--texts", place, "--force", "app"], ["--texts", place, "app"], ["--texts", place, "--list", "app"]):
            self.assertEqual(0, self.run_importer(*words)[0])
        self.assertEqual([], self.sourced())
        for words in (["--texts", place], ["--undo"]):
            status, out, message = self.run_importer("--cobra", *words, "app")
            self.assertEqual((2, ""), (status, out))
            self.assertIn("--cobra runs the program, which --texts and --undo do not", message)
        self.assertNotIn("calls", os.listdir(self.room))

    def test_another_program_of_the_name(self):
        """Of a program that is given by its path, another one of its name may be found at a Tab."""
        self.app("echo :4")
        path = self.write(self.path("other", "app"), f"#!/bin/sh\nexec '{self.bin}/app' \"$@\"\n")
        os.chmod(path, 0o755)
        status, _, message = self.run_importer("--force", path)
        self.assertEqual((0, f"app: at a Tab, it is looked up in PATH, which does not find {path}\n"), (status, message))
        os.symlink(os.path.join(self.bin, "app"), self.path("app"))
        self.assertEqual("", self.run_importer("--force", self.path("app"))[2])

    def test_onto(self):
        """An argument of the file that has values, a hint or an action of its own keeps them alone."""
        old = '{"name": "app", "disable_help_flag": true, "args": [%s]}'
        self.app("echo :4")
        self.write(self.path("data/complgen/app.json"), old % ", ".join((
            '{"id": "at", "long": "at", "value_hint": "Other"}', '{"id": "host", "long": "host", "values_from": ["hosts"]}',
            '{"id": "color", "long": "color"}')))
        self.assertEqual(0, self.run_importer("--onto", "app")[0])
        self.assertEqual([], self.sourced())
        self.write(self.path("data/complgen/app.json"), old % '{"id": "at", "long": "at"}, {"id": "from", "long": "from"}')
        self.assertEqual(0, self.run_importer("--onto", "app")[0])
        self.assertEqual(["at", "host"], self.sourced())
        self.assertEqual(["at", "from", "color", "host", "help"], self.names("app"))


if __name__ == "__main__":
    unittest.main()
