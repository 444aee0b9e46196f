"""The command line."""

import contextlib
import io
import json
import os
import unittest

from importer.arguments import arguments, parser
from importer.tests.room import TOP

# Words that are not accepted, and the end of the message.
REFUSED = (
    ([], "the following arguments are required: PROGRAM"),
    (["--nope", "x"], "unrecognized arguments: --nope"),
    (["--no\x1b[2J\x9b\x7f", "x"], "unrecognized arguments: --no?[2J??"),
    (["--forc", "x"], "unrecognized arguments: --forc"),
    (["--force", "--onto", "x"], "argument --onto: not allowed with argument --force"),
    (["--walk", "--texts", "p", "x"], "argument --texts: not allowed with argument --walk"),
    (["--undo", "--texts", "p", "x"], "argument --texts: not allowed with argument --undo"),
    (["--undo", "--walk", "x"], "argument --walk: not allowed with argument --undo"),
    (["--undo", "--onto", "x"], "--undo and --onto exclude each other"),
    (["--texts", "p", "x", "y"], "--texts takes one PROGRAM"),
    (["--list", "x"], "--list needs --texts"),
    (["--flag", "", "x"], "the flag is empty"),
    (["--depth", "0", "x"], "argument --depth: expected a whole number from 1 to 15"),
    (["--depth", "16", "x"], "argument --depth: expected a whole number from 1 to 15"),
    (["--depth", "\u0664", "x"], "argument --depth: expected a whole number from 1 to 15"),
    (["--seconds", "601", "x"], "argument --seconds: expected a whole number from 1 to 600"),
    (["--seconds", "1.5", "x"], "argument --seconds: expected a whole number from 1 to 600"),
    (["--jobs", "257", "x"], "argument --jobs: expected a whole number from 1 to 256"),
    (["x", "--texts"], "argument --texts: expected one argument"),
)
# Words that are accepted, a name and its value.
ACCEPTED = (
    (["x"], "flag", "--help"),
    (["x"], "depth", 4),
    (["x"], "seconds", 5),
    (["x"], "texts", None),
    (["x", "y"], "programs", ["x", "y"]),
    (["--flag", "-h", "x"], "flag", "-h"),
    (["--flag", "--usage", "x"], "flag", "--usage"),
    (["--flag=help", "x"], "flag", "help"),
    (["x", "--depth", "15"], "depth", 15),
    (["--seconds", "600", "x"], "seconds", 600),
    (["--texts", "-", "x"], "texts", "-"),
    (["--texts", "", "x"], "texts", ""),
    (["--texts", "p", "--list", "x"], "list", True),
    (["--undo", "--force", "x"], "force", True),
    (["--", "--undo"], "programs", ["--undo"]),
)


class Arguments(unittest.TestCase):
    def test_refused(self):
        for words, message in REFUSED:
            with self.subTest(words), contextlib.redirect_stderr(io.StringIO()) as errors:
                with self.assertRaises(SystemExit) as ended:
                    arguments(words)
                self.assertEqual(2, ended.exception.code)
                self.assertEqual(f"complgen-import: error: {message}", errors.getvalue().splitlines()[-1])

    def test_accepted(self):
        for words, name, value in ACCEPTED:
            with self.subTest(words):
                self.assertEqual(value, getattr(arguments(words), name))

    def test_help(self):
        with contextlib.redirect_stdout(io.StringIO()) as out, self.assertRaises(SystemExit) as ended:
            arguments(["--help"])
        self.assertEqual((0, "usage: complgen-import"), (ended.exception.code, out.getvalue()[:22]))

    def test_tree_file(self):
        """examples/complgen-import.json, which was written by hand, has the options."""
        with open(os.path.join(TOP, "examples", "complgen-import.json"), encoding="utf-8") as file:
            tree = json.load(file)
        by_hand = {it["long"]: it.get("action") == "SetTrue" for it in tree["args"] if "long" in it}
        actions = [it for it in parser()._actions if it.option_strings and it.dest != "help"]
        self.assertEqual({it.option_strings[-1][2:]: it.nargs == 0 for it in actions}, by_hand)
        helps = {it["long"]: it["help"].lower() for it in tree["args"] if "long" in it}
        self.assertEqual({it.option_strings[-1][2:]: it.help.lower() for it in actions}, helps)


if __name__ == "__main__":
    unittest.main()
