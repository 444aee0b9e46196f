"""The walk over subcommands: which are run, and what is kept. The programs are tables here."""

import contextlib
import io
import os
import unittest
from unittest import mock

from importer import walk as walking
from importer.failures import Failure
from importer.programs import Limits, Program
from importer.tests.room import Room
from importer.walk import Plan, Walk


def listing(names, *options):
    """Returns a help text that lists these commands."""
    return "\n".join(["Commands:", *(f"  {name}  About {name}" for name in names), "", "Options:",
                      *(f"  {option}  About it" for option in options), ""])


class Table(Walk):
    """A program whose help texts are in a table, by the words before the flag."""

    def __init__(self, texts, **plan):
        super().__init__(Program("app", "/app"), "/home", Plan(jobs=3, limits=Limits(), **plan))
        self.table, self.runs = texts, []

    def asked(self, path):
        self.runs.append(" ".join(path[1:]))
        said = self.table(*path[1:]) if callable(self.table) else self.table.get(self.runs[-1])
        if said is None:
            raise Failure(f"{' '.join(path)}: printed nothing")
        return said.encode()


class Walks(unittest.TestCase):
    maxDiff = None

    def walk(self, texts, **plan):
        """Walks over a table. Returns the walk, and the messages."""
        walk, errors = Table(texts, **plan), io.StringIO()
        with contextlib.redirect_stderr(errors):
            walk.ask_program()
            walk.run_all()
        return walk, errors.getvalue().replace("complgen-import: ", "")

    def found(self, walk):
        """Returns the options of each text, by its path."""
        return {" ".join(path[1:]): [it.names[-1] for it in said.options] for path, said in walk.texts.items()}

    def test_rounds(self):
        """The texts have the order of the lists, whatever ends first."""
        walk, messages = self.walk({
            "": listing(["b", "a"], "-r"), "b": listing(["y", "x"], "-b"), "a": "  -a  A", "b y": "  -y  Y", "b x": "  -x  X"})
        self.assertEqual("", messages)
        self.assertEqual(["", "b", "a", "b y", "b x"], list(self.found(walk)))
        self.assertEqual(["-r", "-b", "-a", "-y", "-x"], sum(self.found(walk).values(), []))
        self.assertEqual((sorted(["", "b", "a", "b y", "b x"]), []), (sorted(walk.runs), walk.missing()))

    def test_not_run(self):
        """`help`, a command with the name of its parent, and all below the depth are not run."""
        walk, _ = self.walk(lambda *path: listing(["help", "app", f"on{len(path)}", *path[-1:]], "-x"), depth=2)
        self.assertEqual(["", "app", "app on1", "on0", "on0 app", "on0 on1"], sorted(walk.runs))

    def test_failing(self):
        walk, messages = self.walk({"": listing(["good", "bad"], "-r"), "good": "  -g  G"})
        self.assertEqual(({"": ["-r"], "good": ["-g"]}, "app bad: printed nothing\n"), (self.found(walk), messages))

    def test_repeating(self):
        """A command that ignores the words before the flag has the options, and no subcommands."""
        for texts in (lambda *path: listing(["one", "two"], "-s"),
                      lambda *path: "usage: app " + " ".join(path) + "\n\n" + listing(["one", "two"], "-s"),
                      lambda *path: listing(["one"], "-s")):
            walk, messages = self.walk(texts)
            self.assertEqual("", messages)
            self.assertTrue(set(walk.runs) <= {"", "one", "two"})
            self.assertEqual({name: ["-s"] for name in walk.runs}, self.found(walk))
            self.assertEqual([True] + [False] * (len(walk.texts) - 1), [bool(it.commands) for it in walk.texts.values()])

    def test_same_single_command(self):
        """One subcommand of the same name alone is no repetition, if the texts differ."""
        walk, _ = self.walk(lambda *path: listing(["one"], f"-{len(path)}") if len(path) < 2 else "  -x  X", depth=9)
        self.assertEqual(["", "one"], walk.runs)

    def test_endless(self):
        """A program that lists new subcommands for ever is run as deep as the plan says."""
        walk, _ = self.walk(lambda *path: listing([f"c{len(path)}", "help"], f"-{len(path)}"), depth=15)
        self.assertEqual(16, len(walk.runs))

    def test_many(self):
        walk, messages = self.walk(lambda *path: "  -o  O" if path else listing([f"c{at}" for at in range(2001)], "-a"))
        self.assertEqual((2000, 2000), (len(walk.runs), len(walk.texts)))
        self.assertEqual("app: 2 subcommands were not run, because the limit is 2000 help texts\n", messages)
        self.assertEqual(["app c1999", "app c2000"], [" ".join(path) for path in walk.missing()])

    def test_many_in_rounds(self):
        """The limit is for all rounds together."""
        def text(*path):
            return listing([f"c{len(path)}-{at}" for at in range(60)], f"-{len(path)}") if len(path) < 2 else "  -o  O"
        walk, messages = self.walk(text)
        self.assertEqual(2000, len(walk.runs))
        self.assertEqual("app: 1661 subcommands were not run, because the limit is 2000 help texts\n", messages)

    def test_large(self):
        """What is beyond the limit of bytes is not read."""
        with mock.patch.object(walking, "MOST_BYTES", 3 << 20):
            walk, messages = self.walk(
                lambda *path: "  -o  " + "x" * (1 << 20) if path else listing([f"c{at}" for at in range(20)], "-a"))
        self.assertEqual((4, 21), (len(walk.texts), len(walk.runs)))
        self.assertEqual("app: 17 subcommands were not read, because the limit is 3 MiB of help texts\n", messages)

    def test_few_at_once(self):
        """No more than twice the jobs are begun before their texts are read."""
        class Counting(Table):
            most = 0

            def keep(self, path, text):
                super().keep(path, text)
                Counting.most = max(Counting.most, len(self.runs) - len(self.tried))

        walk = Counting(lambda *path: "  -o  O" if path else listing([f"c{at}" for at in range(200)], "-a"))
        walk.ask_program()
        walk.run_all()
        self.assertEqual(201, len(walk.runs))
        self.assertLessEqual(Counting.most, 6)


class Runs(Room):
    """The same with programs that run."""

    def test_walk(self):
        own = listing(["add", "help", "same", "fails", "-rf", "$(touch hit)", "../up", "a.b"], "-v").replace("\n", "\\n")
        self.script("app", f'echo "$*" >>"$0.log"; case "$*" in --help|"same --help") printf \'{own}\' ;;',
                    r'"add --help") printf "  -v  About it\n  -n  Number\n" ;; *) echo "no $1" >&2; exit 2 ;; esac')
        status, out, messages = self.run_importer("--walk", "app")
        self.assertEqual((0, "app fails --help: printed no help text, and ended with the status 2\n"), (status, messages))
        line = "app: 4 commands, 2 options, 2 lines dropped (1 name such as -rf)\n"
        self.assertEqual(line, out)
        with open(os.path.join(self.bin, "app.log"), encoding="utf-8") as file:
            self.assertEqual(["--help", "add --help", "fails --help", "same --help"], sorted(file.read().splitlines()))
        self.assertTrue(self.tree("app")["args"][0]["global"])
        self.assertFalse(os.path.exists(self.path("hit")))

    def test_without_walk(self):
        self.printing("app", listing(["add", "rm"], "-v"))
        line = "app: 2 commands, 1 option, 0 lines dropped; --walk also reads the options of 2 commands\n"
        self.assertEqual((0, line, ""), self.run_importer("app"))

    def test_one_label(self):
        self.script("app", 'case "$*" in --help)', r'printf "Commands:\n  remote  All\n  remote-add  One\n" ;;',
                    '"remote --help")', r'printf "Commands:\n  add  Add\n" ;; *) echo "  -x  Ex" ;; esac')
        status, _, errors = self.run_importer("--walk", "app")
        message = "app remote-add: left out, because bash would know it and app remote add by one name\n"
        self.assertEqual((0, message), (status, errors))
        self.assertEqual(["remote"], [it["name"] for it in self.tree("app")["subcommands"]])


if __name__ == "__main__":
    unittest.main()
