"""complgen itself: which one is used, and what happens if it rejects a tree or misbehaves."""

import os
import unittest
from unittest import mock

from importer import checking
from importer.tests.room import Room

REJECTED = "app: complgen check rejects the tree file, which was not written\n"
# The lines of the program complgen, and the messages.
ROWS = (
    (["echo '1:1: warning: args[0]: no'", "exit 1"], "app: 1:1: warning: args[0]: no\n" + REJECTED),
    (["echo first; echo second >&2; printf third; exit 2"], "app: first\napp: second\napp: third\n" + REJECTED),
    (["printf 'a\\033[2Jb\\177c\\302\\233d\\233e\\r\\n'; exit 1"], "app: a?[2Jb?c?d\ufffde?\n" + REJECTED),
    (["exit 1"], REJECTED),
    (["kill -SEGV $$"], REJECTED),
)


class Checking(Room):
    def setUp(self):
        super().setUp()
        self.script("app", "echo '  --new  New'")

    def test_rejected(self):
        for lines, messages in ROWS:
            self.script("complgen", *lines)
            self.assertEqual((1, "", messages), self.run_importer("app"), lines)
            self.assertEqual((1, "", messages), self.run_importer("--texts", "-", "app", input=b"  -x  X\n"), lines)
            self.assertFalse(os.path.exists(self.trees))

    def test_not_built(self):
        """A clone without a proved program checks nothing, so it rejects nothing."""
        message = "app: cannot check: complgen is not built; ./complgen --prove in the clone builds it\n"
        for text in ("without a proof only `script` runs", "no proved program is up to date, and rt is not on the PATH"):
            self.script("complgen", f"echo 'complgen: {text}' >&2; exit 1")
            self.assertEqual((1, "", message), self.run_importer("app"), text)
            self.assertFalse(os.path.exists(self.trees))

    def test_file_that_exists(self):
        """A tree file stays as it was if the new one is rejected."""
        self.script("complgen", 'grep -q newer "$2" || exit 0; echo "1:1: error: newer"; exit 1')
        self.assertEqual(0, self.run_importer("app")[0])
        self.script("app", "echo '  --newer  Newer'")
        for option in ("--force", "--onto"):
            self.assertEqual((1, "", "app: 1:1: error: newer\n" + REJECTED), self.run_importer(option, "app"))
            self.assertEqual(["new"], self.names("app"))

    def test_notes(self):
        """What complgen says of a tree that it accepts is not shown."""
        self.script("complgen", "echo '1:1: note: a command'; exit 0")
        self.assertEqual((0, ""), self.run_importer("app")[::2])

    def test_call(self):
        """complgen gets the tree in a directory of its own, no input, and does not complete."""
        self.script("complgen", f"exec >'{self.path('seen')}' 2>&1",
                    'echo "$@"; echo "<$COMPLETE>"; ls -A; cat tree.json; readlink /proc/self/fd/0; exit 0')
        self.assertEqual(0, self.run_importer("app", env=self.environment(COMPLETE="bash"))[0])
        with open(self.path("seen"), encoding="utf-8") as seen, open(os.path.join(self.trees, "app.json"), encoding="utf-8") as tree:
            self.assertEqual("check tree.json\n<>\ntree.json\n" + tree.read() + "/dev/null\n", seen.read())

    def test_missing(self):
        os.unlink(os.path.join(self.bin, "complgen"))
        environment = self.environment(PATH=self.bin)
        self.script("app", "echo '  --new  New'")
        message = "complgen: cannot be run: No such file or directory\n"
        self.assertEqual((1, "", message), self.run_importer("app", env=environment))
        del environment["COMPLGEN"]
        message = "complgen: not found beside complgen-import or on the PATH\n"
        self.assertEqual((1, "", message), self.run_importer("app", env=environment))

    def test_path(self):
        """COMPLGEN comes first, then the program beside this one, then the PATH."""
        beside = self.path("beside", "complgen-import")
        with mock.patch("sys.argv", [beside]), mock.patch.dict(os.environ, {"PATH": self.bin}, clear=True):
            self.assertEqual(os.path.join(self.bin, "complgen"), checking.complgen_path())
            os.makedirs(self.path("beside", "complgen"))
            self.assertEqual(os.path.join(self.bin, "complgen"), checking.complgen_path())
            os.rmdir(self.path("beside", "complgen"))
            os.symlink(os.path.join(self.bin, "complgen"), self.path("beside", "complgen"))
            self.assertEqual(self.path("beside", "complgen"), checking.complgen_path())
            os.environ["COMPLGEN"] = "/named"
            self.assertEqual("/named", checking.complgen_path())

    def test_endless(self):
        self.addCleanup(self.end_sleeping)
        self.script("complgen", f"trap '' TERM; sleep {self.nap}; sleep {self.nap}")
        with mock.patch.dict(os.environ, self.environment()), mock.patch.object(checking, "COMPLGEN_SECONDS", 1), \
                mock.patch.object(checking, "SECONDS_TO_END", 1):
            with self.assertRaisesRegex(checking.Failure, "^app: complgen did not end within 1 seconds$"):
                checking.is_accepted(b"{}", "app")
        self.assertEqual([], self.left_sleeping())


if __name__ == "__main__":
    unittest.main()
