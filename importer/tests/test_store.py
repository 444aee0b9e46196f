"""Tree files: what is kept, replaced, added to and removed."""

import hashlib
import json
import os
import unittest

from importer.tests.room import Room

BY_HAND = {"name": "app", "about": "by hand", "args": [
    {"id": "both", "long": "both", "help": "By hand", "values_from": ["git", "branch"]},
    {"id": "mine", "long": "mine", "action": "SetTrue"}]}
COUNTED = "app: 0 commands, 2 options, 0 lines dropped\n"


class Store(Room):
    def setUp(self):
        super().setUp()
        self.file = os.path.join(self.trees, "app.json")
        self.record = os.path.join(self.trees, ".complgen-import", "app")
        self.script("app", "echo '  --new  New'; echo '  --both  By the text'")

    def runs(self, expected, *words, **more):
        self.assertEqual(expected, self.run_importer(*words, "app", **more), words)

    def by_hand(self):
        self.write(self.file, json.dumps(BY_HAND))

    # ---- files that exist

    def test_kept(self):
        self.by_hand()
        self.script("app", f"touch '{self.path('ran')}'")
        self.runs((1, "", f"app: {self.file} exists, and was kept (--force replaces it, --onto adds to it)\n"))
        self.assertEqual((BY_HAND, False), (self.tree("app"), os.path.exists(self.path("ran"))))

    def test_onto(self):
        self.by_hand()
        self.runs((0, "app: 0 commands, 3 options, 0 lines dropped\n", ""), "--onto")
        tree = self.tree("app")
        self.assertEqual(BY_HAND["args"], tree["args"][:2])
        self.assertEqual((["both", "mine", "new"], "by hand"), (self.names("app"), tree["about"]))
        self.runs((0, "app: 0 commands, 3 options, 0 lines dropped\n", ""), "--onto")
        self.assertEqual(tree, self.tree("app"))

    def test_force(self):
        self.by_hand()
        self.runs((0, COUNTED, ""), "--force")
        self.assertEqual(["new", "both"], self.names("app"))
        self.assertEqual(0o644, os.stat(self.file).st_mode & 0o777)

    def test_onto_refused(self):
        """The old file is checked before the program runs."""
        self.script("app", f"touch '{self.path('ran')}'")
        for data in ("no JSON", "{", '{"name": NaN}', "[" * 100_000, b"\xff\xfe"):
            self.write(self.file, data)
            self.runs((1, "", f"app: {self.file}: tree: not JSON\n"), "--onto")
        self.by_hand()
        self.script("complgen", "echo '1:2: warning: bad'; exit 1")
        message = f"app: 1:2: warning: bad\napp: complgen check rejects {self.file}, which was kept\n"
        self.runs((1, "", message), "--onto")
        self.assertEqual((BY_HAND, False), (self.tree("app"), os.path.exists(self.path("ran"))))

    def test_links(self):
        """The target of a link is replaced. Such a file has no record."""
        elsewhere = self.write(self.path("elsewhere/tree.json"), "{}")
        os.makedirs(self.trees)
        os.symlink(elsewhere, self.file)
        self.runs((0, COUNTED, ""), "--force")
        self.assertEqual((True, ["new", "both"]), (os.path.islink(self.file), self.names("app")))
        self.assertEqual(["tree.json"], os.listdir(self.path("elsewhere")))
        kept = f"app: {self.file} was kept, because not all of it is from complgen-import\n"
        self.runs((1, "", kept), "--undo", "--force")

    def test_unwritable(self):
        there = self.write(self.path("file"), "")
        self.runs((1, COUNTED, f"{there}/app.json: write failed: File exists\n"), "--out-dir", there)
        os.makedirs(self.path("out", "app.json"))
        message = f"{self.path('out', 'app.json')}: write failed: Is a directory\n"
        self.runs((1, COUNTED, message), "--force", "--out-dir", "out")
        self.assertEqual(["app.json"], os.listdir(self.path("out")))

    def test_output_that_fails(self):
        """Nothing is written if the line about it cannot be printed, and there is no traceback."""
        with open("/dev/full", "w") as full:
            self.runs((1, "", "write failed: No space left on device\n"), stdout=full)
            self.assertFalse(self.has_tree("app"))
            self.runs((0, COUNTED, ""), stderr=full)
            self.assertEqual(1, self.begin("--help", stdout=full, stderr=full).wait())
        for closed in ("<&-", ">&-", "2>&-", ">&- 2>&-", "<&- >&- 2>&-"):
            status = 1 if ">&-" in closed.split() else 0
            self.assertEqual(status, self.run_importer("--force", "app", preexec_fn=closing(closed))[0], closed)

    # ---- a program that changes the directory

    def test_changed_meanwhile(self):
        changed = f"app: {self.file} was changed meanwhile, and was kept\n"
        self.script("app", f"mkdir -p '{self.trees}'; echo theirs >'{self.file}'; echo '  --new  New'; echo '  --both  B'")
        self.runs((1, COUNTED, changed))
        with open(self.file, encoding="utf-8") as file:
            self.assertEqual("theirs\n", file.read())
        self.by_hand()
        self.runs((1, "app: 0 commands, 3 options, 0 lines dropped\n", changed), "--onto")
        self.script("app", f"rm -rf '{self.trees}'; echo '  --new  New'; echo '  --both  B'")
        self.by_hand()
        self.runs((1, "app: 0 commands, 3 options, 0 lines dropped\n", changed), "--onto")
        self.runs((0, COUNTED, ""))
        self.script("app", f"rm -rf '{self.trees}'; touch '{self.trees}'; echo '  --new  New'; echo '  --both  B'")
        self.runs((1, COUNTED, f"{self.file}: write failed: File exists\n"), "--force")

    # ---- undo

    def removed(self, end=""):
        return (0, f"app: {self.file} was removed{end}\n", "")

    def undo(self, expected, *words):
        """Undoes where no shell is installed."""
        self.runs(expected, "--undo", *words, env=self.environment(PATH=self.bin))

    def test_undo(self):
        self.runs((0, COUNTED, ""))
        with open(self.file, "rb") as file, open(self.record, encoding="utf-8") as record:
            self.assertEqual(f"{hashlib.sha256(file.read()).hexdigest()}  app.json\n", record.read())
        self.undo(self.removed())
        self.assertEqual([], os.listdir(self.trees))
        self.undo((1, "", f"app: {self.file} does not exist\n"))

    def test_undo_of_a_changed_file(self):
        self.runs((0, COUNTED, ""))
        with open(self.file, "a", encoding="utf-8") as file:
            file.write(" ")
        self.undo((1, "", f"app: {self.file} was changed since, and was kept (--force removes it)\n"))
        self.undo(self.removed(), "--force")
        self.assertEqual([], os.listdir(self.trees))

    def test_undo_of_others(self):
        """What somebody wrote by hand is never removed, also if something was added to it."""
        kept = (1, "", f"app: {self.file} was kept, because not all of it is from complgen-import\n")
        self.by_hand()
        self.undo(kept)
        self.undo(kept, "--force")
        self.runs((0, "app: 0 commands, 3 options, 0 lines dropped\n", ""), "--onto")
        self.undo(kept, "--force")
        self.runs((0, COUNTED, ""), "--force")
        self.undo(self.removed())
        os.makedirs(self.file)
        self.undo(kept, "--force")

    def test_undo_of_onto(self):
        """A file that is wholly from this program stays so with --onto, until it is changed by hand."""
        self.runs((0, COUNTED, ""), "--onto")
        self.script("app", "echo '  --newer  Newer'")
        self.runs((0, "app: 0 commands, 3 options, 0 lines dropped\n", ""), "--onto")
        self.undo(self.removed())
        self.runs((0, "app: 0 commands, 1 option, 0 lines dropped\n", ""))
        self.by_hand()
        self.runs((0, "app: 0 commands, 3 options, 0 lines dropped\n", ""), "--onto")
        self.undo((1, "", f"app: {self.file} was kept, because not all of it is from complgen-import\n"), "--force")

    def test_undo_runs_nothing(self):
        self.runs((0, COUNTED, ""))
        self.script("app", f"touch '{self.path('ran')}'")
        self.script("complgen", f"touch '{self.path('ran')}'")
        os.unlink(os.path.join(self.bin, "app"))
        self.undo(self.removed())
        self.assertFalse(os.path.exists(self.path("ran")))

    def test_undo_elsewhere(self):
        self.runs((0, COUNTED, ""), "--out-dir", "out")
        self.runs((0, COUNTED, ""))
        result = self.run_importer("--undo", "--out-dir", "out", "app", "g++", env=self.environment(PATH=self.bin))
        out = f"app: {self.path('out/app.json')} was removed; new shells use the tree file {self.file}\n"
        message = "g++: the name of the program is not plain (letters and digits, with single - or _ between)\n"
        self.assertEqual((1, out, message), result)
        self.assertTrue(self.has_tree("app"))

    def test_bad_records(self):
        for data in (b"", b"x", b"\xff" * 100, b"0" * 64):
            self.runs((0, COUNTED, ""), "--force")
            self.write(self.record, data)
            self.undo((1, "", f"app: {self.file} was changed since, and was kept (--force removes it)\n"))


def closing(words):
    """Returns a function that closes the streams that a shell would close for these words."""
    numbers = [{"<": 0, ">": 1, "2": 2}[word[0]] for word in words.split()]
    return lambda: [os.close(number) for number in numbers]


if __name__ == "__main__":
    unittest.main()
