"""Tests of what `check` tells of locks in the folder that are of no target of the history: on standard error, whatever it answers."""

import json
import os
import unittest

from support.made.environments import LINUX, WINDOWS
from support.made.releases import index_of
from support.program import Program


def told_of(name, way=None):
    """The line that tells of the lock of this name, and how it is locked for, where the name may be a target's."""
    other = f", or move it elsewhere and lock for it too by retarget, with --env {way}=FILE beside those of the other targets"
    behind = "" if way is None else other
    return f"reqlock: pylock.{name}.toml is of no target of this history, and no edit changes it: remove it{behind}\n"


class Strays(Program):
    def setUp(self):
        super().setUp()
        self.begin(b"a\n", ("a", "1", []))
        self.assertEqual(self.call("init"), (0, "ok 0\n"))

    def stand(self, *names):
        for name in names:
            (self.folder / name).write_bytes(b"")

    def test_each_is_told_and_the_answer_stays(self):
        calls = ["check"], ["check", "-v"], ["check", "--json"], ["check", "--current"], ["check", "--current", "--json"]
        answers = [self.told(*words) for words in calls]
        self.stand("pylock.win.toml", "pylock.b-2.toml")
        for words, answer in zip(calls, answers):
            with self.subTest(words=words):
                self.assertEqual(answer[::2], (0, ""))
                self.assertEqual(self.told(*words), (*answer[:2], told_of("b-2", "b-2") + told_of("win", "win")))
                if words != ["check", "-v"]:
                    self.assertEqual(self.told(*words, "-q"), answer)

    def test_no_other_call_tells_of_them(self):
        self.stand("pylock.win.toml")
        for words in ["show"], ["log"], ["relock"], ["export"], ["forget", "--keep", "0"]:
            self.assertEqual(self.told(*words)[::2], (0, ""), words)

    def test_which_names_are_those_of_locks(self):
        self.stand(
            "pylock..toml", "pylock.a.b.toml", "pylock.win.toml.new", "xpylock.win.toml", "Pylock.win.toml", "pylock.win.TOML", "pylock.win",
            os.fsdecode(b"pylock.\xff.toml"),
        )
        self.assertEqual(self.told("check"), (0, "ok 0\n", ""))

    def test_a_name_that_no_target_may_have(self):
        self.stand("pylock.Win.toml", "pylock.1.toml", f"pylock.{'a' * 33}.toml", "pylock.a\x1b[31m.toml", "pylock.\u202e.toml")
        told = told_of("1") + told_of("Win") + told_of("a\\u{1b}[31m") + told_of("a" * 33) + told_of("\\u{202e}")
        self.assertEqual(self.told("check"), (0, "ok 0\n", told))

    def test_a_lock_that_is_not_current(self):
        self.stand("pylock.win.toml")
        (self.outside / "index.json").write_text(json.dumps(index_of(("a", "1", ["b"]), ("b", "1", []))), encoding="utf-8")
        status, output, errors = self.told("check", "--current")
        self.assertEqual((status, output.split("\n")[0], errors), (1, "stale", told_of("win", "win")))

    def test_targets_that_a_new_history_leaves_out(self):
        self.lock_for({"linux": LINUX, "win": WINDOWS})
        self.assertEqual(self.call("init"), (0, "ok 0\n"))
        self.assertEqual(self.told("check"), (0, "ok 0\n", ""))
        self.lock_for({"linux": LINUX})
        self.assertEqual(self.call("init"), (0, "ok 0\n"))
        self.assertEqual(self.told("check"), (0, "ok 0\n", told_of("win", "win")))
        (self.folder / "pylock.win.toml").unlink()
        self.assertEqual(self.told("check"), (0, "ok 0\n", ""))

    def test_a_folder_that_can_not_be_listed(self):
        self.stand("pylock.win.toml")
        self.leave_root()
        self.folder.chmod(0o300)
        self.addCleanup(self.folder.chmod, 0o700)
        self.assertEqual(self.call("check"), (0, "ok 0\n"))

    def test_a_fault_of_the_files_alone_is_told(self):
        self.stand("pylock.win.toml", "pylock.toml")
        self.assertEqual(self.told("check"), (4, "", "reqlock: pylock.toml: files-disagree\n"))


if __name__ == "__main__":
    unittest.main()
