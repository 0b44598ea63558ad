"""Tests of the options by which a call saves nothing: `batch --all-or-none` where a command is refused, `--if-needed` where only the index would
change, and `init --dry-run`."""

import json
import unittest

from support.made.environments import LINUX, WINDOWS
from support.made.releases import index_of
from support.program import Program

RELEASES = ("a", "1", []), ("a", "2", []), ("b", "1", []), ("c", "1", [])
# an index with another digest
MORE = *RELEASES, ("z", "1", [])


class AllOrNone(Program):
    def setUp(self):
        super().setUp()
        self.begin(b"a\n", *RELEASES)
        self.assertEqual(self.call("init"), (0, "ok 0\n"))

    def batch(self, text, *words):
        return self.told("batch", "--all-or-none", *words, text=text)

    def test_the_first_refusal_says_the_status(self):
        before = self.files()
        for text, status, replies in (
            ("add b\nadd none\nadd a\n", 3, "ok 1\nrefused no-solution\nrefused already-present\n"),
            ("add b\nadd a\nadd none\n", 1, "ok 1\nrefused already-present\nrefused no-solution\n"),
            ("bogus", 1, "refused bad-command\n"), ("undo\nadd b\n", 1, "refused nothing-to-undo\nok 1\n"),
            ("add b\nundo\nundo\n", 1, "ok 1\nok 0\nrefused nothing-to-undo\n"),
        ):
            with self.subTest(text=text):
                self.assertEqual(self.batch(text), (status, replies, ""))
                self.assertEqual(self.files(), before)

    def test_what_is_accepted_whole_is_saved(self):
        self.assertEqual(self.batch("add b\nrelock\n\nadd c\nundo\n"), (0, "ok 1\nsame\nok 2\nok 1\n", ""))
        self.assertEqual((self.folder / "requirements.txt").read_bytes(), b"a\nb\n")
        self.assertEqual(self.call("redo"), (0, "ok 2\n"))

    def test_what_changes_nothing_ends_well(self):
        before = self.files()
        for text, replies in ("", ""), ("\n \n", ""), ("relock\nupgrade\n", "same\nsame\n"):
            self.assertEqual(self.batch(text), (0, replies, ""))
        self.assertEqual(self.files(), before)

    def test_without_it_a_refusal_stops_nothing(self):
        self.assertEqual(self.call("batch", text="add b\nadd a\n"), (0, "ok 1\nrefused already-present\n"))
        self.assertEqual((self.folder / "requirements.txt").read_bytes(), b"a\nb\n")

    def test_the_line_that_was_refused_first_is_told(self):
        told = "nothing is saved: the command of line 4 was refused first: line 1 has this name\n"
        text = "add b\n\n \nadd a\nadd none\n"
        self.assertEqual(self.batch(text, "-v"), (1, "ok 1\nrefused already-present\nrefused no-solution\n", told))
        self.assertEqual(self.batch(text, "-q")[2], "")
        self.assertEqual(self.batch("add none", "-v")[2], "nothing is saved: the command of line 1 was refused first: no versions meet all requirements\n")

    def test_what_is_no_command_of_a_batch_is_told(self):
        told = (
            "nothing is saved: the command of line 2 was refused first: this is no command\n"
            "Its commands are add, remove, constrain, upgrade, relock, undo and redo; replace and retarget are calls of their own.\n"
        )
        for line in "retarget --env a=b.json", "replace new.txt", "bogus":
            with self.subTest(line=line):
                replies = "ok 1\nrefused bad-command\n"
                self.assertEqual(self.batch(f"add b\n{line}\n", "-v"), (1, replies, told))
                self.assertEqual(self.batch(f"add b\n{line}\n"), (1, replies, ""))

    def test_locked_versions_are_kept(self):
        self.begin(b"mid\n", ("mid", "1", []), ("mid", "2", []), ("aa", "1", []), ("aa", "2", ["mid<2"]))
        self.assertEqual(self.call("init"), (0, "ok 0\n"))
        self.assertEqual(self.batch("add aa\nadd aa>=2\n", "--keep-locked")[:2], (1, "ok 1\nrefused already-present\n"))
        self.assertEqual(self.batch("add aa\nremove aa\nadd aa>=2\n", "--keep-locked")[:2], (3, "ok 1\nok 2\nrefused no-solution\n"))


class IfNeeded(Program):
    def setUp(self):
        super().setUp()
        self.begin(b"a<2\nb\n", *RELEASES)
        self.assertEqual(self.call("init"), (0, "ok 0\n"))

    def serve(self, *releases):
        (self.outside / "index.json").write_text(json.dumps(index_of(*releases)), encoding="utf-8")

    def test_an_index_with_another_digest_makes_no_step(self):
        before = self.files()
        self.serve(*MORE)
        (self.outside / "same.txt").write_bytes(b"a<2\nb\n")
        for words in ["relock"], ["upgrade"], ["upgrade", "a"], ["constrain", "a", "<2"], ["replace", self.outside / "same.txt"]:
            for more in [], ["--dry-run"], ["--keep-locked"]:
                with self.subTest(words=words, more=more):
                    self.assertEqual(self.told(*words, *more, "--if-needed"), (0, "same\n", ""))
                    self.assertEqual(self.files(), before)
        self.assertEqual(self.told("relock")[:2], (0, "ok 1\n"))
        self.assertNotEqual(self.files(), before)

    def test_a_line_or_an_entry_makes_one(self):
        self.serve(*MORE)
        self.assertEqual(self.call("constrain", "a", "<3", "--if-needed"), (0, "ok 1\n"))
        self.assertEqual(self.call("upgrade", "--if-needed"), (0, "ok 2\n"))
        self.assertEqual(self.call("add", "c", "--if-needed"), (0, "ok 3\n"))
        self.assertEqual(self.call("constrain", "c", "<9", "--if-needed"), (0, "ok 4\n"))
        self.assertEqual((self.folder / "requirements.txt").read_bytes(), b"a<3\nb\nc<9\n")

    def test_an_entry_with_other_needs_makes_one(self):
        self.serve(*RELEASES[:2], ("b", "1", ["c"]), RELEASES[3])
        self.assertEqual(self.call("relock", "--if-needed"), (0, "ok 1\n"))
        self.assertIn("c", self.call("show")[1])

    def test_what_the_index_alone_leaves_stays_what_it_is_without_it(self):
        before = self.files()
        for words, told in (["relock"], (0, "same\n")), (["add", "a"], (1, "refused already-present\n")), (["add", "none"], (3, "refused no-solution\n")):
            self.assertEqual(self.call(*words, "--if-needed"), told)
        self.assertEqual(self.files(), before)

    def test_undone_steps_stay(self):
        self.assertEqual(self.call("add", "c"), (0, "ok 1\n"))
        self.assertEqual(self.call("undo"), (0, "ok 0\n"))
        self.serve(*MORE)
        self.assertEqual(self.call("relock", "--if-needed"), (0, "same\n"))
        self.assertEqual(self.call("redo"), (0, "ok 1\n"))

    def test_that_the_index_is_another_one_is_told(self):
        self.serve(*MORE)
        told = "The index is another one. Nothing else would change, and nothing is saved.\n"
        for more in [], ["--dry-run"]:
            self.assertEqual(self.told("relock", "--if-needed", "-v", *more), (0, "same\n", told))

    def test_several_targets(self):
        self.lock_for({"linux": LINUX, "win": WINDOWS})
        self.begin(b"a<2\n", *RELEASES, ("d", "1", ["c ; os_name == 'nt'"]))
        self.assertEqual(self.call("init"), (0, "ok 0\n"))
        before = self.files()
        self.serve(*MORE, ("d", "1", ["c ; os_name == 'nt'"]))
        self.assertEqual(self.call("relock", "--if-needed"), (0, "same\n"))
        self.assertEqual(self.files(), before)


class FirstLock(Program):
    def test_in_a_folder_without_a_history(self):
        self.begin(b"a\nc\n", *RELEASES)
        before = self.files()
        for words in ["init", "--dry-run"], ["--dry-run", "init"]:
            self.assertEqual(self.told(*words), (0, "ok 0\n+ a 2\n+ c 1\n", ""))
            self.assertEqual(self.files(), before)
        self.assertEqual(self.told("init"), (0, "ok 0\n", ""))

    def test_over_a_history(self):
        self.begin(b"a<2\n", *RELEASES)
        self.assertEqual(self.call("init"), (0, "ok 0\n"))
        self.assertEqual(self.call("add", "b"), (0, "ok 1\n"))
        before = self.files()
        self.assertEqual(self.told("init", "--dry-run"), (0, "ok 0\n+ a 1\n+ b 1\n", ""))
        self.assertEqual(self.files(), before)
        self.assertEqual(self.call("undo"), (0, "ok 0\n"))

    def test_targets_and_pins(self):
        self.lock_for({"linux": LINUX, "win": WINDOWS})
        self.begin(b"a\nb ; os_name == 'nt'\n", *RELEASES)
        pins = self.outside / "pins.txt"
        pins.write_bytes(b"a==1\n")
        before = self.files()
        self.assertEqual(self.told("init", "--dry-run"), (0, "ok 0\ntarget linux\n+ a 2\ntarget win\n+ a 2\n+ b 1\n", ""))
        self.assertEqual(self.told("init", "--dry-run", "--pins", f"win={pins}")[1], "ok 0\ntarget linux\n+ a 2\ntarget win\n+ a 1\n+ b 1\n")
        self.assertEqual(self.files(), before)

    def test_what_is_refused(self):
        self.begin(b"a\nnone\n", *RELEASES)
        before = self.files()
        self.assertEqual(self.told("init", "--dry-run")[:2], (3, "refused no-solution\n"))
        self.begin(b"a\n-r x\n", *RELEASES)
        self.assertEqual(self.told("init", "--dry-run")[:2], self.told("init")[:2])
        self.assertEqual(set(self.files()), set(before))

    def test_a_link_that_leads_elsewhere(self):
        self.begin(b"a\n", *RELEASES)
        (self.outside / "other").write_bytes(b"kept")
        (self.folder / "pylock.toml").symlink_to(self.outside / "other")
        self.assertEqual(self.told("init", "--dry-run")[0], 5)
        self.assertEqual((self.outside / "other").read_bytes(), b"kept")

    def test_what_a_save_that_was_stopped_has_left_stays(self):
        self.begin(b"a\n", *RELEASES)
        self.assertEqual(self.call("init"), (0, "ok 0\n"))
        (self.folder / "pylock.toml.new").write_bytes(b"half")
        before = self.files()
        self.assertEqual(self.told("init", "--dry-run"), (0, "ok 0\n+ a 2\n", ""))
        self.assertEqual(self.files(), before)


if __name__ == "__main__":
    unittest.main()
