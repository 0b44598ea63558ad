"""Tests of `rql lock` and `rql check`: over hand edits, over what the real git merges, and over settings that differ."""

import re
import shutil
import unittest

from support.made.served_index import wheel_of
from support.rql_projects import ENVIRONMENT, Committed, Served


class Lines(Served):
    def setUp(self):
        super().setUp()
        self.serve(**{name: [wheel_of(name, "1"), wheel_of(name, "2")] for name in ("rich", "flask", "tool")})

    def change(self, lines):
        self.put("requirements.txt", lines)
        self.assertEqual(self.rql("lock", "--check")[:2], (1, ""))

    def test_nothing_to_do(self):
        self.begin("rich\n")
        self.accepts("lock", "--check", answer="ok 0\n")
        asked = len(self.index.asked)
        self.accepts("lock", answer="ok 0\n")
        self.assertEqual(len(self.index.asked), asked)

    def test_a_hand_edit_is_one_step(self):
        self.begin("rich<2\n")
        self.change("flask  # web\nrich\n")
        self.accepts("lock", answer="ok 1\n")
        self.accepts("check", answer="ok 1\n")
        self.accepts("undo", answer="ok 0\n")
        self.assertEqual(self.lines(), "rich<2\n")

    def test_twice(self):
        self.begin("rich<2\n")
        for step, lines in enumerate(("rich\n", "rich\nflask<2\n", "flask\n"), 1):
            self.change(lines)
            self.accepts("lock", answer=f"ok {step}\n")

    def test_lines_that_fit_nothing_change_nothing(self):
        self.begin("rich\n")
        self.change("rich>=9\n")
        before = self.files()
        self.assertEqual(self.rql("lock")[:2], (3, "refused no-solution\n"))
        self.assertEqual(self.files(), before)

    def test_without_what_is_kept_and_without_git(self):
        self.begin("rich<2\n")
        shutil.rmtree(self.folder / ".reqlock")
        self.change("rich\n")
        told = self.refuses("lock").strip()
        self.assertEqual(told, "requirements.txt: nobody has the lines that were saved last. A new history, with the versions that are locked, is begun"
                         " by: rql init --from pylock.toml")
        (self.folder / "deep").mkdir()
        self.assertIn(f": rql -C {self.folder} init --from pylock.toml\n", self.refuses("lock", folder=self.folder / "deep"))
        self.index.add("rich", wheel_of("rich", "3"))
        errors = self.accepts(*told.rpartition(": rql ")[2].split(), answer="ok 0\n")
        self.assertIn("1 of 1 pins are taken over", errors)
        self.assertEqual((self.lines(), self.rql("show")[1].splitlines()[1].split()), ("rich\n", ["rich", "1", "1"]))

    def test_no_history_that_is_whole_is_begun_anew_by_a_word(self):
        self.begin("rich<2\n")
        before = self.files()
        self.assertIn("a history stands there, with its own pins: rql init without --from goes on", self.refuses("init", "--from", "pylock.toml"))
        self.assertEqual(self.files(), before)

    def test_an_edit_over_lines_that_were_changed_by_hand(self):
        self.begin("rich<2\n")
        self.change("rich\n")
        told = "the lines were changed since they were saved: rql lock has the lock fit them\n"
        for words in ["add", "flask"], ["upgrade"], ["remove", "rich"]:
            self.assertNotIn(told, self.rql(*words)[2])
            status, output, errors = self.rql("-v", *words)
            self.assertEqual((status, output), (4, ""))
            self.assertIn(told, errors)

    def test_an_edit_over_a_lock_that_was_changed_by_hand(self):
        """Where it doesn't read, the index is made all the same, and the program tells of it."""
        self.begin("rich<2\n")
        lock = self.folder / "pylock.toml"
        for data in lock.read_bytes() + b"# mine\n", b"packages = 1\n", b"no TOML [\n", b"\xff":
            lock.write_bytes(data)
            for words in ["add", "flask"], ["upgrade"], ["retarget"], ["lock"], ["why", "flask"]:
                status, output, errors = self.rql("-v", *words)
                self.assertEqual((status, output), (4, ""))
                self.assertIn("reqlock: pylock.toml: files-disagree\n", errors)
                self.assertIn("pylock.toml isn't the one that reqlock.journal was saved with. ", errors)
                self.assertNotIn("rql lock has the lock fit", errors)
            told = "pylock.toml: it isn't what was saved: rql lock mends what git merges; else rql -v check tells how it is brought back\n"
            self.assertIn(told, self.rql("upgrade", CI="1")[2])

    def test_without_a_history(self):
        self.begin("rich\n")
        (self.folder / "reqlock.journal").unlink()
        for words in ["lock"], ["lock", "--check"]:
            self.assertIn("so there is no history: rql init --from pylock.toml begins one", self.refuses(*words))
        locked = (self.folder / "pylock.toml").read_bytes()
        self.assertEqual(self.rql("init", "--from", "pylock.toml")[0], 0)
        self.assertEqual((self.folder / "pylock.toml").read_bytes(), locked)


class Merges(Committed):
    def setUp(self):
        super().setUp()
        self.serve(**{name: [wheel_of(name, "1"), wheel_of(name, "2")] for name in ("rich", "flask", "tool")})
        self.begin("rich\n\n# tools\n")
        self.begin_git()
        self.commit("begin")

    def diverge(self):
        """A branch that has another line than `main`, and a newer version that `main` has not seen."""
        self.git("checkout", "--quiet", "-b", "other")
        self.accepts("add", "flask")
        self.commit("flask")
        self.git("checkout", "--quiet", "main")
        self.accepts("constrain", "rich", "<2")
        self.commit("bound")

    def test_what_is_kept_is_not_committed(self):
        self.assertEqual(self.git("ls-files", ".reqlock"), "")

    def test_a_merge(self):
        self.diverge()
        self.git("merge", "other", fails=True)
        self.assertEqual(self.rql("lock", "--check")[0], 1)
        self.put("requirements.txt", "rich<2\n\n# tools\nflask\n")
        status, output, errors = self.rql("-v", "lock")
        self.assertEqual((status, output), (0, "ok 2\nother side: flask 2\nthis side: rich 1 (there 2)\n"), errors)
        self.assertIn("+ reqlock-merge --dir . --index .reqlock/index", errors)
        self.accepts("lock", "--check", answer="ok 2\n")
        self.git("commit", "--quiet", "--message=merged")
        self.assertEqual(self.git("status", "--short"), "")
        self.accepts("add", "tool", answer="ok 3\n")

    def test_sides_of_other_histories(self):
        self.git("checkout", "--quiet", "-b", "other")
        self.put("requirements.txt", "rich\nflask\n")
        for name in "reqlock.journal", "pylock.toml":
            (self.folder / name).unlink()
        self.accepts("init", answer="ok 0\n")
        self.commit("anew")
        self.git("checkout", "--quiet", "main")
        self.accepts("constrain", "rich", "<2")
        self.commit("bound")
        self.git("merge", "other", fails=True)
        self.put("requirements.txt", "rich<2\nflask\n")
        status, output, errors = self.rql("lock")
        self.assertEqual((status, output), (1, ""))
        self.assertRegex(errors, r"the other side began another history, by reqlock init or forget; type (rql\.py )?merge --ours")
        self.accepts("merge", "--ours", "--dry-run")
        self.assertEqual(self.rql("lock", "--check")[0], 1)
        self.accepts("merge", "--ours", answer="ok 2\nother side: flask 2\nthis side: rich 1 (there 2)\n")
        self.accepts("lock", "--check", answer="ok 2\n")

    def test_a_rebase(self):
        self.diverge()
        self.git("checkout", "--quiet", "other")
        self.git("rebase", "main", fails=True)
        self.put("requirements.txt", "rich<2\n\n# tools\nflask\n")
        self.accepts("lock", answer="ok 2\nother side: flask 2\nthis side: rich 1 (there 2)\n")
        self.git("rebase", "--continue")
        self.accepts("check", answer="ok 2\n")

    def test_exports_and_sources_are_merged_for_git_too(self):
        self.put("requirements.in", "rich\n\n# tools\n")
        told = f'index = ["{self.index.url}"]\n{ENVIRONMENT}'
        self.put("reqlock.toml", f'sources = ["requirements.in"]\nexports = [{{ file = "deploy/all.txt" }}]\n{told}')
        self.accepts("lock")
        self.commit("sources")
        self.diverge()
        self.git("merge", "other", fails=True)
        self.put("requirements.in", "rich<2\n\n# tools\nflask\n")
        self.accepts("lock")
        self.git("commit", "--quiet", "--message=merged")
        self.assertEqual(self.git("status", "--short"), "")
        exported = (self.folder / "deploy" / "all.txt").read_text(encoding="utf-8")
        self.assertEqual(re.findall(r"(?m)^[a-z]+==\S+", exported), ["flask==2", "rich==1"])
        self.accepts("check")

    def test_a_conflict_in_a_source(self):
        """Git's marks are told as that, and not as what can't be read in a line."""
        conflict = "<<<<<<< HEAD\n{0}rich<2{1}\n=======\n{0}flask{1}\n>>>>>>> other\n"
        project = '[project]\nname = "app"\ndependencies = [\n', "]\n"
        for name, text, fault in (
            ("base.in", "tool\n" + conflict.format("", ""), "conflict markers in lines 2, 4, 6: leave the lines that are wanted"),
            ("pyproject.toml", conflict.format('"', '",').join(project), "it is no TOML: conflict markers in lines 4, 6, 8: leave the lines that"),
        ):
            self.put(name, text)
            self.put("reqlock.toml", f'folder = "locks"\nsources = ["{name}"]\nindex = ["{self.index.url}"]\n{ENVIRONMENT}')
            for word in "lock", "check":
                with self.subTest(name=name, word=word):
                    self.assertIn(f"{self.folder}/{name}: {fault}", self.refuses(word))

    def test_a_bot_in_a_new_clone(self):
        """A bot changes a bound in a clone that has nothing of what rql keeps."""
        self.accepts("constrain", "rich", "<2")
        self.commit("bound")
        self.git("clone", "--quiet", ".", "../clone")
        self.folder = self.outside / "clone"
        self.put("requirements.txt", self.lines().replace("rich<2", "rich<3"))
        self.commit("bot")
        self.assertEqual(self.rql("lock", "--check")[0], 1)
        self.accepts("lock", answer="ok 2\n")
        self.accepts("upgrade", answer="ok 3\n")
        self.commit("locked")
        self.accepts("lock", "--check", answer="ok 3\n")

    def test_called_from_a_folder_below(self):
        (self.folder / "deep").mkdir()
        status, output, errors = self.rql("add", "tool", folder=self.folder / "deep")
        self.assertEqual((status, output), (0, "ok 1\n"), errors)
        self.accepts("check", answer="ok 1\n")


class Checks(Served):
    def setUp(self):
        super().setUp()
        self.serve(rich=[wheel_of("rich", "1"), wheel_of("rich", "2")])
        self.begin("rich<2\n")

    def settings(self, text):
        self.put("reqlock.toml", f'index = ["{self.index.url}"]\n{text}')

    def test_targets_that_differ(self):
        told = (
            ('environment = { python = "3.12", platform = "linux-x86_64" }',
             "the target without a name is Python 3.12 on linux x86_64 in the settings, and Python 3.11 on linux x86_64 is locked for: rql retarget"),
            ('[environments]\nlinux = { python = "3.11", platform = "linux-x86_64" }',
             "target linux is in the settings, and isn't locked for: rql retarget"),
        )
        for step, (text, line) in enumerate(told, 1):
            self.settings(text)
            status, output, errors = self.rql("check")
            self.assertEqual((status, output), (1, f"ok {step - 1}\n"))
            self.assertIn(line, errors)
            self.accepts("retarget", answer=f"ok {step}\n")
            self.assertEqual(self.accepts("check", answer=f"ok {step}\n"), "")
            self.accepts("retarget", answer="same\n")
        self.assertIn("rich  1  ", self.rql("show")[1])

    def test_a_patch_of_python_makes_no_difference(self):
        self.settings('environment = { python = "3.11.7", platform = "linux-x86_64" }')
        self.accepts("check", answer="ok 0\n")

    def test_the_programs_fault_counts(self):
        self.put("requirements.txt", "rich\n")
        self.assertEqual(self.rql("check")[0], 4)

    def test_json_is_the_programs(self):
        self.assertEqual(self.rql("check", "--json")[1].strip()[:1], "{")


if __name__ == "__main__":
    unittest.main()
