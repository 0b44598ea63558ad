"""What `check -v` advises of files that git merged, that somebody changed, or that came without their journal: what it says is so, and who
follows it keeps the versions that are locked."""

import shlex
import shutil
import subprocess
import sys

from support.checkouts import SCRIPT, Checkouts
from support.made.environments import LINUX, WINDOWS
from support.places import PROGRAM

RELEASES = ("web", "1", ["base"]), ("web", "2", ["base"]), ("base", "1", []), ("base", "2", []), ("tool", "1", []), ("tool", "2", [])
OLD = RELEASES[0], RELEASES[2], RELEASES[4]
LINES = b"web\ntool\n"


class Advice(Checkouts):
    def setUp(self):
        super().setUp()
        self.index = self.outside / "index.json"

    def advised(self, word, status=4, words=("check",)):
        """What a call is told behind its fault, which has this word."""
        exit_status, output, told = self.told(*words, "-v")
        self.assertEqual((exit_status, output), (status, ""))
        fault, _, rest = told.partition("\n")
        self.assertIn(word, fault)
        return rest

    @staticmethod
    def commands(told):
        """The commands that are told."""
        return [line[4:] for line in told.splitlines() if line.startswith("    ")]

    def follow(self, command):
        """Types a command. What the pages name stands elsewhere here."""
        words = shlex.split(command.replace("--index index.json", f"--index {self.index}"))
        programs = {"reqlock": [PROGRAM], "reqlock-merge": [sys.executable, "-B", SCRIPT, "--program", PROGRAM]}
        done = subprocess.run(
            [*programs.get(words[0], [words[0]]), *words[1:]], cwd=self.folder, env=self.variables, capture_output=True, encoding="utf-8", check=False
        )
        self.assertEqual(done.returncode, 0, (words, done.stdout, done.stderr))
        return done.stdout

    def begin_old(self):
        """A clone of a lock over an index to which newer releases come."""
        self.begin_clone(LINES, *OLD)
        self.begin((self.folder / "requirements.txt").read_bytes(), *RELEASES)


class InProgress(Advice):
    def begin_two(self):
        """The other branch upgrades, and this one constrains."""
        self.begin_old()
        self.on_branch("other", ("upgrade", "tool"), ("constrain", "tool", ">=1"))
        self.edit("constrain", "web", "<2")

    def check_advice(self, told, progress):
        command = f"reqlock-merge --dir {self.folder} --index index.json"
        self.assertEqual(self.commands(told), [command])
        self.assertTrue(told.startswith(f"{progress} is in progress. ") or "git left a conflict" in told, told)
        return command

    def test_of_a_merge(self):
        self.begin_two()
        self.git("merge", "other", fails=True)
        (self.folder / "requirements.txt").write_bytes(b"web<2\ntool>=1\n")
        command = self.check_advice(self.advised("requirements.txt: files-disagree"), "A merge")
        for words in ["undo"], ["relock"], ["replace", "--was", self.folder / "requirements.txt"]:
            with self.subTest(words=words):
                self.assertEqual(self.commands(self.advised("files-disagree", words=words))[0].split()[0], "reqlock-merge")
        self.follow(command)
        self.assertEqual(self.locked(), {"web": "1", "base": "1", "tool": "2"})
        self.check_whole(2)

    def test_of_a_lock_and_a_journal_in_a_merge(self):
        self.begin_two()
        self.git("merge", "other", fails=True)
        (self.folder / "requirements.txt").write_bytes(b"web<2\ntool\n")
        for name, word in ("pylock.toml", "files-disagree"), ("reqlock.journal", "journal-broken"):
            kept = (self.folder / name).read_bytes()
            (self.folder / name).write_bytes(b"x\n")
            with self.subTest(name=name):
                self.check_advice(self.advised(word), "A merge")
            (self.folder / name).unlink()
            with self.subTest(name=name, is_there=False):
                self.assertIn("A merge is in progress. ", self.advised(f"{name}: unreadable" if name != "pylock.toml" else ": unreadable"))
            (self.folder / name).write_bytes(kept)

    def test_of_others(self):
        for progress, words in ("A cherry-pick", ["cherry-pick", "other"]), ("A rebase", ["rebase", "other"]), ("A revert", ["revert", "HEAD~1"]):
            with self.subTest(progress=progress):
                shutil.rmtree(self.outside / "one", ignore_errors=True)
                self.begin_two()
                self.edit("constrain", "web", "<3")
                self.git(*words, fails=True)
                (self.folder / "requirements.txt").write_bytes(b"web<2\ntool>=1\n")
                self.check_advice(self.advised("files-disagree"), progress)

    def test_of_a_further_checkout(self):
        self.begin_two()
        self.git("worktree", "add", "--quiet", "../../more", "-b", "more")
        self.clone_of("more")
        self.assertTrue((self.folder.parent / ".git").is_file())
        self.git("merge", "other", fails=True)
        (self.folder / "requirements.txt").write_bytes(b"web<2\ntool>=1\n")
        self.follow(self.check_advice(self.advised("files-disagree"), "A merge"))
        self.check_whole(2)

    def test_with_settings_of_rql(self):
        self.begin_two()
        self.git("merge", "other", fails=True)
        (self.folder / "requirements.txt").write_bytes(b"web<2\ntool>=1\n")
        for file, text in (self.folder / "reqlock.toml", ""), (self.folder.parent / "pyproject.toml", "[tool.reqlock]\n"):
            file.write_text(text, encoding="utf-8")
            with self.subTest(file=file):
                self.assertEqual(self.commands(self.advised("files-disagree")), [f"rql -C {self.folder} lock"])
            file.unlink()


class Changed(Advice):
    def test_of_lines_changed_by_hand_or_by_a_bot(self):
        for is_committed in False, True:
            with self.subTest(is_committed=is_committed):
                shutil.rmtree(self.outside / "one", ignore_errors=True)
                self.begin_old()
                (self.folder / "requirements.txt").write_bytes(b"web\ntool>=1\n")
                if is_committed:
                    self.commit("bot")
                told = self.advised("requirements.txt: files-disagree")
                self.assertEqual(self.commands(told)[0], f"reqlock-merge --dir {self.folder} --index index.json")
                self.follow(self.commands(told)[0])
                self.check_whole(1)
                self.assertEqual(self.locked(), {"web": "1", "base": "1", "tool": "1"})

    def test_of_a_lock_changed_by_hand(self):
        self.begin_old()
        (self.folder / "pylock.toml").write_bytes((self.folder / "pylock.toml").read_bytes() + b"\n")
        told = self.advised("pylock.toml: files-disagree")
        self.follow(self.commands(told)[0])
        self.check_whole(0)

    def test_outside_of_a_checkout(self):
        self.begin(LINES, *OLD)
        self.assertEqual(self.call("init"), (0, "ok 0\n"))
        (self.folder / "requirements.txt").write_bytes(b"web\n")
        told = self.advised("files-disagree")
        self.assertEqual(self.commands(told), [f"reqlock --dir {self.folder} --index index.json replace --was COPY"])
        self.assertIn(f"\n`reqlock init --pins {self.folder}/pylock.toml` begins a new history", told)
        copy = self.outside / "copy.txt"
        copy.write_bytes(LINES)
        self.assertEqual(self.follow(self.commands(told)[0].replace("COPY", str(copy))), "ok 1\n")


class WithoutTheJournal(Advice):
    def begun_anew(self, told):
        """Types the `init` that is advised, with what every `init` is given."""
        words = told.split("`reqlock init ")[1].split("`")[0]
        self.assertEqual(self.call("init", *shlex.split(words)), (0, "ok 0\n"))

    def test_of_a_journal_that_is_gone(self):
        self.begin_old()
        locked = self.locked()
        (self.folder / "reqlock.journal").unlink()
        told = self.advised("reqlock.journal: unreadable")
        self.assertEqual(self.commands(told), [f"git -C {self.folder} checkout HEAD -- reqlock.journal"])
        self.follow(self.commands(told)[0])
        self.check_whole(0)
        (self.folder / "reqlock.journal").unlink()
        self.begun_anew(told)
        self.assertEqual(self.locked(), locked)

    def test_of_targets_with_names(self):
        self.lock_for({"one": LINUX, "two": WINDOWS})
        self.begin_old()
        locked = self.locked("one"), self.locked("two")
        (self.folder / "requirements.txt").write_bytes(b"web\n")
        told = self.advised("files-disagree")
        self.begun_anew(told)
        del locked[0]["tool"], locked[1]["tool"]
        self.assertEqual((self.locked("one"), self.locked("two")), locked)

    def check_older(self, told):
        """The commit that is told has the journal, and who begins anew keeps what is locked."""
        locked = self.locked()
        log = next(command for command in self.commands(told) if " log " in command)
        commit = self.follow(log).strip()
        self.assertEqual(self.git("show", f"{commit}:./reqlock.journal").encode(), (self.folder / "reqlock.journal").read_bytes())
        self.assertEqual(self.git("rev-parse", "--short", "HEAD~1").strip(), commit)
        self.begun_anew(told)
        self.assertEqual(self.locked(), locked)

    def test_of_a_journal_that_was_not_committed(self):
        for words, word in (["upgrade"], "pylock.toml: files-disagree"), (["remove", "tool"], "requirements.txt: files-disagree"):
            with self.subTest(words=words):
                shutil.rmtree(self.outside / "one", ignore_errors=True)
                self.begin_old()
                self.assertEqual(self.call(*words), (0, "ok 1\n"))
                self.git("add", "requirements.txt", "pylock.toml")
                self.git("commit", "--quiet", "--message=without the journal")
                self.git("checkout", "reqlock.journal")
                told = self.advised(word)
                self.assertIn("is older where it wasn't committed or staged with ", told)
                self.check_older(told)

    def test_of_files_that_are_not_staged(self):
        """A hook sees what is staged."""
        for names in ["requirements.txt"], ["requirements.txt", "pylock.toml"], ["pylock.toml"], ["reqlock.journal"]:
            with self.subTest(names=names):
                shutil.rmtree(self.outside / "one", ignore_errors=True)
                self.begin_old()
                self.assertEqual(self.call("remove", "tool"), (0, "ok 1\n"))
                self.git("add", *names)
                self.git("stash", "--keep-index", "--quiet")
                told = self.advised("files-disagree")
                self.git("reset", "--hard", "--quiet")
                self.git("stash", "pop", "--quiet")
                self.follow(next(command for command in self.commands(told) if " add " in command))
                self.check_whole(1)

    def test_that_the_tool_says_so_too(self):
        self.begin_old()
        self.assertEqual(self.call("remove", "tool"), (0, "ok 1\n"))
        self.git("checkout", "reqlock.journal")
        status, output, said = self.merge()
        self.assertEqual((status, output), (1, ""))
        self.assertTrue(said.endswith("stage the newer one, or begin anew: reqlock init --pins pylock.toml\n"), said)
