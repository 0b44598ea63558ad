"""Tests of `forget`: a history without its first steps, its files by the rules of journals, what is refused, and that what is there goes on."""

import json
import random
import shutil
import subprocess
import unittest

from support.made.environments import LINUX, WINDOWS
from support.made.journals import compact
from support.places import SUPPORT
from support.program import FILES, Program
from support.rules.journals import opens_in

SESSIONS = SUPPORT / "saved_sessions"
JOURNAL = "reqlock.journal"
RELEASES = ("a", "1", []), ("a", "2", []), ("b", "1", ["d"]), ("c", "1", []), ("d", "1", []), ("d", "2", [])
NEED = "--before or --keep is needed"
TOGETHER = "the argument '--before <N>' cannot be used with one or more of the other specified arguments"


class Forget(Program):
    """A history that stands at place 3 of 5, and its states."""

    STEPS = ["add", "b  # why"], ["constrain", "a", "<2"], ["add", "c"], ["remove", "b"], ["upgrade"]

    def setUp(self):
        super().setUp()
        self.begin(b"# web\r\na>=1\r\n", *RELEASES)
        self.assertEqual(self.call("init"), (0, "ok 0\n"))
        self.states = [self.state()]
        for place, words in enumerate(self.STEPS[:4], 1):
            self.plays((words, 0, f"ok {place}\n"))
            self.states.append(self.state())
        self.plays((["add", "a<2", "-q"], 1, "refused already-present\n"), (["constrain", "a", ""], 0, "ok 5\n"))
        self.states.append(self.state())
        self.plays((["undo"], 0, "ok 4\n"), (["undo"], 0, "ok 3\n"))
        self.before = self.files()

    def state(self):
        """The files of the present state."""
        return {name: data for name, data in self.files().items() if name != JOURNAL}

    def lines(self):
        """The header of the journal, and the lines of its steps."""
        head, *steps = (self.folder / JOURNAL).read_bytes().splitlines(keepends=True)
        return json.loads(head), steps

    def forgotten(self, count):
        """The files of the history without so many of its first steps, by the rules of journals."""
        head, *steps = self.before[JOURNAL].splitlines(keepends=True)
        header = json.loads(head)
        shorter = header | {"cursor": header["cursor"] - count, "steps": header["steps"] - count}
        return self.before | {JOURNAL: compact(shorter) + b"".join(steps[count:])}

    def check_forgotten(self, count, *words):
        self.put(self.before)
        with self.subTest(words=words):
            self.assertEqual(self.told("forget", *words), (0, f"ok {3 - count}\n", ""))
            self.assertEqual(self.files(), self.forgotten(count))
            self.assertEqual(opens_in(self.files()), ("ok", 3 - count, 5 - count))

    def test_the_first_steps_go_and_all_else_stays(self):
        for count in 1, 2, 3:
            self.check_forgotten(count, "--before", str(count))
            self.check_forgotten(count, "--keep", str(3 - count))
            self.check_forgotten(count, f"--keep={3 - count}", "-v")
        self.assertLess(len(self.files()[JOURNAL]), len(self.before[JOURNAL]))

    def test_the_history_goes_on_from_there(self):
        for count in 1, 2, 3:
            self.check_forgotten(count, "--before", str(count))
            for place in reversed(range(3 - count)):
                self.plays((["undo"], 0, f"ok {place}\n"))
                self.assertEqual(self.state(), self.states[place + count])
            self.plays((["undo"], 1, "refused nothing-to-undo\n"))
            self.assertEqual(self.call("undo", "-v"), (1, "refused nothing-to-undo\nthere is nothing to undo\n"))
            for place in range(1, 6 - count):
                self.plays((["redo"], 0, f"ok {place}\n"))
                self.assertEqual(self.state(), self.states[place + count])
            self.plays((["redo"], 1, "refused nothing-to-redo\n"), (["add", "d<2"], 0, f"ok {6 - count}\n"), (["check"], 0, f"ok {6 - count}\n"))

    def test_log_and_diff_know_what_is_left(self):
        self.check_forgotten(2, "--before", "2")
        self.plays(
            (["log"], 0, "  0 init\n* 1 add c\n  2 remove b\n  3 constrain a\n"), (["diff"], 0, "+ 4: c\n+ c 1\n"),
            (["diff", "0", "2"], 0, "- 3: b  # why\n+ 3: c\n- b 1\n+ c 1\n- d 2\n"), (["diff", "4"], 2, "reqlock: the history has no place 4\n"),
        )
        self.assertIn(b"# web\r\na<2\r\nb  # why\r\n", [files["requirements.txt"] for files in self.states])

    def test_where_nothing_is_forgotten_nothing_is_saved(self):
        times = {path.name: path.stat().st_mtime_ns for path in self.folder.iterdir()}
        for words in ["--before", "0"], ["--keep", "3"], ["--keep=+3", "--dry-run"]:
            with self.subTest(words=words):
                self.assertEqual(self.told("forget", *words), (0, "same\n", ""))
                self.assertEqual(self.files(), self.before)
        self.assertEqual({path.name: path.stat().st_mtime_ns for path in self.folder.iterdir()}, times)

    def test_what_is_not_there_is_refused(self):
        for number in 4, 5, 6, 2**64 - 1:
            at, back = f"can't begin at place {number}", f"can't begin {number} before it"
            for option, told in ("--before", at), ("--keep", back):
                for more in [], ["--dry-run"], ["-v"], ["-q"]:
                    with self.subTest(option=option, number=number, more=more):
                        answer = self.told("forget", option, str(number), *more)
                        self.assertEqual(answer, (2, "", f"reqlock: the history stands at place 3, and {told}\n"))
        self.assertEqual(self.files(), self.before)

    def test_a_dry_run_saves_nothing(self):
        for words, reply in (["--before", "1"], "ok 2\n"), (["--keep", "0"], "ok 0\n"), (["--keep", "3"], "same\n"):
            for call in ["--dry-run", "forget", *words], ["forget", *words, "--dry-run"]:
                with self.subTest(call=call):
                    self.assertEqual(self.told(*call), (0, reply, ""))
                    self.assertEqual(self.files(), self.before)

    def test_words_that_are_no_request(self):
        for words, told in (
            ([], NEED), (["1"], "unexpected argument '1' found"), (["--before", "1", "--keep", "1"], TOGETHER),
            (["--keep", "1", "--before=1"], TOGETHER), (["--before", "x"], "invalid value 'x' for '--before <N>': "), (["--keep", "-1"], ""),
            (["--keep=-1"], "invalid value '-1' for '--keep <N>': "), (["--keep="], ""), (["--keep"], "a value is required for '--keep <N>'"),
            (["--keep", str(2**64)], f"invalid value '{2**64}' for '--keep <N>': "), (["--keep", "1", "--json"], "unexpected argument '--json' found"),
            (["--keep", "1", "--keep", "2"], "the argument '--keep <N>' cannot be used multiple times"),
        ):
            with self.subTest(words=words):
                status, output, errors = self.told("forget", *words)
                self.assertEqual((status, output), (2, ""), errors)
                self.assertTrue(errors.startswith(f"error: {told}"), errors)
        self.assertEqual(self.answered("--json", "--dir", self.folder, "forget", "--keep", "1")[0], 2)
        self.assertEqual(self.files(), self.before)

    def test_neither_index_nor_environment_is_needed(self):
        self.assertEqual(self.answered("--dir", self.folder, "forget", "--keep", "1"), (0, "ok 1\n", ""))
        self.assertEqual(self.files(), self.forgotten(2))

    def test_files_that_do_not_belong_together_are_told(self):
        (self.folder / "requirements.txt").write_bytes(b"a\n")
        self.before = self.files()
        for more in [], ["--dry-run"]:
            self.assertEqual(self.told("forget", "--keep", "1", *more), (4, "", "reqlock: requirements.txt: files-disagree\n"))
        self.assertEqual(self.files(), self.before)

    def test_a_save_that_was_stopped_is_ended_first(self):
        self.plays((["add", "d<2"], 0, "ok 4\n"))
        after = self.files()
        stopped = self.before | {"requirements.txt": after["requirements.txt"]} | {f"{name}.new": after[name] for name in FILES[1:]}
        self.put(stopped)
        # a rehearsal reads what stands there
        self.plays((["forget", "--before", "4", "--dry-run"], 4, "reqlock: requirements.txt: files-disagree\n"))
        self.assertEqual(self.files(), stopped)
        self.plays((["forget", "--before", "4"], 0, "ok 0\n"))
        self.before = after
        self.assertEqual(self.files(), self.forgotten(4))

    def test_a_save_of_its_own_that_was_stopped_is_mended(self):
        """It writes the journal alone: beside its place that is in the way of nothing."""
        after = self.forgotten(2)
        self.put(self.before | {f"{JOURNAL}.new": after[JOURNAL][:50]})
        self.plays((["check"], 0, "ok 3\n"), (["forget", "--before", "2"], 0, "ok 1\n"))
        self.assertEqual(self.files(), after)
        self.put(after | {f"{JOURNAL}.new": self.before[JOURNAL]})
        self.plays((["undo"], 0, "ok 0\n"), (["redo"], 0, "ok 1\n"))
        self.assertEqual(self.files(), after)

    def test_a_journal_of_version_1_is_saved_in_version_2(self):
        self.put({name: (SESSIONS / "edited" / name).read_bytes() for name in FILES})
        self.assertEqual(self.lines()[0]["journal"], 1)
        self.assertEqual(self.told("forget", "--before", "5"), (0, "ok 2\n", ""))
        header, steps = self.lines()
        self.assertEqual((header["journal"], len(steps), opens_in(self.files())), (2, 2, ("ok", 2, 2)))

    def test_a_batch_has_no_such_line(self):
        self.assertEqual(self.call("batch", text="forget --keep 1\n"), (0, "refused bad-command\n"))


class ForgetWithTargets(Forget):
    """The same of a history for two targets, one lock of which says nothing of a line."""

    environments = {"linux": LINUX, "win": WINDOWS}

    def test_log_and_diff_know_what_is_left(self):
        self.check_forgotten(2, "--before", "2")
        self.plays((["diff"], 0, "+ 4: c\ntarget linux\n+ c 1\ntarget win\n+ c 1\n"))

    def test_a_save_that_was_stopped_is_ended_first(self):
        pass

    def test_a_journal_of_version_1_is_saved_in_version_2(self):
        pass


class Drawn(Program):
    """Drawn commands, and in between them drawn beginnings."""

    COMMANDS = (
        ["add", "b"], ["add", "c"], ["add", "d"], ["remove", "b"], ["remove", "c"], ["constrain", "a", "<2"], ["constrain", "a"],
        ["constrain", "d", "<2"], ["undo"], ["undo"], ["redo"],
    )

    def test_each_state_is_one_of_the_whole_history(self):
        chance = random.Random(5)
        for _ in range(4):
            self.begin(b"a\r\n# end", *RELEASES)
            self.assertEqual(self.call("init"), (0, "ok 0\n"))
            whole = self.outside / "whole"
            whole.mkdir()
            front = 0
            shutil.copytree(self.folder, whole, dirs_exist_ok=True)
            for _ in range(14):
                front = self.draw(chance, whole, front)
            shutil.rmtree(whole)
            for path in self.folder.iterdir():
                path.unlink()

    def draw(self, chance, whole, front):
        """Does a command here and in a copy that forgets nothing, or forgets some steps here. It gives how many are forgotten so far."""
        if chance.random() < 0.3:
            place = int(self.call("check")[1].split()[1])
            count = chance.randrange(place + 1)
            words = chance.choice((["--before", str(count)], ["--keep", str(place - count)]))
            self.assertEqual(self.call("forget", *words), (0, f"ok {place - count}\n" if count else "same\n"))
            front += count
        else:
            words = chance.choice(self.COMMANDS)
            here = self.call(*words)
            there = subprocess.run([self.program, *self.options(whole), *words], capture_output=True, encoding="utf-8", check=False)
            if words == ["undo"] and here == (1, "refused nothing-to-undo\n"):
                self.assertEqual(there.stdout.split()[0], "ok" if front else "refused")
                if front:
                    subprocess.run([self.program, *self.options(whole), "redo"], stdout=subprocess.DEVNULL, check=True)
            else:
                self.assertEqual(here[0], there.returncode)
                self.assertEqual(here[1], told_from(there.stdout, front))
        for name in FILES[:2]:
            self.assertEqual((self.folder / name).read_bytes(), (whole / name).read_bytes())
        head, *steps = (whole / JOURNAL).read_bytes().splitlines(keepends=True)
        header = json.loads(head)
        shorter = header | {"cursor": header["cursor"] - front, "steps": header["steps"] - front}
        self.assertEqual((self.folder / JOURNAL).read_bytes(), compact(shorter) + b"".join(steps[front:]))
        return front


def told_from(reply, front):
    """The reply of a history that has so many more steps in front."""
    return f"ok {int(reply.split()[1]) - front}\n" if reply.startswith("ok ") else reply


if __name__ == "__main__":
    unittest.main()
