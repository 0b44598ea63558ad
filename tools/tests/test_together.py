"""Calls of the program at the same time, and calls that are stopped. 300 calls are stopped, or 3,000 with LONG_TESTS=1."""

import itertools
import json
import shutil
import subprocess
import time
import unittest
from collections import Counter

from support.made.chance import drawing
from support.made.environments import LINUX, WINDOWS
from support.made.releases import index_of
from support.places import IS_LONG, PROGRAM
from support.program import Fifty, limited

NAMES = Fifty.NAMES
STOPS = 3000 if IS_LONG else 300


class Together(Fifty):
    def test_fifty_calls_wait_for_one_another(self):
        self.begin_all()
        first = self.files()
        calls = [self.start("add", name) for name in NAMES]
        outputs = [call.communicate()[0] for call in calls]
        self.assertEqual([call.returncode for call in calls], [0] * 50)
        self.assertEqual(sorted(outputs), sorted(f"ok {place}\n" for place in range(1, 51)))
        last = self.files()
        self.assertEqual(sorted(last), sorted(self.names()))
        lines = last["requirements.txt"].decode().split("\r\n")
        self.assertEqual(sorted(lines[1:-1]), NAMES)
        status, log = self.call("log")
        self.assertEqual((status, log.count("\n")), (0, 51))
        for place in reversed(range(50)):
            self.assertEqual(self.call("undo"), (0, f"ok {place}\n"))
        undone = self.files()
        self.assertEqual([undone[name] for name in self.names()[:-1]], [first[name] for name in self.names()[:-1]])
        for place in range(1, 51):
            self.assertEqual(self.call("redo"), (0, f"ok {place}\n"))
        self.assertEqual(self.files(), last)

    def test_readers_see_files_that_belong_together(self):
        self.begin_all()
        calls = []
        for name in NAMES[:20]:
            calls += [self.start(*words) for words in (["add", name], ["check"], ["show"], ["log"], ["batch"])]
        for call in calls:
            output = call.communicate()[0]
            self.assertEqual(call.returncode, 0, output)
        self.assertEqual(self.call("check"), (0, "ok 20\n"))
        self.assertEqual(sorted(self.files()), sorted(self.names()))

    def test_try_waits_for_nothing(self):
        self.begin_all()
        waiting = subprocess.Popen(
            [PROGRAM, *self.options(), "batch"],
            stdin=subprocess.PIPE, stdout=subprocess.PIPE, encoding="utf-8",
        )
        waiting.stdin.write("undo\n")
        waiting.stdin.flush()
        # it has the folder once it replies
        self.assertEqual(waiting.stdout.readline(), "refused nothing-to-undo\n")
        self.assertEqual(self.call("try", text="add p01\n"), (0, "ok 1\n# fifty\np01\n"))
        others = [self.start("add", "p02"), self.start("check")]
        time.sleep(0.2)
        self.assertEqual([call.poll() for call in others], [None, None])
        self.assertEqual(waiting.communicate("add p03\n")[0], "ok 1\n")
        self.assertEqual(waiting.returncode, 0)
        self.assertEqual([call.communicate()[0] for call in others][0], "ok 2\n")


class Stopped(Fifty):
    stops = STOPS

    def after(self, words):
        """What a folder with the same files holds once the command is done."""
        copy = self.outside / "copy"
        shutil.copytree(self.folder, copy)
        call = self.start(*words, folder=copy)
        output = call.communicate()[0]
        files = {path.name: path.read_bytes() for path in copy.iterdir()}
        shutil.rmtree(copy)
        self.assertEqual(call.returncode, 0, output)
        return files

    def command(self, chance):
        """A command that changes something, drawn by chance."""
        present = (self.folder / "requirements.txt").read_text(encoding="utf-8").split()[2:]
        absent = [name for name in NAMES if name not in present]
        drawn = [["add", chance.choice(absent)]] if absent else []
        if present:
            drawn += [["remove", chance.choice(present)], ["undo"]]
        if len(present) > 8:
            del drawn[0]
        return chance.choice(drawn)

    def usual(self):
        """How long a command takes."""
        times = []
        for words in ["add", "p00"], ["undo"], ["redo"]:
            start = time.monotonic()
            self.assertEqual(self.call(*words)[0], 0)
            times.append(time.monotonic() - start)
        return max(times)

    def healed(self, before, after):
        """What the files were when the call stopped; then the next call that saves makes them whole."""
        contents = {name: content for name, content in self.files().items() if name in self.names()}
        self.assertEqual(sorted(contents), sorted(self.names()))
        status, output = self.call("check")
        if contents in (before, after):
            self.assertEqual(status, 0, output)
        else:
            self.assertEqual(status, 4, output)
            self.assertTrue(output.endswith(": files-disagree\n"), output)
            for name, content in contents.items():
                self.assertIn(content, (before[name], after[name]))
        self.assertEqual(self.call("relock"), (0, "same\n"))
        self.assertIn(self.files(), (before, after))
        return "before" if contents == before else "after" if contents == after else "between"

    def test_a_call_that_is_killed_leaves_what_the_next_one_heals(self):
        chance = drawing(4)
        self.begin_all()
        usual = self.usual()
        came = Counter()
        for _ in range(self.stops):
            if self.call("undo")[0] == 0 and chance.random() < 0.5:
                self.call("redo")
            words = self.command(chance)
            before = self.files()
            after = self.after(words)
            call = self.start(*words)
            time.sleep(chance.random() * 1.3 * usual)
            call.kill()
            call.communicate()
            with self.subTest(words=words):
                came[self.healed(before, after)] += 1
        print(f"{self.stops} calls stopped: " + ", ".join(f"{count} {where}" for where, count in sorted(came.items())))

    def sides(self):
        """The files before and after an edit that changes all three."""
        self.begin_all()
        return self.around("add", "p01", reply="ok 1\n")

    def around(self, *words, text="", reply):
        """The files before and after a call."""
        before = self.files()
        self.assertEqual(self.call(*words, text=text), (0, reply))
        return before, self.files()

    def stop(self, before, after, left):
        """Makes the files those of a save that was stopped when these were left beside. The others are in their places."""
        changed = [name for name in self.names() if before[name] != after[name]]
        moved = {name: after[name] for name in changed if name not in left}
        self.put(before | moved | {f"{name}.new": after[name] for name in left})

    def check_healed(self, before, after):
        """Whichever files were left, but all, the next call that saves ends the save."""
        changed = [name for name in self.names() if before[name] != after[name]]
        for left in itertools.chain.from_iterable(itertools.combinations(changed, count) for count in range(1, len(changed))):
            with self.subTest(left=left):
                self.stop(before, after, left)
                stopped = self.files()
                self.assertEqual(self.call("check")[0], 4)
                self.assertEqual(self.files(), stopped)
                self.assertEqual(self.call("remove", "p99"), (1, "refused not-present\n"))
                self.assertEqual(self.files(), after)

    def test_a_save_that_stopped_between_two_files_is_ended(self):
        before, after = self.sides()
        names = self.names()
        for moved in range(len(names) + 1):
            with self.subTest(moved=moved):
                stopped = before | {name: after[name] for name in names[:moved]}
                self.put(stopped | {f"{name}.new": after[name] for name in names[moved:]})
                left = self.files()
                if 0 < moved < len(names):
                    self.assertEqual(self.call("check"), (4, "reqlock: requirements.txt: files-disagree\n"))
                    self.assertEqual(self.files(), left)
                self.assertEqual(self.call("relock"), (0, "same\n"))
                self.assertEqual(self.files(), after if moved else before)

    def test_the_answer_is_that_of_the_healed_files(self):
        before, after = self.sides()
        left = {f"{name}.new": after[name] for name in self.names()[1:]}
        self.put(before | {"requirements.txt": after["requirements.txt"]} | left)
        self.assertEqual(self.call("add", "p01"), (1, "refused already-present\n"))
        self.assertEqual(self.files(), after)

    def test_files_that_nothing_makes_whole_stay(self):
        before, after = self.sides()
        lock = self.names()[1]
        for others in {}, {f"{lock}.new": after[lock]}:
            self.put(before | {"requirements.txt": after["requirements.txt"]} | others)
            left = self.files()
            # (without a file beside, the requirements file may as well have been changed by hand, and show tells the lock)
            for words in ["relock"], ["undo"], ["check"], *([["show"]] if others else []):
                self.assertEqual(self.call(*words), (4, "reqlock: requirements.txt: files-disagree\n"))
            self.assertEqual(self.files(), left)

    def test_a_first_save_that_stopped_is_ended(self):
        before, _ = self.sides()
        requirements = {"requirements.txt": before["requirements.txt"]}
        names = self.names()
        for moved in range(1, len(names)):
            stopped = requirements | {name: before[name] for name in names[1:moved]}
            self.put(stopped | {f"{name}.new": before[name] for name in names[moved:]})
            self.assertEqual(self.call("check"), (4, "reqlock: reqlock.journal: unreadable\n"))
            self.assertEqual(self.call("relock"), (0, "same\n"))
            self.assertEqual(self.files(), before)

    def test_whichever_files_are_left_the_save_is_ended(self):
        # a system may make a later name last before an earlier one
        self.check_healed(*self.sides())
        self.check_healed(*self.around("undo", reply="ok 0\n"))
        self.check_healed(*self.around("redo", reply="ok 1\n"))
        self.check_healed(*self.around("batch", text="add p02\nadd p03\n", reply="ok 2\nok 3\n"))

    def test_a_save_of_two_files_is_ended(self):
        self.begin(b"p01\n", ("p01", "1", []))
        self.assertEqual(self.call("init"), (0, "ok 0\n"))
        (self.outside / "index.json").write_text(json.dumps(index_of(("p01", "1", []), ("p01", "2", []))), encoding="utf-8")
        before, after = self.around("upgrade", reply="ok 1\n")
        self.assertEqual(before["requirements.txt"], after["requirements.txt"])
        self.check_healed(before, after)
        # none of them was put into its place
        self.stop(before, after, self.names()[1:])
        self.assertEqual(self.call("remove", "p99"), (1, "refused not-present\n"))
        self.assertEqual(self.files(), before)

    def test_requirements_that_were_changed_by_hand_stay(self):
        before, after = self.sides()
        names = self.names()
        for left in names[:1], names[:2], [names[0], names[-1]], names:
            with self.subTest(left=left):
                self.stop(before, after, left)
                (self.folder / "requirements.txt").write_bytes(b"# by hand\r\n")
                stopped = self.files()
                for words in ["relock"], ["undo"], ["check"]:
                    self.assertEqual(self.call(*words), (4, "reqlock: requirements.txt: files-disagree\n"))
                self.assertEqual(self.files(), stopped)
                self.assertEqual(self.call("init"), (0, "ok 0\n"))
                self.assertEqual(self.files()["requirements.txt"], b"# by hand\r\n")
                self.assertEqual(sorted(self.files()), sorted(self.names()))

    def test_a_new_history_that_cannot_be_saved_leaves_the_old_one(self):
        before, after = self.sides()
        names = self.names()
        for left in names[1:], names[2:], names[:1]:
            with self.subTest(left=left):
                self.stop(before, after, left)
                self.assertEqual(self.call("init", before=limited(0)), (5, f"reqlock: {names[1]}: write failed\n"))
                self.assertEqual(self.call("relock"), (0, "same\n"))
                self.assertEqual(self.files(), after)
                self.assertEqual(self.call("init"), (0, "ok 0\n"))
                self.assertEqual(self.files()["requirements.txt"], after["requirements.txt"])
                self.assertEqual(sorted(self.files()), sorted(self.names()))

    def test_a_new_history_leaves_nothing_beside(self):
        before, after = self.sides()
        self.put(before | {f"{name}.new": after[name] for name in self.names()})
        self.assertEqual(self.call("init"), (0, "ok 0\n"))
        self.assertEqual(self.files(), before)


class TogetherWithTargets(Together):
    environments = {"linux": LINUX, "win": WINDOWS}


class StoppedWithTargets(Stopped):
    """The same of saves of four files."""

    environments = {"linux": LINUX, "win": WINDOWS}
    stops = STOPS // 3


if __name__ == "__main__":
    unittest.main()
