"""Two clones of drawn days of edits, which git and tools/merge.py merge from both sides: they come to the same locks."""

import shutil
import subprocess
import unittest

from support.checkouts import NOTHING, Checkouts
from support.made.environments import LINUX
from support.made.sessions import Draw
from support.places import IS_LONG
from support.rules.locks import Problem, best_solution, is_solution, read_index
from support.rules.pins import newer_of
from support.rules.requirements import cut_lines, order_key, read_version
from test_merge import LINES, RELEASES

DAYS = 20 if IS_LONG else 3


class Days(Checkouts):
    """Two clones, each with a drawn day of edits, merged in both directions."""

    def test_drawn_days(self):
        merged = 0
        for seed in range(DAYS):
            with self.subTest(seed=seed):
                merged += self.play(Draw(seed))
        self.assertGreater(merged, 0)

    def play(self, draw):
        for name in "one", "two":
            shutil.rmtree(self.outside / name, ignore_errors=True)
        self.begin_clone(LINES, *RELEASES)
        shutil.copytree(self.outside / "one", self.outside / "two")
        ours = self.day("one", draw)
        theirs = self.day("two", draw)
        if not ours or not theirs:
            return 0
        own = {}
        for name, other in ("one", "two"), ("two", "one"):
            self.clone_of(name)
            own[name] = self.files(), self.locked()
            self.git("fetch", "--quiet", self.outside / other, "main:theirs")
        merged = [self.merge_in(name, own) for name in ("one", "two")]
        self.assertEqual(merged[0], merged[1])
        return merged[0] is not None

    def day(self, name, draw):
        """A few edits that are accepted, each a commit."""
        self.clone_of(name)
        count = 0
        for _ in range(3):
            word = draw.one(("web", "base", "tool", "aid"))
            text = draw.one(("", "<3", ">=2", "<2", "!=2"))
            words = draw.one((["add", word + text], ["constrain", word, text], ["remove", word], ["upgrade"], ["upgrade", word]))
            if self.call(*words)[1].startswith("ok"):
                self.commit(" ".join(words))
                count += 1
        return count

    def merge_in(self, name, own):
        """The lock that a clone comes to; None where its lines have none. The lines are those of both, by the rules of `union`."""
        self.clone_of(name)
        done = subprocess.run(["git", "merge", "theirs"], cwd=self.folder, env=self.variables, capture_output=True, check=False)
        if done.returncode != 0:
            (self.folder / "requirements.txt").write_bytes(self.joined(own))
        status, output, errors = self.merge()
        if status == 3:
            return None
        self.assertEqual(status, 0, errors)
        lock = self.locked()
        if output != NOTHING:
            self.check_lock(lock, name, own)
            self.assertEqual(self.call("check")[0], 0)
            self.assertEqual(self.call("undo")[0], 0)
            files = self.files()
            for file in "requirements.txt", "pylock.toml":
                self.assertEqual(files[file], own[name][0][file])
        return lock

    @staticmethod
    def joined(own):
        """The lines of both clones, each name once; of two lines on a name the lesser one."""
        lines = {line for files, _ in own.values() for line in files["requirements.txt"].splitlines(keepends=True) if line.strip()}
        kept = {}
        for line in sorted(lines):
            kept.setdefault(line[:3], line)
        return b"".join(kept.values())

    def check_lock(self, lock, name, own):
        """The lock is what the rules make of the lines and both sides' pins. No entry is newer than on both sides where the newer pin of
        both would do."""
        index = read_index((self.outside / "index.json").read_bytes())
        sides = sorted(own.values(), key=lambda side: side is not own[name])
        pins = [{package: read_version(version) for package, version in locked.items()} for _, locked in sides]
        kept = newer_of(pins[0], pins[1].items(), index)
        problem = Problem(cut_lines((self.folder / "requirements.txt").read_text(encoding="utf-8")), LINUX, index, kept)
        chosen = {package: problem.place_of(package, order_key(read_version(version))) for package, version in lock.items()}
        self.assertEqual(chosen, best_solution(problem))
        for package in chosen.keys() & kept.keys():
            other = {**chosen, package: problem.place_of(package, order_key(kept[package]))}
            self.assertFalse(chosen[package] < other[package] and is_solution(problem, other), package)


if __name__ == "__main__":
    unittest.main()
