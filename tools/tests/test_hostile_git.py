"""Tests of tools/merge.py in a checkout that comes from others and wants to do harm: no program of a folder is run, tags are no heads of
git, and long histories and large old versions take little time and memory."""

import hashlib
import json
import resource
import time
import unittest
from unittest import mock

from support.checkouts import NOTHING, Checkouts
from test_merge import LINES, RELEASES

from reqlock_tools import merge_git, merge_sides
from reqlock_tools.merge_git import Checkout
from reqlock_tools.merge_sides import Journal, saved
from reqlock_tools.refusal import Refusal

SECONDS = 60
MEGABYTE = 2**20
HEADS = "MERGE_HEAD", "REVERT_HEAD", "CHERRY_PICK_HEAD", "REBASE_HEAD"
ATTACK = '[core]\n\trepositoryformatversion = 0\n\tbare = {bare}\n\tworktree = .\n\tfsmonitor = "{run}"\n[filter "x"]\n\tclean = "{run}; cat"\n'


class Programs(Checkouts):
    """Nothing runs that a folder names."""

    def setUp(self):
        super().setUp()
        self.begin_clone(LINES, *RELEASES)
        self.mark = self.outside / "PWNED"

    def check_nothing_ran(self):
        for words in ["--dry-run"], []:
            self.merge(*words)
            self.assertFalse(self.mark.exists())

    def test_of_a_committed_folder_that_is_itself_a_git_directory(self):
        (self.folder / "requirements.txt").write_bytes(b"web<2\n")
        (self.folder / ".gitattributes").write_bytes(b"* filter=x\n")
        for name in "objects", "refs":
            (self.folder / name).mkdir()
        (self.folder / "HEAD").write_bytes(b"ref: refs/heads/main\n")
        (self.folder / "index").write_bytes((self.folder.parent / ".git" / "index").read_bytes())
        for bare in "true", "false":
            (self.folder / "config").write_text(ATTACK.format(bare=bare, run=f"touch {self.mark}"), encoding="utf-8")
            self.check_nothing_ran()
        self.assertIn("it stands in no git checkout", self.merge()[2])

    def test_that_watches_files(self):
        (self.folder / "requirements.txt").write_bytes(b"web<2\n")
        self.git("config", "core.fsmonitor", f"touch {self.mark}")
        self.check_nothing_ran()
        self.assertEqual(self.call("check"), (0, "ok 1\n"))


class Tags(Checkouts):
    def test_are_no_heads_of_git(self):
        self.begin_clone(LINES, *RELEASES)
        self.on_branch("other", ("constrain", "web"), ("upgrade",))
        for name in HEADS:
            self.git("tag", name, "other")
        self.assertEqual(self.merge(), (0, NOTHING, ""))
        (self.folder / "requirements.txt").write_bytes(b"# app\nweb\n\n# tools\n")
        told = "ok 1\n- 2: web<3\n+ 2: web\n"
        self.assertEqual(self.merge("--dry-run"), (0, told, ""))
        for name in HEADS:
            self.git("branch", name, "other")
        self.assertEqual(self.merge("--dry-run"), (0, told, ""))

    def test_do_not_stand_in_for_a_merge_in_progress(self):
        self.begin_clone(LINES, *RELEASES)
        self.on_branch("other", ("constrain", "web"), ("upgrade",))
        self.edit("add", "tool<2")
        for name in HEADS:
            self.git("tag", name, "main")
        self.git("merge", "other", fails=True)
        self.assertEqual(self.merge()[:2], (0, "ok 2\nthis side: tool 1\nother side: web 3 (here 2)\n"))


class Old(Checkouts):
    """Old versions of a file in a small checkout can be large."""

    def setUp(self):
        super().setUp()
        self.begin_clone(LINES, *RELEASES)
        for number in range(8):
            (self.folder / "requirements.txt").write_bytes(b"\0" * (16 * MEGABYTE + number))
            self.commit("large")
        (self.folder / "requirements.txt").write_bytes(b"web\n")

    def test_are_held_one_at_a_time(self):
        def limit():
            resource.setrlimit(resource.RLIMIT_AS, (128 * MEGABYTE, 128 * MEGABYTE))

        self.assertEqual(self.merge("--dry-run", before=limit), (0, "ok 1\n- 1: # app\n- 2: web<3\n- 3: \n- 4: # tools\n+ 1: web\n", ""))

    def test_are_each_looked_at_once(self):
        for number in range(3):
            self.git("commit", "--quiet", "--allow-empty", "--message=none")
        checkout, sizes = Checkout(str(self.folder)), []
        content = checkout.content
        with mock.patch.object(checkout, "content", side_effect=lambda place, blob: (sizes.append(blob.size), content(place, blob))[1]):
            self.assertIsNone(saved(checkout, "requirements.txt", "0" * 64, ["HEAD", "HEAD", "main"]))
        self.assertEqual((len(sizes), len(set(sizes))), (9, 9))

    def test_have_bounds_that_are_told(self):
        digest = hashlib.sha256(LINES).hexdigest()
        for name, bound, fault in (
            ("LARGEST_VERSION", 16 * MEGABYTE, r"HEAD:./requirements.txt: it has over 16777216 bytes"),
            ("MOST_BYTES", 40 * MEGABYTE, r"[0-9a-f]{40}:./requirements.txt: the versions up to this one have over 41943040 bytes"),
        ):
            with self.subTest(name=name), mock.patch.object(merge_git, name, bound):
                with self.assertRaisesRegex(Refusal, f"^{fault}$"):
                    saved(Checkout(str(self.folder)), "requirements.txt", digest, ["HEAD"])


class Long(unittest.TestCase):
    """Of a history with very many steps, over very many lines, the first lines are found soon."""

    def journal(self, steps):
        rows = [json.dumps({"lines": splices}) for splices in steps]
        return Journal("\n".join(["{}", *rows, ""]).encode(), "", {}, {}, len(rows))

    def test_the_first_lines(self):
        begun = [b"a\n", b"b\n", b"c\n", b"d\n"]
        steps = [[0, ["a\n"], []], [2, ["c\n"], ["x\n", "y\n", "z\n"]]], [[4, ["d\n"], []]], [[1, ["x\n"], ["X\n"]], [3, ["z\n"], []]]
        self.assertEqual(self.journal(steps).first_lines(b"b\nX\ny\n"), begun)

    def test_are_found_soon(self):
        lines, steps = 250_000, 12_000
        begun = [b"x\n", *[b"a\n"] * lines]
        edits = [[[0, [] if number % 2 else ["x\n"], ["x\n"] if number % 2 else []]] for number in range(steps)]
        start = time.monotonic()
        with mock.patch.object(merge_sides, "MOST_MOVED", 10**12):
            self.assertEqual(self.journal(edits).first_lines(b"".join(begun)), begun)
        self.assertLess(time.monotonic() - start, SECONDS)
        with self.assertRaisesRegex(Refusal, "^reqlock.journal: its steps move over 1000000000 lines: --ours or --theirs tells whose history"):
            self.journal(edits).first_lines(b"".join(begun))


if __name__ == "__main__":
    unittest.main()
