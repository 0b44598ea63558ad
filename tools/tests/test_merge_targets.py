"""Tests of tools/merge.py where one side locks for other targets than the other one: whose history goes on is said, and the locks of the other
one go, but for what somebody wrote in their place."""

import unittest

from support.checkouts import Checkouts
from support.made.environments import LINUX, OLDER, WINDOWS

RELEASES = ("web", "1", ["base"]), ("web", "2", ["base"]), ("base", "1", []), ("tool", "1", []), ("tool", "2", [])
LINES = b"web<2\ntool<2\n"
ALONE, BOTH = {"": LINUX}, {"linux": LINUX, "windows": WINDOWS}
REFUSAL = (
    "the other side locks for other targets ({}); type merge.py --ours to go on with the history of this side, --theirs with that of the other."
    " Its pins count for targets of the same name or environment\n"
)


class Targets(Checkouts):
    def begin_two(self, there):
        """A merge that stops: another bound on this side, and other targets on the other."""
        self.begin_clone(LINES, *RELEASES)
        self.git("checkout", "--quiet", "-b", "other")
        self.lock_for(there)
        self.edit("retarget")
        self.git("checkout", "--quiet", "main")
        self.lock_for(ALONE)
        self.edit("constrain", "web")
        self.edit("upgrade", "web")
        self.merge_again()

    def merge_again(self):
        self.git("reset", "--quiet", "--hard")
        self.git("merge", "other", fails=True)
        (self.folder / "requirements.txt").write_bytes(b"web\ntool<2\n")

    def test_this_side_goes_on_and_is_retargeted_then(self):
        self.begin_two(BOTH)
        self.check_refused(REFUSAL.format("linux, windows; here: the one without a name"))
        before = self.everything()
        for words in ("--ours", "--dry-run"), ("--ours",):
            self.assertEqual(self.everything(), before)
            self.assertEqual(self.merge(*words), (0, "same\nthis side: web 2 (there 1)\n", ""))
        self.check_whole(2)
        self.git("commit", "--quiet", "--message=merged")
        self.lock_for(BOTH)
        self.edit("retarget")
        self.check_whole(3)
        self.assertEqual([self.locked(name) for name in BOTH], [{"base": "1", "tool": "1", "web": "2"}] * 2)

    def test_the_other_side_goes_on_with_the_pins_of_the_same_environment(self):
        self.begin_two(BOTH)
        told = "".join(f"windows: this side: {pin}\n" for pin in ("base 1", "tool 1", "web 1"))
        self.assertEqual(self.merge("--theirs"), (0, f"ok 2\nlinux: other side: web 2 (here 1)\n{told}", ""))
        self.lock_for(BOTH)
        self.check_whole(2)

    def test_another_environment_under_the_same_name(self):
        self.begin_two({"": OLDER})
        self.check_refused(REFUSAL.format("other environments under the same names"))
        self.assertEqual(self.merge("--theirs"), (0, "ok 2\nother side: web 2 (here 1)\n", ""))
        self.check_whole(2)

    def test_what_somebody_wrote_in_the_place_of_a_lock_stays(self):
        self.begin_two({"": LINUX, "windows": WINDOWS})
        lock = self.folder / "pylock.windows.toml"
        for put in lambda: lock.write_bytes(b"mine\n"), lambda: lock.symlink_to("nowhere"):
            self.merge_again()
            lock.unlink()
            put()
            self.assertEqual(self.merge("--ours")[0], 0)
            self.assertTrue(lock.is_symlink() or lock.read_bytes() == b"mine\n")
            self.assertEqual(self.call("check")[0], 0)
            self.assertEqual(self.git("ls-files", "--unmerged"), "")
        self.merge_again()
        self.assertEqual(self.merge("--ours")[0], 0)
        self.check_whole(2)

    def test_a_revert_of_other_targets(self):
        self.begin_clone(LINES, *RELEASES)
        self.lock_for(BOTH)
        self.edit("retarget")
        self.edit("constrain", "web")
        self.git("revert", "--no-edit", "HEAD~1", fails=True)
        self.check_refused(REFUSAL.format("the one without a name; here: linux, windows"))
        self.assertEqual(self.merge("--theirs")[0], 0)
        self.lock_for(ALONE)
        self.check_whole(1)


if __name__ == "__main__":
    unittest.main()
