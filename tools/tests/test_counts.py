"""Tests of the last line of `python3 tools/tests`, over a folder with tests of each kind, as unittest and as pytest runs them."""

import importlib.util
import os
import subprocess
import sys
import unittest

from support.places import TESTS, new_folder

SAMPLE = """
import unittest

class Each(unittest.TestCase):
    def test_passes(self):
        with self.subTest(a=1):
            pass
    @unittest.skip("there is no zsh")
    def test_lacks(self): pass
    @unittest.skip("optional: only root can")
    def test_is_optional(self): pass
    @unittest.skip("the program isn't built")
    def test_needs_the_program(self): pass
    def test_lacks_a_part(self):
        with self.subTest(a=1):
            self.skipTest("there is no fish")

class Whole(unittest.TestCase):
    @classmethod
    def setUpClass(cls):
        raise unittest.SkipTest("there is no dask")
    def test_one(self): pass
    def test_two(self): pass
"""
BROKEN = """
import unittest

class Broken(unittest.TestCase):
    def test_fails(self):
        print("what it printed")
        self.fail()
    def test_fails_in_two_parts(self):
        for part in 1, 2:
            with self.subTest(part=part):
                self.fail()
    @unittest.expectedFailure
    def test_fails_as_expected(self):
        self.fail()
    @unittest.expectedFailure
    def test_passes_unexpectedly(self): pass

class NotBegun(unittest.TestCase):
    @classmethod
    def setUpClass(cls):
        raise ValueError
    def test_one(self): pass
    def test_two(self): pass

class NotEnded(unittest.TestCase):
    @classmethod
    def tearDownClass(cls):
        raise ValueError
    def test_one(self): pass
    def test_two(self): pass
"""
NOT_READ = "import nothing_of_this_name\n"
KILLED = """
import os
import signal
import unittest

class Killed(unittest.TestCase):
    def test_first(self): pass
    def test_kills(self):
        os.kill(os.getpid(), signal.SIGKILL)
    def test_last(self): pass
"""
SECONDS = 600


def has_pytest() -> bool:
    return all(map(importlib.util.find_spec, ("pytest", "xdist")))


class Counted(unittest.TestCase):
    """A test that runs others."""

    words: tuple[str, ...] = "--by", "unittest"

    def counted(self, text: str, **variables: str) -> tuple[int, list[str]]:
        """The status, and the lines."""
        folder = new_folder(self.addCleanup)
        (folder / "test_sample.py").write_text(text, encoding="utf-8")
        kept = {name: value for name, value in os.environ.items() if name not in ("REQUIRE_ALL", "WITHOUT_PROGRAM")}
        done = subprocess.run(
            [sys.executable, "-B", TESTS, *self.words, folder], env={**kept, **variables}, capture_output=True, encoding="utf-8",
            check=False, timeout=SECONDS,
        )
        return done.returncode, done.stdout.splitlines()


class Counts(Counted):
    def test_have_what_is_skipped(self):
        status, lines = self.counted(SAMPLE)
        self.assertEqual((status, lines[-1]), (0, "1 passed, 0 failed, 6 skipped"))
        self.assertEqual(sum(line.startswith("skipped: ") for line in lines), 6)

    def test_have_it_as_a_failure_where_all_is_required(self):
        status, lines = self.counted(SAMPLE, REQUIRE_ALL="1")
        self.assertEqual((status, lines[-1]), (1, "1 passed, 5 failed, 1 skipped"))
        told = [line for line in lines if line.startswith("FAILED, as it was skipped: ")]
        self.assertEqual(len(told), 5)
        self.assertTrue(any(line.endswith(": there is no zsh") for line in told))

    def test_leave_out_what_needs_the_program(self):
        self.assertEqual(self.counted(SAMPLE, WITHOUT_PROGRAM="1")[1][-1], "1 passed, 0 failed, 5 skipped")
        self.assertEqual(self.counted(SAMPLE, WITHOUT_PROGRAM="1", REQUIRE_ALL="1")[1][-1], "1 passed, 4 failed, 1 skipped")

    def test_have_each_failure(self):
        status, lines = self.counted(BROKEN)
        self.assertEqual((status, lines[-1]), (1, "1 passed, 6 failed, 0 skipped"))
        self.assertEqual(
            sorted(line.removeprefix("FAILED: test_sample.") for line in lines[-7:-1]),
            ["Broken.test_fails", "Broken.test_fails_in_two_parts", "Broken.test_passes_unexpectedly", "NotBegun.test_one",
             "NotBegun.test_two", "NotEnded.test_two"],
        )
        self.assertIn("what it printed", lines)

    def test_have_a_file_that_cannot_be_read(self):
        status, lines = self.counted(NOT_READ)
        self.assertEqual((status, lines[-2:]), (1, ["FAILED: test_sample", "0 passed, 1 failed, 0 skipped"]))


@unittest.skipUnless(has_pytest(), "python3 has no pytest with xdist: apt-get install python3-pytest python3-pytest-xdist")
class CountsOfPytest(Counts):
    words = "--by", "pytest", "--workers", "1"


@unittest.skipUnless(has_pytest(), "python3 has no pytest with xdist: apt-get install python3-pytest python3-pytest-xdist")
class CountsOfProcesses(Counted):
    words = "--by", "pytest", "--workers", "2"

    def test_have_what_is_skipped(self):
        status, lines = self.counted(SAMPLE, REQUIRE_ALL="1")
        self.assertEqual((status, lines[-1]), (1, "1 passed, 5 failed, 1 skipped"))

    def test_have_a_test_that_kills_its_process(self):
        status, lines = self.counted(KILLED)
        self.assertEqual((status, lines[-2:]), (1, ["FAILED: test_sample.Killed.test_kills", "2 passed, 1 failed, 0 skipped"]))


if __name__ == "__main__":
    unittest.main()
