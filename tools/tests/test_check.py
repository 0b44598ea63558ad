"""Tests of ./check with an rt and a python3 that only print, so that neither the gate nor these tests run in it."""

import os
import shutil
import subprocess
import unittest

from support.places import TOP, new_folder

CHECK = TOP / "check"


class Check(unittest.TestCase):
    def setUp(self):
        self.folder = new_folder(self.addCleanup)
        for name in "bash", "cat", "dirname", "mktemp", "rm", "tail", "tee":
            os.symlink(shutil.which(name), self.folder / name)

    def put(self, name, text):
        path = self.folder / name
        path.write_text(f"#!{self.folder}/bash\n{text}\n", encoding="utf-8")
        path.chmod(0o755)

    def check(self, *words, **programs):
        """The status, the lines of standard output and the standard error of ./check with these programs on the PATH: each has the text
        that it prints and its status. The count of crate_paths.py isn't printed."""
        for name, (text, status) in programs.items():
            self.put(name, f"[[ $2 != tools/crate_paths.py ]] || exit 0\nprintf '%b' '{text}'\nexit {status}")
        variables = {"PATH": str(self.folder)}
        done = subprocess.run([CHECK, *words], env=variables, capture_output=True, encoding="utf-8", check=False)
        return done.returncode, done.stdout.splitlines(), done.stderr

    def test_keeps_all_output_and_adds_the_counts(self):
        status, lines, _ = self.check(rt=("a\\n20 passed, 0 failed\\n", 0), python3=("b\\n3 passed, 0 failed\\n", 0))
        self.assertEqual(lines, ["a", "20 passed, 0 failed", "b", "3 passed, 0 failed", "23 passed, 0 failed, 0 skipped"])
        self.assertEqual(status, 0)

    def test_adds_what_is_skipped(self):
        status, lines, _ = self.check(rt=("20 passed, 0 failed\\n", 0), python3=("3 passed, 0 failed, 4 skipped\\n", 0))
        self.assertEqual((status, lines[-1]), (0, "23 passed, 0 failed, 4 skipped"))

    def test_quick_proves_nothing(self):
        self.put("rt", "exit 1")
        self.put("python3", '''[ "$2" != tools/tests ] || echo "without $WITHOUT_PROGRAM"
echo "3 passed, 0 failed, 4 skipped"''')
        status, lines, _ = self.check("--quick")
        self.assertEqual((status, lines), (0, ["without 1", "3 passed, 0 failed, 4 skipped", "3 passed, 0 failed, 4 skipped", "6 passed, 0 failed, 8 skipped"]))
        self.put("python3", '[ "$2" != tools/tests/quick.py ] || exit 1\necho "3 passed, 0 failed, 4 skipped"')
        status, lines, _ = self.check("--quick")
        self.assertEqual((status, lines[-1]), (1, "3 passed, 1 failed, 4 skipped"))

    def test_other_words_are_refused(self):
        good = ("1 passed, 0 failed\\n", 0)
        self.assertEqual(self.check("--fast", rt=good, python3=good), (2, [], "usage: ./check [--quick]\n"))

    def test_fails_where_either_fails(self):
        good, bad = ("1 passed, 0 failed\\n", 0), ("2 passed, 3 failed\\n", 1)
        self.assertEqual(self.check(rt=bad, python3=good)[:2], (1, [bad[0][:-2], good[0][:-2], "3 passed, 3 failed, 0 skipped"]))
        self.assertEqual(self.check(rt=good, python3=bad)[:2], (1, [good[0][:-2], bad[0][:-2], "3 passed, 3 failed, 0 skipped"]))

    def test_counts_a_failure_where_a_run_ends_otherwise(self):
        good = "1 passed, 0 failed\\n"
        status, lines, _ = self.check(rt=("killed\\n", 137), python3=(good, 0))
        self.assertEqual((status, lines[-1]), (1, "1 passed, 1 failed, 0 skipped"))
        status, lines, _ = self.check(rt=(good, 0), python3=(good, 1))
        self.assertEqual((status, lines[-1]), (1, "2 passed, 1 failed, 0 skipped"))
        status, lines, _ = self.check(rt=(good, 0), python3=("", 0))
        self.assertEqual((status, lines[-1]), (1, "1 passed, 1 failed, 0 skipped"))

    def test_holds_each_check_to_one_processor(self):
        # (without nproc on the PATH one processor counts)
        good = "1 passed, 0 failed\\n"
        self.put("rt", f'printf "%b" "jobs $RT_JOBS\\\\n{good}"')
        _, lines, _ = self.check(python3=(good, 0))
        self.assertEqual(lines[0], "jobs 1")

    def test_tells_how_far_the_gate_is(self):
        good = "1 passed, 0 failed\\n"
        said = "== lists\\nrt: lists proved\\nrt: lists: trying its must-fail edits (4)\\nrt: pep440 is kept: x\\nrt: x: its tests are proved\\n"
        status, lines, errors = self.check(rt=(said + good, 0), python3=(good, 0))
        self.assertEqual((status, lines[:2], lines[-1]), (0, ["== lists", "rt: lists proved"], "2 passed, 0 failed, 0 skipped"))
        lines = (TOP / "crates.txt").read_text(encoding="utf-8").splitlines()
        crates = sum(line != "" and not line.startswith("#") for line in lines)
        told = [f"check: {proved} of {crates} crates are proved, and the must-fail edits of {tried} are begun; 0 min" for proved, tried in ((1, 0), (1, 1), (2, 1))]
        self.assertEqual(errors.splitlines(), told)

    def test_stops_where_a_program_is_missing(self):
        status, lines, errors = self.check()
        self.assertEqual((status, lines, errors.count("\n")), (1, [], 1))
        self.assertIn("rt, the command of the Rattle toolchain, is not on the PATH", errors)
        status, lines, errors = self.check(rt=("1 passed, 0 failed\\n", 0))
        self.assertEqual((status, lines, errors.count("\n")), (1, [], 1))
        self.assertIn("python3 is not on the PATH", errors)


if __name__ == "__main__":
    unittest.main()
