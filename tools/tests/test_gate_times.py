"""Tests of tools/gate_times.py: which process is what, the table, and a run of a command that works for a moment."""

import os
import subprocess
import sys
import tempfile
import unittest
from pathlib import Path

from support.places import TOOLS

import gate_times  # (it stands in tools/)

# A stand-in for the prover, which works for a second.
WORKS = "import time\nend = time.process_time() + 1\nwhile time.process_time() < end: pass\n"


class Times(unittest.TestCase):
    def test_knows_what_a_process_does(self):
        words = ["/kit/bin/rattle", "check", "--crate-name", "lists", "src/lib.rt"]
        self.assertEqual(gate_times.check_of(words, "/a/crates/lists"), ("lists", "proofs"))
        self.assertEqual(gate_times.check_of(words, "/tmp/rt-edit-x1"), ("lists", "edits"))
        tests = ["rattle", "build", "--crate-name", "conformance", "--test"]
        self.assertEqual(gate_times.check_of(tests, "/a"), ("conformance", "tests"))
        for other in [], ["rattle"], ["rattle", "fmt", "--crate-name", "a"], ["python3", "check"], ["rattle", "check"]:
            self.assertIsNone(gate_times.check_of(other, "/a"))

    def test_the_crate_with_the_most_time_is_first(self):
        used = {("a", "proofs"): 60, ("b", "proofs"): 30, ("b", "tests"): 60, ("a", "edits"): 6}
        lines = gate_times.table(used, 200, 90)
        self.assertEqual(lines[2:], [
            "| b | 0.5 | 1.0 | 0.0 | 0.0 | 1.5 |",
            "| a | 1.0 | 0.0 | 0.0 | 0.1 | 1.1 |",
            "| all | 1.5 | 1.0 | 0.0 | 0.1 | 3.3 |",
            "3 processor minutes in 2 minutes",
        ])

    def test_the_dearest_edits_are_told_with_their_crates(self):
        spent = {("a", "one"): 20.4, ("b", "two"): 61, **{("c", str(n)): n for n in range(9)}}
        lines = gate_times.dearest(spent)
        self.assertEqual((lines[:3], len(lines)), (["61 s b two", "20 s a one", "8 s c 8"], 10))

    def test_the_pace_of_the_processors_is_told(self):
        self.assertEqual(gate_times.told_pace([]), [])
        self.assertEqual(
            gate_times.told_pace([0.2, 0.1, 0.15]),
            ["the same piece of work took 0.15 s on average, 0.10 to 0.20 s, 3 times"],
        )
        self.assertGreater(gate_times.pace(), 0)

    def test_an_edit_is_known_by_the_copy_that_it_is_made_in(self):
        here = os.getcwd()
        with tempfile.TemporaryDirectory() as folder:
            for place, y in ("crates/a", 2), ("copy", 3), ("plain", 2):
                source = Path(folder) / place / "src"
                source.mkdir(parents=True)
                (source / "lib.rt").write_text(f"x = 1\ny = {y}\n", encoding="utf-8")
            edits = Path(folder) / "crates/a/must-fail"
            edits.mkdir()
            (edits / "x_is_gone.edit").write_text("file: src/lib.rt\nold: x = 1\nnew:\n", encoding="utf-8")
            (edits / "y_is_three.edit").write_text("file: src/lib.rt\nold: y = 2\nnew: y = 3\n", encoding="utf-8")
            os.chdir(folder)
            try:
                self.assertEqual([gate_times.edit_in("a", name) for name in ("copy", "plain")], ["y_is_three", None])
            finally:
                os.chdir(here)

    def test_runs_the_command_and_gives_its_status(self):
        with tempfile.TemporaryDirectory() as folder:
            prover = Path(folder) / "rattle"
            os.symlink(sys.executable, prover)
            (Path(folder) / "check").write_text(WORKS, encoding="utf-8")
            command = [prover, "check", "--crate-name", "stand_in"]
            done = subprocess.run(
                [TOOLS / "gate_times.py", "bash", "-c", f"cd {folder} && {' '.join(map(str, command))}; echo done; exit 3"],
                capture_output=True, encoding="utf-8", check=False,
            )
        self.assertEqual((done.returncode, done.stdout), (3, "done\n"))
        self.assertRegex(done.stderr, r"\| stand_in \| 0\.0 \| 0\.0 \| 0\.0 \| 0\.0 \| 0\.0 \|")
        self.assertRegex(done.stderr, r"the same piece of work took \d\.\d\d s on average")


if __name__ == "__main__":
    unittest.main()
