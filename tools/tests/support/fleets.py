"""The base class of tests of tools/fleet.py: folders in which a stand-in for the program, a script, does what their files `answer` say."""

import subprocess
import sys
import time
import unittest

from support.places import TOOLS, new_folder
from support.tool_calls import called

SCRIPT = TOOLS / "fleet.py"
HEAD = ("folder", "reply", "changed, or why not")
# It notes each call in a folder that has an answer. Without one it says what reqlock says where there are no files. An answer that
# waits ends where the script is gone, as behind a test.
STAND_IN = """#!/usr/bin/env bash
for word; do case $word in --dir=*) folder=${word#--dir=} ;; --version) echo reqlock 0; exit ;; esac; done
case " $* " in *" nonsense "*) echo "error: unexpected argument" >&2; exit 2 ;; *" skipped "*) exit 0 ;; esac
cd "$folder" 2>/dev/null && [ -e answer ] || { echo "reqlock: requirements.txt: unreadable" >&2; exit 4; }
echo "$*" >>calls
. ./answer
"""
ASKED = ["--", "constrain", "urllib3", ">=2", "--dry-run"]


def table(*rows):
    """The table with these rows, of columns as wide as they must be."""
    rows = [HEAD, *rows]
    first, second = (max(len(row[place]) for row in rows) for place in (0, 1))
    return "".join(f"{a.ljust(first)}  {b.ljust(second)}  {c}".rstrip() + "\n" for a, b, c in rows)


class Fleet(unittest.TestCase):
    """A test with folders in which the stand-in does what their answers say."""

    python = sys.executable

    def setUp(self):
        self.folder = new_folder(self.addCleanup)
        self.program = self.folder / "stand-in"
        self.program.write_text(STAND_IN, encoding="utf-8")
        self.program.chmod(0o755)

    def answers(self, **answers):
        """Makes folders, each with what the stand-in does in it."""
        for name, answer in answers.items():
            (self.folder / name).mkdir()
            (self.folder / name / "answer").write_text(answer, encoding="utf-8")

    def start(self, *words, **options):
        command = [self.python, "-B", SCRIPT, "--program", self.program, *words]
        usual = {"cwd": self.folder, "stdout": subprocess.PIPE, "stderr": subprocess.PIPE, "encoding": "utf-8"}
        return subprocess.Popen(command, **usual | options)

    def fleet(self, *words):
        """The status, standard output, and what is said, without the script's name."""
        if self.python != sys.executable:
            return self.end_of(self.start(*words))
        done = called("fleet", ["--program", self.program, *words], self.folder)
        return self.outcome(done.returncode, done.stdout, done.stderr)

    def end_of(self, call):
        output, errors = call.communicate(timeout=120)
        return self.outcome(call.returncode, output, errors)

    def outcome(self, status, output, errors):
        self.assertNotIn("Traceback", errors)
        return status, output, errors.replace("fleet.py: ", "")

    def calls(self, name):
        """The calls that were made in a folder."""
        path = self.folder / name / "calls"
        return path.read_text(encoding="utf-8").splitlines() if path.exists() else []

    def wait_for_calls(self, *names):
        """Goes on once a call is begun in each of these folders."""
        end = time.monotonic() + 60
        while not all(map(self.calls, names)):
            self.assertLess(time.monotonic(), end, "no call was begun")
            time.sleep(0.02)

    def check(self, words, status, rows, counts, more="", said=""):
        self.assertEqual(self.fleet(*words), (status, f"{table(*rows)}\n{counts}\n{more}", said))
