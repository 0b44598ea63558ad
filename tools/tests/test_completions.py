"""What TAB does in a folder whose files want to do harm: the completions of bash, zsh and fish offer names alone, run nothing of what
files say, and wait for no pipe. What `reqlock show` prints is told by a script in its place."""

import os
import shutil
import unittest

from support.completed import RUNS, Completed

LINES = b"a\xff" + RUNS + b"\n" + b"b\xc3" + RUNS + b"\n c-1.2_x [e]>=1\n\xff" + RUNS + b"\n\\x\nD\xe2\x80\xa8" + RUNS + b"\n"
TABLE = b"name  version  line  needed by\n" + RUNS + b"  1\ntarget  1\na\xff" + RUNS + b"  1\nb  2  1\n"
TABLES = b"target linux\nname  version  line  needed by\na  1  1\n\ntarget win\nname  version  line  needed by\na  1  1\nname  1  1\n"


class Names(Completed):
    lines = LINES

    def setUp(self):
        super().setUp()
        (self.folder / "bin").mkdir()
        self.show(TABLE)

    def show(self, text):
        """From here on `reqlock show` prints this."""
        (self.folder / "shown").write_bytes(text)
        program = self.folder / "bin" / "reqlock"
        program.write_text('#!/bin/sh\ncase $* in *show) exec cat "$SHOWN" ;; esac\n', encoding="utf-8")
        program.chmod(0o755)

    def variables(self):
        variables = super().variables()
        return {
            **variables, "PATH": f"{self.folder}/bin:{variables['PATH']}", "HOME": str(self.folder / "bin"),
            "SHOWN": str(self.folder / "shown"),
        }

    def check_shells(self, check):
        for shell in "bash", "zsh", "fish":
            if shutil.which(shell):
                with self.subTest(shell=shell):
                    check(shell)

    def test_of_lines(self):
        def check(shell):
            self.assertEqual(self.offered(shell, "remove"), {"a", "b", "c-1.2_x", "D"})

        self.check_shells(check)
        for words in ["constrain"], ["why", "--remove"], ["why", "--constrain"], ["replace", "--line"], ["why", "--line"]:
            self.assertEqual(self.offered("bash", *words), {"a", "b", "c-1.2_x", "D"})

    def test_that_are_locked(self):
        self.check_shells(lambda shell: self.assertEqual(self.offered(shell, "upgrade"), {"target", "b"}))
        for words in ["show"], ["why", "--upgrade"], ["why", "--not"]:
            self.assertEqual(self.offered("bash", *words), {"target", "b"})

    def test_that_are_locked_for_several_targets(self):
        self.show(TABLES)
        self.check_shells(lambda shell: self.assertEqual(self.offered(shell, "upgrade"), {"a", "name"}))

    def test_a_pipe_is_not_waited_for(self):
        (self.folder / "requirements.txt").unlink()
        os.mkfifo(self.folder / "requirements.txt")
        self.check_shells(lambda shell: self.assertEqual(self.offered(shell, "remove"), set()))


if __name__ == "__main__":
    unittest.main()
