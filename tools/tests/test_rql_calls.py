"""Tests of the calls of the program that rql makes: over a stand-in, which prints its words, and over the real one. What the program
writes and its status are handed on to the byte."""

import os
import signal
import subprocess
import sys
import time
import unittest

from support.places import PROGRAM, TOOLS
from support.program import Program
from support.rql_projects import SCRIPT, Projects
from support.terminals import shown_on_terminal

HANDED_ON = ("undo", "redo", "forget", "log", "diff", "show", "export", "skipped")
# (the program tells of a long `why` by itself)
LATE = "#!/bin/sh\nsleep 2.3\necho 'reqlock: still at it; Ctrl-C ends the call, and changes no file' >&2\necho done\n"
WAITS = "#!/bin/sh\ntrap 'echo ended; exit 7' INT\necho begun\nwhile :; do sleep 0.05; done\n"


class StandIn(Projects):
    def setUp(self):
        super().setUp()
        self.stand_in()
        self.put("reqlock.toml", "")

    def test_words_output_and_status_are_handed_on(self):
        for word in HANDED_ON:
            with self.subTest(word=word):
                wanted = "".join(f"{argument}\n" for argument in ("--dir", ".", word, "--long", "a b", "*"))
                self.assertEqual(self.rql(word, "--long", "a b", "*", STATUS="5"), (5, wanted, "told\n"))

    def test_tree_is_show(self):
        self.assertEqual(self.rql("tree", "--color", "never")[1], "--dir\n.\nshow\n--tree\n--color\nnever\n")
        self.assertEqual(self.refuses("tree", "a b"), "tree: it takes no name: rql show 'a b' tells what needs it\n")

    def test_an_index_that_is_kept_is_filled_in(self):
        self.put(".reqlock/index.json", "")
        for word, told in ("show", "--index\n.reqlock/index.json\nshow\n"), ("undo", "undo\n"), ("log", "log\n"):
            self.assertEqual(self.rql(word)[1], f"--dir\n.\n{told}")

    def test_a_kept_index_that_is_a_link_is_not_read(self):
        (self.folder / ".reqlock").mkdir()
        (self.folder / ".reqlock" / "index.json").symlink_to(self.outside / "other")
        self.assertEqual(self.rql("show")[1], "--dir\n.\nshow\n")

    def test_help_is_the_programs(self):
        self.assertEqual(self.rql("show", "--help")[1], "show\n--help\n")

    def test_verbose_prints_calls_that_can_be_typed(self):
        status, output, errors = self.rql("-v", "diff", "a b", "$HOME")
        self.assertEqual((status, output), (0, "-v\n--dir\n.\ndiff\na b\n$HOME\n"))
        call = errors.splitlines()[0]
        self.assertEqual(call, "+ reqlock -v --dir . diff 'a b' '$HOME'")
        typed = subprocess.run(["sh", "-c", call.removeprefix("+ ")], cwd=self.folder, env=self.variables, capture_output=True, check=False)
        self.assertEqual(typed.stdout.decode(), output)

    def test_quiet_is_told_to_the_program(self):
        self.assertEqual(self.rql("-q", "log")[1], "-q\n--dir\n.\nlog\n")

    def test_a_program_that_is_given(self):
        self.put("other", "#!/bin/sh\necho other\n").chmod(0o755)
        self.assertEqual(self.rql("--program", "./other", "log"), (0, "other\n", ""))
        status, output, errors = self.rql("--program", "./none", "log")
        self.assertEqual((status, output), (2, ""))
        self.assertEqual(errors, "./none: No such file or directory; give the program by --program\n")

    def test_ctrl_c_is_left_to_the_program(self):
        self.stand_in(WAITS)
        done = subprocess.Popen(
            [sys.executable, "-B", SCRIPT, "log"], cwd=self.folder, env=self.variables, stdout=subprocess.PIPE, stderr=subprocess.PIPE,
            encoding="utf-8", start_new_session=True,
        )
        self.addCleanup(done.stdout.close)
        self.addCleanup(done.stderr.close)
        self.assertEqual(done.stdout.readline(), "begun\n")
        time.sleep(0.2)
        os.killpg(done.pid, signal.SIGINT)
        self.assertEqual(done.stdout.read(), "ended\n")
        self.assertEqual(done.wait(timeout=60), 130)

    def test_a_person_is_told_that_a_long_call_goes_on(self):
        """Once, on a terminal, and not under -q; nobody else is told."""
        self.stand_in(LATE)
        told = "rql: reqlock is still at it; Ctrl-C ends it\r\n"
        for words, shown in (["log"], told), (["-q", "log"], ""):
            with self.subTest(words=words):
                answer = shown_on_terminal(lambda terminal, words=words: subprocess.Popen(
                    [sys.executable, "-B", SCRIPT, *words], cwd=self.folder, env=self.variables, stdout=subprocess.DEVNULL, stderr=terminal
                ))
                self.assertEqual(answer, (0, shown))
        self.assertEqual(self.rql("log"), (0, "done\n", ""))

    def test_a_call_that_is_handed_on_waits_for_no_library(self):
        code = "import sys; sys.argv[0] = 'rql.py'; from reqlock_tools.rql import main; main(['log']); print(*sys.modules, file=sys.stderr)"
        done = subprocess.run(
            [sys.executable, "-B", "-c", code], cwd=self.folder, env={**self.variables, "PYTHONPATH": str(TOOLS)}, capture_output=True,
            encoding="utf-8", check=True,
        )
        loaded = {name.partition(".")[0] for name in done.stderr.split()}
        self.assertEqual(loaded & {"packaging", "urllib3", "pip", "rich", "tomlkit", "platformdirs", "ssl", "http", "email"}, set())

    def test_words_that_are_none(self):
        for words in [], ["bogus"], ["add"], ["env"], ["--bogus", "log"], ["lock", "more"]:
            status, output, errors = self.rql(*words)
            self.assertEqual((status, output), (2, ""), errors)
            self.assertTrue(errors.startswith("usage: rql"), errors)


class Real(Program):
    """The same over the real program: what rql hands on is what the call gives that is typed by hand."""

    def setUp(self):
        super().setUp()
        self.begin(b"a\n", ("a", "1", ["b"]), ("a", "2", ["b"]), ("b", "1", []))
        self.assertEqual(self.call("init"), (0, "ok 0\n"))
        self.assertEqual(self.call("constrain", "a", "<2"), (0, "ok 1\n"))
        (self.folder / "reqlock.toml").write_text("", encoding="utf-8")

    def typed(self, command, *words):
        """The status and what is written of a call in the folder."""
        variables = {**os.environ, "PATH": f"{PROGRAM.parent}:{os.environ['PATH']}"}
        done = subprocess.run([*command, *words], cwd=self.folder, env=variables, capture_output=True, check=False)
        return done.returncode, done.stdout, done.stderr

    def test_what_is_handed_on_is_what_is_typed(self):
        kept = self.folder / ".reqlock"
        kept.mkdir()
        (kept / "index.json").write_bytes((self.outside / "index.json").read_bytes())
        calls = (
            ["log", "--long"], ["diff"], ["show"], ["show", "b", "--json"], ["show", "none"], ["export", "--format", "dot"], ["export", "--bogus"],
            ["skipped"], ["undo", "--dry-run"], ["redo"], ["forget", "--keep", "0", "--dry-run"], ["forget"], ["forget", "--keep", "9"],
        )
        for words in calls:
            with self.subTest(words=words):
                index = ["--index", ".reqlock/index.json"] * (words[0] in ("show", "export", "skipped"))
                answer = self.typed([sys.executable, "-B", SCRIPT], *words)
                self.assertEqual(answer, self.typed(["reqlock"], *index, *words))

    def test_forget(self):
        self.assertEqual(self.typed([sys.executable, "-B", SCRIPT], "forget", "--keep", "0"), (0, b"ok 0\n", b""))
        self.assertEqual(self.typed([sys.executable, "-B", SCRIPT], "undo")[:2], (1, b"refused nothing-to-undo\n"))

    def test_undo_and_redo(self):
        before = self.files()
        for word, reply in ("undo", b"ok 0\n"), ("redo", b"ok 1\n"):
            self.assertEqual(self.typed([sys.executable, "-B", SCRIPT], word)[:2], (0, reply))
        after = {path.name: path.read_bytes() for path in self.folder.iterdir() if path.is_file()}
        self.assertEqual(after, before)
        self.assertEqual((self.folder / ".reqlock" / "requirements.txt").read_bytes(), b"a<2\n")


if __name__ == "__main__":
    unittest.main()
