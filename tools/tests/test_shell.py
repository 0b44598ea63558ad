"""What a shell does with the program: options in both places, variables in their place, a reader that has seen enough, and
texts that would write to a terminal."""

import os
import subprocess
import unittest

from support.program import Program


class Shell(Program):
    def setUp(self):
        super().setUp()
        self.begin(b"a\n", ("a", "1", []), ("c", "1", []))
        self.assertEqual(self.call("init"), (0, "ok 0\n"))

    def run_bare(self, *words, variables=(), output=subprocess.PIPE):
        """The status of a call with these words alone, and what it writes."""
        done = subprocess.run(
            [self.program, *words], env={"PATH": os.environ["PATH"], **dict(variables)}, stdout=output, stderr=subprocess.STDOUT,
            encoding="utf-8", errors="surrogateescape", check=False,
        )
        return done.returncode, done.stdout

    @property
    def index(self):
        return str(self.outside / "index.json")

    def test_options_may_stand_behind_the_subcommand(self):
        self.assertEqual(self.run_bare("add", "c", "--index", self.index, "--dir", self.folder), (0, "ok 1\n"))
        self.assertEqual(self.run_bare("--dir", self.folder, "undo"), (0, "ok 0\n"))
        self.assertEqual(self.run_bare("--index", self.index, "add", f"--dir={self.folder}", "c"), (0, "ok 1\n"))
        self.assertEqual(self.run_bare("check", "--dir", self.folder), (0, "ok 1\n"))
        environment = self.outside / "environment.json"
        self.assertEqual(self.run_bare("init", "--env", environment, "--index", self.index, "--dir", self.folder), (0, "ok 0\n"))

    def test_an_option_stands_in_one_place(self):
        files = self.files()
        for option, value in ("--dir", "<DIR>"), ("--index", "<FILE>"):
            with self.subTest(option=option):
                status, told = self.run_bare(option, "x", "check", option, "x")
                self.assertEqual(status, 2)
                self.assertIn(f"error: the argument '{option} {value}' cannot be used multiple times\n", told)
        self.assertEqual(self.files(), files)

    def test_environments_may_stand_in_both_places(self):
        environment = self.outside / "environment.json"
        words = "--index", self.index, "--dir", self.folder
        for name, told in ("other", (0, "ok 0\n")), ("one", (2, "reqlock: --env one twice\n")):
            given = self.run_bare("--env", f"one={environment}", "init", "--env", f"{name}={environment}", *words)
            self.assertEqual(given, told)
        self.assertTrue((self.folder / "pylock.one.toml").exists())
        self.assertTrue((self.folder / "pylock.other.toml").exists())

    def test_variables_stand_for_options_that_the_words_lack(self):
        both = {"REQLOCK_INDEX": self.index, "REQLOCK_DIR": str(self.folder)}
        self.assertEqual(self.run_bare("add", "c", variables=both), (0, "ok 1\n"))
        self.assertEqual(self.run_bare("check", variables=both), (0, "ok 1\n"))
        wrong = {"REQLOCK_INDEX": "/none", "REQLOCK_DIR": "/none"}
        self.assertEqual(self.run_bare("undo", "--dir", self.folder, variables=wrong), (0, "ok 0\n"))
        self.assertEqual(self.run_bare(f"--dir={self.folder}", "--index", self.index, "add", "c", variables=wrong), (0, "ok 1\n"))
        self.assertEqual(self.run_bare("check", variables=wrong), (4, "reqlock: requirements.txt: unreadable\n"))

    def test_an_empty_variable_is_none(self):
        empty = {"REQLOCK_INDEX": "", "REQLOCK_DIR": ""}
        self.assertEqual(self.run_bare("--dir", self.folder, "add", "c", variables=empty), (2, "reqlock: --index is needed\n"))

    def test_a_variable_that_is_no_text(self):
        odd = {"REQLOCK_INDEX": os.fsdecode(b"\xff")}
        self.assertEqual(self.run_bare("check", variables=odd), (2, "reqlock: REQLOCK_INDEX is not UTF-8\n"))

    def test_texts_behind_two_hyphens_are_no_options(self):
        variables = {"REQLOCK_INDEX": self.index, "REQLOCK_DIR": str(self.folder)}
        self.assertEqual(self.run_bare("add", "--", "--index", variables=variables), (1, "refused bad-text\n"))

    def test_a_reader_that_has_seen_enough(self):
        for words in ["show"], ["log"], ["skipped"], ["why", "--explain", "z"]:
            with self.subTest(words=words):
                self.assertEqual(self.unread(*words), (0, b""))

    def test_no_control_character_reaches_a_terminal(self):
        self.assertEqual(self.call("add", "c\t# \x9b31m"), (0, "ok 1\n"))
        self.assertEqual(self.call("log"), (0, "  0 init\n* 1 add c\t# \\u{9b}31m\n"))
        self.begin((self.folder / "requirements.txt").read_bytes(), ("a", "1", []))
        status, told = self.call("why", "--explain")
        self.assertEqual(status, 3)
        self.assertIn("\\u{9b}31m", told)
        self.assertNotIn("\x9b", told)

    def test_no_letter_turns_a_line_at_a_terminal(self):
        turning = "\u061c\u200e\u200f\u202a\u202e\u2066\u2069"
        self.assertEqual(self.call("add", f"c  # {turning}\u00e9"), (0, "ok 1\n"))
        shown = "".join(f"\\u{{{ord(letter):x}}}" for letter in turning)
        self.assertEqual(self.call("log"), (0, f"  0 init\n* 1 add c  # {shown}\u00e9\n"))

    def test_a_long_line_of_the_history_is_cut(self):
        comment = "x" * 200
        self.assertEqual(self.call("add", f"c  # {comment}"), (0, "ok 1\n"))
        _, told = self.call("log")
        self.assertEqual(told.splitlines()[1], f"* 1 add c  # {comment}"[:97] + "...")


if __name__ == "__main__":
    unittest.main()
