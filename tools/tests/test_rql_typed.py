"""Tests that a call of rql is what it tells with -v: typed in a copy of the project, that call prints the same and leaves the same files. And
of the words that the program gets of `rql check`, `lock` and `env`, which a stand-in prints."""

import shutil
import subprocess
import unittest

from support.made.served_index import wheel_of
from support.rql_projects import Served

from reqlock_tools.rql.own_calls import Here
from reqlock_tools.rql.own_words import in_own_words

ENVIRONMENTS = ("--env", "linux=.reqlock/environment.linux.json", "--env", "windows=.reqlock/environment.windows.json")


class Begun(Served):
    def setUp(self):
        super().setUp()
        self.serve(
            rich=[wheel_of("rich", "1"), wheel_of("rich", "2")], tool=[wheel_of("tool", "1")],
            flask=[wheel_of("flask", "2", "werkzeug")], werkzeug=[wheel_of("werkzeug", "1")],
        )
        self.begin("rich<2\ntool\n")


class Typed(Begun):
    def check_typed(self, *words, status=0, lines=None):
        """A call in one copy of the project, and the call that it tells in another."""
        one, other = (self.outside / name for name in ("one", "other"))
        for folder in one, other:
            shutil.rmtree(folder, ignore_errors=True)
            shutil.copytree(self.folder, folder)
            if lines is not None:
                self.put("requirements.txt", lines, folder)
        exit_status, output, errors = self.rql("-v", *words, folder=one)
        self.assertEqual(exit_status, status, errors)
        call = [line.removeprefix("+ ") for line in errors.splitlines() if line.startswith("+ reqlock ")][-1]
        for path in (one / ".reqlock").iterdir():
            if not (other / ".reqlock" / path.name).exists():
                shutil.copy(path, other / ".reqlock")
        if not (other / ".reqlock" / "index.asked.json").exists():
            shutil.copy(one / ".reqlock" / "index.json", other / ".reqlock" / "index.asked.json")
        done = subprocess.run(["sh", "-c", call], cwd=other, env=self.variables, capture_output=True, encoding="utf-8", check=False)
        self.assertEqual((done.returncode, done.stdout), (exit_status, output), call)
        self.assertIn(in_own_words(done.stderr, Here(question=("--replace", *words[1:]))), errors)
        self.assertEqual(self.files(other), self.files(one))

    def test_an_edit(self):
        for words in ["add", "flask"], ["remove", "tool"], ["constrain", "rich"], ["set", "rich>=1"], ["upgrade", "tool"], ["relock"]:
            with self.subTest(words=words):
                self.check_typed(*words)
        self.check_typed("add", "flask>=9", status=3)
        self.check_typed("add", "rich", status=1)

    def test_other_environments(self):
        self.put("reqlock.toml", (self.folder / "reqlock.toml").read_text(encoding="utf-8").replace("3.11", "3.12"))
        (self.folder / ".reqlock" / "environment.json").unlink()
        for words in ["retarget"], ["retarget", "--keep-locked"], ["retarget", "--dry-run"]:
            with self.subTest(words=words):
                self.check_typed(*words)

    def test_a_question(self):
        for words in ["check"], ["check", "--current"], ["outdated"], ["show"], ["tree"], ["log"], ["export"], ["skipped"], ["diff"]:
            with self.subTest(words=words):
                self.check_typed(*words)
        self.check_typed("why", "flask>=9", status=3)

    def test_a_change_by_hand(self):
        self.check_typed("lock")
        self.check_typed("lock", "--check")
        self.check_typed("lock", lines="rich\ntool\nflask\n")


class Words(Begun):
    def setUp(self):
        super().setUp()
        self.stand_in()

    def given(self, *words, status=0):
        exit_status, output, errors = self.rql(*words, STATUS=str(status))
        self.assertEqual(exit_status, status, errors)
        self.assertIn("told\n", errors)
        return output.splitlines()

    def test_of_check_and_lock(self):
        for status in 0, 5:
            self.assertEqual(self.given("check", "--json", status=status), ["--dir", ".", "check", "--json"])
            self.assertEqual(self.given("lock", status=status), ["--dir", ".", "check"])
        self.put("requirements.txt", "rich\n")
        wanted = ["--dir", ".", "--index", ".reqlock/index.asked.json", "replace", "--was", ".reqlock/requirements.txt"]
        for status in 3, 0:
            self.assertEqual(self.given("lock", status=status), wanted)
            self.assertEqual((self.folder / ".reqlock" / "requirements.txt").read_text(encoding="utf-8"), "rich\n" if status == 0 else "rich<2\ntool\n")

    def test_of_env(self):
        before = self.files()
        index = "--dir", ".", "--index", ".reqlock/index.asked.json"
        words = [*index, *ENVIRONMENTS, "--keep-locked", "--dry-run", "retarget", "--pins", "windows=pins.txt", "--pins", "windows=more.toml"]
        given = "--dry-run", "--pins", "windows=pins.txt", "--keep-locked", "--pins", "more.toml"
        self.assertEqual(self.given("env", "add", "windows", *given, status=3), words)
        self.assertEqual(self.given("env", "add", "windows", status=3), [*index, *ENVIRONMENTS, "retarget"])
        own = "--env", ".reqlock/environment.json", "retarget"
        self.assertEqual(self.given("env", "set", "--python", "3.12", status=3), [*index, *own])
        self.assertEqual(self.files(), before)
        self.put("reqlock.toml", before["reqlock.toml"].decode().replace("3.11", "3.12"))
        self.assertEqual(self.given("retarget", status=3), [*index, *own])


if __name__ == "__main__":
    unittest.main()
