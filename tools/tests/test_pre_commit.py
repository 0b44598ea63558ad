"""Tests of .pre-commit-hooks.yaml with the real pre-commit: a commit is refused where the files don't belong together. The hook's
repository is a folder on this machine, and nothing is fetched."""

import os
import re
import shutil
import subprocess
import unittest

from support.places import PROGRAM, TOP
from support.program import FILES, Program

HOOKS = ".pre-commit-hooks.yaml"
CONFIG = """repos:
  - repo: {hooks}
    rev: {rev}
    hooks:
      - id: reqlock-check
"""


class Pattern(unittest.TestCase):
    def test_is_of_the_files_that_belong_together(self):
        text = (TOP / HOOKS).read_text(encoding="utf-8")
        pattern = re.compile(re.search("(?m)^  files: '(.*)'$", text)[1])
        for name in *FILES, "pylock.linux-3.toml", "services/web/requirements.txt":
            self.assertTrue(pattern.search(name), name)
        for name in "README.md", "requirements.txt.orig", "pylock.toml.bak", "old-requirements.txt", "reqlock_journal":
            self.assertFalse(pattern.search(name), name)


@unittest.skipUnless(shutil.which("pre-commit") and shutil.which("git"), "there is no pre-commit: apt-get install pre-commit")
class Hook(Program):
    def setUp(self):
        super().setUp()
        self.hooks, self.project = self.outside / "hooks", self.folder
        self.hooks.mkdir()
        shutil.copy(TOP / HOOKS, self.hooks)
        rev = self.committed(self.hooks)
        (self.project / ".pre-commit-config.yaml").write_text(CONFIG.format(hooks=self.hooks, rev=rev), encoding="utf-8")
        self.begin(b"a\n", ("a", "1", []), ("b", "1", []))
        self.assertEqual(self.call("init"), (0, "ok 0\n"))

    def run_in(self, folder, *words):
        """The status and the output of a command, for a user with nothing at home."""
        kept = {name: value for name, value in os.environ.items() if not name.startswith(("GIT_", "PRE_COMMIT", "XDG_"))}
        more = {
            "HOME": str(self.outside), "PATH": f"{PROGRAM.parent}:{os.environ['PATH']}", "PRE_COMMIT_HOME": str(self.outside / "cache"),
            "GIT_CONFIG_NOSYSTEM": "1", "PRE_COMMIT_COLOR": "never",
        }
        done = subprocess.run(
            words, cwd=folder, env={**kept, **more}, stdin=subprocess.DEVNULL, stdout=subprocess.PIPE, stderr=subprocess.STDOUT,
            encoding="utf-8", check=False,
        )
        return done.returncode, done.stdout

    def git(self, folder, *words):
        status, told = self.run_in(folder, "git", "-c", "user.name=name", "-c", "user.email=name@host.example", *words)
        self.assertEqual(status, 0, told)
        return told

    def committed(self, folder):
        """The commit of all that a new repository has."""
        self.git(folder, "init", "--quiet")
        self.git(folder, "add", "--all")
        self.git(folder, "commit", "--quiet", "--message", "all")
        return self.git(folder, "rev-parse", "HEAD").strip()

    def commit(self, *names):
        """The status and the output of a commit of some files, which the hook looks at."""
        self.git(self.project, "add", *names)
        words = "-c", "user.name=name", "-c", "user.email=name@host.example", "commit", "--message", "more"
        return self.run_in(self.project, "git", *words)

    def test_a_commit_of_files_that_belong_together(self):
        self.committed(self.project)
        status, told = self.run_in(self.project, "pre-commit", "install")
        self.assertEqual(status, 0, told)
        self.assertEqual(self.call("add", "b"), (0, "ok 1\n"))
        status, told = self.commit(*FILES)
        self.assertEqual(status, 0, told)
        self.assertRegex(told, r"reqlock check\.+Passed")
        (self.project / "README.md").write_bytes(b"x")
        status, told = self.commit("README.md")
        self.assertEqual(status, 0, told)
        self.assertRegex(told, r"reqlock check\.+\(no files to check\)Skipped")

    def test_a_commit_of_others_is_refused(self):
        self.committed(self.project)
        status, told = self.run_in(self.project, "pre-commit", "install")
        self.assertEqual(status, 0, told)
        self.assertEqual(self.call("add", "b"), (0, "ok 1\n"))
        status, told = self.commit("requirements.txt")  # (the lock and the journal aren't in the commit)
        self.assertEqual(status, 1, told)
        self.assertRegex(told, r"reqlock check\.+Failed")
        self.assertIn("reqlock: requirements.txt: files-disagree", told)
        self.assertIn("\n    git add requirements.txt 'pylock*.toml' reqlock.journal\n", told)
        status, told = self.commit(*FILES)
        self.assertEqual(status, 0, told)
        (self.project / "pylock.toml").write_bytes((self.project / "pylock.toml").read_bytes() + b"# by hand\n")
        status, told = self.commit("pylock.toml")
        self.assertEqual(status, 1, told)
        self.assertIn("reqlock: pylock.toml: files-disagree", told)

    def test_a_folder_below(self):
        below = self.project / "services" / "web"
        below.mkdir(parents=True)
        for name in FILES:
            (self.project / name).rename(below / name)
        config = self.project / ".pre-commit-config.yaml"
        config.write_text(f"{config.read_text(encoding='utf-8')}        args: [--dir, services/web]\n", encoding="utf-8")
        self.committed(self.project)
        status, told = self.run_in(self.project, "pre-commit", "run", "--all-files")
        self.assertEqual(status, 0, told)
        (below / "requirements.txt").write_bytes(b"b\n")
        status, told = self.run_in(self.project, "pre-commit", "run", "--all-files")
        self.assertEqual(status, 1, told)
        self.assertIn("reqlock: requirements.txt: files-disagree", told)


if __name__ == "__main__":
    unittest.main()
