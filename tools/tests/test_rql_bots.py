"""Tests of what docs/BOTS.md tells: the steps of the job that locks a bot's branch, over a bot's commit that `sed` makes, and the hooks with the
real pre-commit, whose repository is a folder on this machine."""

import json
import re
import shutil
import subprocess
import sys
import unittest

from support.checkouts import VARIABLES
from support.made.served_index import wheel_of
from support.places import TOP
from support.program import Program
from support.rql_projects import SCRIPT, Served

HOOKS = ".pre-commit-hooks.yaml"
CONFIG = """repos:
  - repo: {hooks}
    rev: {rev}
    hooks:
      - id: {hook}
"""


@unittest.skipUnless(shutil.which("git"), "there is no git")
class Bots(Served):
    def setUp(self):
        super().setUp()
        self.variables.update(VARIABLES, PRE_COMMIT_HOME=str(self.outside / "hooks-cache"), PRE_COMMIT_COLOR="never")
        self.put_on_path()
        self.serve(rich=[wheel_of("rich", "1"), wheel_of("rich", "2")])
        self.begin("rich<2\n")
        self.run_in("git", "init", "--quiet", "--initial-branch=main")
        self.commit("begin")

    def run_in(self, *words, folder=None, status=0):
        done = subprocess.run(
            words, cwd=folder or self.folder, env=self.variables, stdin=subprocess.DEVNULL, stdout=subprocess.PIPE,
            stderr=subprocess.STDOUT, encoding="utf-8", check=False,
        )
        self.assertEqual(done.returncode, status, f"{words}: {done.stdout}")
        return done.stdout

    def commit(self, message, folder=None, status=0):
        self.run_in("git", "add", "--all", folder=folder)
        return self.run_in("git", "commit", "--quiet", f"--message={message}", folder=folder, status=status)

    def test_the_job_locks_a_branch(self):
        text = (TOP / "examples" / "ci" / "bot.yml").read_text(encoding="utf-8")
        steps = re.findall(r"(?m)^      - run: (.*)$", text)
        self.assertEqual(len(steps), 5)
        self.assertIn("pip install", steps[0])
        self.run_in("git", "checkout", "--quiet", "-b", "renovate/rich")
        self.run_in("sed", "-i", "s/rich<2/rich<3/", "requirements.txt")
        self.commit("bot")
        self.run_in("git", "checkout", "--quiet", "main")
        clone = self.outside / "clone"
        self.run_in("git", "clone", "--quiet", "--branch", "renovate/rich", str(self.folder), str(clone))
        self.run_in("rql", "lock", "--check", folder=clone, status=1)
        for step in steps[1:]:
            self.run_in("bash", "-e", "-c", step, folder=clone)
        self.run_in("git", "checkout", "--quiet", "renovate/rich")
        self.assertEqual(self.run_in("git", "log", "--format=%s", "-1"), "rql lock\n")
        self.accepts("check", answer="ok 1\n")
        for step in steps[1:]:
            self.run_in("bash", "-e", "-c", step, folder=clone)
        self.assertEqual(self.run_in("git", "log", "--format=%s", "-2"), "rql lock\nbot\n")

    def hooked(self, hook):
        """Has pre-commit call a hook before each commit."""
        hooks = self.outside / "hooks"
        hooks.mkdir()
        shutil.copy(TOP / HOOKS, hooks)
        self.run_in("git", "init", "--quiet", folder=hooks)
        self.commit("hooks", folder=hooks)
        rev = self.run_in("git", "rev-parse", "HEAD", folder=hooks).strip()
        self.put(".pre-commit-config.yaml", CONFIG.format(hooks=hooks, rev=rev, hook=hook))
        self.run_in("pre-commit", "install")
        self.commit("hook")

    @unittest.skipUnless(shutil.which("pre-commit"), "there is no pre-commit: apt-get install pre-commit")
    def test_the_hook_that_checks(self):
        self.hooked("rql-check")
        self.put("requirements.txt", "rich\n")
        self.assertIn("requirements.txt: files-disagree", self.commit("by hand", status=1))
        self.accepts("lock")
        self.commit("locked")

    @unittest.skipUnless(shutil.which("pre-commit"), "there is no pre-commit: apt-get install pre-commit")
    def test_the_hook_that_mends(self):
        self.hooked("rql-lock")
        self.put("requirements.txt", "rich\n")
        self.assertIn("files were modified by this hook", self.commit("by hand", status=1))
        self.commit("locked")
        self.accepts("check", answer="ok 1\n")


class Pages(unittest.TestCase):
    def test_the_settings_of_the_page_are_json(self):
        text = (TOP / "docs" / "BOTS.md").read_text(encoding="utf-8")
        blocks = re.findall(r"(?s)```json\n(.*?)```", text)
        keys = [sorted(json.loads(block)) for block in blocks]
        self.assertEqual(keys, [["enabledManagers", "ignorePaths", "pip_requirements"], ["postUpgradeTasks"]])

    def test_the_hooks_are_for_the_files_that_they_look_at(self):
        patterns = re.findall("(?m)^  files: '(.*)'$", (TOP / HOOKS).read_text(encoding="utf-8"))[1:]
        self.assertEqual(len(set(patterns)), 1)
        for name in "requirements.txt", "requirements-dev.in", "a/pyproject.toml", "reqlock.toml", "locks/pylock.linux.toml", "locks/reqlock.journal":
            self.assertTrue(re.search(patterns[0], name), name)
        for name in "README.md", "requirements/x.py", "pylock.toml.bak":
            self.assertFalse(re.search(patterns[0], name), name)


class Words(Program):
    def test_each_word_of_the_program_is_known(self):
        """What `reqlock --help` lists has a word of rql, but for what takes commands from a pipe and for `replace`, which `lock` and `set` are."""
        listed = set(re.findall("(?m)^  ([a-z]+) ", self.call("--help")[1].partition("Options:")[0]))
        done = subprocess.run([sys.executable, "-B", SCRIPT, "--help"], capture_output=True, encoding="utf-8", check=True)
        self.assertEqual(listed - set(re.findall("(?m)^    ([a-z-]+) ", done.stdout)), {"batch", "try", "replace", "help"})


if __name__ == "__main__":
    unittest.main()
