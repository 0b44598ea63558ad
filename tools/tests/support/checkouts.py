"""The base class of tests with clones of git: each has the files of reqlock in its folder `app`, and `reqlock-merge` is called there."""

import os
import shutil
import subprocess
import sys
import unittest

from support.places import PROGRAM, TOOLS, TOP
from support.program import Program
from support.tool_calls import called

SCRIPT = TOOLS / "merge.py"
VARIABLES = {
    "GIT_CONFIG_GLOBAL": os.devnull, "GIT_CONFIG_NOSYSTEM": "1", "GIT_EDITOR": "true", "GIT_AUTHOR_NAME": "a", "GIT_AUTHOR_EMAIL": "a@x",
    "GIT_COMMITTER_NAME": "a", "GIT_COMMITTER_EMAIL": "a@x", "LC_ALL": "C",
}
NOTHING = "nothing is to be done: the files belong together\n"


@unittest.skipUnless(shutil.which("git"), "there is no git")
class Checkouts(Program):
    """`folder` is that of the clone in which calls are made."""

    attributes = (TOP / "examples" / "git" / ".gitattributes").read_bytes()

    def setUp(self):
        super().setUp()
        self.variables = {**{name: value for name, value in os.environ.items() if not name.startswith(("GIT_", "REQLOCK_"))}, **VARIABLES}

    def clone_of(self, name):
        """From here on calls are made in the clone of this name."""
        self.folder = self.outside / name / "app"

    def begin_clone(self, requirements, *releases):
        """A clone `one` of a first commit, on the branch `main`."""
        self.clone_of("one")
        self.folder.mkdir(parents=True)
        self.begin(requirements, *releases)
        self.assertEqual(self.call("init"), (0, "ok 0\n"))
        (self.folder.parent / ".gitattributes").write_bytes(self.attributes)
        self.git("init", "--quiet", "--initial-branch=main", "..")
        self.commit("begin")

    def git(self, *words, fails=False):
        """What git writes; it may fail where it is said so."""
        done = subprocess.run(["git", *words], cwd=self.folder, env=self.variables, capture_output=True, check=False)
        self.assertEqual(done.returncode != 0, fails, (words, done.stdout + done.stderr))
        return done.stdout.decode(errors="surrogateescape")

    def commit(self, message):
        self.git("add", "--all", "..")
        self.git("commit", "--quiet", f"--message={message}")

    def edit(self, *words):
        """An edit that is accepted, as a commit."""
        self.assertEqual(self.call(*words)[0], 0, words)
        self.commit(" ".join(words))

    def on_branch(self, name, *edits):
        """Edits on a branch that begins at `main`; then `main` is the present branch again."""
        self.git("checkout", "--quiet", "-b", name, "main")
        for words in edits:
            self.edit(*words)
        self.git("checkout", "--quiet", "main")

    def merge_words(self, *words):
        return [sys.executable, "-B", SCRIPT, "--dir", self.folder, "--index", self.outside / "index.json", "--program", PROGRAM, *words]

    def merge(self, *words, before=None):
        """The status of the tool, what it prints, and what it says without its name. What is done before begins a process of its own."""
        call = self.merge_words(*words)
        done = called("merge", call[3:], env=self.variables) if before is None else subprocess.run(
            call, env=self.variables, capture_output=True, encoding="utf-8", errors="surrogateescape", check=False, preexec_fn=before
        )
        self.assertNotIn("Traceback", done.stderr)
        return done.returncode, done.stdout, done.stderr.replace("merge.py: ", "")

    def everything(self):
        """All that the tool could change: the folder's files, and what git has of them."""
        return self.files(), self.git("ls-files", "--stage")

    def check_whole(self, place):
        """The files belong together, and none of them differs from what is staged."""
        self.assertEqual(self.call("check"), (0, f"ok {place}\n"))
        self.assertEqual(self.git("diff", "--name-only"), "")
        self.assertEqual(sorted(self.files()), sorted(self.names()))

    def check_refused(self, said, *words, status=1):
        before = self.everything()
        exit_status, output, errors = self.merge(*words)
        self.assertEqual((exit_status, self.everything()), (status, before), errors)
        self.assertIn(said, errors)
        return output, errors
