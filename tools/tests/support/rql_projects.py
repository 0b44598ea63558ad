"""The base classes of tests of tools/rql.py: each has a folder for a project, and calls rql in it."""

import contextlib
import io
import os
import shutil
import stat
import subprocess
import sys
import unittest
from unittest import mock

from support.checkouts import VARIABLES
from support.made.served_index import MadeIndex
from support.places import PROGRAM, TOOLS, TOP, needs_program, new_folder
from support.terminals import shown_on_terminal
from support.tool_calls import called
from support.wanted_libraries import ASKING, want_libraries

from reqlock_tools.rql import main

SCRIPT = TOOLS / "rql.py"
FOREIGN = "GIT_", "REQLOCK_", "PIP_", "UV_", "XDG_", "CI", "VIRTUAL_ENV"
ENVIRONMENT = 'environment = { python = "3.11", platform = "linux-x86_64" }\n'
# Prints its words, one a line, and ends with the status that STATUS tells.
STAND_IN = '#!/bin/sh\nprintf "%s\\n" "$@"\necho told >&2\nexit ${STATUS:-0}\n'


class Projects(unittest.TestCase):
    """A test with a folder for a project."""

    def setUp(self):
        self.outside = new_folder(self.addCleanup).resolve()
        self.folder = self.outside / "project"
        self.folder.mkdir()
        self.home = self.outside / "home"
        self.home.mkdir()
        kept = {name: value for name, value in os.environ.items() if not name.startswith(FOREIGN)}
        self.variables = {
            **kept, "HOME": str(self.home), "XDG_CACHE_HOME": str(self.outside / "cache"), "NO_PROXY": "*", "no_proxy": "*",
            "NETRC": os.devnull, "LC_ALL": "C.UTF-8", "GIT_CONFIG_GLOBAL": os.devnull, "GIT_CONFIG_NOSYSTEM": "1",
        }

    def rql(self, *words, folder=None, text="", **variables):
        """The status of a call, its standard output, and its standard error without the name of the script."""
        done = called("rql", words, cwd=folder or self.folder, env={**self.variables, **variables}, text=text)
        self.assertNotIn("Traceback", done.stderr)
        return done.returncode, done.stdout, done.stderr.replace("rql.py: ", "")

    def refuses(self, *words, status=2, folder=None):
        """What a call says that ends with this status, and calls nobody. It is made within this process."""
        errors = io.StringIO()
        is_here = contextlib.chdir(folder or self.folder), mock.patch.dict(os.environ, self.variables, clear=True)
        with is_here[0], is_here[1], contextlib.redirect_stderr(errors):
            self.assertEqual(main([*map(str, words)]), status, errors.getvalue())
        return errors.getvalue().replace("rql.py: ", "")

    def put(self, name, text, folder=None):
        """Writes a file of the project, or of another folder."""
        path = (folder or self.folder) / name
        path.parent.mkdir(parents=True, exist_ok=True)
        path.write_text(text, encoding="utf-8")
        return path

    def stand_in(self, script=STAND_IN):
        """A program in the place of reqlock, which is first on the PATH."""
        place = self.outside / "bin"
        place.mkdir(exist_ok=True)
        path = self.put("reqlock", script, place)
        path.chmod(path.stat().st_mode | stat.S_IXUSR)
        self.variables["PATH"] = f"{place}:{self.variables['PATH']}"

    def put_on_path(self):
        """From here on a shell finds rql by its name."""
        place = self.put("bin/rql", f'#!/bin/sh\nexec {sys.executable} -B {SCRIPT} "$@"\n', self.outside)
        place.chmod(0o755)
        self.variables["PATH"] = f"{place.parent}:{self.variables['PATH']}"

    def files(self, folder=None):
        """What stands in the project, but for what rql keeps."""
        place = folder or self.folder
        return {
            str(path.relative_to(place)): path.read_bytes() for path in sorted(place.rglob("*"))
            if path.is_file() and ".reqlock" not in path.parts and ".git" not in path.parts
        }


@want_libraries(*ASKING)
@needs_program
class Served(Projects):
    """A test over an index of its own, with the built program first on the PATH."""

    def setUp(self):
        super().setUp()
        self.variables["PATH"] = f"{PROGRAM.parent}:{self.variables['PATH']}"
        self.index = MadeIndex()
        self.addCleanup(self.index.close)

    def serve(self, **packages):
        """Adds files to the index, by the names of their packages."""
        for name, files in packages.items():
            self.index.add(name, *files)

    def begin(self, requirements=None):
        """A project over the index, which has begun with these lines."""
        if requirements is not None:
            self.put("requirements.txt", requirements)
        self.put("reqlock.toml", f'index = ["{self.index.url}"]\n{ENVIRONMENT}')
        self.accepts("init", answer="ok 0\n")

    def accepts(self, *words, answer=None):
        """What a call says that ends with status 0."""
        status, output, errors = self.rql(*words)
        self.assertEqual(status, 0, output + errors)
        if answer is not None:
            self.assertEqual(output, answer, errors)
        return errors

    def shown(self, *words, folder=None, **variables):
        """The status of a call at a terminal, and what that shows as its standard error."""
        call = [sys.executable, "-B", str(SCRIPT), *words]
        settings = {"cwd": folder or self.folder, "env": {**self.variables, "TERM": "dumb", **variables}, "stdin": subprocess.DEVNULL}
        start = lambda terminal: subprocess.Popen(call, stderr=terminal, stdout=subprocess.DEVNULL, **settings)  # noqa: E731
        status, shown = shown_on_terminal(start)
        return status, shown.replace("\r\n", "\n")

    def lines(self):
        return (self.folder / "requirements.txt").read_text(encoding="utf-8")


@unittest.skipUnless(shutil.which("git"), "there is no git")
class Committed(Served):
    """A test whose project stands in a git checkout."""

    def setUp(self):
        super().setUp()
        self.variables.update(VARIABLES)

    def begin_git(self):
        """Has the project's folder be a checkout, which has git merge what reqlock writes as the example says."""
        self.put(".gitattributes", (TOP / "examples" / "git" / ".gitattributes").read_text(encoding="utf-8"))
        self.git("init", "--quiet", "--initial-branch=main")

    def git(self, *words, fails=False):
        done = subprocess.run(["git", *words], cwd=self.folder, env=self.variables, capture_output=True, encoding="utf-8", check=False)
        self.assertEqual(done.returncode != 0, fails, done.stdout + done.stderr)
        return done.stdout

    def commit(self, message):
        self.git("add", "--all")
        self.git("commit", "--quiet", f"--message={message}")
