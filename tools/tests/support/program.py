"""The base class of tests of the built program: each call is a process of its own over the files that the last one saved. ./check builds
the program first."""

import json
import os
import resource
import shutil
import signal
import subprocess
import unittest
from pathlib import Path

from support.made.environments import LINUX
from support.made.releases import index_of
from support.places import PROGRAM, needs_program, new_folder
from support.rules.journals import file_name
from support.rules.lock_tables import read_lock_table
from support.spawned import ended, text_of

FILES = "requirements.txt", "pylock.toml", "reqlock.journal"
NOBODY = 65534
# the first line of `show` where no name is long
HEAD = "name  version  line  needed by\n"


@needs_program
class Program(unittest.TestCase):
    """A test with a folder of the program's files. It locks for these environments, by the names of targets."""

    program, user = PROGRAM, {}
    environments = {"": LINUX}

    def setUp(self):
        self.outside = new_folder(self.addCleanup)
        self.folder = self.outside / "folder"
        self.folder.mkdir()
        self.lock_for(self.environments)

    def lock_for(self, environments):
        """From here on `init` locks for these environments, by the names of targets."""
        self.environments = environments
        for name, environment in environments.items():
            self.environment_file(name).write_text(json.dumps(environment), encoding="utf-8")

    def environment_file(self, name):
        return self.outside / (f"{name}.json" if name else "environment.json")

    def names(self):
        """The names of the files, in the order in which they are written."""
        return ["requirements.txt", *map(file_name, sorted(self.environments)), "reqlock.journal"]

    def begin(self, requirements, *releases):
        (self.folder / "requirements.txt").write_bytes(requirements)
        (self.outside / "index.json").write_text(json.dumps(index_of(*releases)), encoding="utf-8")

    def options(self, folder=None):
        """The options of a call in the folder, or in another one."""
        words = ["--dir", self.folder if folder is None else folder, "--index", self.outside / "index.json"]
        for name in self.environments:
            words += ["--env", f"{name}={self.environment_file(name)}" if name else self.environment_file(name)]
        return words

    def call(self, *words, text="", before=None, seconds=None):
        """The status of a call of the program, and all that it writes. It may take these seconds at most."""
        if before is None and seconds is None and not self.user:
            done = ended([self.program, *self.options(), *words], text.encode(), is_joined=True)
            return done.returncode, text_of(done.stdout)
        done = subprocess.run(
            [self.program, *self.options(), *words], input=text, stdout=subprocess.PIPE, stderr=subprocess.STDOUT,
            encoding="utf-8", check=False, preexec_fn=before, timeout=seconds, **self.user,
        )
        return done.returncode, done.stdout

    def told(self, *words, text=""):
        """The status of a call, its standard output and its standard error, to the byte."""
        return self.answered(*self.options(), *words, text=text)

    @staticmethod
    def answered(*words, text=""):
        """The same of a call with these words alone."""
        done = ended([PROGRAM, *words], text.encode())
        return done.returncode, done.stdout.decode(), done.stderr.decode()

    def unread(self, *words):
        """The status of a call whose output nobody reads any more, and its standard error."""
        readings, writings = os.pipe()
        os.close(readings)
        done = subprocess.run([self.program, *self.options(), *words], stdout=writings, stderr=subprocess.PIPE, check=False)
        os.close(writings)
        return done.returncode, done.stderr

    def start(self, *words, folder=None):
        """A call of the program that goes on by itself. Its input is empty."""
        return subprocess.Popen(
            [PROGRAM, *self.options(folder), *words], stdin=subprocess.DEVNULL, stdout=subprocess.PIPE,
            stderr=subprocess.STDOUT, encoding="utf-8",
        )

    def plays(self, *calls):
        """Each call is its words, its status and what it writes."""
        for words, status, told in calls:
            with self.subTest(words=words):
                self.assertEqual(self.call(*words), (status, told))

    def leave_root(self):
        """From here on the program runs without the rights of root, and what stands there now belongs to the one who runs it."""
        if os.geteuid() != 0:
            return
        self.program = Path(shutil.copy(PROGRAM, self.outside))
        for path in [self.outside, *self.outside.rglob("*")]:
            os.chown(path, NOBODY, NOBODY)
        self.user = {"user": NOBODY, "group": NOBODY, "extra_groups": []}

    def files(self):
        """What stands in the folder."""
        return {path.name: path.read_bytes() for path in sorted(self.folder.iterdir())}

    def put(self, files):
        """Makes these the files of the folder."""
        for path in self.folder.iterdir():
            path.unlink()
        for name, content in files.items():
            (self.folder / name).write_bytes(content)

    def holds(self, text, name="requirements.txt"):
        self.assertEqual((self.folder / name).read_bytes(), text.encode())

    def locked(self, target=""):
        """The versions that are locked for a target, by name."""
        entries = read_lock_table((self.folder / file_name(target)).read_bytes())[2]
        return {name: entry["version"] for name, entry in entries.items()}


class Fifty(Program):
    """A folder over an index of fifty packages."""

    NAMES = [f"p{number:02}" for number in range(50)]
    RELEASES = [(name, version, []) for name in NAMES for version in ("1", "2")]

    def begin_all(self, requirements=b"# fifty\r\n"):
        self.begin(requirements, *self.RELEASES)
        self.assertEqual(self.call("init"), (0, "ok 0\n"))


def limited(size):
    """What makes a process whose files can't grow beyond this size."""

    def limit():
        signal.signal(signal.SIGXFSZ, signal.SIG_IGN)
        resource.setrlimit(resource.RLIMIT_FSIZE, (size, size))

    return limit
