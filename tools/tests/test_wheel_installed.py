"""Tests of the wheel where it is installed: by pip into an empty environment, and by pipx for a user. The program, each tool and the
manual page are there, and go when it is removed. The CI job that stands in examples/ci runs as it is. Nothing is fetched."""

import json
import re
import shutil
import sys
import unittest

from support import venvs
from support.made.archives import wheel
from support.made.environments import LINUX
from support.made.library_wheels import make_library_wheels, needed_names, python_with_libraries
from support.made.releases import index_of
from support.once import made_once
from support.packaged import PAGES, Packaged, own_variables
from support.places import PROGRAM, TOP, needs_program
from test_install import COMMANDS

TOOLS = [command for command in COMMANDS if command != "reqlock"]


@unittest.skipUnless(python_with_libraries(), f"no python3 has {' '.join(needed_names())}, of which the tests make wheels")
class Wheeled(Packaged):
    """A test with the wheel of a release, and with a home for a user."""

    def setUp(self):
        super().setUp()
        (self.folder / "home").mkdir()

    @property
    def libraries(self):
        """A folder with the wheels of what it depends on."""
        return made_once("libraries", make_library_wheels)

    def venv(self):
        """An empty environment with pip alone."""
        template = venvs.template(sys.executable, own_variables(self.folder))
        if template is None:
            self.skipTest("python3 makes no venv with pip: apt-get install python3-venv")
        return venvs.copy_whole(template, self.folder / "venv")


class Installed(Wheeled):
    def check_runs(self, folder):
        """The program and each tool run from a folder, by their names."""
        for command in TOOLS:
            told = self.run_in(self.folder, folder / command, "--help")
            self.assertTrue(told.startswith(f"usage: {command} "), told)
            self.assertNotRegex(told, r"\w\.py\b")
        told = self.run_in(self.folder, folder / "reqlock-snapshot", "simple", "--help")
        self.assertTrue(told.startswith("usage: reqlock-snapshot simple "), told)
        if PROGRAM.exists():
            self.check_locks(folder)

    def check_locks(self, folder):
        version = self.wheel().name.split("-")[1]
        self.assertEqual(self.run_in(self.folder, folder / "reqlock", "--version"), f"reqlock {version}\n")
        place = self.folder / "project"
        place.mkdir()
        (place / "requirements.txt").write_bytes(b"a\n")
        (place / "index.json").write_text(json.dumps(index_of(("a", "1", []))), encoding="utf-8")
        (place / "environment.json").write_text(self.run_in(place, folder / "reqlock-environment"), encoding="utf-8")
        words = "--index", "index.json", "--env", "environment.json", "init"
        self.assertEqual(self.run_in(place, folder / "reqlock", *words), "ok 0\n")
        self.assertIn("a==1 \\\n    --hash=sha256:", self.run_in(place, folder / "reqlock-hashes", "pylock.toml"))

    def check_page(self, share):
        for page in PAGES:
            self.assertTrue((share / page).is_file(), page)
        with self.subTest("man shows it"):
            if not shutil.which("man"):
                self.skipTest("there is no man: apt-get install man-db")
            self.assertIn("REQLOCK(1)", self.run_in(self.folder, "man", "-M", share / "man", "reqlock", MANPAGER="cat", TERM="dumb"))

    def test_by_pip_and_removed(self):
        venv = self.venv()
        pip = venv / "bin" / "python", "-m", "pip"
        self.run_in(self.folder, *pip, "install", "--no-index", "--find-links", self.libraries, self.wheel())
        self.check_runs(venv / "bin")
        self.assertEqual(self.run_in(self.folder, *pip, "check"), "No broken requirements found.\n")
        self.check_page(venv / "share")
        self.check_libraries(venv)
        self.run_in(self.folder, *pip, "uninstall", "--yes", "reqlock")
        self.assertEqual([path.name for path in venv.rglob("*reqlock*") if "__pycache__" not in str(path)], [])

    def check_libraries(self, venv):
        """The libraries came with it, and are those that the tools take: pip's copies may go."""
        copies = venvs.site_of(venv) / "pip"
        copies.rename(self.folder / "pip")
        words = "simple", "http://127.0.0.1:1/simple/", "a", "--cache", self.folder / "cache"
        told = self.run_in(self.folder, venv / "bin" / "reqlock-snapshot", *words, status=1)
        self.assertIn("/simple/a/: Connection refused; is the address right?", told)
        (self.folder / "pip").rename(copies)

    def test_tools_without_libraries_tell_what_to_install(self):
        venv = self.venv()
        pip = venv / "bin" / "python", "-m", "pip"
        self.run_in(self.folder, *pip, "install", "--no-index", "--no-deps", self.wheel())
        self.run_in(self.folder, *pip, "uninstall", "--yes", "pip")
        for command in TOOLS:
            self.assertTrue(self.run_in(self.folder, venv / "bin" / command, "--help").startswith(f"usage: {command} "))
        words = "simple", "http://127.0.0.1:1/simple/", "a"
        told = self.run_in(self.folder, venv / "bin" / "reqlock-snapshot", *words, status=2)
        self.assertIn("has neither the library packaging nor pip, which has a copy: python3 -m pip install packaging", told)
        (self.folder / "pylock.toml").write_text('lock-version = "1.0"\n[[packages]]\nname = "a"\nversion = "1"\n', encoding="utf-8")
        told = self.run_in(self.folder, venv / "bin" / "reqlock-hashes", "pylock.toml", status=1)
        self.assertIn("python3 -m pip install packaging", told)

    @unittest.skipUnless(shutil.which("pipx"), "there is no pipx: apt-get install pipx")
    def test_by_pipx_and_removed(self):
        """The pip that pipx makes for all its environments at its first call is there already."""
        local, has_pip = self.folder / "home" / ".local", {"PIPX_SHARED_LIBS": str(self.venv())}
        words = f"--pip-args=--no-index --find-links {self.libraries}", self.wheel()
        self.run_in(self.folder, "pipx", "install", *words, **has_pip)
        self.assertEqual(sorted(path.name for path in (local / "bin").iterdir()), sorted(COMMANDS))
        self.check_runs(local / "bin")
        [venv] = [path.parent for path in local.glob("**/venvs/reqlock/share")]
        self.check_page(venv / "share")
        self.run_in(self.folder, "pipx", "uninstall", "reqlock", **has_pip)
        self.assertEqual(list((local / "bin").iterdir()), [])
        self.assertEqual([path.name for path in local.rglob("*reqlock*") if not path.name.endswith(".log")], [])


@needs_program
class Job(Wheeled):
    """The file that a user copies."""

    def project(self):
        """A repository with all that the job reads."""
        place = self.folder / "repository"
        shutil.copytree(self.libraries, place / "ci")
        shutil.copy(self.wheel(), place / "ci")
        wheel(place / "wheels", "a", "1")
        (place / "requirements.txt").write_bytes(b"a\n")
        (place / "environment.json").write_text(json.dumps(LINUX), encoding="utf-8")
        snapshot = sys.executable, TOP / "tools" / "snapshot.py", "wheels", "--output", "index.json"
        self.run_in(place, *snapshot, PYTHONDONTWRITEBYTECODE="1")
        self.run_in(place, PROGRAM, "--index", "index.json", "--env", "environment.json", "init")
        return place

    def test_runs_as_it_stands(self):
        text = (TOP / "examples" / "ci" / "reqlock.yml").read_text(encoding="utf-8")
        steps = re.findall(r"(?m)^      - run: (.*)$", text)
        self.assertEqual((len(steps), "reqlock check -v" in steps), (4, True))
        venv, place = self.venv(), self.project()
        path = {"PATH": f"{venv / 'bin'}:/usr/bin:/bin"}
        for step in steps:
            self.run_in(place, "bash", "-e", "-c", step, **path)
        self.assertTrue(list(venv.glob("lib/*/site-packages/a-1.dist-info")))
        (place / "requirements.txt").write_bytes(b"a # by hand\n")
        told = self.run_in(place, "bash", "-e", "-c", steps[1], status=4, **path)
        self.assertTrue(told.startswith("reqlock: requirements.txt: files-disagree\nrequirements.txt was changed since reqlock saved it. "), told)


if __name__ == "__main__":
    unittest.main()
