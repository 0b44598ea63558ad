"""Tests of ./package: what it makes of a commit and a program is the same each time; the wheel is for the machines on which the program
runs, and holds what is to be installed; the source archive is what git has; what is wrong is told."""

import os
import re
import shutil
import subprocess
import tarfile
import time
import unittest
import zipfile

from support.packaged import TIME, VERSION_FILE, Packaged, commit, copy_tree, git, package, put_program
from support.places import TOP
from support.program import NOBODY

NO_ARCHIVE = "package: this is no git checkout, so no source archive is made\n"


def version():
    """The version of the program's source."""
    return re.search('const VERSION: &str = "(.*)";', (TOP / VERSION_FILE).read_text(encoding="utf-8"))[1]


class Treed(Packaged):
    """A test with a tree of its own, outside of git until it becomes a commit."""

    def setUp(self):
        super().setUp()
        self.tree = self.folder / "tree"
        copy_tree(self.tree)

    def build(self, *words, program=..., status=0, **others):
        """What ./package prints in the tree, with its status."""
        if program is not None:
            put_program(self.tree, *() if program is ... else (program,))
        done = package(self.tree, *words, **others)
        self.assertEqual(done.returncode, status, done.stdout + done.stderr)
        return done.stdout + done.stderr


class Wheel(Packaged):
    """What is in the wheel of the release."""

    def test_it_is_for_the_machines_on_which_the_program_runs(self):
        text = subprocess.run(["readelf", "-VW", self.release / "crates/reqlock/out/reqlock"], capture_output=True, encoding="utf-8").stdout
        wanted = max((int(number) for number in re.findall(r"GLIBC_2\.([0-9]+)", text)), default=5)
        self.assertRegex(self.wheel().name, rf"^reqlock-{re.escape(version())}-py3-none-manylinux_2_{max(wanted, 5)}_{os.uname().machine}\.whl$")

    def test_it_holds_what_is_to_be_installed_and_no_more(self):
        with zipfile.ZipFile(self.wheel()) as archive:
            names = {name for name in archive.namelist() if not name.startswith("reqlock-")}
            others = [name for name in archive.namelist() if name.startswith("reqlock-")]
            [metadata] = [archive.read(name).decode() for name in others if name.endswith("/METADATA")]
            self.assertEqual({member.date_time for member in archive.infolist()}, {time.gmtime(TIME)[:6]})
        sources = (TOP / "tools" / "reqlock_tools").rglob("*.py")
        self.assertEqual(names, {str(path.relative_to(TOP / "tools")) for path in sources})
        self.assertTrue(any(name.endswith("/LICENSE") for name in others), others)
        for line in (
            f"Version: {version()}", "License: MIT", "Requires-Python: >=3.11", "Provides-Extra: index", "Provides-Extra: dask",
            "Classifier: License :: OSI Approved :: MIT License", "Classifier: Operating System :: POSIX :: Linux",
        ):
            self.assertIn(line, metadata.splitlines())
        asked = re.findall("(?m)^Requires-Dist: ([a-z0-9]+)[^;\n]*(?:; extra == '([a-z]+)')?$", metadata)
        self.assertEqual(len(asked), metadata.count("\nRequires-Dist:"))
        wanted = [(name, "") for name in ("packaging", "platformdirs", "rich", "tomlkit", "urllib3")]
        self.assertEqual(sorted(asked), [("distributed", "dask"), *wanted])

    def test_no_module_can_be_called(self):
        modes = {path.stat().st_mode & 0o111 for path in (TOP / "tools" / "reqlock_tools").rglob("*.py")}
        self.assertEqual(modes, {0})


class Outside(Treed):
    """What is made of a tree outside of git."""

    def test_the_wheel_is_that_of_the_commit(self):
        """Whatever times and rights files have there, what a tool keeps there, and whoever calls."""
        os.utime(self.tree / "README.md", (1, 1))
        os.chmod(self.tree / "README.md", 0o600)
        tools = self.tree / "tools" / "reqlock_tools"
        os.chmod(tools / "toml.py", 0o600)
        (tools / ".cache").mkdir()
        (tools / ".cache" / "x.json").write_bytes(b"{}")
        told = self.build("other", PYTHONHASHSEED="7", TZ="Asia/Tokyo", LC_ALL="C")
        other = self.folder / "other"
        made = self.wheel(other)
        self.assertEqual(told, f"{other / 'SHA256SUMS'}\n{made}\ninstall it by: pipx install {made}\n{NO_ARCHIVE}")
        self.assertEqual((made.name, made.read_bytes()), (self.wheel().name, self.wheel().read_bytes()))

    def test_the_machine_is_that_of_the_program(self):
        put_program(self.tree)
        path = self.tree / "crates" / "reqlock" / "out" / "reqlock"
        data = bytearray(path.read_bytes())
        place, order = 18, "little" if data[5] == 1 else "big"
        data[place : place + 2] = (183).to_bytes(2, order)
        path.write_bytes(data)
        self.build("arm", program=None)
        self.assertTrue(self.wheel(self.folder / "arm").name.endswith("_aarch64.whl"))

    def test_no_link_is_followed(self):
        (self.folder / "secret").write_bytes(b"s3cr3t")
        (self.tree / "tools" / "reqlock_tools" / "stray.py").symlink_to(self.folder / "secret")
        self.assertEqual(self.build(status=1), "package: tools/reqlock_tools/stray.py: a link leads elsewhere; remove it first\n")


class Release(Packaged):
    """What is made of a commit."""

    def files(self, folder):
        return {path.name: path.read_bytes() for path in folder.iterdir()}

    def test_it_has_a_wheel_an_archive_and_their_sums(self):
        dist, archive = self.release / "dist", f"reqlock-{version()}-source.tar.gz"
        names = ["SHA256SUMS", self.wheel().name, archive]
        self.assertEqual(sorted(self.files(dist)), names)
        told = (self.release.parent / "told").read_text(encoding="utf-8")
        self.assertEqual(told.splitlines(), [*(str(dist / name) for name in names), f"install it by: pipx install {self.wheel()}"])

    def test_a_clone_gives_the_same_bytes(self):
        """Whatever the settings of its user are, and whatever came to stand in it that git doesn't list."""
        other = self.folder / "elsewhere" / "clone"
        other.parent.mkdir()
        git(self.release, "clone", "--quiet", self.release, other)
        put_program(other)
        (self.folder / "attributes").write_text("* text eol=crlf\n", encoding="utf-8")
        (self.folder / "config").write_text(f"[core]\nattributesFile={self.folder}/attributes\n[tar]\numask=0\n", encoding="utf-8")
        os.utime(other / "README.md", (1, 1))
        tools = other / "tools" / "reqlock_tools"
        (tools / "strays").mkdir()
        (tools / "strays" / "__init__.py").write_bytes(b"")
        (tools / "stray.py").symlink_to(self.folder / "config")
        before = os.umask(0o077)
        self.addCleanup(os.umask, before)
        more = {"TZ": "Asia/Tokyo", "PYTHONHASHSEED": "7", "GIT_CONFIG_GLOBAL": str(self.folder / "config"), "GZIP": "-1"}
        done = package(other, SOURCE_DATE_EPOCH="", **more)
        self.assertEqual(done.returncode, 0, done.stderr)
        self.assertEqual(self.files(other / "dist"), self.files(self.release / "dist"))
        self.assertEqual({path.stat().st_mode & 0o777 for path in (other / "dist").iterdir()}, {0o644})

    def test_the_sums_are_those_of_the_files(self):
        dist = self.folder / "dist"
        shutil.copytree(self.release / "dist", dist)
        self.assertEqual(self.run_in(dist, "sha256sum", "--strict", "-c", "SHA256SUMS").count(": OK\n"), 2)
        with self.wheel(dist).open("ab") as file:
            file.write(b"x")
        self.assertIn(".whl: FAILED\n", self.run_in(dist, "sha256sum", "-c", "SHA256SUMS", status=1))

    def test_the_source_archive_is_what_git_has_and_makes_the_same_wheel(self):
        top = f"reqlock-{version()}"
        files = git(self.release, "ls-files").splitlines()
        with tarfile.open(self.one("*-source.tar.gz", self.release / "dist")) as archive:
            members = [member for member in archive.getmembers() if not member.isdir()]
            self.assertEqual([member.name for member in members], [f"{top}/{name}" for name in files])
            self.assertEqual({(member.mtime, member.uid, member.gid, member.uname) for member in archive.getmembers()}, {(TIME, 0, 0, "root")})
            self.assertEqual({member.mode for member in members}, {0o644, 0o755})
            for name in files:
                content = archive.extractfile(f"{top}/{name}").read()
                self.assertEqual(content, f"{TIME}\n".encode() if name == ".commit-time" else (self.release / name).read_bytes(), name)
            archive.extractall(self.folder / "unpacked")
        tree = self.folder / "unpacked" / top
        put_program(tree)
        done = package(tree, SOURCE_DATE_EPOCH="")
        self.assertEqual((done.returncode, done.stderr), (0, NO_ARCHIVE))
        self.assertEqual(self.wheel(tree / "dist").read_bytes(), self.wheel().read_bytes())


class Uncommitted(Treed):
    """A tree that isn't as its last commit has it, or has what a release can't have."""

    def test_what_is_not_committed_is_told(self):
        git(self.tree, "init", "--quiet")
        self.assertEqual(self.build(status=1), "package: nothing is committed yet\n")
        commit(self.tree)
        with (self.tree / "README.md").open("a", encoding="utf-8") as file:
            file.write("more\n")
        self.assertEqual(self.build(status=1), "package: README.md isn't as the last commit has it: commit it first\n")
        self.assertFalse(list(self.tree.glob("dist/*")))

    def test_no_link_that_git_lists_is_followed(self):
        (self.folder / "secret").write_bytes(b"s3cr3t")
        (self.tree / "tools" / "reqlock_tools" / "stray.py").symlink_to(self.folder / "secret")
        commit(self.tree)
        self.assertEqual(self.build(status=1), "package: tools/reqlock_tools/stray.py: a link leads elsewhere; remove it first\n")


class Faults(Treed):
    def test_are_told(self):
        absent = "package: crates/reqlock/out/reqlock isn't there: build the program first, by ./demo --proved\n"
        self.assertEqual(self.build(program=None, status=1), absent)
        self.assertIn("usage: ./package", self.build("--delete", status=2))
        self.assertIn("the FOLDER is empty", self.build("", status=2))
        self.assertIn("usage: ./package", self.build("--help"))

    def test_no_time(self):
        fault = "package: nothing says when this was committed: set SOURCE_DATE_EPOCH, in seconds since 1970\n"
        self.assertEqual(self.build(status=1, SOURCE_DATE_EPOCH=""), fault)

    def test_no_build_backend(self):
        (self.folder / "hatchling").mkdir()
        (self.folder / "hatchling" / "__init__.py").write_text("raise ImportError\n", encoding="utf-8")
        told = self.build(status=1, PYTHONPATH=str(self.folder))
        self.assertEqual(told, "package: no python3 has the build backend: install python3-hatchling, or hatchling by pip\n")

    def test_no_readelf(self):
        place = self.folder / "bin"
        place.mkdir()
        for name in "bash", "env", "dirname", "basename", "mkdir", "python3", "git", "find", "mktemp", "rm", "realpath", "cp":
            (place / name).symlink_to(shutil.which(name))
        self.assertIn("package: readelf is needed", self.build(status=1, PATH=str(place)))

    def test_what_is_no_program_for_linux(self):
        (self.tree / "crates" / "reqlock" / "out").mkdir(parents=True)
        for content in b"#!/bin/sh\n" + b"#" * 20, b"\x7fELF":
            path = self.tree / "crates" / "reqlock" / "out" / "reqlock"
            path.write_bytes(content)
            path.chmod(0o755)
            self.assertIn("crates/reqlock/out/reqlock: it is no program for Linux", self.build(program=None, status=1))

    @unittest.skipUnless(os.geteuid() == 0, "optional: only root can be another user")
    def test_a_folder_that_cannot_be_written(self):
        self.folder.chmod(0o755)
        (self.folder / "closed").mkdir(mode=0o755)
        user = {"user": NOBODY, "group": NOBODY, "extra_groups": []}
        for place in self.folder / "closed", self.folder / "closed" / "below":
            told = self.build(str(place), status=1, user=user)
            self.assertEqual(told, f"package: {place}: it can't be written; give a FOLDER that can\n")


class Version(unittest.TestCase):
    def test_pages_have_that_of_the_program(self):
        newest = re.search("(?m)^## (.*)$", (TOP / "CHANGELOG.md").read_text(encoding="utf-8"))[1]
        shown = re.findall(r"reqlock-([0-9][^-\s]*)-", "".join(path.read_text(encoding="utf-8") for path in (TOP / "README.md", *TOP.glob("docs/**/*.md"))))
        self.assertEqual((newest, set(shown)), (version(), {version()}))


if __name__ == "__main__":
    unittest.main()
