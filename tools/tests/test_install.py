"""Tests of ./install: what is installed runs, its list says what was put where, what is removed is gone, bash completes. The words of the
completions and of the manual page are those that `--help` tells."""

import hashlib
import json
import os
import re
import shutil
import subprocess
import unittest
from pathlib import Path

from support.made.environments import LINUX
from support.made.releases import index_of
from support.once import made_once
from support.places import PROGRAM, TOP, needs_program, new_folder
from support.program import NOBODY

INSTALL = TOP / "install"
SHARE = TOP / "share"
RECORD = Path("lib") / "reqlock" / "installed"
NOTHING = hashlib.sha256(b"").hexdigest()
EVERYWHERE = {"--verbose", "--quiet", "--color", "--help"}  # the options of each subcommand
COMMANDS = (
    "reqlock", "reqlock-adopt", "reqlock-check-refutation", "reqlock-environment", "reqlock-fleet", "reqlock-hashes",
    "reqlock-merge", "reqlock-snapshot", "rql",
)


class Places(unittest.TestCase):
    """Where files are put, with another program in the place of the built one."""

    def setUp(self):
        self.folder = new_folder(self.addCleanup)
        self.tree, self.prefix, self.outside = self.folder / "tree", self.folder / "prefix", self.folder / "outside"
        copy_tree(self.tree)
        self.outside.mkdir()

    def give_installed(self):
        """The prefix is as ./install leaves it."""
        shutil.copytree(made_once("installed", make_installed) / "prefix", self.prefix, symlinks=True)

    def install(self, *words, status=0, user=None, **variables):
        command, variables = ["bash", "tree/install", *words, self.prefix], {**os.environ, **variables}
        done = subprocess.run(
            command, cwd=self.folder, env=variables, capture_output=True, encoding="utf-8", check=False, **user or {}
        )
        self.assertEqual(done.returncode, status, done.stdout + done.stderr)
        return done.stdout + done.stderr

    def test_no_link_is_followed(self):
        (self.prefix / "bin").mkdir(parents=True)
        for name in "reqlock", "reqlock.new", "reqlock-snapshot":
            (self.prefix / "bin" / name).symlink_to(self.outside / name)
        self.install()
        self.assertEqual(list(self.outside.iterdir()), [])
        self.assertFalse((self.prefix / "bin" / "reqlock").is_symlink())
        self.assertEqual(os.readlink(self.prefix / "bin" / "reqlock-snapshot"), "../lib/reqlock/snapshot.py")
        self.assertEqual([path.name for path in (self.prefix / "lib" / "reqlock").glob("*.py.*")], [])
        self.install("--remove")
        self.assertEqual([path.name for path in self.prefix.rglob("*")], ["bin", "reqlock.new"])

    def test_a_link_in_the_place_of_its_own_folder_is_refused(self):
        (self.prefix / "lib").mkdir(parents=True)
        (self.prefix / "lib" / "reqlock").symlink_to(self.outside)
        (self.outside / "__pycache__").mkdir()
        for words in [], ["--remove"]:
            fault = f"install: {self.prefix}/lib/reqlock: a link stands there; remove it first\n"
            self.assertEqual(self.install(*words, status=1), fault)
        self.assertEqual([path.name for path in self.outside.iterdir()], ["__pycache__"])

    @unittest.skipUnless(os.geteuid() == 0, "optional: only root can be another user")
    def test_a_folder_that_cannot_be_written_is_told_before_anything_is_done(self):
        self.folder.chmod(0o755)
        (self.prefix / "share" / "man").mkdir(parents=True)
        self.prefix.chmod(0o777)
        user = {"user": NOBODY, "group": NOBODY, "extra_groups": []}
        place = self.prefix / "share" / "bash-completion" / "completions"
        fault = f"install: {place}: it can't be written; give a PREFIX that can, as ~/.local\n"
        self.assertEqual(self.install(status=1, user=user), fault)
        self.assertEqual(sorted(self.prefix.rglob("*")), [self.prefix / "share", self.prefix / "share" / "man"])
        shutil.rmtree(self.prefix)
        self.give_installed()
        stood = sorted(self.prefix.rglob("*"))
        fault = f"install: {self.prefix / 'bin'}: it can't be written, so nothing is removed\n"
        self.assertEqual(self.install("--remove", status=1, user=user), fault)
        self.assertEqual(sorted(self.prefix.rglob("*")), stood)

    def test_what_an_older_version_installed_goes(self):
        """A newer version has other modules, and a command less. The list of 0.1.0 has paths alone."""
        older = self.tree / "tools" / "reqlock_tools" / "older"
        older.mkdir()
        (older / "one.py").write_bytes(b"")
        (self.tree / "tools" / "gone.py").write_bytes(b"")
        text = (self.tree / "install").read_text(encoding="utf-8")
        (self.tree / "install").write_text(text.replace("scripts=(", "scripts=(gone "), encoding="utf-8")
        self.install()
        self.assertTrue((self.prefix / "bin" / "reqlock-gone").exists())
        cache = self.prefix / "lib" / "reqlock" / "reqlock_tools" / "older" / "__pycache__"
        cache.mkdir()
        (cache / "one.cpython-311.pyc").write_bytes(b"")
        shutil.copytree(self.prefix, self.folder / "first", symlinks=True)
        (self.tree / "install").write_text(text, encoding="utf-8")
        shutil.rmtree(older)
        gone = "install: this version has no reqlock-gone: CHANGELOG.md says what takes its place\n"
        for words, left in ([], True), (["--remove"], False):
            self.assertEqual(gone in self.install(*words), left)
            self.assertEqual([path for path in self.prefix.rglob("*") if path.name in ("older", "one.py", "gone.py", "reqlock-gone")], [])
            self.assertEqual((self.prefix / "bin" / "reqlock").exists(), left)
        self.assertEqual(list(self.prefix.rglob("*")), [])
        self.prefix = self.folder / "first"
        lines = (self.prefix / RECORD).read_text(encoding="utf-8").splitlines()
        paths = [line.split(" ")[2] for line in lines if not line.startswith("folder ")]
        (self.prefix / RECORD).write_text("\n".join([*paths, str(RECORD), ""]), encoding="utf-8")
        self.assertIn(gone, self.install())
        self.assertEqual([path for path in self.prefix.rglob("*") if path.name in ("older", "one.py", "gone.py", "reqlock-gone")], [])
        self.install("--remove")
        self.assertEqual([path for path in self.prefix.rglob("*") if not path.is_dir()], [])

    def stood(self):
        """All that stands below the prefix and outside of it, with what is in it."""
        paths = [*self.prefix.rglob("*"), *self.outside.rglob("*")]
        return {path: os.readlink(path) if path.is_symlink() else path.read_bytes() if path.is_file() else None for path in paths}

    def test_the_list_says_what_was_put_where(self):
        self.give_installed()
        installed = {RECORD}
        for line in (self.prefix / RECORD).read_text(encoding="utf-8").splitlines():
            kind, sign, name = line.split(" ")
            path = self.prefix / name
            if kind == "file":
                self.assertEqual(sign, hashlib.sha256(path.read_bytes()).hexdigest())
                self.assertFalse(path.is_symlink())
            elif kind == "link":
                self.assertEqual(sign, os.readlink(path))
            else:
                self.assertEqual((kind, sign, path.is_dir()), ("folder", "-", True))
            installed.add(Path(name))
        self.assertEqual({path.relative_to(self.prefix) for path in self.prefix.rglob("*")} - installed, {Path("share")})
        self.install("--remove")
        self.assertEqual(list(self.prefix.rglob("*")), [self.prefix / "share"])
        fault = f"install: {self.prefix}/lib/reqlock/installed isn't there: ./install put nothing below {self.prefix}\n"
        self.assertEqual(self.install("--remove", status=1), fault)

    def test_what_somebody_changed_or_added_stays_and_is_told(self):
        self.give_installed()
        library = self.prefix / "lib" / "reqlock"
        (self.outside / "toml.py").write_bytes((library / "reqlock_tools" / "toml.py").read_bytes())
        (self.outside / "names.cpython-311.pyc").write_bytes(b"")
        changed = [library / "reqlock_tools" / "files.py", library / "reqlock_tools" / "toml.py", self.prefix / "bin" / "reqlock-merge"]
        changed[0].write_bytes(b"# mine\n")
        for path, target in (changed[1], self.outside / "toml.py"), (changed[2], self.outside / "none"):
            path.unlink()
            path.symlink_to(target)
        added = [library / "reqlock_tools" / "mine.py", self.prefix / "bin" / "other", library / "reqlock_tools" / "__pycache__"]
        added[0].write_bytes(b"")
        added[1].write_bytes(b"")
        added[2].symlink_to(self.outside)
        outside = sorted(self.outside.iterdir())
        told = self.install("--remove").splitlines()
        self.assertEqual(told[0], f"reqlock is removed from {self.prefix}")
        self.assertEqual(told[1:-1], [f"install: {path}: it was changed since it was installed, so it stays" for path in sorted(changed, key=str)])
        self.assertEqual(told[-1], f"install: {library}: files that aren't in the list of what was installed stay there")
        left = {path for path in self.prefix.rglob("*") if path.is_symlink() or not path.is_dir()}
        self.assertEqual((left, sorted(self.outside.iterdir())), ({*changed, *added}, outside))

    def test_a_list_that_somebody_wrote_is_refused(self):
        self.give_installed()
        (self.outside / "reqlock.1").write_bytes(b"")
        for place in self.prefix / "share" / "away", self.prefix / "lib" / "reqlock" / "away", self.prefix / "bin" / "reqlock-away":
            place.symlink_to(self.outside)
        (self.prefix / "bin" / "other").write_bytes(b"")
        text, stood = (self.prefix / RECORD).read_text(encoding="utf-8"), self.stood()
        number = f"line {len(text.splitlines()) + 1} was written by somebody else; mend it or remove the list"
        paths = (
            "../outside/reqlock.1", "bin/../../outside/reqlock.1", "lib/reqlock/../../../outside/reqlock.1", str(self.outside / "reqlock.1"),
            "bin/other", "bin/reqlock-away/reqlock.1", "share/./reqlock.1", "share//reqlock.1", "lib/reqlock/a*", "",
        )
        lines = [*(f"file {NOTHING} {path}" for path in paths), *paths[:-1], f"link {self.outside} ../outside", "folder - ..", "folder - etc"]
        links = [(f"file {NOTHING} {name}/away/reqlock.1", f"{self.prefix}/{name}/away: a link stands there") for name in ("share", "lib/reqlock")]
        for line, fault in [*((line, f"{self.prefix / RECORD}: {number}") for line in lines), *links]:
            with self.subTest(line=line):
                (self.prefix / RECORD).write_text(f"{text}{line}\n", encoding="utf-8")
                for words in (["--remove"], []) if line in (lines[0], links[0][0]) else (["--remove"],):
                    self.assertTrue(self.install(*words, status=1).startswith(f"install: {fault}"))
                (self.prefix / RECORD).write_text(text, encoding="utf-8")
                self.assertEqual(self.stood(), stood)

    def test_a_list_that_is_a_link_is_refused(self):
        self.give_installed()
        (self.prefix / RECORD).rename(self.outside / "list")
        (self.prefix / RECORD).symlink_to(self.outside / "list")
        stood = self.stood()
        for words in [], ["--remove"]:
            self.assertEqual(self.install(*words, status=1), f"install: {self.prefix / RECORD}: a link stands there; remove it first\n")
        self.assertEqual(self.stood(), stood)

    def test_an_install_that_was_cut_off_is_removed(self):
        (self.folder / "words").mkdir()
        count = self.folder / "count"
        script = f"#!/bin/sh\necho >>{count}\n[ $(wc -l <{count}) -lt 9 ] || exit 1\nexec {shutil.which('mv')} \"$@\"\n"
        (self.folder / "words" / "mv").write_text(script, encoding="utf-8")
        (self.folder / "words" / "mv").chmod(0o755)
        self.install(status=1, PATH=f"{self.folder / 'words'}:{os.environ['PATH']}")
        self.assertTrue((self.prefix / "bin" / "reqlock").exists())
        self.assertEqual(list(self.prefix.rglob(".reqlock.*")), [])
        self.install("--remove")
        self.assertEqual([path for path in self.prefix.rglob("*") if not path.is_dir()], [])

    def test_another_tree_of_the_path_is_not_taken(self):
        copy_tree(self.outside / "tree")
        (self.outside / "tree" / "share" / "man" / "reqlock.1").write_text("another", encoding="utf-8")
        told = self.install(CDPATH=str(self.outside))
        self.assertTrue(told.startswith("reqlock is installed in "), told)
        self.assertNotEqual((self.prefix / "share/man/man1/reqlock.1").read_text(encoding="utf-8"), "another")


def copy_tree(place):
    """What ./install copies, and itself, with another program."""
    for name in "tools", "share":
        shutil.copytree(TOP / name, place / name, ignore=shutil.ignore_patterns("tests", "__pycache__", ".*"))
    shutil.copy(INSTALL, place)
    program = place / "crates" / "reqlock" / "out" / "reqlock"
    program.parent.mkdir(parents=True)
    shutil.copy(shutil.which("true"), program)


def make_installed(folder):
    """What ./install puts below a prefix in which a folder `share` stood before: of the built program, where there is one."""
    copy_tree(folder / "tree")
    if PROGRAM.exists():
        shutil.copy(PROGRAM, folder / "tree" / "crates" / "reqlock" / "out")
    (folder / "prefix" / "share").mkdir(parents=True)
    subprocess.run([folder / "tree" / "install", folder / "prefix"], capture_output=True, check=True)


@needs_program
class Installed(unittest.TestCase):
    def setUp(self):
        self.folder = new_folder(self.addCleanup)
        self.prefix = self.folder / "a prefix"

    def install(self, *words, status=0, script=INSTALL):
        done = subprocess.run([script, *words], cwd=self.folder, capture_output=True, encoding="utf-8", check=False)
        self.assertEqual(done.returncode, status, done.stdout + done.stderr)
        return done.stdout + done.stderr

    def run_installed(self, *words, text=""):
        variables = {**os.environ, "PATH": f"{self.prefix}/bin:{os.environ['PATH']}", "PYTHONDONTWRITEBYTECODE": "1"}
        done = subprocess.run(words, cwd=self.folder, env=variables, input=text, capture_output=True, encoding="utf-8", check=False)
        return done.returncode, done.stdout + done.stderr

    def test_what_is_installed_runs_and_is_removed(self):
        told = self.install(self.prefix)
        self.assertEqual(told, f"reqlock is installed in {self.prefix}\nput {self.prefix}/bin on your PATH\n")
        self.assertEqual(sorted(path.name for path in (self.prefix / "bin").iterdir()), sorted(COMMANDS))
        for command in COMMANDS:
            status, told = self.run_installed(command, "--help")
            self.assertEqual(status, 0, told)
        self.check_runs()
        self.install("a prefix")
        self.install("--remove", "a prefix")
        self.assertEqual(list(self.prefix.rglob("*")), [])

    def check_runs(self):
        """A history is adopted, and a refutation of it is checked, by the installed commands."""
        (self.folder / "index.json").write_text(json.dumps(index_of(("a", "1", []), ("a", "2", []))), encoding="utf-8")
        (self.folder / "environment.json").write_text(json.dumps(LINUX), encoding="utf-8")
        (self.folder / "in").write_bytes(b"a\n")
        (self.folder / "txt").write_bytes(b"a==1\n")
        files = "--index", "index.json", "--env", "environment.json"
        self.assertEqual(self.run_installed("reqlock-adopt", "in", "txt", *files), (0, "ok 0\nrql: 1 of 1 pins are taken over\n"))
        status, told = self.run_installed("reqlock", "--index", "index.json", "why", "z")
        self.assertEqual((status, told), (3, "-\n"))
        words = "index.json", "environment.json", "requirements.txt", "--line", "z"
        self.assertEqual(self.run_installed("reqlock-check-refutation", *words, text=told), (0, "accepted\n"))
        self.assertEqual(self.run_installed("reqlock-hashes", "pylock.toml")[0], 0)

    def test_other_files_stay(self):
        (self.prefix / "bin").mkdir(parents=True)
        (self.prefix / "bin" / "other").write_bytes(b"x")
        self.install(self.prefix)
        self.install("--remove", self.prefix)
        self.assertEqual([path.name for path in self.prefix.rglob("*") if path.is_file()], ["other"])

    def test_faults_are_told(self):
        self.assertIn("usage: ./install", self.install("--delete", status=2))
        self.assertIn("usage: ./install", self.install("a", "b", status=2))
        self.assertIn("the PREFIX is empty", self.install("", status=2))
        self.assertIn("there is no such folder", self.install("--remove", "none", status=1))
        self.assertIn("usage: ./install", self.install("--help"))
        (self.folder / "file").write_bytes(b"")
        self.assertEqual(
            self.install("file", status=1), f"install: {self.folder}/file: it can't be written; give a PREFIX that can, as ~/.local\n"
        )
        script = Path(shutil.copy(INSTALL, self.folder))
        self.assertEqual(self.install("x", status=1, script=script), "install: crates/reqlock/out/reqlock isn't there: build the program first, by ./demo --proved\n")

    def test_bash_completes(self):
        self.prefix = made_once("installed", make_installed) / "prefix"
        stepping = {*EVERYWHERE, "--dir", "--dry-run"}
        editing = {"a", "b", *stepping, "--index", "--keep-locked", "--if-needed"}
        for words, wanted in (
            (["reqlock", "re"], {"remove", "relock", "replace", "retarget", "redo"}), (["reqlock", "--i"], {"--index"}),
            (["reqlock", "--index", "x", "why", "--ex"], {"--explain"}), (["reqlock", "--dir", "d", "upgrade", ""], editing),
            (["reqlock", "upgrade", "--dir", "d", ""], editing), (["reqlock", "log", "--l"], {"--long"}),
            (["reqlock", "--dir", "a f"], {"a folder"}), (["reqlock", "help", "ba"], {"batch"}), (["reqlock", "undo", ""], stepping),
            (["reqlock", "--dir", "d", "why", "--not", ""], {"a", "b"}), (["reqlock", "--dr"], {"--dry-run"}),
            (["reqlock", "--index", "file"], {"file.json"}), (["reqlock", "add", "a", "--index", "file"], {"file.json"}),
            (["reqlock", "--env", "one", "=", "file"], {"file.json"}), (["reqlock", "--env", "one", "=", "x", "undo", ""], stepping),
            (["reqlock", "init", "--env", "one=file"], {"one=file.json"}), (["reqlock", "undo", "--e"], set()),
            (["reqlock", "--dir", "d", "remove", ""], editing - {"a"}),
            (["reqlock", "--dir", "d", "why", "--constrain", ""], {"b"}), (["reqlock", "replace", "file"], {"file.json"}),
            (["reqlock", "export", "--format", "d"], {"dot"}), (["reqlock", "--color", "n"], {"never"}),
        ):
            with self.subTest(words=words):
                self.assertEqual(self.completed(words), wanted)

    def completed(self, words):
        """What bash completes, in a folder in whose folder `d` the names `a` and `b` are locked, the latter for a line."""
        if not (self.folder / "d").exists():
            (self.folder / "d").mkdir()
            (self.folder / "a folder").mkdir()
            (self.folder / "d" / "requirements.txt").write_bytes(b"b\n")
            index = index_of(("a", "1", []), ("b", "1", ["a"]))
            (self.folder / "file.json").write_text(json.dumps(index), encoding="utf-8")
            (self.folder / "environment").write_text(json.dumps(LINUX), encoding="utf-8")
            self.run_installed("reqlock", "--dir", "d", "--index", "file.json", "--env", "environment", "init")
        script = (
            f"source '{self.prefix}/share/bash-completion/completions/reqlock'\n"
            'COMP_WORDS=("$@")\nCOMP_CWORD=$(($# - 1))\ncomplete -p reqlock >&2\n_reqlock\nprintf "%s\\n" "${COMPREPLY[@]}"'
        )
        status, told = self.run_installed("bash", "-c", script, "bash", *words)
        lines = told.splitlines()
        self.assertIn("complete -F _reqlock reqlock", lines)
        return {line for line in lines if line not in ("", "complete -F _reqlock reqlock")}


@needs_program
class Words(unittest.TestCase):
    """The words of the completions and of the manual page are those of `--help`, and no others."""

    @classmethod
    def setUpClass(cls):
        told = cls.help_of()
        cls.subcommands = set(re.findall(r"(?m)^  ([a-z]+) ", told.split("Commands:")[1].split("Options:")[0])) | {"help"}
        helps = [told, *(cls.help_of(name) for name in cls.subcommands - {"help"})]
        cls.options = {option for text in helps for option in re.findall(r"(?m)^ +(?:-[A-Za-z], )?(--[a-z-]+)", text)}

    @staticmethod
    def help_of(*subcommand):
        return subprocess.run([PROGRAM, *subcommand, "--help"], capture_output=True, encoding="utf-8", check=True).stdout

    def check(self, text, subcommand, option):
        """A file has each subcommand and each option, as these patterns find them."""
        self.assertEqual(set(re.findall(subcommand, text)), self.subcommands)
        self.assertEqual({f"--{name.lstrip('-')}" for name in re.findall(option, text)}, self.options)

    def test_each_file_has_them(self):
        self.assertGreater(len(self.subcommands), 15)
        for path, subcommand, option in (
            ("zsh/_reqlock", r"(?m)^ +'([a-z]+):", r"'(?:\*|\([^()]*\))?(--[a-z-]+)\["),
            ("fish/reqlock.fish", r"__reqlock_before -a ([a-z]+)", r"(?m)^complete.* -l ([a-z-]+)"),
            ("man/reqlock.1", r"(?m)^\.SS \\fB([a-z]+)", r"(?m)^(?:\\fB-[a-zA-Z]\\fR, )?\\fB(--[a-z-]+)\\fR"),
        ):
            with self.subTest(path=path):
                text = (SHARE / path).read_text(encoding="utf-8")
                self.check(text.replace("\\-", "-") if path.startswith("man") else text, subcommand, option)

    def test_bash_has_them(self):
        text = (SHARE / "bash" / "reqlock").read_text(encoding="utf-8")
        self.assertEqual(set(re.search('commands="([^"]+)"', text)[1].split()), self.subcommands)
        self.assertEqual({word for words in re.findall(' words="(--[^"]*)"', text) for word in words.split()}, self.options)


if __name__ == "__main__":
    unittest.main()
