"""Tests of tools/environment.py, under each Python that the machine has."""

import ast
import json
import subprocess
import sys
import unittest
from collections import namedtuple

from support.places import PROGRAM, TOOLS, needs_program, new_folder
from support.pythons import pythons
from support.wanted_libraries import want_libraries

from reqlock_tools import environment
from reqlock_tools.libraries import needed
from reqlock_tools.tags import tags_of

Info = namedtuple("Info", "major minor micro releaselevel serial")
VARIABLES = (
    "implementation_name implementation_version os_name platform_machine platform_python_implementation "
    "platform_release platform_system platform_version python_full_version python_version sys_platform"
).split()
TAGS = ["abis", "interpreter", "platforms"]
OLDEST = 3, 6
# Which wheels a Python takes, as its pip tells.
THEIRS = "from pip._internal.utils import compatibility_tags as tags; print(*sorted(map(str, tags.get_supported())))"


def run(*words, python=sys.executable, folder=None):
    command = [python, "-B", TOOLS / "environment.py", *words]
    return subprocess.run(command, capture_output=True, encoding="utf-8", check=False, cwd=folder)


def printed(*words, python=sys.executable):
    done = run(*words, python=python)
    return json.loads(done.stdout) if done.returncode == 0 else done.stderr


class Environment(unittest.TestCase):
    def test_prints_the_variables_of_this_interpreter(self):
        done = run()
        self.assertEqual((done.returncode, done.stderr), (0, ""))
        variables = json.loads(done.stdout)
        self.assertEqual(list(variables), sorted([*VARIABLES, *TAGS]))
        self.assertEqual(variables["sys_platform"], sys.platform)
        self.assertEqual(variables["python_version"], f"{sys.version_info.major}.{sys.version_info.minor}")
        self.assertEqual(done.stdout.count("\n"), 1)

    def test_takes_no_other_words(self):
        for words in ["x"], ["--platform", "plan9"], ["--platform", "linux-x86_64"], ["--python", "3.9"], ["--glibc", "2.17"]:
            self.assertEqual(run(*words).returncode, 2, words)
        self.assertEqual(run("--python", "3.9", "--platform", "linux-x86_64", "--macos", "13").returncode, 2)
        self.assertEqual(run("--python", "3.9", "--platform", "linux-x86_64", "--glibc", "new").returncode, 2)
        self.assertIn("usage: ", run("-h").stdout)

    def test_writes_versions_as_the_standard_does(self):
        self.assertEqual(environment.version_text(Info(3, 13, 0, "final", 0)), "3.13.0")
        self.assertEqual(environment.version_text(Info(3, 13, 0, "alpha", 2)), "3.13.0a2")
        self.assertEqual(environment.version_text(Info(3, 13, 0, "candidate", 1)), "3.13.0c1")

    def test_knows_which_texts_are_lawful(self):
        self.assertTrue(environment.is_lawful("#1 SMP Debian 6.1.55-1 (~')"))
        for text in 'a"', "a\\", "a\t", "\u00e9", "\x7f":
            self.assertFalse(environment.is_lawful(text), text)


class Pythons(unittest.TestCase):
    """The file is read and run by each Python from 3.6 on."""

    def test_has_the_grammar_of_the_oldest_and_nothing_beside_it(self):
        text = (TOOLS / "reqlock_tools" / "environment.py").read_text(encoding="utf-8")
        tree = ast.parse(text, feature_version=OLDEST)
        imported = {name for node in ast.walk(tree) if isinstance(node, ast.Import) for name in (alias.name for alias in node.names)}
        imported |= {node.module for node in ast.walk(tree) if isinstance(node, ast.ImportFrom)}
        self.assertEqual(imported, {
            "argparse", "glob", "json", "os", "platform", "re", "shutil", "subprocess", "sys", "sysconfig", "typing",
        })
        later = {"removeprefix", "removesuffix", "reconfigure", "capture_output", "text", "fromisoformat", "cache", "is_relative_to"}
        names = {node.attr for node in ast.walk(tree) if isinstance(node, ast.Attribute)}
        names |= {node.arg for node in ast.walk(tree) if isinstance(node, ast.keyword)}
        self.assertEqual(names & later, set())

    def test_is_run_by_each(self):
        versions = pythons()
        for version, python in versions.items():
            with self.subTest(version=version):
                own = printed(python=python)
                self.assertEqual(own["python_version"], "{}.{}".format(*version))
                self.assertEqual(printed("--python", python), own)
                self.assertTrue(run("--help", python=python).stdout.startswith("usage: "))
                self.check_described(version, python, own)
        print(f"environment.py ran under Python {', '.join('{}.{}'.format(*version) for version in versions)}")

    def check_described(self, version, python, own):
        """What is described of this machine is what its Python prints, but for the kernel's texts and the last number."""
        if (own["sys_platform"], own["platform_machine"], own["interpreter"][:2]) != ("linux", "x86_64", "cp"):
            return
        words = "--python", own["python_full_version"], "--platform", "linux-x86_64"
        for which in python, sys.executable:
            described = printed(*words, python=which)
            kernel = {"platform_release": "", "platform_version": ""}
            platforms = {"platforms": described["platforms"]}
            self.assertEqual(described, own | kernel | platforms)
        self.assertEqual(printed("--python", "{}.{}".format(*version), *words[2:])["python_full_version"], "{}.{}.0".format(*version))

    @want_libraries("packaging.tags")
    def test_takes_the_wheels_that_each_pip_takes(self):
        count = 0
        for version, python in pythons().items():
            done = subprocess.run([python, "-c", THEIRS], capture_output=True, encoding="utf-8", check=False)
            if done.returncode == 0:
                count += 1
                with self.subTest(version=version):
                    self.assertEqual(sorted(map(str, tags_of(printed(python=python)))), done.stdout.split())
        if count == 0:
            self.skipTest("no Python has a pip")

    def test_other_tools_tell_which_one_they_need(self):
        for version, python in pythons().items():
            if version < (3, 11):
                done = subprocess.run([python, "-B", TOOLS / "snapshot.py", "--help"], capture_output=True, encoding="utf-8", check=False)
                text = "snapshot.py: Python 3.11 or later is needed, and this is {}.{}.".format(*version)
                self.assertEqual((done.returncode, done.stdout, done.stderr[: len(text)]), (1, "", text))
                self.assertEqual(done.stderr.count("\n"), 1)

    def test_asks_no_other_program(self):
        folder = new_folder(self.addCleanup)
        (folder / "odd").write_text("#!/bin/sh\necho '{}'\n", encoding="utf-8")
        (folder / "odd").chmod(0o755)
        for path in folder / "odd", folder / "absent", folder:
            done = run("--python", path)
            self.assertEqual((done.returncode, done.stdout, done.stderr.count("\n")), (1, "", 1))


class Described(unittest.TestCase):
    def check(self, name, variables, platforms, *words):
        described = printed("--python", "3.9", "--platform", name, *words)
        wanted = dict(zip(("os_name", "platform_machine", "platform_system", "sys_platform"), variables.split()))
        self.assertEqual({key: described[key] for key in wanted}, wanted)
        self.assertEqual((described["interpreter"], described["abis"], described["python_full_version"]), ("cp39", ["cp39"], "3.9.0"))
        self.assertEqual((described["platform_release"], described["platform_version"]), ("", ""))
        self.assertEqual(described["platforms"], platforms)

    def test_are_the_platforms_of_the_standards(self):
        x86, arm = ["manylinux_2_6", "manylinux_2_5", "manylinux1", "linux"], ["manylinux_2_18", "manylinux_2_17", "manylinux2014", "linux"]
        self.check("linux-x86_64", "posix x86_64 Linux linux", [f"{platform}_x86_64" for platform in x86], "--glibc", "2.6")
        self.check("linux-aarch64", "posix aarch64 Linux linux", [f"{platform}_aarch64" for platform in arm], "--glibc", "2.18")
        self.check("linux-aarch64", "posix aarch64 Linux linux", ["linux_aarch64"], "--glibc", "2.16")
        musl = [f"{platform}_aarch64" for platform in ("musllinux_1_2", "musllinux_1_1", "musllinux_1_0", "linux")]
        self.check("musllinux-aarch64", "posix aarch64 Linux linux", musl)
        self.check("musllinux-x86_64", "posix x86_64 Linux linux", ["musllinux_1_0_x86_64", "linux_x86_64"], "--musl", "1.0")
        self.check("windows-x86_64", "nt AMD64 Windows win32", ["win_amd64"])
        self.check("windows-arm64", "nt ARM64 Windows win32", ["win_arm64"])
        self.assertEqual(printed("--python", "3.9", "--platform", "linux-x86_64")["platforms"][0], "manylinux_2_28_x86_64")

    @want_libraries("packaging.tags")
    def test_are_those_that_packaging_knows_of_a_mac(self):
        for machine in "arm64", "x86_64":
            for version in (13, 0), (11, 0), (14, 2):
                wanted = list(needed("packaging.tags").mac_platforms(version, machine))
                self.check(f"macos-{machine}", f"posix {machine} Darwin darwin", wanted, "--macos", "{}.{}".format(*version))
        wanted = list(needed("packaging.tags").mac_platforms((10, 15), "x86_64"))
        self.check("macos-x86_64", "posix x86_64 Darwin darwin", wanted, "--macos", "10.15")

    def test_are_those_of_a_version(self):
        for text, version, full, abi in (
            ("3.6", "3.6.0", "3.6.0", "cp36m"), ("3.7.4", "3.7.4", "3.7.4", "cp37m"), ("3.13.0rc2", "3.13.0c2", "3.13.0rc2", "cp313"),
            ("3.14.0a1", "3.14.0a1", "3.14.0a1", "cp314"),
        ):
            described = printed("--python", text, "--platform", "windows-x86_64")
            self.assertEqual((described["implementation_version"], described["python_full_version"], described["abis"]), (version, full, [abi]))
        for text in "3", "2.7", "4.0", "3.x", "3.9.", "3.09":
            self.assertNotEqual(run("--python", text, "--platform", "windows-x86_64").returncode, 0, text)

    @needs_program
    def test_are_read_by_reqlock(self):
        folder = new_folder(self.addCleanup)
        (folder / "requirements.txt").write_text("a ; sys_platform == 'darwin'\n", encoding="utf-8")
        (folder / "index.json").write_text('{"snapshot":1,"packages":[]}', encoding="utf-8")
        for name in environment.PLATFORMS:
            (folder / "environment.json").write_text(run("--python", "3.9", "--platform", name).stdout, encoding="utf-8")
            words = "--dir", folder, "--index", folder / "index.json", "--env", folder / "environment.json", "init", "--dry-run"
            done = subprocess.run([PROGRAM, *words[:-1]], capture_output=True, encoding="utf-8", check=False)
            self.assertEqual(done.stdout, "refused no-solution\n" if name.startswith("macos") else "ok 0\n", done.stderr)
            for path in folder.glob("*lock*"):
                path.unlink()


if __name__ == "__main__":
    unittest.main()
