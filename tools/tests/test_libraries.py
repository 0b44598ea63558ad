"""Tests of a checkout whose python3 lacks the libraries of the tools: each help works without any, pip's copies will do, and without these
it is told what to type."""

import importlib.util
import json
import os
import subprocess
import sys
import unittest
from pathlib import Path

from support.made.served_index import MadeIndex, wheel_of
from support.places import TOOLS, new_folder

from reqlock_tools.names import COMMANDS
from reqlock_tools.rql import parser

PIP = importlib.util.find_spec("pip")
SUBCOMMANDS = [("snapshot", "simple"), ("snapshot", "again"), *(("rql", word) for word in (*parser.EDITS, "init", "lock", "sync", "check", "env"))]


class Libraries(unittest.TestCase):
    def setUp(self):
        self.folder = new_folder(self.addCleanup)

    def run_tool(self, module, *words):
        """What a tool does under a Python that has its own modules, and what lies in the folder, alone."""
        kept = {name: text for name, text in os.environ.items() if not name.lower().endswith("_proxy")}
        variables = {**kept, "PYTHONPATH": str(self.folder), "HOME": str(self.folder)}
        command = [sys.executable, "-S", "-B", TOOLS / f"{module}.py", *map(str, words)]
        return subprocess.run(command, capture_output=True, encoding="utf-8", check=False, env=variables, cwd=self.folder)

    def test_help_works_without_any(self):
        for module, *words in (*((module,) for module in COMMANDS), *SUBCOMMANDS):
            with self.subTest(module=module, words=words):
                done = self.run_tool(module, *words, "--help")
                self.assertEqual((done.returncode, done.stderr), (0, ""))
                self.assertTrue(done.stdout.startswith("usage: "), done.stdout)

    def snapshot(self):
        """What a call tells that takes a release of an index, and the releases."""
        index = MadeIndex()
        self.addCleanup(index.close)
        index.add("a", wheel_of("a", "1"))
        output = self.folder / "index.json"
        done = self.run_tool("snapshot", "simple", index.url, "a", "--cache", self.folder / "cache", "--output", output)
        packages = json.loads(output.read_text(encoding="utf-8"))["packages"] if output.exists() else []
        return done, [release["version"] for package in packages for release in package["releases"]]

    def test_what_is_absent_is_named(self):
        done, versions = self.snapshot()
        self.assertEqual((done.returncode, done.stdout, versions), (2, "", []))
        told = f"{sys.executable} has neither the library packaging nor pip, which has a copy: python3 -m pip install packaging"
        self.assertIn(told, done.stderr.splitlines()[-1])

    @unittest.skipUnless(PIP and PIP.origin and (Path(PIP.origin).parent / "_vendor" / "urllib3").exists(), "pip has no copies here")
    def test_copies_of_pip_will_do(self):
        (self.folder / "pip").symlink_to(Path(PIP.origin).parent)
        done, versions = self.snapshot()
        self.assertEqual((done.returncode, versions), (0, ["1"]), done.stderr)


if __name__ == "__main__":
    unittest.main()
