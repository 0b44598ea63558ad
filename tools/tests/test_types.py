"""Every function of the tools has types, and mypy finds no fault in them."""

import os
import shutil
import subprocess
import unittest

from support.places import SUPPORT, TOOLS, TOP

# What mypy read before, which it reads anew where a file has changed.
KEPT = TOP / ".mypy_cache"


class Types(unittest.TestCase):
    @unittest.skipUnless(shutil.which("mypy"), "there is no mypy: apt-get install mypy")
    def test_fit_together(self):
        scripts = sorted(path.name for path in TOOLS.glob("*.py"))
        # (hatchling and packaging need not be there: what mypy then can't know is no fault of the tools)
        options = "--strict", "--no-warn-unused-ignores", "--ignore-missing-imports", "--allow-subclassing-any", "--cache-dir", KEPT
        command = ["mypy", *options, "reqlock_tools", "definitions", "page_makers", "picture_makers", *scripts]
        variables = {**os.environ, "MYPYPATH": str(SUPPORT / "stubs")}
        done = subprocess.run(command, cwd=TOOLS, env=variables, capture_output=True, encoding="utf-8", check=False)
        self.assertEqual(done.returncode, 0, done.stdout + done.stderr)


if __name__ == "__main__":
    unittest.main()
