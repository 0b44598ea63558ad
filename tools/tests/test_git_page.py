"""What docs/GIT.md shows being typed is typed, with the real git and the attributes that the page shows."""

import os
import re
import shutil
import subprocess
import tempfile
import unittest
from pathlib import Path

from support.checkouts import VARIABLES
from support.places import PROGRAM, TOOLS, TOP, needs_program
from support.shown import indented_blocks, printed_by, typed_blocks

BEGIN = """
git init --quiet --initial-branch=main
reqlock init --env environment.json
git add --all
git commit --quiet --message=begin
"""


def is_printed(shown, printed):
    """Whether lines were printed as they are shown; `..` stands for what git tells in words that change with its versions."""
    pattern = "".join("(?:.*\n)*" if line == ".." else re.escape(line) + "\n" for line in shown)
    return re.fullmatch(pattern, printed) is not None


@needs_program
@unittest.skipUnless(shutil.which("git"), "there is no git")
class Page(unittest.TestCase):
    def setUp(self):
        self.text = (TOP / "docs" / "GIT.md").read_text(encoding="utf-8")
        self.attributes = (TOP / "examples" / "git" / ".gitattributes").read_text(encoding="utf-8")

    def test_the_attributes_are_those_of_the_file(self):
        rows = [line for line in self.attributes.splitlines() if not line.startswith("#")]
        self.assertEqual(indented_blocks(self.text)[0].splitlines(), rows)

    def test_each_command_prints_what_is_shown(self):
        for block in typed_blocks(self.text):
            with self.subTest(block=block), tempfile.TemporaryDirectory() as name:
                folder = Path(name) / "web"
                shutil.copytree(TOP / "examples" / "web", folder)
                (folder / ".gitattributes").write_text(self.attributes, encoding="utf-8")
                (Path(name) / "bin").mkdir()
                (Path(name) / "bin" / "reqlock-merge").symlink_to(TOOLS / "merge.py")
                path = f"{Path(name) / 'bin'}:{PROGRAM.parent}:{os.environ['PATH']}"
                variables = {**os.environ, **VARIABLES, "PATH": path, "REQLOCK_INDEX": "index.json", "PYTHONDONTWRITEBYTECODE": "1"}
                subprocess.run(["bash", "-e"], input=BEGIN, cwd=folder, env=variables, stdout=subprocess.DEVNULL, text=True, check=True)
                for (command, shown), printed in zip(block, printed_by(block, folder, variables), strict=True):
                    self.assertTrue(is_printed(shown, printed), (command, printed))


if __name__ == "__main__":
    unittest.main()
