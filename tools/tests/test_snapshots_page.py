"""What docs/SNAPSHOTS.md, docs/INDEXES.md and docs/LIMITS.md show being typed is typed, with an index of the tests' own in place of the one that they
name."""

import dataclasses
import os
import re
import shutil
import unittest

from support.made.served_index import MadeIndex, sdist_of, wheel_of
from support.places import TOP, new_folder
from support.shown import printed_by, typed_blocks
from support.wanted_libraries import ASKING, want_libraries

from reqlock_tools.limits import Limits

NAMED = "https://index.example"
FIGURES = re.compile(r"[0-9.]+ [kM]B, [0-9.]+ s$", re.MULTILINE)
EXTRAS = "asgiref>=3.2 ; extra == 'async'", "colorama ; platform_system == 'Windows'"


def packages():
    """What the index has: releases of the packages of examples/web, and of what they lead to."""
    return {
        "flask": [
            sdist_of("flask", "0.1", metadata="1.0"),
            wheel_of("flask", "2.3.3", "Werkzeug>=2.3.7", "Jinja2>=3.1.2", *EXTRAS),
            wheel_of("flask", "3.0.3", "Werkzeug>=3.0.0", "Jinja2>=3.1.2", *EXTRAS),
            sdist_of("flask", "3.0.3", "Werkzeug>=3.0.0", "Jinja2>=3.1.2", *EXTRAS),
        ],
        "werkzeug": [wheel_of("werkzeug", "2.3.8"), wheel_of("werkzeug", "3.0.4")],
        "jinja2": [wheel_of("jinja2", "3.1.4", beside=False)],
        "requests": [wheel_of("requests", version, "urllib3<3,>=1.21.1") for version in ("2.31.0", "2.32.3")],
        "urllib3": [wheel_of("urllib3", "1.26.20"), wheel_of("urllib3", "2.2.3", tag="cp312-cp312-manylinux_2_17_x86_64")],
        "asgiref": [wheel_of("asgiref", "3.8.1")],
        "colorama": [wheel_of("colorama", "0.4.6")],
    }


@want_libraries(*ASKING)
class Page(unittest.TestCase):
    def setUp(self):
        self.folder = new_folder(self.addCleanup)
        shutil.copytree(TOP / "examples" / "web", self.folder, dirs_exist_ok=True)
        os.symlink(TOP / "tools", self.folder / "tools")
        index = MadeIndex()
        self.addCleanup(index.close)
        for name, files in packages().items():
            index.add(name, *files)
        self.base = index.url.removesuffix("/simple/")

    def run_block(self, block):
        """What the commands print, one after the other."""
        kept = {name: value for name, value in os.environ.items() if not name.lower().endswith("proxy")}
        variables = {**kept, "XDG_CACHE_HOME": str(self.folder / "cache"), "PYTHONDONTWRITEBYTECODE": "1"}
        return printed_by(block, self.folder, variables, NAMED, self.base)

    def test_each_command_prints_what_is_shown(self):
        pages = [TOP / "docs" / name for name in ("SNAPSHOTS.md", "INDEXES.md", "LIMITS.md")]
        blocks = [block for page in pages for block in typed_blocks(page.read_text(encoding="utf-8"))]
        self.assertGreater(len(blocks), 5)
        for block in blocks:
            with self.subTest(block=block[0][0]):
                printed = [FIGURES.sub("..", text).splitlines() for text in self.run_block(block)]
                self.assertEqual(printed, [[FIGURES.sub("..", line) for line in shown] for _, shown in block])

    def test_the_limits_are_those_of_the_tool(self):
        text = (TOP / "docs" / "LIMITS.md").read_text(encoding="utf-8")
        rows = re.findall(r"(?m)^\| `([a-z]+)` \| ([0-9,]+) \| (.*) \|$", text)
        wanted = [(limit.name, f"{limit.default:,}", limit.metadata["meaning"]) for limit in dataclasses.fields(Limits)]
        self.assertEqual(rows, wanted)


if __name__ == "__main__":
    unittest.main()
