"""What README.md and the pages below show being typed is typed: each indented block that has lines `$ COMMAND` is run by a shell in a copy of the
repository's examples and tools, and what comes out is what the block shows. One that begins with `rql` is run in an empty folder, over an index
of the tests' own. It needs the program, which ./check builds first."""

import json
import os
import re
import shutil
import subprocess
import tempfile
import unittest
from pathlib import Path

from support.made.served_index import MadeIndex, wheel_of
from support.places import PROGRAM, TOOLS, TOP, needs_program
from support.program import Program
from support.rql_projects import Served
from support.shown import indented_blocks, printed_by, typed_blocks

PAGES = "README.md", "docs/SESSIONS.md", "docs/QUESTIONS.md", "docs/ANSWERS.md", "docs/RULES.md", "docs/FAULTS.md", "docs/ADVICE.md"
ADDRESS = "https://index.example/simple/"
EXAMPLE = TOP / "examples" / "web" / "index.json"
REFERENCE = (TOP / "docs" / "REFERENCE.md").read_text(encoding="utf-8")


def shown_on(page):
    """The blocks of a page that are typed."""
    return typed_blocks((TOP / page).read_text(encoding="utf-8"))


def is_of_rql(block):
    return block[0][0].startswith("rql ")


def copy_tools(folder):
    shutil.copytree(TOOLS, folder / "tools", ignore=shutil.ignore_patterns("tests", "__pycache__"))


class Blocks(unittest.TestCase):
    def test_finds_commands_and_what_they_print(self):
        text = "a\n\n    $ one\n    1\n    $ two\n\n    no command\n\n    $ three\n    3\n    4\n"
        self.assertEqual(typed_blocks(text), [[("one", ["1"]), ("two", [])], [("three", ["3", "4"])]])


@needs_program
class Readme(unittest.TestCase):
    def test_each_command_prints_what_is_shown(self):
        for page in PAGES:
            blocks = [block for block in shown_on(page) if not is_of_rql(block)]
            self.assertTrue(blocks)
            for block in blocks:
                with self.subTest(page=page, block=block), tempfile.TemporaryDirectory() as folder:
                    self.run_block(block, Path(folder) / "checkout")

    def run_block(self, block, folder):
        shutil.copytree(TOP / "examples", folder / "examples")
        copy_tools(folder)
        printed = printed_by(block, folder, {**os.environ, "PATH": f"{PROGRAM.parent}:{os.environ['PATH']}"})
        self.assertEqual([text.splitlines() for text in printed], [shown for _, shown in block])

    def test_an_index_is_made_of_an_address(self):
        """The block with the address of an index: one of the test's own stands for it."""
        [block] = [block for block in indented_blocks(REFERENCE) if "snapshot.py simple" in block]
        needs = {"flask": ["Werkzeug>=3.0.0", "Jinja2", "click"], "werkzeug": [], "jinja2": [], "click": []}
        index = MadeIndex()
        self.addCleanup(index.close)
        for name, dependencies in needs.items():
            index.add(name, wheel_of(name, "3.0.0", *dependencies))
        with tempfile.TemporaryDirectory() as name:
            folder = Path(name)
            copy_tools(folder)
            (folder / "requirements.txt").write_bytes(b"Flask\r\n")
            lines = [line.replace(ADDRESS, index.url) for line in block.splitlines()]
            self.assertIn(index.url, lines[1])
            done = self.run_lines(lines, folder)
            self.assertEqual((done.returncode, done.stdout), (0, "ok 0\n"), done.stderr)
            for name in needs:
                self.assertIn(f'name = "{name}"', (folder / "pylock.toml").read_text(encoding="utf-8"))

    def run_lines(self, lines, folder):
        kept = {name: value for name, value in os.environ.items() if not name.lower().endswith("proxy")}
        variables = {**kept, "PATH": f"{PROGRAM.parent}:{os.environ['PATH']}", "XDG_CACHE_HOME": str(folder / "cache")}
        return subprocess.run(
            ["bash", "-e"], input="\n".join(lines), env=variables, cwd=folder, capture_output=True, encoding="utf-8", check=False,
        )


class Rql(Served):
    """What is shown of rql is typed in an empty folder, over an index with the releases of examples/web."""

    def test_each_command_prints_what_is_shown(self):
        [block] = [block for page in PAGES for block in shown_on(page) if is_of_rql(block)]
        for package in json.loads(EXAMPLE.read_text(encoding="utf-8"))["packages"]:
            name = package["name"].lower()
            self.index.add(name, *(wheel_of(name, release["version"], *release.get("requires_dist", [])) for release in package["releases"]))
        self.put_on_path()
        printed = printed_by(block, self.folder, {**self.variables, "PIP_INDEX_URL": self.index.url}, ADDRESS, self.index.url)
        self.assertEqual([text.replace("rql.py: ", "rql: ").splitlines() for text in printed], [shown for _, shown in block])


class Tables(Program):
    """The program has the subcommands and options of the tables of docs/REFERENCE.md and no others, and a subcommand needs the options that
    stand beside it."""

    # what help doesn't say that they need: lines stand in a file that is named, or by an option; and one of two options
    OWN = {"replace": ["NEW"], "forget": ["--keep", "0"]}

    def rows(self, head):
        """The cells of the table with this head."""
        table = REFERENCE.split(f"{head}\n")[1].split("\n\n")[0]
        return [[cell.strip() for cell in line.strip("|").split("|")] for line in table.splitlines()[1:]]

    def subcommands(self):
        """Each subcommand with its own options and a word for each argument that it can't do without, and the options that it needs."""
        for name, _, needs in self.rows("| Subcommand | Does | Needs |"):
            for shown in re.findall("`([^`]+)`", name):
                subcommand, *words = re.sub(r"\[.*?\]", "", shown).split()
                yield [subcommand, *self.OWN.get(subcommand, ["a" for _ in words])], re.findall("--[a-z]+", needs)

    def test_name_each_subcommand_and_option(self):
        told = self.call("--help")[1]
        commands, options = told.split("Commands:")[1].split("Options:")
        named = {words[0] for words, _ in self.subcommands()}
        self.assertEqual(set(re.findall("(?m)^  ([a-z]+) ", commands)) - {"help"}, named)
        named = {re.search("--[a-z]+", name)[0] for name, _ in self.rows("| Option | Means |")}
        self.assertEqual(set(re.findall("--[a-z]+", options)) - {"--help", "--version"}, named)

    def test_tell_what_is_needed(self):
        for words, needs in self.subcommands():
            for count in range(len(needs) + 1):
                given = [word for option in needs[:count] for word in (option, "none")]
                command = [PROGRAM, "--dir", self.folder, *given, *words]
                with self.subTest(words=words, given=given):
                    done = subprocess.run(command, input=b"", capture_output=True, check=False)
                    first = "index" if words == ["skipped"] else "requirements.txt"
                    wanted = (2, f"{needs[count]} is needed") if count < len(needs) else (4, f"{first}: unreadable")
                    self.assertEqual((done.returncode, done.stderr.decode()), (wanted[0], f"reqlock: {wanted[1]}\n"))


if __name__ == "__main__":
    unittest.main()
