"""Wrong bodies (tools/wrong_bodies.py, tools/try_plants.py): each can be applied to its crate, docs/makers/PROVING.md says of each where it
stands, and what the prover says of a plant is counted."""

import contextlib
import io
import os
import re
import unittest
import unittest.mock
from collections.abc import Iterator
from pathlib import Path

from support.places import TOP, new_folder

import try_plants  # (it stands in tools/, as does the next)
from wrong_bodies import MUST_FAIL, PLANTS, Unappliable, edited_files, edits_of, folder_names

# It says of the plants a, b and c what rt says, and nothing of others. It stops where the copy isn't as it should be.
RT = r"""#!/bin/sh
[ "$*" = "ci low" ] && [ -e HANDLES ] && [ -e crates.txt ] && [ ! -e crates/other/must-fail ] && [ ! -e crates/low/out ] || exit 3
[ "$(echo crates/low/must-fail/*)" = "crates/low/must-fail/a.edit crates/low/must-fail/b.edit crates/low/must-fail/c.edit crates/low/must-fail/d.edit" ] || exit 3
echo "rt: low is kept: an earlier run proved it"
echo "rt: must-fail low/a.edit: refused, as it must be: src/lib.rt:1:1: error"
echo "rt: must-fail low/b.edit: NOT REFUSED: the crate is still proved with this edit"
echo "rt: must-fail low/c.edit: BAD EDIT: the prover cannot read the edited text"
echo "2 passed, 1 failed (low and the crates below alone: not the gate)"
"""


def made_repository(folder: Path) -> None:
    """A crate `low` with five plants, of which the last can't be applied, beside another one with an edit that the gate tries."""
    for crate in "low", "other":
        (folder / "crates" / crate / "src").mkdir(parents=True)
        (folder / "crates" / crate / MUST_FAIL).mkdir()
        (folder / "crates" / crate / "src" / "lib.rt").write_text("one\ntwo\ntwo\n", encoding="utf-8")
    (folder / "crates" / "low" / "out").mkdir()
    (folder / PLANTS / "low").mkdir(parents=True)
    for name in "abcd":
        (folder / PLANTS / "low" / f"{name}.edit").write_text("file: src/lib.rt\nold: one\nnew: 1\n", encoding="utf-8")
    (folder / PLANTS / "low" / "e.edit").write_text("file: src/lib.rt\nold: two\nnew: 2\n", encoding="utf-8")
    (folder / "crates" / "other" / MUST_FAIL / "x.edit").write_text("file: src/lib.rt\nold: one\nnew: 1\n", encoding="utf-8")
    for name in "crates.txt", "HANDLES":
        (folder / name).write_text("", encoding="utf-8")


def listed_edits() -> Iterator[tuple[str, str, str]]:
    """The folder, the crate and the name of each edit in the table of docs/makers/PROVING.md."""
    page = (TOP / "docs" / "makers" / "PROVING.md").read_text(encoding="utf-8")
    table = page.split("\n| Wrong body | In `must-fail/` | In `plants/` |\n")[1]
    for row in table.splitlines()[1:]:
        cells = [cell.strip() for cell in row.strip("|").split(" |")]
        for folder, cell in zip((MUST_FAIL, PLANTS), cells[-2:], strict=True):
            for crate, names in re.findall(r"`(\w+)`: ([\w, -]+)", cell):
                yield from ((folder, crate, name) for name in names.split(", "))


class WrongBodies(unittest.TestCase):
    def test_each_can_be_applied(self) -> None:
        with contextlib.redirect_stdout(io.StringIO()) as output:
            status = try_plants.main(["--apply-only"])
        self.assertEqual(status, 0, output.getvalue())

    def test_the_table_says_where_each_stands(self) -> None:
        crates = folder_names(TOP / "crates") | folder_names(TOP / PLANTS)
        stand = [
            (MUST_FAIL if edit.parent.name == MUST_FAIL else PLANTS, crate, edit.stem)
            for crate in crates
            for edit in edits_of(TOP, crate)
        ]
        self.assertEqual(sorted(listed_edits()), sorted(stand))


class Edits(unittest.TestCase):
    def setUp(self) -> None:
        self.folder = new_folder(self.addCleanup)
        (self.folder / "src").mkdir()
        (self.folder / "src" / "lib.rt").write_text("one\ntwo\ntwo\n", encoding="utf-8")

    def edited(self, *lines: str) -> dict[str, str]:
        edit = self.folder / "x.edit"
        edit.write_text("".join(f"{line}\n" for line in lines), encoding="utf-8")
        return edited_files(edit, self.folder)

    def test_pairs_apply_to_what_those_before_have_left(self) -> None:
        lines = "file: src/lib.rt", "old: one", "new: two", "old: two\ttwo", "new:"
        self.assertEqual(self.edited(*lines[:3]), {"src/lib.rt": "two\ntwo\ntwo\n"})
        (self.folder / "src" / "lib.rt").write_text("one\ttwo\n", encoding="utf-8")
        self.assertEqual(self.edited(*lines), {"src/lib.rt": "\n"})

    def test_what_cannot_be_applied_is_told(self) -> None:
        file = "file: src/lib.rt"
        for told, *lines in (
            ("its old text stands 2 times in src/lib.rt: two", file, "old: two", "new: 2"),
            ("its old text stands 0 times in src/lib.rt: three", file, "old: three", "new: 3"),
            ("the crate has no file src/other.rt", "file: src/other.rt", "old: one", "new: 1"),
            ("the crate has no file README.md", "file: README.md", "old: one", "new: 1"),
            ("a line is out of place: new: 1", file, "new: 1"),
            ("a line is out of place: old: one", "old: one", file, "new: 1"),
            ("a line is out of place: one", file, "old: one", "one", "new: 1"),
            ("it changes nothing", file, "old: one", "new: one"),
            ("it changes nothing", file, "old: one"),
            ("it changes nothing",),
        ):
            with self.subTest(lines=lines), self.assertRaises(Unappliable) as fault:
                self.edited(*lines)
            self.assertEqual(str(fault.exception), told)


class Tries(unittest.TestCase):
    def setUp(self) -> None:
        self.top = new_folder(self.addCleanup)
        made_repository(self.top)
        (self.top / "bin").mkdir()
        (self.top / "bin" / "rt").write_text(RT, encoding="utf-8")
        (self.top / "bin" / "rt").chmod(0o755)

    def test_what_the_prover_says_is_counted(self) -> None:
        path = {"PATH": f"{self.top / 'bin'}:{os.environ['PATH']}"}
        with unittest.mock.patch.dict(os.environ, path), contextlib.redirect_stderr(io.StringIO()) as errors:
            with contextlib.redirect_stdout(io.StringIO()) as output:
                status = try_plants.try_plants(self.top, ["low"])
        self.assertEqual(status, 1)
        self.assertEqual(output.getvalue().splitlines(), [
            "plants/low/e.edit: can't be applied: its old text stands 2 times in src/lib.rt: two",
            "plants/low/a.edit: refused, as it must be: src/lib.rt:1:1: error",
            "plants/low/b.edit: NOT REFUSED: the crate is still proved with this edit",
            "plants/low/c.edit: BAD EDIT: the prover cannot read the edited text",
            "plants/low/d.edit: the prover didn't try it",
            "1 passed, 4 failed",
        ])
        self.assertIn("rt: low is kept", errors.getvalue())

    def test_without_the_prover_edits_of_both_places_are_tested(self) -> None:
        with contextlib.redirect_stdout(io.StringIO()) as output:
            status = try_plants.apply_only(self.top, ["low", "other"])
        self.assertEqual((status, output.getvalue().splitlines()[-1]), (1, "5 passed, 1 failed"))


if __name__ == "__main__":
    unittest.main()
