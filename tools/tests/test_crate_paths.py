"""Tests of tools/crate_paths.py: the count of the sums of sources, and which names of the list no source uses."""

import unittest

from support.places import new_folder

import crate_paths  # (it stands in tools/)

LIST = """# the lowest first
low:
middle: low serde_json
other may_abort=2: low

top: middle other low
"""


class Paths(unittest.TestCase):
    def test_the_list_is_read(self) -> None:
        named = {"low": [], "middle": ["low", "serde_json"], "other": ["low"], "top": ["middle", "other", "low"]}
        self.assertEqual(crate_paths.read_list(LIST), named)

    def test_a_crate_counts_once_for_each_path_to_it(self) -> None:
        counts = crate_paths.count_sums(crate_paths.read_list(LIST))
        # (top, middle, other, and low by each of these three)
        self.assertEqual(counts, {"low": 1, "middle": 2, "other": 2, "top": 6})

    def test_a_line_that_names_all_below_doubles_the_count(self) -> None:
        names = ["a", "b", "c", "d", "e"]
        counts = crate_paths.count_sums({name: names[:place] for place, name in enumerate(names)})
        self.assertEqual(counts, {"a": 1, "b": 2, "c": 4, "d": 8, "e": 16})

    def test_a_name_is_used_by_code_and_by_clauses(self) -> None:
        folder = new_folder(self.addCleanup)
        for name, text in (
            ("src/lib.rt", "use first::{A};\nghost use Rattle.second.specs.B.{C};\nmod fifth { use crate::sixth::D; }\n"),
            ("proofs/deep/Answers.antt", "use Rattle.third.proofs.E.{F}\n"),
            ("out/made.rt", "use fourth::G;\n"),
        ):
            (folder / name).parent.mkdir(parents=True)
            (folder / name).write_text(text, encoding="utf-8")
        names = ["first", "second", "third", "fourth", "fifth", "sixth"]
        self.assertEqual(crate_paths.unused_names(folder, names), ["fourth", "fifth", "sixth"])


if __name__ == "__main__":
    unittest.main()
