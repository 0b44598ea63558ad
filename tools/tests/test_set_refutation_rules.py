"""The second reading of what a set refutation is, on worked cases."""

import unittest

from support.made.releases import problem_in
from support.made.set_refutation_lists import LISTS, problem_of
from support.rules.locks import solutions
from support.rules.set_refutations import case_of, is_accepted, read_conflict


class SetRefutations(unittest.TestCase):
    INDEX = ("a", "1", ["b<2"]), ("a", "2", ["b<2"]), ("a", "3", []), ("b", "1", []), ("b", "2", []), ("b", "3", ["a!=3"])

    def case(self, text, *earlier):
        return case_of(problem_in("a<3", *self.INDEX), read_conflict(text), list(map(read_conflict, earlier)))

    def test_the_four_cases(self):
        self.assertEqual(self.case("a==3"), "a line admits none of a term's versions")
        self.assertEqual(self.case("a==1,2 b==2,3"), "two terms clash")
        self.assertEqual(self.case("a==2 a[e]==1"), "two terms clash")
        self.assertEqual(self.case("a==1,2", "a==1", "a==2 a==1,2"), "each version of a term has an earlier conflict")
        self.assertEqual(self.case("-", "a==3", "a==1,2"), "no candidate of a needed node is left")

    def test_what_follows_by_none(self):
        for text, *earlier in (
            ("a==2,3",), ("a==1,2,3 b==2",), ("b==1,2",), ("b==1",), ("-",), ("-", "a==3", "a==1"), ("-", "b==1,2,3"),
            ("a==1,2", "a==1", "a==2 b==1"), ("b==3", "a==1,2"),
        ):
            with self.subTest(text=text, earlier=earlier):
                self.assertIsNone(self.case(text, *earlier))

    def test_an_accepted_list_leaves_no_solution(self):
        for packages, lines, *lists in LISTS:
            problem = problem_of(packages, lines)
            if any(is_accepted(problem, conflicts) for conflicts in lists):
                self.assertEqual(list(solutions(problem)), [])
