"""Tests of rules/locks.py and rules/edits.py by worked examples of the rules and by a law."""

import json
import unittest
from itertools import combinations, product

from support.made.environments import LINUX
from support.made.releases import index_in, problem_in
from support.made.sessions import Draw
from support.rules.edits import History, Refused, begun, edited, with_set
from support.rules.locks import (
    Choice, Problem, best_solution, case_of, entries_of, is_refutation, is_solution, read_index, read_refutation, solutions,
)
from support.rules.requirements import Fault, cut_lines, order_key
from support.rules.states import is_state

PROBLEMS = 60


class Locks(unittest.TestCase):
    def check(self, wanted, lines, *releases):
        """What is locked for lines over an index, as `NAME VERSION` with commas between; None where there is no solution."""
        problem = problem_in(lines, *releases)
        best = best_solution(problem)
        locked = None if best is None else ", ".join(f"{name} {entry['version']}" for name, entry in entries_of(problem, best).items())
        self.assertEqual(locked, wanted)

    def test_pre_releases(self):
        foo = ("foo", "1.0", []), ("foo", "2.0rc1", [])
        self.check("foo 1.0", "foo", *foo)
        self.check("foo 2.0rc1", "foo>1", *foo)
        self.check("foo 1.0", "foo!=2.0rc1", *foo)
        self.check("a 1, foo 1.0", "a", ("a", "1", ["foo"]), *foo)
        self.check("a 1, foo 2.0rc1", "a\nfoo>=2.0rc1", ("a", "1", ["foo"]), *foo)
        self.check(None, "a\nb", ("a", "1", ["foo>=2.0rc1"]), ("b", "1", ["foo"]), *foo)
        self.check("foo 2.0rc1", "foo", ("foo", "1.0", [], {"requires_python": "<3"}), foo[1])
        self.check("foo 2.0rc1", "foo", ("foo", "1.0", [], {"yanked": True}), foo[1])

    def test_yanked_releases(self):
        both = ("a", "1", []), ("a", "2", [], {"yanked": True})
        self.check("a 1", "a", *both)
        self.check("a 2", "a==2", *both)
        self.check(None, "a>=2", *both)
        self.check(None, "a==2.*", *both)
        self.check("a 2, b 1", "b\na==2", ("b", "1", ["a"]), *both)
        self.check("a 2, b 1", "b", ("b", "1", ["a==2"]), *both)

    def test_dependencies(self):
        some = ("a", "1", ["b"]), ("a", "2", ["b<2"]), ("b", "1", []), ("b", "2", []), ("c", "1", ["b>=2"])
        self.check("a 1, b 2, c 1", "a\nc", *some)
        self.check(None, "a==2\nc", *some)
        self.check("a 2, b 1", "b\na", *some)
        self.check("", "", *some)
        self.check(None, "z", *some)
        self.check("p 1, q 1", "p", ("p", "1", ["q"]), ("q", "1", ["p"]))
        self.check("a 1", "a", ("a", "1", ["z ; os_name == 'nt'"]))

    def test_extras(self):
        some = ("x", "1", []), ("x", "2", ['y>=2; extra=="e"']), ("y", "1", [])
        self.check("x 1", "x[e]", *some)
        self.check(None, "x>=2\nx[e]", *some)
        self.check("x 2", "x", *some)
        nested = ("x", "1", ['x[f]; extra=="e"', 'y; extra=="f"']), ("y", "1", [])
        problem = problem_in("x[e]", *nested)
        self.assertEqual(entries_of(problem, best_solution(problem))["x"]["dependencies"], ["y"])

    def test_kept_versions_come_first(self):
        index = index_in(("a", "1", []), ("a", "2", []), ("b", "1", ["a>=2"]))
        state = begun(["a==1\n"], {"": LINUX}, index)
        for command, wanted in (
            (("constrain", "a"), "1"), (("add", "b"), None), (("constrain", "a", ">=1"), "1"), (("constrain", "a", ">1"), "2"),
        ):
            with self.subTest(command=command):
                if wanted is None:
                    self.assertRaises(Refused, edited, state, command, index)
                else:
                    self.assertEqual(edited(state, command, index).entries()["a"]["version"], wanted)

    def test_releases_that_are_left_out(self):
        self.check("a 1.0", "a", ("a", "1.0", []), ("a", "1.0.0", []))
        self.check("a 1", "a", ("a", "1", []), ("a", "2", [], {"requires_python": ">=3.6.*"}), ("a", "3", ["b # x"]))
        self.check("a 1", "a", ("a", "1", []), ("a", "2", [], {"files": []}), ("a", "x", []))


class Edits(unittest.TestCase):
    """Histories over a small index. Each command is followed by its reply, and where one is given by the file's text."""

    def check(self, text, releases, *commands):
        index = index_in(*releases)
        history = History(begun(cut_lines(text), {"": LINUX}, index))
        for words, reply, *texts in commands:
            with self.subTest(words=words):
                self.assertEqual(history.reply(words, index), reply)
                self.assertTrue(is_state(history.state()))
                self.assertEqual(["".join(history.state().lines)] * len(texts), texts)

    def test_lines_that_come_and_go(self):
        some = ("a", "1", []), ("b-b", "1", []), ("c", "1", [])
        first = "# web\r\nB_b >=1 # pin\r\na"
        self.check(
            first, some, (("add", "c"), "ok 1", first + "\r\nc\r\n"), (("add", "C"), "refused already-present"),
            (("undo",), "ok 0", first), (("undo",), "refused nothing-to-undo"), (("redo",), "ok 1"), (("remove", "b.B"), "ok 2"),
            (("redo",), "refused nothing-to-redo", "# web\r\na\r\nc\r\n"), (("add", "a\n"), "refused bad-text"),
            (("add", "# a"), "refused bad-text"), (("remove", "b-b"), "refused not-present"),
            (("add", "z"), "refused no-solution"),
        )
        self.check(
            "a\nb-b", some, (("remove", "b-b"), "ok 1", "a\n"), (("undo",), "ok 0"), (("remove", "a"), "ok 1", "b-b"),
            (("redo",), "refused nothing-to-redo"),
        )
        self.check("a\nA >=1\n", some, (("remove", "a"), "refused ambiguous"), (("remove", "-"), "refused bad-text"))

    def test_constraints(self):
        self.check(
            "a\n", [("a", "1", [])], (("constrain", "a", ">=9"), "refused no-solution"),
            (("constrain", "a", "(>=1)"), "refused bad-text"), (("constrain", "a", " >=1,\t"), "ok 1", "a>=1,\n"),
            (("constrain", "a", ">=1,"), "same"), (("constrain", "b", "=1"), "refused bad-text"),
            (("constrain", "b"), "refused not-present"),
        )
        for line, text, wanted in (
            ('B.b (>=1) ; os_name=="posix" # keep', ">=2", 'B.b >=2 ; os_name=="posix" # keep'),
            ('a ; os_name=="nt"', ">=2", 'a>=2 ; os_name=="nt"'), ("a [e] # <2\r\n", "<3", "a [e]<3 # <2\r\n"),
            ("a( ) \n", "", "a \n"), (" a[e]==1\n", "", " a[e]\n"),
        ):
            self.assertEqual(with_set(line, text), wanted)

    def test_upgrades(self):
        self.check(
            "a==1\n", [("a", "1", []), ("a", "2", [])], (("constrain", "a"), "ok 1", "a\n"), (("relock",), "same"),
            (("upgrade", "z"), "refused not-locked"), (("upgrade", "z", "_"), "refused bad-text"), (("upgrade", "A"), "ok 2"),
            (("upgrade", "a"), "same"), (("undo",), "ok 1"), (("upgrade",), "ok 2"),
        )


class Refutations(unittest.TestCase):
    INDEX = ("a", "1", ["b"]), ("a", "2", ["b<2"]), ("b", "1", []), ("b", "2", []), ("c", "1", ["b>=2"])
    EXTRAS = ("x", "1", ['y>=2; extra=="e"']), ("y", "1", [])

    def check(self, wanted, text, lines, *releases):
        lines_of_text = text.replace(", ", "\n") + "\n" if text else ""
        self.assertEqual(is_refutation(problem_in(lines, *releases), read_refutation(lines_of_text)), wanted)

    def test_worked_examples(self):
        for text, lines, wanted in (
            ("x[e]==1 y==1, x[e]==1, -", "x[e]", True), ("x[e]==1 y==1, -", "x[e]", False),
            ("x[e]==1 y==1, x[e]==1, -", "x", False),
        ):
            self.check(wanted, text, lines, *self.EXTRAS)
        self.check(True, "-", "z", ("a", "1", []))
        self.check(False, "", "z", ("a", "1", []))
        self.check(True, "a==1 a==2, a==3, -", "a>1\nz", ("a", "1", []))

    def test_each_conflict_of_a_worked_one_is_needed(self):
        conflicts = ["b==1 c==1", "b==1", "a==2 b==2", "a==2", "a==1", "-"]
        self.check(True, ", ".join(conflicts), "a==2\nc", *self.INDEX)
        for place in range(len(conflicts)):
            self.check(False, ", ".join(conflicts[:place] + conflicts[place + 1 :]), "a==2\nc", *self.INDEX)
        self.check(False, ", ".join([*conflicts[:-1], "c==1"]), "a==2\nc", *self.INDEX)
        self.check(False, ", ".join(conflicts), "a\nc", *self.INDEX)

    def test_two_versions_of_a_name_are_a_case_of_its_own(self):
        problem = problem_in("x[e]", *self.EXTRAS, ("x", "2", []))
        two, same = read_refutation("x==1 x[e]==2\nx==1 x[e]==1\n")
        self.assertEqual(case_of(problem, two, []), "two versions of one name")
        self.assertIsNone(case_of(problem, same, []))

    def test_faulty_texts(self):
        for text in "-", "a==1 \n", "b==1 a==1\n", "a==1 a==1\n", "A==1\n", "a==01\n", "a[]==1\n", "\n", "a=1\n":
            self.assertRaises(Fault, read_refutation, text)

    def test_solutions_are_those_among_all_maps(self):
        count = 0
        for seed in range(PROBLEMS):
            draw = Draw(seed, ("a", "b-b"))
            problem = Problem(cut_lines(draw.requirements()), LINUX, read_index(json.dumps(draw.index()).encode()), {})
            names = list(problem.releases)
            places = product(*([None, *problem.candidates(name)] for name in names))
            maps = [{name: place for name, place in zip(names, chosen) if place is not None} for chosen in places]
            answers = list(solutions(problem))
            self.assertCountEqual(answers, [chosen for chosen in maps if is_solution(problem, chosen)])
            count += len(answers)
        self.assertGreater(count, PROBLEMS // 2)

    def test_the_empty_conflict_is_reached_where_there_is_no_solution(self):
        answers = set()
        for seed in range(PROBLEMS):
            draw = Draw(seed, ("a", "b-b"))
            index, lines = read_index(json.dumps(draw.index()).encode()), cut_lines(draw.requirements())
            problem = Problem(lines, LINUX, index, {})
            with self.subTest(seed=seed):
                is_solved = any(True for _ in solutions(problem))
                self.assertEqual(reaches_the_empty_conflict(problem), not is_solved)
                answers.add(is_solved)
        self.assertEqual(answers, {True, False})


def reaches_the_empty_conflict(problem):
    """Whether the empty conflict is among all that follow, one from another, from nothing. A conflict that has another in it is
    of no more use than that one."""
    nodes = [(name, extra) for name in problem.releases for extra in (None, "e-1", "f")]
    choices = [Choice(*node, order_key(release.version)) for node in nodes for release in problem.releases[node[0]]]
    left = [frozenset(some) for count in range(4) for some in combinations(choices, count)]
    conflicts, more = [], True
    while more:
        more = [conflict for conflict in left if case_of(problem, conflict, conflicts)]
        conflicts += more
        left = [conflict for conflict in left if not any(map(conflict.issuperset, conflicts))]
    return frozenset() in conflicts


if __name__ == "__main__":
    unittest.main()
