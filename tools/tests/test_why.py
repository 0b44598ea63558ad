"""Why there is no solution, over the built program: what `why` prints, and what it tells in sentences."""

import unittest

from support.made.releases import SHARED, UNMET_EXTRA, problem_in
from support.program import Program
from support.rules.locks import is_refutation, read_refutation

# a release that is left out, since it asks for what can't be read
LEFT_OUT = ("b", "1", ["c>1"]), ("b", "2", ["c @ https://c.example"]), ("c", "1", [])

# the newer `a` has an extra that no release meets, and the older one needs a name that isn't there
TWO_VERSIONS = ("a", "1", ["z"]), ("a", "2", ['y>=2; extra=="e"']), ("b", "1", ["a[e]"]), ("y", "1", [])

# a dependency with each sign, which is told in normal form and without its marker
SIGNS = ("a", "1", ["B[F_x, e] ~=2.0, ==2.0, ==2.*, !=3, !=3.*, <=2.5, >=2, <2.6, >1 ; os_name!='x'"]), ("b", "1", [])
SIGNS_TOLD = "b[f-x,e]~=2.0,==2.0,==2.*,!=3,!=3.*,<=2.5,>=2,<2.6,>1"

# the search meets first that `a` 2 needs what isn't there, on which nothing rests
CUT_AWAY = ("a", "1", []), ("a", "2", ["aa"]), ("b", "1", ["y"]), ("m", "1", ["a", "b"])

# the search meets first that `x` 4 needs what isn't there, and the last step names that second
LAST_FIRST = ("x", "1", ["q"]), ("x", "2", ["q"]), ("x", "3", ["q"]), ("x", "4", ["p"])


# the search meets `a` first, and nothing rests on it: no release of `c` is what `d` needs
IDLE = ("a", "1", ["c!=1"]), ("a", "2", ["c!=1"]), ("c", "1", []), ("c", "3", []), ("d", "1", ["c==2"]), ("d", "2", ["c==2"])
# each release of `d` needs another `c`, and none is there
OTHERS = ("a", "1", ["c<2"]), ("c", "1", []), ("c", "2", []), ("d", "1", ["c>3"]), ("d", "2", ["c>4"])

# each release of `a` needs a `b` of its own number or a newer one
BOUNDED = *(("a", version, [f"b>={version}"]) for version in "123"), *(("b", version, []) for version in "123")


class Why(Program):
    """What `why` prints of problems with a solution and without one. It saves nothing."""

    def test_a_solvable_problem_is_told(self):
        self.begin(b"a\nc\n", *SHARED)
        self.plays(
            (["why"], 4, "reqlock: reqlock.journal: unreadable\n"),
            (["init"], 0, "ok 0\n"),
            (["why"], 0, "solvable\n"),
            (["why", "b"], 0, "solvable\n"),
            (["log"], 0, "* 0 init\n"),
        )

    def test_a_refused_text_is_told(self):
        self.begin(b"a\n", ("a", "1", []))
        self.plays(
            (["init"], 0, "ok 0\n"),
            (["why", "A"], 1, "refused already-present\n"),
            (["why", "--", "-r x"], 1, "refused bad-text\n"),
            (["why", ""], 1, "refused bad-text\n"),
        )

    # An index, a requirements file, the words, and what is told.
    REFUTED = (
        ([("a", "1", [])], b"a\n", ["z"], "-\n"),
        (UNMET_EXTRA, b"", ["x[e]"], "x[e]==1 y==1\nx[e]==1\n-\n"),
        (CUT_AWAY, b"", ["m"], "b==1\nm==1\n-\n"),
        (
            [("a", "1", [])], b"# web\na==1\n", ["--explain", "z"],
            "No choice of versions meets the new line (z).\n"
            "1. the new line (z) needs z, and the index has no package z.\n",
        ),
        (
            SHARED, b"a==2\n", ["--explain", "c"],
            "line 1 (a==2) and the new line (c) don't go together: a 2 needs b<2, and the only release of c needs\n"
            "b 2 or newer.\n"
            "1. a 2 needs b<2, and the only release of c needs b 2 or newer.\n"
            "2. the new line (c) needs c, which is ruled out by 1 with a 2.\n"
            "3. line 1 (a==2) allows a 2, which is ruled out by 2.\n",
        ),
        (
            UNMET_EXTRA, b"", ["--explain", "x[e]"],
            "No choice of versions meets the new line (x[e]).\n"
            "1. the only release of x[e] needs y>=2, and the index has no such release.\n"
            "2. the new line (x[e]) needs x[e], which is ruled out by 1.\n",
        ),
        (
            TWO_VERSIONS, b"a\n", ["--explain", "b"],
            "No choice of versions meets the new line (b).\n"
            "1. a[e] 2 needs y>=2, and the index has no such release.\n"
            "2. a[e] 1 needs z, and the index has no package z.\n"
            "3. the only release of b needs a[e], and no release of a[e] is left: 2 is ruled out by 1; 1 is ruled\n"
            "   out by 2.\n"
            "4. the new line (b) needs b, which is ruled out by 3.\n",
        ),
        (
            SIGNS, b"", ["--explain", "a"],
            "No choice of versions meets the new line (a).\n"
            f"1. the only release of a needs {SIGNS_TOLD}, and the index\n"
            "   has no such release.\n"
            "2. the new line (a) needs a, which is ruled out by 1.\n",
        ),
        (
            LAST_FIRST, b"", ["--explain", "x"],
            "No choice of versions meets the new line (x).\n"
            "1. x 1 to 3 need q, and the index has no package q.\n"
            "2. x 4 needs p, and the index has no package p.\n"
            "3. the new line (x) needs x, and no release of x is left: 1 to 3 are ruled out by 1; 4 is ruled out\n"
            "   by 2.\n",
        ),
        (
            IDLE, b"a\n", ["--explain", "d"],
            "No choice of versions meets the new line (d).\n"
            "1. every release of d needs c==2, and the index has no such release.\n"
            "2. the new line (d) needs d, which is ruled out by 1.\n",
        ),
        (
            OTHERS, b"a\n", ["--explain", "d"],
            "No choice of versions meets the new line (d).\n"
            "1. every release of d needs c>3 or c>4, and the index has no such release.\n"
            "2. the new line (d) needs d, which is ruled out by 1.\n",
        ),
        (
            # of two lines on one name the one that bounds it is told
            BOUNDED, b"a\na>=2\n", ["--explain", "b<2"],
            "line 2 (a>=2) and the new line (b<2) don't go together: a from 2 on needs b 2 or newer.\n"
            "1. a 2 and 3 need b 2 or newer, and the new line allows 1.\n"
            "2. line 2 (a>=2) allows a 2 or newer, which is ruled out by 1.\n",
        ),
        (
            LEFT_OUT, b"", ["--explain", "b"],
            "No choice of versions meets the new line (b).\n"
            "1. the only release of b needs c>1, and the index has no such release.\n"
            "2. the new line (b) needs b, which is ruled out by 1.\n"
            "b 2: release 1: requirement 0 url-requirement\n",
        ),
    )

    def test_each_conflict_that_is_printed_is_needed(self):
        """There are several lists of conflicts, and any that the rules accept will do."""
        self.begin(b"a==2\n", *SHARED)
        self.plays((["init"], 0, "ok 0\n"))
        status, told = self.call("why", "c")
        problem, conflicts = problem_in("a==2\nc", *SHARED), read_refutation(told)
        self.assertEqual((status, is_refutation(problem, conflicts)), (3, True), told)
        for place in range(len(conflicts)):
            self.assertFalse(is_refutation(problem, conflicts[:place] + conflicts[place + 1 :]), (told, place))

    def test_nothing_stands_in_front_where_a_release_has_a_version_for_both_lines(self):
        """It was yanked, which the sentence in front wouldn't tell."""
        yanked = ("s", "1", []), ("s", "2", [], {"yanked": True}), ("s", "3", [])
        for releases, other in (
            ([("p", "1", ["s<3"])], "s>=2"), ([("p", "1", ["m"]), ("m", "1", ["s<3"])], "s>=2"),
            ([("p", "1", ["s<3"]), ("w", "1", ["s>=2"])], "w"),
        ):
            with self.subTest(releases=releases):
                self.begin(f"p\n{other}\n".encode(), *releases, *yanked)
                status, told = self.call("why", "--init", "--explain")
                self.assertEqual((status, told.partition("\n")[0]), (3, f"No choice of versions meets line 1 (p) and line 2 ({other})."))

    def test_conflicts_are_printed_and_told_in_sentences(self):
        for releases, file, words, told in self.REFUTED:
            self.begin(file, *releases)
            self.plays((["init"], 0, "ok 0\n"))
            before = self.files()
            self.plays((["why", *words], 3, told))
            self.assertEqual(self.files(), before)


if __name__ == "__main__":
    unittest.main()
