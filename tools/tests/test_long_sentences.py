"""What `why --explain` leaves out where there is much of it, `why --explain --long` tells: steps of a chain, lines, releases, releases that
are asked for, and requirements. The texts stand here without the ends of lines between words."""

import unittest

from support.made.environments import LINUX
from support.made.releases import index_in
from support.program import Program
from support.rules.explanations import check, lines_of, numbered
from support.rules.locks import Problem
from support.rules.requirements import Fault
from support.rules.sentences import cut
from test_sentences import BOUND, BOUND_FILE, BOUND_INDEX

NUMBERS = tuple(map(str, range(1, 10)))

# the lines of a file, an index, what is told in short, and what is told in the place of its middle
CHAIN = (
    BOUND_FILE, BOUND_INDEX, BOUND,
    "3 to 6. So it goes on through 4 packages, from k4 to k1: each needs the one before it, which is ruled out by the step before with k8 1.\n",
    "".join(f"{7 - place}. k{place} 2 and 3 need k{place + 1} 2 or newer, which is ruled out by {6 - place} with k8 1.\n" for place in (4, 3, 2, 1)),
)
# a line asks for many runs of releases
RUNS = (
    ("a", "b!=2,!=4,!=6,!=8,<10"),
    (("a", "1", ["b>=20"]), *(("b", version, []) for version in (*NUMBERS, "20"))),
    """\
line 1 (a) and line 2 (b!=2,!=4,!=6,!=8,<10) don't go together: the only release of a needs b 20 or newer.
1. the only release of a needs b 20 or newer, and line 2 allows between 1 and 9.
2. line 1 (a) needs a, which is ruled out by 1.
""",
    "between 1 and 9", "1, 3, 5, 7 or 9",
)
# two releases need as many runs together, so that what is told in short has also one that they don't need
BETWEEN_TOLD = """\
No choice of versions meets line 1 (a) and line 2 (c==4).
1. the only release of a needs b, which needs c between 1 and 9 and not c 4.
2. line 2 (c==4) allows c 4, which is ruled out by 1 with the only release of a.
3. line 1 (a) needs a, which is ruled out by 2.
"""
BETWEEN = (
    ("a", "c==4"),
    (("a", "1", ["b"]), ("b", "1", ["c!=2,!=4,!=6,!=8,<9"]), ("b", "2", ["c!=2,!=4,!=6,!=8"]), *(("c", version, []) for version in NUMBERS)),
    BETWEEN_TOLD, BETWEEN_TOLD,
    """\
line 1 (a) and line 2 (c==4) don't go together: the only release of a needs b, which needs c 1, 3, 5, 7 or 9.
1. the only release of a needs b, which needs c 1, 3, 5, 7 or 9.
2. line 2 (c==4) allows c 4, which is ruled out by 1 with the only release of a.
3. line 1 (a) needs a, which is ruled out by 2.
""",
)
# releases need others each, and none of these is there
NEEDS = (
    ("d",),
    (("c", "1", []), *(("d", version, [f"c>1{version}"]) for version in NUMBERS[:5])),
    """\
No choice of versions meets line 1 (d).
1. every release of d needs c in versions that the index doesn't have.
2. line 1 (d) needs d, which is ruled out by 1.
""",
    "c in versions that the index doesn't have", "c>11, c>12, c>13, c>14 or c>15, and the index has no such release",
)
# the same where there is no package of the name
GONE = (
    ("d",),
    tuple(("d", version, [f"gone>{version}"]) for version in NUMBERS[:5]),
    """\
No choice of versions meets line 1 (d).
1. every release of d needs gone, and the index has no package gone.
2. line 1 (d) needs d, which is ruled out by 1.
""",
    "needs gone,", "needs gone>1, gone>2, gone>3, gone>4 or gone>5,",
)
# every other release needs a newer package, and the others another one
HALVES = (
    ("a", "b<2", "c<2"),
    (*(("a", f"{version}", ["c>=2" if version % 2 else "b>=2"]) for version in range(1, 19)),
     *((name, version, []) for name in "bc" for version in NUMBERS[:2])),
)
EVEN, ODD = "2, 4, 6, 8, 10, 12, 14, 16 and 18", "1, 3, 5, 7, 9, 11, 13, 15 and 17"
# each of eight lines refuses another release
LINES = tuple(f"p!={version}" for version in NUMBERS[:8]), tuple(("p", version, []) for version in NUMBERS[:8])


def read(told, file, index, is_long):
    """Takes a text on these lines at its word; one that is to be long leaves nothing out."""
    problem = Problem([f"{line}\n" for line in file], LINUX, index_in(*index), {})
    check(problem, lines_of(problem, numbered(file)), told, is_long=is_long)


class Texts(unittest.TestCase):
    def test_what_is_left_out_is_refused_of_a_long_text_alone(self):
        for file, index, short, old, new in CHAIN, RUNS, BETWEEN, NEEDS, GONE:
            with self.subTest(file=file):
                self.assertEqual(short.count(old), 1)
                read(short, file, index, False)
                read(short.replace(old, new), file, index, True)
                with self.assertRaises(Fault):
                    read(short, file, index, True)


class Long(Program):
    """The answers of `why` in short and in long; the long ones are true."""

    def answers(self, file, index):
        self.begin("".join(f"{line}\n" for line in file).encode(), *index)
        status, short = self.call("why", "--init", "--explain")
        self.assertEqual(status, 3, short)
        status, long = self.call("why", "--init", "--explain", "--long")
        self.assertEqual(status, 3, long)
        read(long, file, index, True)
        return cut(short), cut(long)

    def test_nothing_is_left_out(self):
        for file, index, short, old, new in CHAIN, RUNS, BETWEEN, NEEDS, GONE:
            with self.subTest(file=file):
                self.assertEqual(self.answers(file, index), (cut(short), cut(short.replace(old, new))))

    def test_each_release_is_told(self):
        short, long = (str(answer.steps) for answer in self.answers(*HALVES))
        for first, last, releases in (2, 18, EVEN), (1, 17, ODD):
            self.assertIn(f" 9 releases between {first} and {last} need", short)
            self.assertIn(f" {releases} need", long)

    def test_each_line_is_told(self):
        short, long = (answer.conclusion for answer in self.answers(*LINES))
        named = [f"line {number} ({line})" for number, line in enumerate(LINES[0], 1)]
        self.assertEqual(short, f"No choice of versions meets {', '.join(named[:6])} and 2 more")
        self.assertEqual(long, f"No choice of versions meets {', '.join(named[:7])} and {named[7]}")

    def test_why_not_tells_it_too(self):
        file, index, *_ = RUNS
        self.begin(f"{file[1]}\n".encode(), *index)
        self.plays((["init"], 0, "ok 0\n"))
        for words, told in ([], "between 1 and 9"), (["--explain"], "between 1 and 9"), (["--explain", "--long"], "1, 3, 5, 7 or 9"):
            with self.subTest(words=words):
                status, text = self.call("why", *words, "--not", "b==20")
                self.assertEqual(status, 3)
                self.assertIn(told, text)


if __name__ == "__main__":
    unittest.main()
