"""What `why --explain` tells is true, sentence by sentence, over problems that are drawn; and the reader that says so refuses texts of
which one thing is changed."""

import json
import re
import unittest

from support.made.chance import drawing
from support.made.environments import LINUX
from support.made.releases import index_in, index_of
from support.made.unsolved import NAMES, Draw
from support.places import IS_LONG
from support.program import Program
from support.rules.edits import KEEP
from support.rules.explanations import check, lines_of, numbered
from support.rules.left_out_releases import left_out
from support.rules.locks import Problem, read_index
from support.rules.requirements import Fault, read_line, read_version
from support.rules.sentences import HELD

COUNT, COUNT_OF_KEPT = (1000, 300) if IS_LONG else (100, 30)
# lines over an index, and a text on them as it is printed but for the ends of lines
FILE = "# web", "a  # why", "c", "b"
INDEX = (
    ("a", "1", ["b<2"]), ("a", "2", ["b<2"]), ("a", "3", ["b<2"]), ("a", "4", [], {"yanked": True}), ("a", "5a1", []),
    ("a", "6", [], {"requires_python": ">=3.99"}), ("b", "1", []), ("b", "2", []), ("b", "3", []), ("c", "1", ["b>=2"]), ("d", "1", []),
)
TOLD = f"""\
No choice of versions meets line 2 (a  # why) and line 3 (c).
1. the only release of c needs b 2 or newer, and a 1 to 3 need b<2.
2. line 3 (c) needs c, which is ruled out by 1 with a 1 to 3.
3. line 2 (a  # why) needs a, and no release of a is left: 1 to 3 are ruled out by 2; 4 is yanked, and no line pins it with ==; 5a1 is a \
pre-release, which counts where a line names one or no final release fits; 6 needs Python >=3.99, the environment has \
{LINUX["python_full_version"]}.
"""
# the same in other words, which tell the same
OTHERWISE = TOLD.replace(", and a 1 to 3 need b<2", ", and with a 1 to 3 no such release is left: 2 and 3 don't match <2 of a")
# the same lines where the lock keeps `b` at 1, and at a version that the index hasn't
KEPT = """\
No choice of versions that keeps what is locked meets line 3 (c).
1. the only release of c needs b 2 or newer, and the lock keeps 1.
2. line 3 (c) needs c, which is ruled out by 1.
"""
GONE = KEPT.replace("keeps 1", "keeps 4, which the index doesn't have")
PLANTED_KEPT = (
    (" that keeps what is locked", ""), ("keeps 1", "keeps 2"), ("keeps 1", "keeps 1, which the index doesn't have"),
    (", and the lock keeps 1", ", and the index has no such release"), (", and the lock keeps 1", ""), ("b 2 or newer", "b 1 or newer"),
    (", and the lock keeps 1", ", and no such release is left: the lock keeps 1; 2 doesn't match >=2"),
    (", and the lock keeps 1", ", and no such release is left: 2 doesn't match >=2"), ("by 1", "by 2"),
    ("which is ruled out by 1", "and no release of c is left: the lock keeps 1"), ("needs b 2 or newer", "needs b"),
)
PLANTED_GONE = (
    (", which the index doesn't have", ""), ("keeps 4", "keeps 3"), ("doesn't have.\n", "doesn't have; 1 doesn't match >=2.\n"),
    ("b 2 or newer", "b 3"), ("keeps 4, which", "keeps 4 which"), ("the lock keeps 4, which the index doesn't have", "a 1 to 3 need b<2"),
)
# changes of TOLD by which something in it isn't true, or isn't told
PLANTED = (
    # numbers of sentences
    ("ruled out by 1", "ruled out by 2"), ("ruled out by 1", "ruled out by 0"), ("out by 2;", "out by 1;"), ("out by 2;", "out by 3;"),
    ("\n2. ", "\n3. "), ("\n2. ", "\n2 to 3. "), ("which is ruled out by 1 with", "and with"),
    # ranges, also one that is told too wide, and releases
    ("b 2 or newer", "b 1 or newer"), ("b 2 or newer", "b 3"), ("b 2 or newer", "b 2 to 3"), ("b 2 or newer", "b 2"),
    ("b 2 or newer", "b between 2 and 3"), ("b 2 or newer", "b 2, or 3 or newer"), ("b 2 or newer", "b>2"), ("b 2 or newer", "b"),
    ("a 1 to 3 need b<2", "a 1 to 4 need b<2"), ("a 1 to 3 need b<2", "a 1 and 2 need b<2"), ("a 1 to 3 need b<2", "a 1 to 3 need b<3"),
    ("a 1 to 3 need b<2", "a 1 to 3 need b 1 or 2"), ("a 1 to 3 need b<2", "a 1 to 3 need 1"),
    ("a 1 to 3 need b<2", "a 1 to 3 need c"), ("a 1 to 3 need b<2", "every release of a needs b<2"), (", and a 1 to 3 need b<2", ""),
    ("with a 1 to 3", "with a 1 to 4"), ("with a 1 to 3", "with a 1 and 2"), (" with a 1 to 3", ""), ("with a 1 to 3", "beside a 1 to 3"),
    ("with a 1 to 3", "with any release of a"),
    ("left: 1 to 3 are", "left: 1 to 4 are"), ("left: 1 to 3 are", "left: 0 to 3 are"), ("left: 1 to 3 are", "left: 1 and 2 are"),
    ("the only release of c", "every release of c"), ("the only release of c", "c 2"),
    # who asks
    ("line 3 (c) needs c", "line 4 (b) needs c"), ("line 3 (c) needs c", "line 3 (c) needs d"), ("line 3 (c) needs", "line 3 (b) needs"),
    ("line 3 (c) needs c", "line 3 (c) allows c 1"), ("line 3 (c) needs c", "line 3 (c) allows no release of c"),
    ("c needs b 2 or newer", "c needs d"), ("c needs b 2 or newer", "c needs b in versions that the index doesn't have"),
    ("line 2 (a  # why) needs a, and", "line 2 (a) needs a, and"), ("a 1 to 3 need b<2", "line 4 allows 1"),
    ("a 1 to 3 need b<2", "the lock keeps 1"), (", and a 1 to 3 need b<2", ", and the index has no such release"),
    # reasons
    ("no release of a is left", "no such release is left"), ("no release of a is left", "no release of b is left"),
    ("4 is yanked", "3 is yanked"), ("5a1 is a pre-release", "4 is a pre-release"), ("6 needs Python", "4 needs Python"),
    (">=3.99", ">=3.98"), ("has 3", "has 4"), ("is yanked, and no line pins it with ==", "isn't admitted by c"),
    ("is yanked, and no line pins it with ==", "is a yanked pre-release, and the lines don't let in both"),
    # the conclusion
    ("line 2 (a  # why) and line 3 (c).", "line 2 (a  # why)."), ("line 2 (a  # why) and line 3 (c).", "line 3 (c)."),
    ("line 2 (a  # why) and line 3 (c).", "line 2 (a  # why), line 3 (c) and line 4 (b)."), ("and line 3 (c).", "and line 3 (c>1)."),
    ("line 2 (a  # why) and line 3 (c).", "line 3 (c) and line 2 (a  # why)."), ("and line 3 (c).", "and line 3 (c) and 1 more."),
    ("No choice of versions meets line 2 (a  # why) and line 3 (c)",
     "line 2 (a  # why) and line 3 (c) don't go together: the only release of c needs b 2 or newer"),
    ("No choice of versions meets line 2 (a  # why) and line 3 (c)",
     "line 3 (c) and line 2 (a  # why) don't go together: the only release of c needs b 2 or newer, and a 1 to 3 need b<2"),
    ("No choice of versions meets line 2 (a  # why) and line 3 (c)",
     "line 3 (c) and line 2 (a  # why) don't go together: the only release of c needs b 2 or newer, and every release of a needs b<2"),
    # forms
    ("is left: 1 to", "is left 1 to"), ("No choice of", "No"), ("out by 2;", "out by 2,"), ("why) needs", "why) wants"),
)
# changes of OTHERWISE, which tells why releases aren't left
PLANTED_OTHERWISE = (
    ("2 and 3 don't", "2 don't"), ("2 and 3 don't", "1, 2 and 3 don't"), ("2 and 3 don't", "2 and 4 don't"), ("2 and 3 don't", "3 and 2 don't"),
    ("match <2 of a", "match <3 of a"), ("match <2 of a", "match <2"), ("of a.", "of d."), ("of a.", "of line 2."), ("match <2 of a", "go with a[x]"),
    ("match <2 of a", "match what d needs"), ("match <2 of a", "match what a needs"), ("match <2 of a", "match what a needs (1 or 2)"),
    ("with a 1 to 3 no such", "with a 1 to 4 no such"), ("with a 1 to 3 no such", "with any release of a no such"),
    ("no such release is left", "no release of b is left"), ("no such release is left", "no release of d is left"),
)
# two lines and two packages: releases of `t` need a newer `n` each
PAIR_FILE = "n<4", "t>=2", "m"
PAIR_INDEX = (
    *(("n", str(version), []) for version in range(1, 8)), ("t", "1", []), ("t", "2", ["n>=4,<6"]), ("t", "3", ["n>=5,<7"]), ("m", "1", []),
)
PAIR = """\
line 2 (t>=2) and line 1 (n<4) don't go together: t from 2 on needs n 4 to 6.
1. t 2 and 3 need n 4 to 6, and line 1 allows 1 to 3.
2. line 2 (t>=2) allows t 2 or newer, which is ruled out by 1.
"""
PLANTED_PAIR = (
    # a range that is told one too wide, and one too narrow
    ("on needs n 4 to 6", "on needs n 4 or newer"), ("on needs n 4 to 6", "on needs n 3 to 6"), ("on needs n 4 to 6", "on needs n 4 or 5"),
    ("3 need n 4 to 6", "3 need n 3 to 6"), ("3 need n 4 to 6", "3 need n 4 or newer"), ("allows 1 to 3", "allows 1 to 4"),
    ("allows 1 to 3", "allows 1 or 2"), ("allows t 2 or newer", "allows t"), ("t from 2 on", "t from 1 on"), ("t from 2 on", "t from 3 on"),
    ("t from 2 on needs", "every release of t needs"), ("on needs n 4 to 6", "on needs n"), ("on needs n 4 to 6", "on needs m"),
    # a line that isn't needed
    ("line 1 (n<4) don't", "line 3 (m) don't"), ("line 2 (t>=2) and line 1 (n<4) don't", "line 3 (m) and line 1 (n<4) don't"),
    ("line 1 (n<4) don't", "line 2 (t>=2) don't"), ("line 2 (t>=2) and line 1 (n<4) don't", "line 1 (n<4) and line 2 (t>=2) don't"),
    ("line 1 allows 1 to 3", "line 3 allows 1 to 3"), ("don't go together: t", "go together: t"),
    ("on needs n 4 to 6", "on needs n 4 to 6, and line 3 allows 1"),
)
# two lines on one package
BOTH_FILE = "n<4", "n>=6", "n"
BOTH = """\
line 1 (n<4) and line 2 (n>=6) don't go together: no release of n matches both.
1. line 1 (n<4) allows n 1 to 3, and line 2 allows 6 or newer.
"""
PLANTED_BOTH = (
    ("n 1 to 3", "n 1 to 4"), ("n 1 to 3", "n 1 or 2"), ("allows 6 or newer", "allows 5 or newer"), ("allows 6 or newer", "allows 6"),
    ("no release of n", "no release of t"), ("line 2 (n>=6) don't", "line 1 (n<4) don't"), ("line 2 (n>=6) don't", "line 3 (n) don't"),
    ("no release of n matches both", "every release of n needs n"), ("line 2 allows", "line 3 allows"),
)
# two lines whose packages need a third one
SHARED_FILE = "p>=1", "w>=1", "s"
SHARED_INDEX = (
    *(("s", str(version), []) for version in range(1, 6)), ("p", "1", ["s>=2,<4"]), ("p", "2", ["s>=3,<4"]), ("w", "1", ["s<2"]),
    ("w", "2", ["s>=4"]),
)
SHARED = """\
line 1 (p>=1) and line 2 (w>=1) don't go together: every release of p needs s 2 or 3, and every release of w needs s 1, or 4 or newer.
1. every release of p needs s 2 or 3, and every release of w needs s 1, or 4 or newer.
2. line 2 (w>=1) needs w, which is ruled out by 1 with any release of p.
3. line 1 (p>=1) needs p, which is ruled out by 2.
"""
PLANTED_SHARED = (
    # a number that is one too new, or too old
    ("p needs s 2 or 3, and", "p needs s 2 to 4, and"), ("p needs s 2 or 3, and", "p needs s 3, and"), ("s 1, or 4 or newer.", "s 1, or 5 or newer."),
    ("s 1, or 4 or newer.", "s 1, or 3 or newer."), ("s 1, or 4 or newer.", "s 4 or newer."), ("s 1, or 4 or newer.", "s 1."),
    ("s 1, or 4 or newer.", "s."), ("p needs s 2 or 3, and", "p needs s, and"), ("s 1, or 4 or newer.\n1.", "p 1.\n1."),
    # who needs it
    ("together: every release of p needs", "together: p 1 needs"), ("and every release of w needs", "and w 2 needs"),
    ("and every release of w needs", "and w from 2 on needs"), (", and every release of w needs s 1, or 4 or newer.", "."),
    (", and every release of w needs s", ", which needs s"), ("line 2 (w>=1) don't", "line 3 (s) don't"),
    ("line 1 (p>=1) and line 2 (w>=1)", "line 2 (w>=1) and line 1 (p>=1)"), ("and every release of w", "and every release of p"),
    ("with any release of p", "with every release of p"), ("with any release of p", "with p 1"), (" with any release of p", ""),
    ("with any release of p", "with any release of w"),
)
# two lines with a package between them
LINKED_FILE = "p>=2", "s<3", "w"
LINKED_INDEX = (
    *(("s", str(version), []) for version in range(1, 6)), ("p", "1", []), ("p", "2", ["w>=2"]), ("p", "3", ["w>=3"]), ("w", "1", ["s"]),
    ("w", "2", ["s>=3"]), ("w", "3", ["s>=4"]), ("w", "4", ["s>=4"]),
)
LINKED = """\
line 1 (p>=2) and line 2 (s<3) don't go together: p from 2 on needs w 2 or newer, which needs s 3 or newer.
1. p 2 and 3 need w 2 or newer, which needs s 3 or newer.
2. line 2 (s<3) allows s 1 or 2, which is ruled out by 1 with p 2 and 3.
3. line 1 (p>=2) allows p 2 or newer, which is ruled out by 2.
"""
PLANTED_LINKED = (
    # a number that is one too new, or too old
    ("p from 2 on", "p from 3 on"), ("p from 2 on", "p from 1 on"), ("on needs w 2 or newer", "on needs w 3 or newer"),
    ("on needs w 2 or newer", "on needs w"), ("which needs s 3 or newer.\n1", "which needs s 4 or newer.\n1"),
    ("which needs s 3 or newer.\n1", "which needs s 2 or newer.\n1"), ("which needs s 3 or newer.\n1", "which needs s.\n1"),
    ("need w 2 or newer, which needs s 3", "need w 2 or newer, which needs s 4"), ("3 need w 2 or newer", "3 need w 3 or newer"),
    ("need w 2 or newer, which needs s 3", "need w 2 or newer, which needs s 2"),
    ("need w 2 or newer, which needs s 3 or newer", "need w 2 or newer, which needs s"),
    ("need w 2 or newer, which needs s 3 or newer", "need w 2 or newer, which needs s 3 or newer and not s 2 and 3"),
    ("need w 2 or newer, which needs s 3 or newer", "need w 2 or newer, which needs s 3 or newer and not s 1"),
    ("need w 2 or newer, which needs s 3 or newer", "need w 2 or newer"), ("with p 2 and 3", "with p 3"),
    # who needs it
    (", which needs s 3 or newer.\n1", ".\n1"), (", which needs s 3 or newer.\n1", ", and w from 2 on needs s 3 or newer.\n1"),
    ("line 2 (s<3) don't", "line 3 (w) don't"), ("line 1 (p>=2) and line 2 (s<3)", "line 2 (s<3) and line 1 (p>=2)"),
    ("which needs s 3 or newer.\n1", "which needs p 3.\n1"),
)
# a line that no release matches
NEWEST_FILE = "n>=9", "m"
NEWEST = """\
No choice of versions meets line 1 (n>=9).
1. line 1 (n>=9) allows no release of n; the newest in the index is 7.
"""
PLANTED_NEWEST = (
    ("index is 7", "index is 8"), ("index is 7", "index is 6"), ("index is 7", "index is 1"), ("; the newest in the index is 7", ""),
    ("release of n;", "release of m;"), ("; the newest in the index is 7", ", and the index has no such release"), ("n; the", "n, the"),
    ("allows no release of n; the newest in the index is 7", "allows n 7"), ("line 1 (n>=9) allows", "line 2 (m) allows"),
)
# a chain: each package needs the next one, and the last one isn't there
LINKS = 8
CHAIN_FILE = ("k0",)
CHAIN_INDEX = (*((f"k{place}", "1", [f"k{place + 1}"]) for place in range(LINKS - 1)), (f"k{LINKS - 1}", "1", ["none"]), ("x", "1", []))
CHAIN = """\
No choice of versions meets line 1 (k0).
1. the only release of k7 needs none, and the index has no package none.
2. the only release of k6 needs k7, which is ruled out by 1.
3 to 7. So it goes on through 5 packages, from k5 to k1: each needs the one before it, which is ruled out by the step before.
8. the only release of k0 needs k1, which is ruled out by 7.
9. line 1 (k0) needs k0, which is ruled out by 8.
"""
PLANTED_CHAIN = (
    # a count that is one too low, or too high
    ("3 to 7. So it goes on through 5", "3 to 7. So it goes on through 4"), ("3 to 7. So it goes on through 5", "3 to 6. So it goes on through 4"),
    ("3 to 7. So it goes on through 5", "3 to 8. So it goes on through 6"), ("from k5 to", "from k4 to"), ("to k1:", "to k2:"), ("to k1:", "to x:"),
    ("from k5 to", "from x to"), ("ruled out by 7", "ruled out by 6"), ("ruled out by 7", "ruled out by 2"), ("ruled out by 7", "ruled out by 3"),
    ("k6 needs k7, which is ruled out by 1", "k6 needs k7, which is ruled out by 2"), ("3 to 7.", "3."),
    ("the step before.", "the step before with the only release of x."),
)
# a bound that travels along such a chain
BOUND_FILE = "k0>=2", "k8<2"
BOUND_INDEX = tuple((f"k{place}", f"{version}", [f"k{place + 1}>={version}"] * (place < LINKS)) for place in range(LINKS + 1) for version in (1, 2, 3))
BOUND = """\
No choice of versions meets line 1 (k0>=2) and line 2 (k8<2).
1. k6 2 and 3 need k7 2 or newer, which needs k8 2 or newer.
2. k5 2 and 3 need k6 2 or newer, which is ruled out by 1 with k8 1.
3 to 6. So it goes on through 4 packages, from k4 to k1: each needs the one before it, which is ruled out by the step before with k8 1.
7. k0 2 and 3 need k1 2 or newer, which is ruled out by 6 with k8 1.
8. line 2 (k8<2) allows k8 1, which is ruled out by 7 with k0 2 and 3.
9. line 1 (k0>=2) allows k0 2 or newer, which is ruled out by 8.
"""
PLANTED_BOUND = (
    ("3 to 6. So it goes on through 4", "3 to 5. So it goes on through 3"), ("3 to 6. So it goes on through 4", "3 to 6. So it goes on through 3"),
    ("step before with k8 1", "step before"), ("step before with k8 1", "step before with k8 2"), ("from k4 to", "from k3 to"),
    ("to k1:", "to k2:"), ("k0 2 and 3 need k1 2 or newer", "k0 2 and 3 need k1 1 or newer"), ("k0 2 and 3 need k1", "every release of k0 needs k1"),
    ("which needs k8 2 or newer", "which needs k8 1 or newer"), ("which needs k8 2 or newer", "which needs k8 3"),
    ("which needs k8 2 or newer", "which needs k8"),
    ("k7 2 or newer, which needs", "k7, which needs"), ("by 7 with k0 2 and 3", "by 7 with k0 2"), ("by 7 with k0 2 and 3", "by 6 with k0 2 and 3"),
)
# the same where it is told what isn't needed
NOT_NEEDED = BOUND.replace("which needs k8 2 or newer", "which needs k8 2 or newer and not k8 1")
PLANTED_NOT_NEEDED = (
    ("which needs k8 2 or newer and not k8 1", "which needs k8 1 or newer and not k8 1"), ("and not k8 1", "and not k8 2"), ("and not k8 1", "and not k0 1"),
    ("and not k8 1", "and not k8 1 and 2"), ("and not k8 1", "and not"),
)


class Drawn(Program):
    """The sentences of drawn problems: of a file, of a file with a line more, of a changed line, of a release that is wanted, and where
    what is locked is kept."""

    kept_told = set()

    def begin_drawn(self, draw):
        """Puts a drawn file over a drawn index."""
        self.index, self.file = json.dumps(draw.index()).encode(), draw.lines()
        (self.outside / "index.json").write_bytes(self.index)
        self.put({"requirements.txt": "".join(f"{line}\n" for line in self.file).encode()})

    def asked(self, named, *words, kept=None):
        """Whether a question about these lines is told in sentences, which are true then, the long ones too. It may be one where these
        versions are kept."""
        status, told = self.call("why", *words)
        if status != 3:
            return False
        problem = Problem([text for _, text in named], LINUX, read_index(self.index), kept or {}, kept is not None)
        long = self.call("why", "--explain", "--long", *(word for word in words if word != "--explain"))
        for (status, text), is_long in ((status, told), False), (long, True):
            with self.subTest(words=words, file=self.file, index=self.index, is_long=is_long, told=text):
                self.assertEqual(status, 3)
                try:
                    check(problem, lines_of(problem, named), text, left_out(self.index).items(), is_long)
                except Fault as fault:
                    self.fail(f"{fault}\n{text}")
        self.kept_told |= set(re.findall(HELD, " ".join(told.split())))
        return True

    def named(self, place, short, text):
        """The lines of the file, with another one in the place of one of them."""
        named = numbered(self.file)
        return [*named[:place], (short, text), *named[place + 1 :]]

    def questions(self, draw):
        """Asks about a lock of the file: a constraint on each line, and each release."""
        if self.call("init")[0] != 0:
            return
        wanted = {place: read_line(line) for place, line in enumerate(self.file)}
        wanted = {place: requirement for place, requirement in wanted.items() if requirement}
        for place, requirement in wanted.items():
            clauses, extras = draw.clauses(), f"[{','.join(requirement.extras)}]" if requirement.extras else ""
            active = self.file[place].partition("#")[0].partition(";")[1:]
            short, text = f"line {place + 1} as constrained", f"{requirement.name}{extras}{clauses}"
            if not active[0] and sum(requirement.name == other.name for other in wanted.values()) == 1:
                yield self.asked(self.named(place, short, text), "--explain", "--constrain", requirement.name, *([clauses] if clauses else []))
        for name in self.locked():
            for version in self.versions(name):
                text = f"{name}=={version}"
                yield self.asked([*numbered(self.file), ("the version asked for", text)], "--not", text)

    def versions(self, name):
        packages = [package for package in json.loads(self.index)["packages"] if package["name"] == name]
        return [release["version"] for package in packages for release in package["releases"]]

    def test_each_sentence_is_true(self):
        draw, count = Draw(1), 0
        while count < COUNT:
            self.begin_drawn(draw)
            named, line = numbered(self.file), draw.line(draw.one(("a", "b-b", "c", "zz")))
            if self.asked(named, "--init", "--explain"):
                count += 1
            elif self.asked([*named, ("the new line", line)], "--init", "--explain", "--", line):
                count += 1
            else:
                count += sum(self.questions(draw))

    def test_each_sentence_is_true_where_what_is_locked_is_kept(self):
        draw, count, self.kept_told = Draw(2), 0, set()
        while count < COUNT_OF_KEPT:
            self.begin_drawn(draw)
            if self.call("init")[0] != 0:
                continue
            kept = {name: read_version(version) for name, version in self.locked().items()}
            if draw.happens(50):
                self.index = json.dumps(draw.index()).encode()
                (self.outside / "index.json").write_bytes(self.index)
            named, line = numbered(self.file), draw.line(draw.one([name for name in NAMES if name not in kept] or NAMES))
            if self.asked(named, KEEP, "--explain", kept=kept):
                count += 1
            elif self.asked([*named, ("the new line", line)], KEEP, "--explain", "--", line, kept=kept):
                count += 1
        self.assertEqual({told.endswith("doesn't have") for told in self.kept_told}, {True, False})

    def begin_chain(self, seed, count, most):
        """A chain of so many packages whose releases ask each for a range of its own of the next one, which goes up by two from link to link at
        most. The last line asks for more. Some releases are in nobody's range."""
        chance, releases = drawing(seed), []
        for place in range(count):
            for version in range(1, most + 1):
                first = min(max(1, version + chance.randint(-1, 1)), most - 1)
                needs = [f"c{place + 1:02}>={first},<={first + 1}"] if place < count - 1 else []
                releases.append((f"c{place:02}", f"{version}", needs))
        self.index, self.file = json.dumps(index_of(*releases)).encode(), [f"c00<={most - 2 * count}", f"c{count - 1:02}=={most}"]
        (self.outside / "index.json").write_bytes(self.index)
        self.put({"requirements.txt": "".join(f"{line}\n" for line in self.file).encode()})

    def test_each_sentence_on_a_chain_of_ranges_is_true(self):
        for seed in range(10 if IS_LONG else 3):
            self.begin_chain(seed, 10, 30)
            self.assertTrue(self.asked(numbered(self.file), "--init", "--explain"))

    def test_a_chain_of_forty_ranges_is_told_by_its_ends(self):
        for seed in range(3):
            self.begin_chain(seed, 40, 100)
            status, told = self.call("why", "--init", "--explain")
            self.assertEqual((status, len(re.findall("So it goes on through [0-9]+ packages", " ".join(told.split())))), (3, 1))
            self.assertLessEqual(len(told.splitlines()), 20)


class Planted(unittest.TestCase):
    """The reader over a few texts and changed ones."""

    def check(self, told, *releases, kept=None, file=FILE, index=INDEX):
        lines = [f"{line}\n" for line in file]
        problem = Problem(lines, LINUX, index_in(*index), {"b": read_version(kept)} if kept else {}, kept is not None)
        return check(problem, lines_of(problem, numbered(lines)), told, releases)

    def stated(self, told, **words):
        return [conflict and [(term.name, len(term.keys)) for term in conflict] for conflict in self.check(told, **words)]

    def refuses(self, text, changes, *releases, **words):
        for old, new in changes:
            with self.subTest(old=old, new=new):
                self.assertIn(old, text)
                with self.assertRaises(Fault):
                    self.check(text.replace(old, new, 1), *releases, **words)

    def test_the_text_is_accepted(self):
        self.assertEqual(self.stated(TOLD), [[("c", 1), ("a", 3)], [("a", 3)], []])

    def test_other_words_for_the_same_are_accepted(self):
        for old, new in (
            ("2. line 3 (c) needs c, which is ruled out by 1", "2. line 3 (c) needs c, which is ruled\n   out by 1"),
            ("which is ruled out by 1 with a 1 to 3", "and with a 1 to 3 no release of c is left: 1 is ruled out by 1"),
        ):
            with self.subTest(old=old, new=new):
                self.assertEqual(TOLD.count(old), 1)
                self.assertEqual(self.check(TOLD.replace(old, new)), self.check(TOLD))
        for new in "don't match what a needs (1)", "don't go with a":
            self.assertEqual(self.stated(OTHERWISE.replace("don't match <2 of a", new)), self.stated(TOLD))
        self.assertEqual(self.stated(OTHERWISE), self.stated(TOLD))

    def test_releases_that_were_left_out_are_told(self):
        told = TOLD + "a: release 6: version bad-version\nc: release 1: no-file\n"
        out = {("c", 1): "2", ("a", 6): "x", ("d", 1): "2", ("a", 7): None, ("b", 3): "0.5"}
        self.assertEqual(self.check(told, *out.items()), self.check(TOLD))
        for more in {("a", 5): "7"}, {("a", 7): "x"}, {("b", 3): "x"}:
            with self.subTest(more=more), self.assertRaises(Fault):
                self.check(told, *(out | more).items())
        for fewer in ("c", 1), ("a", 6):
            with self.subTest(fewer=fewer), self.assertRaises(Fault):
                self.check(told, *(item for item in out.items() if item[0] != fewer))

    def test_what_the_lock_keeps_is_accepted_where_it_does(self):
        for told, kept, others in (KEPT, "1", (None, "2", "4")), (GONE, "4", (None, "1", "5")):
            with self.subTest(kept=kept):
                self.assertEqual([[term.name for term in conflict] for conflict in self.check(told, kept=kept)], [["c"], []])
                for other in others:
                    with self.assertRaises(Fault):
                        self.check(told, kept=other)

    def test_a_changed_text_on_what_the_lock_keeps_is_refused(self):
        self.refuses(KEPT, PLANTED_KEPT, kept="1")
        self.refuses(GONE, PLANTED_GONE, kept="4")

    def test_a_changed_text_is_refused(self):
        self.refuses(TOLD, PLANTED)
        self.refuses(OTHERWISE, PLANTED_OTHERWISE)

    def test_a_sentence_in_front_is_true_by_itself(self):
        words = {"file": PAIR_FILE, "index": PAIR_INDEX}
        self.assertEqual(self.stated(PAIR, **words), [[("t", 2)], []])
        self.refuses(PAIR, PLANTED_PAIR, **words)
        words = {"file": BOTH_FILE, "index": PAIR_INDEX}
        self.assertEqual(self.stated(BOTH, **words), [[]])
        self.refuses(BOTH, PLANTED_BOTH, **words)
        words = {"file": SHARED_FILE, "index": SHARED_INDEX}
        self.assertEqual(self.stated(SHARED, **words), [[("p", 2), ("w", 2)], [("p", 2)], []])
        self.refuses(SHARED, PLANTED_SHARED, **words)
        words = {"file": LINKED_FILE, "index": LINKED_INDEX}
        self.assertEqual(self.stated(LINKED, **words), [[("p", 2), ("s", 2)], [("p", 2)], []])
        self.refuses(LINKED, PLANTED_LINKED, **words)

    def test_the_newest_release_is_told_where_a_line_allows_none(self):
        words = {"file": NEWEST_FILE, "index": PAIR_INDEX}
        self.assertEqual(self.stated(NEWEST, **words), [[]])
        self.refuses(NEWEST, PLANTED_NEWEST, **words)

    def test_a_chain_is_as_long_as_it_is_told(self):
        words = {"file": CHAIN_FILE, "index": CHAIN_INDEX}
        conflicts = [[("k7", 1)], [("k6", 1)], *[None] * 4, [("k1", 1)], [("k0", 1)], []]
        self.assertEqual(self.stated(CHAIN, **words), conflicts)
        self.refuses(CHAIN, PLANTED_CHAIN, **words)
        words = {"file": BOUND_FILE, "index": BOUND_INDEX}
        conflicts = [[(f"k{place}", 2), ("k8", 1)] for place in (6, 5)] + [None] * 3 + [[(f"k{place}", 2), ("k8", 1)] for place in (1, 0)]
        self.assertEqual(self.stated(BOUND, **words), [*conflicts, [("k0", 2)], []])
        self.refuses(BOUND, PLANTED_BOUND, **words)
        self.assertEqual(self.stated(NOT_NEEDED, **words), self.stated(BOUND, **words))
        self.refuses(NOT_NEEDED, PLANTED_NOT_NEEDED, **words)


if __name__ == "__main__":
    unittest.main()
