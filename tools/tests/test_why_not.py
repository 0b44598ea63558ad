"""What `why --not` answers, over the built program: of which target and of which release it tells, and in which words. Nothing is saved.
Over drawn files what it says that an upgrade takes is what the upgrade takes."""

import re
import unittest

from support.drawn_files import DrawnFiles
from support.made.environments import LINUX, WINDOWS
from support.made.sessions import Draw
from support.places import IS_LONG
from support.program import Program
from support.rules.absent_releases import first_given_way
from support.rules.edits import problems_after
from support.rules.locks import Problem
from support.rules.versions import order_key, read_version

SESSIONS = 2000 if IS_LONG else 200
STAYS = re.compile(r"(\S+) stays at (\S+), since the lock has it; with (\S+) no name that is taken before it would change\. (.*)")
UPGRADE = re.compile(r"'upgrade (\S+)' takes (\S+) or a newer one\.")
GIVES_WAY = re.compile(r"With (?P<name>\S+) (?P<version>\S+) no solution keeps (?P<other>\S+) at .*he best one has (?P=other) (?P<best>\S+)\.")
COMES = re.compile(r"With (?P<name>\S+) (?P<version>\S+) the best solution has (?P<other>\S+) (?P<best>\S+), which isn't locked\.")

# on Windows `e` needs an older `a`, and `a` needs an older `w`, which is locked there alone
TWO = (
    ("a", "1", ['w<2; os_name=="nt"']), ("a", "2", ['w<2; os_name=="nt"']), ("b", "1", []), ("e", "1", ['a<2; os_name=="nt"']),
    ("v", "1", []), ("v", "2", []), ("w", "1", []), ("w", "2", []),
)
# `b` 3 asks for a newer Python, `c` 2 was taken back, `d` 2 and all of `q` are pre-releases
ONE = (
    ("b", "1", []), ("b", "2", []), ("b", "3", [], {"requires_python": ">=3.99"}), ("c", "1", []), ("c", "2", [], {"yanked": True}),
    ("d", "1", []), ("d", "2a1", []), ("q", "1a1", []), ("q", "2a1", []), ("y", "1", []),
)


class Released(Program):
    def answers(self, *texts):
        """Each text has a status and what is told, whose lines are broken anywhere."""
        before = self.files()
        for text, status, told in texts:
            with self.subTest(text=text):
                answer = self.call("why", "--not", text)
                self.assertEqual((answer[0], answer[1].replace("\n   ", " ").replace(" A\nrequirement", " A requirement")), (status, told))
        self.assertEqual(self.files(), before)


class OfTargets(Released):
    """The first target is told of whose lock has the name and not the release."""

    environments = {"linux": LINUX, "win": WINDOWS}

    def test_the_first_that_lacks_it(self):
        self.begin(b"a\ne\n", *TWO)
        self.plays((["init"], 0, "ok 0\n"))
        self.assertEqual([self.locked("linux"), self.locked("win")], [{"a": "2", "e": "1"}, {"a": "1", "e": "1", "w": "1"}])
        newer = (
            "target win\nline 2 (e) and the version asked for (a==2) don't go together: the only release of e needs a<2.\n"
            "1. line 2 (e) needs e, which needs a<2.\n2. the version asked for (a==2) allows a 2, which is ruled out by 1.\n"
        )
        nowhere = (
            "target linux\nNo choice of versions meets the version asked for ({0}).\n"
            "1. the version asked for ({0}) allows no release of a; the newest in the index is 2.\n"
        )
        self.answers(
            ("a==2", 3, newer), ("a", 3, newer), ("a==3", 3, nowhere.format("a==3")),
            (
                "a==1", 0,
                "target linux\na stays at 2, since the lock has it; with 1 no name that is taken before it would change."
                " A requirement a==1 takes it.\n",
            ),
        )

    def test_a_target_without_the_name_is_passed_over(self):
        self.begin(b'a\ne\nv; os_name=="nt"\n', *TWO)
        self.plays((["init"], 0, "ok 0\n"))
        lacking = (
            "target win\nline 1 (a) and the version asked for (w==2) don't go together: every release of a needs w<2.\n"
            "1. every release of a needs w<2, and the version asked for allows 2.\n2. line 1 (a) needs a, which is ruled out by 1.\n"
        )
        self.answers(
            ("w==2", 3, lacking), ("w", 3, lacking), ("w==1", 0, "w 1 is locked.\n"), ("e", 0, "e 1 is locked.\n"),
            ("b", 1, "refused not-locked\n"), ("b==1", 1, "refused not-locked\n"), ("v", 0, "v 2 is locked.\n"),
            (
                "v==1", 0,
                "target win\nv stays at 2, since the lock has it; with 1 no name that is taken before it would change."
                " A requirement v==1 takes it.\n",
            ),
        )


class OfReleases(Released):
    def setUp(self):
        super().setUp()
        self.begin(b"b\nc\nd\nq>=1a1\ny\n", *ONE)
        self.plays((["init"], 0, "ok 0\n"))
        self.assertEqual(self.locked(), {"b": "2", "c": "1", "d": "1", "q": "2a1", "y": "1"})

    def test_the_one_that_is_named(self):
        stays = "{0} stays at {1}, since the lock has it; with {2} no name that is taken before it would change. A requirement {0}=={2} takes it.\n"
        self.answers(
            ("b==1", 0, stays.format("b", "2", "1")), ("q==1a1", 0, stays.format("q", "2a1", "1a1")), ("b==2", 0, "b 2 is locked.\n"),
            ("B == 2.0", 0, "b 2.0 is locked.\n"), ("b==3", 0, "b 3 needs Python >=3.99, the environment has 3.12.3.\n"),
            ("c==2", 0, "c 2 is yanked, and no line pins it with ==.\n"),
            ("d==2a1", 0, "d 2a1 is a pre-release, which counts where a line names one or no final release fits.\n"),
            (
                "b==4", 3,
                "No choice of versions meets the version asked for (b==4).\n"
                "1. the version asked for (b==4) allows no release of b; the newest in the index is 3.\n",
            ),
        )

    def test_the_newest_that_counts_unasked(self):
        """No pre-release, and not yanked; where each is one, the newest of all."""
        self.answers(
            ("b", 0, "b 3 needs Python >=3.99, the environment has 3.12.3.\n"), ("c", 0, "c 1 is locked.\n"), ("d", 0, "d 1 is locked.\n"),
            ("q", 0, "q 2a1 is locked.\n"),
        )

    def test_a_name_that_the_index_lost(self):
        self.begin(b"b\nc\nd\nq>=1a1\ny\n", *ONE[:-1])
        gone = "No choice of versions meets line 5 (y).\n1. line 5 (y) needs y, and the index has no package y.\n"
        self.answers(("y", 3, gone), ("y==2", 3, gone), ("y==1", 0, "y 1 is locked.\n"))


class OfHolders(Released):
    """No line is on the name, and what needs it is taken first."""

    def is_told(self, *releases, lines, told):
        self.begin(lines, *releases)
        self.plays((["init"], 0, "ok 0\n"))
        self.answers(("b", 0, told))
        self.plays((["upgrade", "b"], 0, "same\n"))

    def test_a_holder_is_told(self):
        self.is_told(
            ("b", "1", []), ("b", "2", []), ("z", "1", []), ("z", "2", ["b<2"]), lines=b"z\n",
            told="With b 2 no solution keeps z at 2, which is taken first: z 2 needs b<2. The best one has z 1.\n",
        )

    def test_what_only_the_release_needs_is_not_taken_before_its_holder(self):
        needs = ("b", "1", []), ("b", "2", ["c"]), ("c", "2", []), ("c", "3", ["y<2"]), ("y", "1", []), ("y", "2", [])
        self.is_told(
            *needs, ("z", "1", []), ("z", "2", ["b<2"]), lines=b"y\nz\n",
            told="With b 2 no solution keeps z at 2, which is taken first: z 2 needs b<2. The best one has z 1.\n",
        )

    def test_the_holder_gets_the_newest_version_that_goes(self):
        needs = ("b", "1", []), ("b", "2", ["c"]), ("c", "2", []), ("c", "3", [])
        self.is_told(
            *needs, ("z", "1", []), ("z", "2", ["c<3"]), ("z", "3", ["b<2"]), lines=b"z\n",
            told="With b 2 no solution keeps z at 3, which is taken first: z 3 needs b<2. The best one has z 2.\n",
        )


class Drawn(DrawnFiles):
    """What is told of the newest release of each locked name, over an index that is mostly a newer one."""

    def test_what_is_told_is_so(self):
        seen = set()
        for seed in range(SESSIONS):
            with self.subTest(seed=seed):
                draw = Draw(seed)
                self.put({})
                self.take_index(draw.index())
                state = self.begun_session(draw)[0]
                self.take_index(draw.index())
                for name in state.entries():
                    self.check(state, name, seen)
        self.assertLessEqual({"stays", "upgrade", "gives way"}, seen)

    def check(self, state, name, seen):
        status, told, error = self.told("why", "--not", name)
        told = re.sub(r"\n *", " ", told).strip()
        self.assertEqual(error, "")
        if status:
            self.assertEqual(status, 3)
            return
        stays, gives_way = STAYS.fullmatch(told), GIVES_WAY.fullmatch(told) or COMES.fullmatch(told)
        if stays:
            self.check_stays(state, stays, seen)
        elif gives_way:
            self.check_way(state, gives_way, seen)
        else:
            self.assertRegex(told, r"\A\S+ \S+ (is locked\.|needs Python |is yanked, |is a pre-release, )")

    def given_way(self, state, name, version):
        """The problem of a relock, and which name gives way to the release."""
        lines, problems = problems_after(state, ("relock",), self.index)
        problem = problems[""]
        asked = Problem([*lines, f"{name}=={version}\n"], problem.environment, self.index, {})
        return problem, first_given_way(problem, asked, name)

    def check_stays(self, state, match, seen):
        name, locked, version, advice = match.groups()
        seen.add("stays")
        self.assertIsNone(self.given_way(state, name, version)[1])
        self.assertEqual(key_of(locked), key_of(state.entries()[name]["version"]))
        if key_of(version) < key_of(locked):
            self.assertEqual(advice, f"A requirement {name}=={version} takes it.")
            return
        seen.add("upgrade")
        self.assertEqual(UPGRADE.fullmatch(advice).groups(), (name, version))
        before = self.files()
        self.assertEqual(self.told("upgrade", name)[:2], (0, "ok 1\n"))
        self.assertGreaterEqual(key_of(self.locked()[name]), key_of(version))
        self.put(before)

    def check_way(self, state, match, seen):
        seen.add("gives way")
        problem, told = self.given_way(state, match["name"], match["version"])
        self.assertEqual((match["other"], problem.place_of(match["other"], key_of(match["best"]))), told)


def key_of(version):
    return order_key(read_version(version))


if __name__ == "__main__":
    unittest.main()
