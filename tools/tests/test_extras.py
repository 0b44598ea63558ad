"""What is locked of releases with many dependencies whose markers name extras: the program against rules/locks.py."""

import unittest

from support.made.chance import Chance
from support.made.releases import problem_in
from support.places import IS_LONG
from support.program import Program
from support.rules.lock_tables import read_lock_table
from support.rules.locks import best_solution, entries_of

SEEDS = 1000 if IS_LONG else 40
EXTRAS = "e", "F_1", "g", "f.1", "h"
NAMES = [f"n{number}" for number in range(8)]
COUNT, OTHERS = 12, 3


class Drawn(Chance):
    """A release of `a` with dependencies of its own, and lines that ask for some of its extras."""

    def atom(self):
        extra = f"'{self.one((*EXTRAS, 'no name'))}'"
        return self.one((
            f"extra == {extra}", f"{extra} == extra", f"extra != {extra}", "os_name == 'posix'", "os_name == 'nt'",
        ))

    def marker(self, depth=0):
        if depth < 2 and self.happens(45):
            members = [self.marker(depth + 1) for _ in range(self.one((2, 2, 3)))]
            return "(" + self.one((" and ", " or ")).join(members) + ")"
        return self.atom()

    def need(self):
        asked = f"[{self.one(EXTRAS)}]" if self.happens(20) else ""
        wanted = self.one(("", "", ">=2", "<2", "==1", "!=2"))
        return self.one(NAMES) + asked + wanted + (f" ; {self.marker()}" if self.happens(85) else "")

    def needs(self, most):
        return [self.need() for _ in range(self.random.randrange(most))]

    def releases(self):
        yield "a", "1", self.needs(14)
        for name in NAMES:
            for version in ("1", "2")[: self.one((1, 2, 2))]:
                yield name, version, self.needs(3)

    def lines(self):
        asked = self.random.sample(EXTRAS, self.random.randrange(1, 5))
        cut = self.random.randrange(len(asked) + 1)
        return f"a[{','.join(asked[:cut])}]\na[{','.join(asked[cut:])}]\n"


class ManyExtras(Program):
    def locks_as_the_rules(self, lines, releases):
        """What is locked is what the rules say, and something is."""
        problem = problem_in(lines, *releases)
        best = best_solution(problem)
        self.assertIsNotNone(best)
        self.begin(lines.encode(), *releases)
        self.assertEqual(self.call("init"), (0, "ok 0\n"))
        entries = read_lock_table((self.folder / "pylock.toml").read_bytes())[2]
        self.assertEqual(entries, entries_of(problem, best))
        return entries

    def test_extras_times_dependencies(self):
        """All extras are asked for, of a release whose dependencies are equal, have ranges of one name, or are on other names. Markers
        read none of the extras, or each reads all."""
        extras = [f"e{number}" for number in range(COUNT)]
        names = [NAMES[number % OTHERS] for number in range(COUNT)]
        shapes = {
            "equal": ["n0"] * COUNT, "ranges": [f"n0>=0.{number}" for number in range(COUNT)], "names": names,
            "extras": [f"{name}[{extra}]" for name, extra in zip(names, extras)],
        }
        reading = " or ".join(f"extra == '{extra}'" for extra in extras)
        others = [(name, version, ["m; extra == 'e1'"]) for name in NAMES[:OTHERS] for version in ("0.1", "1")] + [("m", "1", [])]
        for shape, needs in shapes.items():
            for marker in "", f" ; {reading}":
                with self.subTest(shape=shape, marker=marker):
                    entries = self.locks_as_the_rules(
                        f"a[{','.join(extras)}]\n", [("a", "1", [need + marker for need in needs]), *others]
                    )
                    self.assertEqual("m" in entries, shape == "extras")
                    self.assertEqual(entries["a"]["dependencies"], NAMES[: 1 if shape in ("equal", "ranges") else OTHERS])
                    self.setUp()

    def test_locks_are_those_of_the_rules(self):
        solved = 0
        for seed in range(SEEDS):
            drawn = Drawn(seed)
            lines, releases = drawn.lines(), list(drawn.releases())
            problem = problem_in(lines, *releases)
            best = best_solution(problem)
            with self.subTest(seed):
                self.begin(lines.encode(), *releases)
                if best is None:
                    self.assertNotEqual(self.call("init")[0], 0)
                else:
                    self.assertEqual(self.call("init"), (0, "ok 0\n"))
                    entries = read_lock_table((self.folder / "pylock.toml").read_bytes())[2]
                    self.assertEqual(entries, entries_of(problem, best))
                    solved += 1
            self.setUp()
        self.assertGreater(solved, SEEDS // 3)


if __name__ == "__main__":
    unittest.main()
