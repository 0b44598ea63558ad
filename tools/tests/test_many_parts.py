"""Calls over indexes, locks and steps of more than a hundred parts, each with its exact answer."""

import unittest

from support.made.journals import entry
from support.made.releases import file_of
from support.program import HEAD, Program
from support.rules.journals import opens_in
from support.rules.lock_tables import read_lock_table

COUNT = 120
NAMES = [f"p{number:03}" for number in range(COUNT)]
# each package needs the next one
CHAIN = tuple((name, "1", [other]) for name, other in zip(NAMES, NAMES[1:])) + ((NAMES[-1], "1", []),)
CHAIN_ENTRIES = {name: entry(name, "1", *needs) for name, _, needs in CHAIN}


class Printed(Program):
    """What only prints."""

    def test_the_lock_as_a_table(self):
        lines = ["# all", *reversed(NAMES[::2])]
        self.begin("".join(f"{line}\n" for line in lines).encode(), *CHAIN)
        self.plays((["init"], 0, "ok 0\n"))
        rows = ""
        for name, before in zip(NAMES, ["", *NAMES]):
            number = f"{lines.index(name) + 1}" if name in lines else ""
            rows += f"{name}  1        {number:4}  {before}".rstrip() + "\n"
        self.plays((["show"], 0, HEAD + rows))

    def test_an_entry_that_all_others_need(self):
        self.begin("".join(f"{name}\n" for name in NAMES).encode(), *((name, "1", ["z"]) for name in NAMES), ("z", "1", []))
        rows = "".join(f"{name}  1        {place}\n" for place, name in enumerate(NAMES, 1))
        last = f"z     1              {', '.join(NAMES)}\n"
        self.plays((["init"], 0, "ok 0\n"), (["show"], 0, HEAD + rows + last))

    # What makes a release be left out of the index, and the cause that is told.
    CAUSES = (
        ("x", [], {}, "version bad-version"), ("1.0.0", [], {}, "duplicate"), ("3", [], {"files": []}, "no-file"),
        ("6", [], {"files": [file_of("x", "6") | {"name": "../x-6.whl"}]}, "file-name"),
        ("7", [], {"files": [file_of("x", "7") | {"url": "https://files.example/\u202ex"}]}, "file-url"),
        ("4", ["b", "c>>1"], {}, "requirement 1 bad-clause"), ("5", [], {"requires_python": "3"}, "requires-python bad-clause"),
    )

    def test_the_releases_that_are_left_out(self):
        releases, told = [], ""
        for name in NAMES:
            releases.append((name, "1", []))
            for place, (version, needs, more, cause) in enumerate(self.CAUSES, 1):
                releases.append((name, version, needs, more))
                told += f"{name}: release {place}: {cause}\n"
        self.begin(b"", *releases)
        self.plays((["skipped"], 0, told))

    def begin_refuted(self):
        """An empty file over a chain whose last package asks for what there isn't. Of each package a release is left out."""
        refuted = *CHAIN[:-1], (NAMES[-1], "1", ["z>=2"]), ("z", "1", []), ("other", "1", [])
        self.begin(b"", *refuted, *((name, "x", []) for name, *_ in refuted))
        self.plays((["init"], 0, "ok 0\n"))

    # The conflicts from the end of the chain to its head, in which nothing can be spared.
    CONFLICTS = [f"{NAMES[-1]}==1 z==1", *(f"{name}==1" for name in reversed(NAMES)), "-"]

    def test_a_refutation(self):
        self.begin_refuted()
        self.plays((["why", NAMES[0]], 3, "".join(f"{conflict}\n" for conflict in self.CONFLICTS)))

    def test_a_refutation_in_sentences(self):
        self.begin_refuted()
        first, by = NAMES[0], "needs {}, which is ruled out by {}"
        front = f"No choice of versions meets the new line ({first})."
        begins = f"1. the only release of {NAMES[-1]} needs z>=2, and the index has no such release."
        ends = f"{COUNT + 1}. the new line ({first}) {by.format(first, COUNT)}."
        sentences = [
            front, begins,
            f"2. the only release of {NAMES[-2]} {by.format(NAMES[-1], 1)}.",
            f"3 to {COUNT - 1}. So it goes on through {COUNT - 3} packages, from {NAMES[-3]} to {NAMES[1]}: each needs the one"
            " before it, which",
            "   is ruled out by the step before.",
            f"{COUNT}. the only release of {first} {by.format(NAMES[1], COUNT - 1)}.",
            ends,
        ]
        told = *NAMES[:2], *NAMES[-3:], "z"
        links = [f"{at}. the only release of {NAMES[-at]} {by.format(NAMES[1 - at], at - 1)}." for at in range(2, COUNT + 1)]
        for words, lines, names in ([], sentences, told), (["--long"], [front, begins, *links, ends], (*NAMES, "z")):
            left_out = [f"{name} x: release 1: version bad-version" for name in names]
            self.plays((["why", "--explain", *words, first], 3, "".join(f"{line}\n" for line in [*lines, *left_out])))


class Ranges(Program):
    """Each release of `a` wants four neighbours of `b`, and a line wants an old `c`. What goes with it is found by sets of releases."""

    def begin_ranges(self, first_old):
        """Releases of `b` from the one with this number down go with any `c`, the others with new ones alone."""
        releases = []
        for number in range(1, COUNT + 1):
            releases.append(("a", f"{number}", [f"b<={number},>{number - 4}"]))
            releases.append(("b", f"{number}", ["c" if number <= first_old else "c>10"]))
            releases.append(("c", f"{number}", []))
        self.begin(b"a\nc<=10\n", *releases)

    def test_the_newest_that_go_together(self):
        self.begin_ranges(COUNT // 2)
        self.plays((["init"], 0, "ok 0\n"))
        entries = read_lock_table((self.folder / "pylock.toml").read_bytes())[2]
        self.assertEqual(entries, {"a": entry("a", "63", "b"), "b": entry("b", "60", "c"), "c": entry("c", "10")})

    def test_none_that_go_together_are_told_shortly(self):
        self.begin_ranges(0)
        self.plays((["init"], 3, "refused no-solution\n"))
        status, told = self.call("why", "--init", "--explain")
        front = "line 1 (a) and line 2 (c<=10) don't go together: every release of a needs b, which needs c>10."
        self.assertEqual((status, told.splitlines()[0]), (3, front))
        self.assertLess(len(told.splitlines()), 12)


class Changed(Program):
    """Steps that change more than a hundred entries, undone and redone."""

    def entries(self):
        return read_lock_table((self.folder / "pylock.toml").read_bytes())[2]

    def check_opens(self, cursor, steps):
        self.plays((["check"], 0, f"ok {cursor}\n"))
        self.assertEqual(opens_in(self.files()), ("ok", cursor, steps))

    def check_undone_and_redone(self):
        """The one step is undone, redone and opened: the files are those of before and of after it. It gives both locks."""
        after, locks = self.files(), [self.entries()]
        self.check_opens(1, 1)
        self.plays((["undo"], 0, "ok 0\n"))
        self.check_opens(0, 1)
        locks.insert(0, self.entries())
        self.plays((["redo"], 0, "ok 1\n"))
        self.assertEqual(self.files(), after)
        return locks

    def test_a_line_that_all_entries_stand_on(self):
        self.begin(f"# head\n{NAMES[0]}\n".encode(), *CHAIN)
        self.plays((["init"], 0, "ok 0\n"))
        self.assertEqual(self.entries(), CHAIN_ENTRIES)
        self.plays((["remove", NAMES[0]], 0, "ok 1\n"))
        self.holds("# head\n")
        gone = "".join(f"      - {name} 1\n" for name in NAMES)
        self.plays((["log", "--long"], 0, f"  0 init\n* 1 remove {NAMES[0]}\n{gone}"))
        self.assertEqual(self.check_undone_and_redone(), [CHAIN_ENTRIES, {}])

    def test_names_that_are_upgraded(self):
        lines = "".join(f"{name}\n" for name in NAMES).encode()
        old = tuple((name, "1", []) for name in NAMES)
        self.begin(lines, *old)
        self.plays((["init"], 0, "ok 0\n"))
        self.begin(lines, *old, *((name, "2", []) for name in NAMES))
        self.plays((["upgrade", *reversed(NAMES[10:])], 0, "ok 1\n"))
        before = {name: entry(name, "1") for name in NAMES}
        after = before | {name: entry(name, "2") for name in NAMES[10:]}
        self.assertEqual(self.check_undone_and_redone(), [before, after])


if __name__ == "__main__":
    unittest.main()
