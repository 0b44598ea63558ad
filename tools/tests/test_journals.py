"""The program on journals, locks and requirements files that are cut and altered: it answers what rules/journals.py does, which
is written from the rules and not from the program. Journals are of either version with one target, and with three targets. Every
hundredth alteration is tried, or with LONG_TESTS=1 each."""

import unittest
from itertools import islice, product

from support.checked_files import checked, told
from support.made.environments import LINUX, OLDER, WINDOWS
from support.made.journals import altered, entry, journal, journal_of_targets, lock_text, step
from support.places import IS_LONG, needs_program
from support.rules.journals import file_name, opens_in

PACE = 1 if IS_LONG else 100

# The states: `a` and `b-b`, one with `c` behind them, one without `b-b`, and one with another `a`.
LINES = ["# web\r\nB_b >=1 # pin\r\na", "# web\r\nB_b >=1 # pin\r\na\r\nc ; os_name=='posix'\r\n", "# web\r\na\r\nc ; os_name=='posix'\r\n"]
ENTRIES = [
    {"a": entry("a", "1"), "b-b": entry("b-b", "1")},
    {"a": entry("a", "1"), "b-b": entry("b-b", "1"), "c": entry("c", "1", "d"), "d": entry("d", "2.0", python=">=3.8")},
    {"a": entry("a", "1"), "c": entry("c", "1", "d"), "d": entry("d", "2.0", python=">=3.8")},
    {"a": entry("a", "1.1"), "c": entry("c", "1", "d"), "d": entry("d", "2.0", python=">=3.8")},
]
DIGESTS = ["0" * 64] * 3 + ["1" * 64]
STEPS = [
    step(
        [[2, ["a"], ["a\r\n", "c ; os_name=='posix'\r\n"]]],
        [["c", None, ENTRIES[1]["c"]], ["d", None, ENTRIES[1]["d"]]],
    ),
    step([[1, ["B_b >=1 # pin\r\n"], []]], [["b-b", ENTRIES[1]["b-b"], None]]),
    step([], [["a", ENTRIES[2]["a"], ENTRIES[3]["a"]]], DIGESTS[2:]),
]

# Three targets: the line of `c` isn't active in `win`, and in `older` an older `a` is locked at first.
ENVIRONMENTS = {"": LINUX, "older": OLDER, "win": WINDOWS}
LOCKS = {
    "": ENTRIES,
    "older": [*({**entries, "a": entry("a", "0.9")} for entries in ENTRIES[:3]), ENTRIES[3]],
    "win": [{name: entry_told for name, entry_told in entries.items() if name not in ("c", "d")} for entries in ENTRIES],
}


def entries_between(place):
    """The entries that change from one place to the next one, each with its target in front."""
    for target, locks in LOCKS.items():
        old, new = locks[place : place + 2]
        for name in sorted({*old, *new}):
            if old.get(name) != new.get(name):
                yield [target, name, old.get(name), new.get(name)]


STEPS_OF_TARGETS = [step(one["lines"], entries_between(place), one["snapshot"]) for place, one in enumerate(STEPS)]
KINDS = 1, 2, "three targets"


def files(cursor, kind=2):
    """The files at a place in the history, with a journal of a version, or of version 2 with three targets."""
    locks = {name: lock_text(environment, LOCKS[name][cursor], DIGESTS[cursor]) for name, environment in ENVIRONMENTS.items()}
    return files_of(LINES[min(cursor, 2)].encode(), locks, cursor, kind)


def files_of(requirements, locks, cursor, kind=2):
    """These files with their journal, by their names. Only a history of three targets has all three locks."""
    if kind == KINDS[2]:
        written = journal_of_targets(requirements, locks, ENVIRONMENTS, cursor, *STEPS_OF_TARGETS)
    else:
        locks = {"": locks[""]}
        written = journal(requirements, locks[""], LINUX, cursor, *STEPS, version=kind)
    locks = {file_name(name): lock for name, lock in locks.items()}
    return {"requirements.txt": requirements, **locks, "reqlock.journal": written}


class Rules(unittest.TestCase):
    def test_the_files_open_at_each_place(self):
        for kind, cursor in product(KINDS, range(4)):
            self.assertEqual(opens_in(files(cursor, kind)), ("ok", cursor, 3))

    def test_of_three_targets_each_step_is_needed(self):
        self.assertEqual([[entry[0] for entry in one["entries"]] for one in STEPS_OF_TARGETS], [
            ["", "", "older", "older"], ["", "older", "win"], ["", "older", "win"],
        ])
        self.assertEqual(STEPS_OF_TARGETS[0]["entries"][0], ["", "c", None, ENTRIES[1]["c"]])


@needs_program
class Program(unittest.TestCase):
    def check(self, given, text):
        """The program answers of these files what the rules do, and leaves them."""
        self.assertEqual(checked(given), told(given, *opens_in(given)), text)

    def test_opens_at_each_place(self):
        for kind, cursor in product(KINDS, range(4)):
            self.check(files(cursor, kind), (kind, cursor))

    def test_altered_journals(self):
        for kind, cursor in product(KINDS, (1, 3)):
            given = files(cursor, kind)
            for text, data in islice(altered(given["reqlock.journal"]), cursor, None, PACE):
                self.check(given | {"reqlock.journal": data}, f"{kind}: {text}")

    def test_altered_requirements_with_their_digest(self):
        for kind in KINDS[1:]:
            given, locks = files(1, kind), self.locks_at(1)
            for text, data in islice(altered(given["requirements.txt"]), 0, None, PACE // 10 + 1):
                self.check(files_of(data, locks, 1, kind), f"{kind}: {text}")

    def locks_at(self, cursor):
        given = files(cursor, KINDS[2])
        return {name: given[file_name(name)] for name in ENVIRONMENTS}

    def test_altered_locks_with_their_digest(self):
        for kind, name in (2, ""), (KINDS[2], ""), (KINDS[2], "win"):
            requirements, locks = files(1)["requirements.txt"], self.locks_at(1)
            for text, data in islice(altered(locks[name]), 0, None, PACE):
                self.check(files_of(requirements, locks | {name: data}, 1, kind), f"{kind}, {name}: {text}")

    def test_a_lock_that_is_not_there(self):
        for name in ENVIRONMENTS:
            given = files(1, KINDS[2])
            del given[file_name(name)]
            self.assertEqual(opens_in(given), ("unreadable", file_name(name)))
            self.check(given, name)


if __name__ == "__main__":
    unittest.main()
