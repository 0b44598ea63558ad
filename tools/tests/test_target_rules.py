"""Tests of rules/journals.py and rules/states.py with several targets, by worked examples of the rules. Where the program is built, `check`
answers each of them alike."""

import unittest

from support.checked_files import checked, told
from support.made.environments import LINUX, OLDER, WINDOWS
from support.made.journals import ZEROS, compact, entry, header_of_targets, lock_text, step
from support.places import PROGRAM
from support.rules.journals import file_name, is_target_name, opens, opens_in, read_header, read_step
from support.rules.requirements import Fault
from support.rules.states import Change, State, Target, after, inverse, is_minimal, is_state

ONES = "1" * 64
BROKEN, DISAGREE = "journal-broken", "files-disagree"
ENVIRONMENTS = {"linux": LINUX, "win": WINDOWS}
FILE = b'a\nd; os_name=="nt"\n'
D_LINE = [1, [], ['d; os_name=="nt"\n']]
D_ENTRY = ["win", "d", None, entry("d", "1")]


def locks_of(texts):
    return {name: lock_text(environment, *texts[name]) for name, environment in ENVIRONMENTS.items()}


class Names(unittest.TestCase):
    def test_that_targets_may_have(self):
        for name in "", "a", "z", "a" * 32, "linux", "win32", "a-", "a--1", "x-9-":
            self.assertTrue(is_target_name(name), name)
        for name in "a" * 33, "A", "aB", "1", "-", "-a", "9a", "a_b", "a.b", " ", "a ", " a", "a\n", "\u00e9", "a\u00e9", "a=b":
            self.assertFalse(is_target_name(name), name)

    def test_of_their_files(self):
        self.assertEqual([file_name(name) for name in ("", "win", "a-1")], ["pylock.toml", "pylock.win.toml", "pylock.a-1.toml"])


class Files(unittest.TestCase):
    """A test of the files after `add d; os_name=="nt"`, which it may alter: `d` is in the lock of `win` alone."""

    def setUp(self):
        self.requirements = FILE
        self.locks = locks_of(self.texts())
        self.steps, self.cursor = [step([D_LINE], [D_ENTRY])], 1

    @staticmethod
    def texts(**others):
        """What the locks are made of, by the names of targets."""
        both = {"linux": ({"a": entry("a", "1")},), "win": ({"a": entry("a", "1"), "d": entry("d", "1")},)}
        return both | others

    def header(self):
        return header_of_targets(self.requirements, self.locks, ENVIRONMENTS, self.cursor, len(self.steps))

    def whole(self, header=None):
        return b"".join(map(compact, [self.header() if header is None else header, *self.steps]))

    def check(self, wanted, *, header=None, locks=None, requirements=None):
        """What these files stand for: without others those that are altered, in each place where they differ from the journal's."""
        lock_files = {file_name(name): lock for name, lock in (self.locks if locks is None else locks).items()}
        given = self.requirements if requirements is None else requirements
        files = {"requirements.txt": given, **lock_files, "reqlock.journal": self.whole(header)}
        self.assertEqual(opens_in(files), wanted)
        if PROGRAM.exists():
            self.assertEqual(checked(files), told(files, *wanted))

    def test_open(self):
        self.check(("ok", 1, 1))
        self.requirements, self.cursor, self.locks = b"a\n", 0, locks_of(self.texts(win=({"a": entry("a", "1")},)))
        self.check(("ok", 0, 1))

    def test_of_digests(self):
        linux, win = ({**self.locks, name: self.locks[name].replace(b"1000", b"1001")} for name in ("linux", "win"))
        self.check((DISAGREE, "pylock.linux.toml"), header=self.header(), locks=linux)
        self.check((DISAGREE, "pylock.win.toml"), header=self.header(), locks=win)
        self.check((DISAGREE, "pylock.linux.toml"), header=self.header(), locks={**win, "linux": linux["linux"]})
        self.check((DISAGREE, "requirements.txt"), header=self.header(), locks=win, requirements=b"a\n")

    def test_requirements_are_read_before_any_lock(self):
        self.requirements, self.locks = b"-r a\n", {**self.locks, "linux": b"", "win": b"["}
        self.check((DISAGREE, "requirements.txt"))
        self.requirements = FILE
        self.check((DISAGREE, "pylock.linux.toml"))
        self.locks = {**self.locks, "linux": lock_text(LINUX, *self.texts()["linux"])}
        self.check((DISAGREE, "pylock.win.toml"))

    def test_all_environments_are_compared_before_any_lock_is_held_to_the_lines(self):
        self.locks = locks_of(self.texts(linux=({},)))
        self.check((DISAGREE, "pylock.linux.toml"))
        self.locks["win"] = lock_text(LINUX, *self.texts()["win"])
        self.check((BROKEN, 1))
        # a lock that doesn't read comes before both
        self.locks["win"] = b""
        self.check((DISAGREE, "pylock.win.toml"))

    def test_each_lock_is_held_to_the_lines_in_its_environment(self):
        for name, entries in (("linux", {"a": entry("a", "1"), "d": entry("d", "1")}), ("win", {"a": entry("a", "1")}), ("win", {})):
            self.locks = locks_of(self.texts(**{name: (entries,)}))
            self.check((DISAGREE, f"pylock.{name}.toml"))

    def test_all_locks_have_the_digest_of_the_first(self):
        linux, win = (self.texts()[name][0] for name in ("linux", "win"))
        self.locks = locks_of({"linux": (linux, ONES), "win": (win, ZEROS)})
        self.check((DISAGREE, "pylock.win.toml"))
        self.locks = locks_of({"linux": (linux, ONES), "win": (win, ONES)})
        self.check(("ok", 1, 1))
        # the first that breaks either is told
        self.locks = locks_of({"linux": ({}, ONES), "win": (win, ZEROS)})
        self.check((DISAGREE, "pylock.linux.toml"))

    def check_steps(self, answer, *entries):
        for changes in entries:
            with self.subTest(entries=changes):
                self.steps = [step([D_LINE], changes)]
                self.check(answer)

    def test_of_a_step(self):
        self.check_steps(("ok", 1, 1), [D_ENTRY])
        # it doesn't apply, its pairs don't rise, or its form is another one
        linux, other = ["linux", *D_ENTRY[1:]], ["win", "e", None, entry("e", "1")]
        self.check_steps((BROKEN, 2), [], [linux], [D_ENTRY, other], [linux, D_ENTRY], [D_ENTRY, D_ENTRY], [other, D_ENTRY])
        self.check_steps((BROKEN, 2), [D_ENTRY[1:]], [["", *D_ENTRY[1:]]], [["mac", *D_ENTRY[1:]]], [["Win", *D_ENTRY[1:]]])

    def test_an_unknown_target_is_told_before_a_step_that_does_not_apply(self):
        self.steps = [step([[9, ["x"], []]]), step([], [["mac", "d", None, entry("d", "1")]])]
        self.check((BROKEN, 3))
        self.steps[1] = step([], [["linux", "d", None, entry("d", "1")]])
        self.check((BROKEN, 2))

    def test_pairs_of_target_and_name_rise(self):
        header = read_header(compact(self.header()))
        linux = ["linux", "e", None, entry("e", "1")]
        parsed = read_step(compact(step([], [linux, D_ENTRY])), header)
        self.assertEqual([one[:2] for one in parsed.entries], [("linux", "e"), ("win", "d")])
        for entries in [D_ENTRY, linux], [linux, linux], [linux, ["linux", "a", None, entry("a", "1")]]:
            self.assertRaises(Fault, read_step, compact(step([], entries)), header)

    def test_locks_are_those_of_the_header(self):
        """Of the names that not both have, and of those with another digest, the first by bytes is told."""
        whole = self.whole()
        for locks, answer in (
            ({}, (DISAGREE, "pylock.linux.toml")), ({"linux": self.locks["linux"]}, (DISAGREE, "pylock.win.toml")),
            ({"win": self.locks["win"]}, (DISAGREE, "pylock.linux.toml")), ({**self.locks, "": b""}, (DISAGREE, "pylock.toml")),
            ({**self.locks, "mac": b""}, (DISAGREE, "pylock.mac.toml")), ({**self.locks, "zero": b""}, (DISAGREE, "pylock.zero.toml")),
            ({"linux": self.locks["linux"], "mac": b""}, (DISAGREE, "pylock.mac.toml")),
            ({**self.locks, "linux": b"", "mac": b""}, (DISAGREE, "pylock.linux.toml")),
        ):
            with self.subTest(answer=answer):
                self.assertEqual(opens(FILE, locks, whole), answer)
        self.assertEqual(opens(FILE, self.locks, whole), ("ok", 1, 1))
        self.assertEqual(opens(b"", {}, whole), (DISAGREE, "requirements.txt"))
        self.assertEqual(opens(b"", {}, whole[1:]), (BROKEN, 1))


class Laws(unittest.TestCase):
    ONE = {"a": entry("a", "1")}

    def state(self, *entries, lines=("a\n",)):
        targets = {name: Target(environment, locked) for (name, environment), locked in zip(ENVIRONMENTS.items(), entries)}
        return State(list(lines), ZEROS, targets)

    def test_of_a_state(self):
        self.assertTrue(is_state(self.state(self.ONE, self.ONE)))
        self.assertFalse(is_state(self.state(self.ONE, {})))
        self.assertFalse(is_state(self.state({}, self.ONE)))
        self.assertFalse(is_state(State([], ZEROS, {})))
        self.assertFalse(is_state(State([], ZEROS, {"b": Target(LINUX, {}), "a": Target(OLDER, {})})))
        self.assertTrue(is_state(State([], ZEROS, {"": Target(LINUX, {}), "a": Target(LINUX, {})})))

    def test_an_inverse_leads_back(self):
        two = {**self.ONE, "d": entry("d", "1")}
        state = self.state(self.ONE, two, lines=FILE.decode().splitlines(keepends=True))
        change = Change([(1, ['d; os_name=="nt"\n'], [])], [("win", "d", entry("d", "1"), None)], (ZEROS, ONES))
        changed = after(state, change)
        self.assertEqual((changed.lines, changed.digest), (["a\n"], ONES))
        self.assertEqual([changed.entries(name) for name in ENVIRONMENTS], [self.ONE, self.ONE])
        self.assertTrue(is_state(changed) and is_minimal(inverse(change)))
        self.assertEqual(inverse(change).entries, [("win", "d", None, entry("d", "1"))])
        self.assertEqual(after(changed, inverse(change)), state)

    def test_a_change_of_another_target_leads_nowhere(self):
        for target, old in ("mac", None), ("", None), ("linux", entry("d", "1")), ("win", None):
            change = Change([], [(target, "d", old, entry("d", "2"))], None)
            self.assertIsNone(after(self.state(self.ONE, {**self.ONE, "d": entry("d", "1")}), change))


if __name__ == "__main__":
    unittest.main()
