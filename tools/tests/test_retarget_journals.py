"""Journals whose steps change targets: what is read as one, and what is broken, by a second reading of the rules and by the program alike."""

import copy
import json
import unittest

from support.made.environments import LINUX, MACOS, OLDER, WINDOWS
from support.made.journals import compact
from support.program import Program
from support.rules.journals import opens_in

JOURNAL = "reqlock.journal"
RELEASES = ("a", "1", []), ("c", "1", []), ("w", "1", []), ("old", "1", [])


class Altered(Program):
    """A history of three steps: an edit, a retarget and an edit. Its journal is altered, and stands at each place."""

    environments = {"linux": OLDER, "win": WINDOWS}

    def setUp(self):
        super().setUp()
        self.begin(b'a\nw; os_name=="nt"\nold; python_version<"3.12"\n', *RELEASES)
        self.plays((["init"], 0, "ok 0\n"), (["add", "c"], 0, "ok 1\n"))
        self.lock_for({"linux": LINUX, "mac": MACOS})
        self.plays((["retarget"], 0, "ok 2\n"), (["remove", "c"], 0, "ok 3\n"))
        self.at = {3: self.files()}
        for place in 2, 1, 0:
            self.plays((["undo"], 0, f"ok {place}\n"))
            self.at[place] = self.files()

    def check_altered(self, alter, broken, places=(0, 1, 2, 3)):
        """A journal whose lines are altered is broken at this line; where it is none, it is a history."""
        for place in places:
            files = self.at[place]
            lines = [json.loads(line) for line in files[JOURNAL].splitlines()]
            alter(lines)
            files = files | {JOURNAL: b"".join(map(compact, lines))}
            wanted = ("ok", place, 3) if broken is None else ("journal-broken", broken)
            with self.subTest(place=place, lines=lines):
                self.assertEqual(opens_in(files), wanted)
                self.put(files)
                told = (0, f"ok {place}\n") if broken is None else (4, f"reqlock: {JOURNAL}: line {broken}: journal-broken\n")
                self.assertEqual(self.call("check"), told)

    def check_targets(self, targets, broken, places=(0, 1, 2, 3)):
        self.check_altered(lambda lines: lines[2].update(targets=copy.deepcopy(targets)), broken, places)

    def test_the_step_as_it_was_saved(self):
        self.check_altered(lambda lines: None, None)
        records = [json.loads(line) for line in self.at[0][JOURNAL].splitlines()]
        self.assertEqual(records[0]["journal"], 3)
        self.assertEqual(records[2]["targets"], [["linux", OLDER, LINUX], ["mac", None, MACOS], ["win", WINDOWS, None]])
        self.assertEqual(["targets" in step for step in records], [True, False, True, False])

    def test_what_is_no_step(self):
        linux, mac, win = ["linux", OLDER, LINUX], ["mac", None, MACOS], ["win", WINDOWS, None]
        less = {name: text for name, text in LINUX.items() if name != "os_name"}
        for targets in (
            [], None, {}, "x", [linux, win, mac], [linux, linux, mac, win], [["linux", LINUX, LINUX], mac, win], [linux, mac, win, ["x", None, None]],
            [linux, mac, ["win", WINDOWS]], [linux, mac, [*win, None]], [linux, mac, win, ["X", None, LINUX]], [linux, mac, win, [None, None, LINUX]],
            [["linux", OLDER, less], mac, win], [["linux", OLDER, LINUX | {"x": ""}], mac, win], [["linux", OLDER, []], mac, win],
            [["linux", OLDER, LINUX | {"python_version": ""}], mac, win], [["linux", OLDER, LINUX | {"os_name": 1}], mac, win],
        ):
            self.check_targets(targets, 3, (0, 3))

    def test_an_unknown_key(self):
        self.check_altered(lambda lines: lines[2].update(other=[]), 3)
        self.check_altered(lambda lines: lines[1].update(targets=[]), 2)

    def test_other_versions_know_no_targets(self):
        # (the entries of line 2 are of targets that the header may not have)
        self.check_altered(lambda lines: lines[0].update(journal=2), 3, [0, 1])
        self.check_altered(lambda lines: lines[0].update(journal=2), 2, [2, 3])
        self.check_altered(lambda lines: lines[0].update(journal=4), 1)

    def test_what_leads_nowhere(self):
        """From some place at least: an environment in which nothing else would be locked may be another one."""
        linux, mac, win = ["linux", OLDER, LINUX], ["mac", None, MACOS], ["win", WINDOWS, None]
        for targets in (
            [mac, win], [linux, win], [linux, mac], [linux, mac, ["new", None, LINUX], win], [["linux", WINDOWS, LINUX], mac, win],
            [linux, ["mac", None, WINDOWS], win], [linux, mac, ["win", LINUX, None]], [linux, ["mac", LINUX, MACOS], win], [["linux", None, LINUX], mac, win],
        ):
            broken = [self.first_broken(targets, place) for place in range(4)]
            self.assertTrue(any(broken), targets)
            for place, line in enumerate(broken):
                self.check_targets(targets, line, [place])

    def first_broken(self, targets, place):
        """The line at which a journal with these targets in its second step is broken, by the second reading; none where it is a history."""
        lines = [json.loads(line) for line in self.at[place][JOURNAL].splitlines()]
        lines[2]["targets"] = targets
        answer = opens_in(self.at[place] | {JOURNAL: b"".join(map(compact, lines))})
        return answer[1] if answer[0] == "journal-broken" else None

    def test_an_environment_that_is_gone_may_be_another(self):
        """Nothing but the step tells it."""
        linux, mac = ["linux", OLDER, LINUX], ["mac", None, MACOS]
        self.check_targets([linux, mac, ["win", WINDOWS | {"platform_release": "7"}, None]], None, [2, 3])

    def test_entries_of_a_target_that_comes_or_goes(self):
        for name in "mac", "win":

            def drop(lines, name=name):
                place = next(at for at, entry in enumerate(lines[2]["entries"]) if entry[0] == name)
                del lines[2]["entries"][place]

            self.check_altered(drop, 3, [1, 2])

        def add(lines):
            entry = next(entry for entry in lines[2]["entries"] if entry[0] == "mac")
            lines[2]["entries"].append(["zoo", *entry[1:]])

        self.check_altered(add, 3)


if __name__ == "__main__":
    unittest.main()
