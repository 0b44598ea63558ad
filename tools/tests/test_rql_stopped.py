"""Tests of what rql does where a save of the program was stopped midway: what it tells then leads on, and no history is taken for lost."""

import importlib.util
import unittest

from support.made.served_index import wheel_of
from support.rql_projects import Served

JOURNAL, REQUIREMENTS = "reqlock.journal", "requirements.txt"
BEFORE, BEHIND = ("pylock.toml",), ("pylock.linux.toml", "pylock.windows.toml")
ENDS = "a save was stopped midway, and nothing of it is lost: rql lock ends it\n"


@unittest.skipUnless(importlib.util.find_spec("tomlkit"), "python3 has no tomlkit: apt-get install python3-tomlkit")
class Stopped(Served):
    """A step that changes the targets removes locks, renames the journal to its place and then the locks that come."""

    def setUp(self):
        super().setUp()
        self.serve(rich=[wheel_of("rich", "1"), wheel_of("rich", "2")], flask=[wheel_of("flask", "1")])
        self.begin("rich<2\n")
        self.accepts("constrain", "rich")
        before = self.files()
        self.accepts("env", "add", "windows")
        self.behind = self.files()
        self.settings = before["reqlock.toml"]
        beside = {f"{name}.new": self.behind[name] for name in (JOURNAL, *BEHIND)}
        lines = {name: before[name] for name in (REQUIREMENTS, "reqlock.toml")}
        journal = {JOURNAL: self.behind[JOURNAL]}
        self.stops = (
            lines | beside | {JOURNAL: before[JOURNAL]},
            lines | journal | {name: beside[name] for name in beside if name != f"{JOURNAL}.new"},
            lines | journal | {BEHIND[0]: self.behind[BEHIND[0]], f"{BEHIND[1]}.new": self.behind[BEHIND[1]]},
        )

    def stop(self, files):
        for path in self.folder.iterdir():
            if path.is_file():
                path.unlink()
        for name, data in files.items():
            (self.folder / name).write_bytes(data)
        (self.folder / ".reqlock" / REQUIREMENTS).write_bytes(self.behind[REQUIREMENTS])

    def test_what_is_told_leads_on(self):
        for files in self.stops:
            self.stop(files)
            for words in ("check",), ("log",), ("upgrade", "--dry-run"), ("show",):
                status, output, errors = self.rql(*words)
                self.assertEqual((status, output), (4, ""))
                self.assertTrue(errors.endswith(ENDS), errors)
            self.accepts("lock", answer="ok 2\n")
            self.assertEqual(self.files(), self.behind | {"reqlock.toml": self.settings})
            self.accepts("env", "add", "windows", answer="same\n")
            self.assertEqual(self.accepts("check", answer="ok 2\n"), "")

    def test_no_history_is_given_up(self):
        for files in self.stops:
            self.stop(files)
            self.accepts("init", answer="ok 2\n")
            self.assertEqual(self.files(), self.behind | {"reqlock.toml": self.settings})

    def test_lines_that_were_changed_since(self):
        for files in self.stops:
            self.stop(files | {REQUIREMENTS: b"rich\nflask\n"})
            for words in ("check",), ("lock",):
                status, output, errors = self.rql(*words)
                self.assertEqual((status, output), (4, ""))
                self.assertIn("have them be those that were saved last, which .reqlock/requirements.txt beside the settings has", errors)
            (self.folder / REQUIREMENTS).write_bytes((self.folder / ".reqlock" / REQUIREMENTS).read_bytes())
            self.accepts("lock", answer="ok 2\n")
            self.put(REQUIREMENTS, "rich\nflask\n")
            self.accepts("lock", answer="ok 3\n")

    def test_what_is_left_beside_files_that_belong_together_counts_for_nothing(self):
        self.stop(self.behind | {f"{JOURNAL}.new": b"broken", "pylock.new.toml.new": b""})
        self.assertEqual(self.accepts("check", answer="ok 2\n"), "")
        self.accepts("init", answer="ok 2\n")
        self.accepts("lock", answer="ok 2\n")


if __name__ == "__main__":
    unittest.main()
