"""Tests of `rql env`, `rql retarget` and their undo where the settings have exports or sources, which follow."""

import unittest

from support.made.served_index import wheel_of
from support.rql_projects import ENVIRONMENT, Served
from test_rql_env import AGAIN, LIBRARY, Begun


@LIBRARY
class Exports(Begun):
    def test_are_of_the_target_that_got_a_name(self):
        self.in_front('exports = [{ file = "out.txt" }]  # deployed\n')
        self.accepts("lock")
        before = self.settings.read_text(encoding="utf-8").splitlines()[0]
        self.accepts("env", "add", "android", "--platform", "linux-aarch64")
        self.assertIn('target = "linux"}]  # deployed\n', self.settings.read_text(encoding="utf-8").replace(" }", "}"))
        self.assertIn("rich==1", (self.folder / "out.txt").read_text(encoding="utf-8"))
        self.assertEqual(self.accepts("undo"), AGAIN)
        self.assertEqual(self.settings.read_text(encoding="utf-8").splitlines()[0], before)
        self.assertEqual(self.accepts("check", answer="ok 0\n"), "")
        self.assertEqual(self.accepts("redo"), AGAIN)
        self.assertIn('target = "linux"}]  # deployed\n', self.settings.read_text(encoding="utf-8").replace(" }", "}"))
        self.assertEqual(self.accepts("check", answer="ok 1\n"), "")

    def test_a_lock_for_installers_is_of_all_targets(self):
        self.in_front('exports = [{ file = "out.toml", format = "pylock" }]\n')
        self.accepts("env", "add", "windows")
        self.assertNotIn("target", self.settings.read_text(encoding="utf-8"))
        self.assertIn('name = "rich"', (self.folder / "out.toml").read_text(encoding="utf-8"))

    def test_a_lock_that_no_file_can_be(self):
        """What is advised leads on."""
        self.in_front('exports = [{ file = "out.toml", format = "pylock" }]\n')
        self.accepts("constrain", "rich")
        pins = self.put("pins.txt", "rich==2\n")
        self.accepts("env", "add", "windows", "--pins", f"windows={pins}", answer="ok 2\n")
        status, _, errors = self.rql("check")
        self.assertEqual(status, 1)
        self.assertIn("rich differs; upgrade it in all of them, or have exports in the settings name a target\n", errors)
        self.accepts("upgrade", "rich")
        self.assertEqual(self.accepts("check"), "")
        self.accepts("undo")
        self.settings.write_text(self.settings.read_text(encoding="utf-8").replace('"pylock"', '"pylock", target = "windows"'), encoding="utf-8")
        self.accepts("lock")
        self.assertEqual(self.accepts("check"), "")

    def test_one_of_a_target_that_an_undo_takes(self):
        self.accepts("env", "add", "windows")
        self.accepts("env", "add", "mac", "--platform", "macos-arm64")
        self.in_front('exports = [{ file = "out.txt", target = "mac" }]\n')
        self.accepts("lock")
        before = self.settings.read_bytes()
        errors = self.accepts("undo", answer="ok 1\n")
        self.assertIn("exports[0]: out.txt is of mac, which isn't locked for any more\n", errors)
        self.assertIn("target mac is in the settings, and isn't locked for: rql retarget\n", errors)
        self.assertIn("out.txt: it is as it was, since target mac isn't locked for: rql retarget\n", errors)
        self.assertEqual(self.settings.read_bytes(), before)
        self.accepts("retarget", answer="ok 2\n")
        self.assertEqual(self.accepts("check", answer="ok 2\n"), "")

    def test_a_target_of_one_is_not_removed(self):
        self.accepts("env", "add", "windows")
        before = self.settings.read_text(encoding="utf-8")
        self.in_front('exports = [{ file = "out.txt", target = "windows" }]\n')
        self.assertIn("exports[0]: out.txt is of windows: take it out of the settings first", self.refuses("env", "remove", "windows"))
        self.settings.write_text(before, encoding="utf-8")
        self.accepts("env", "remove", "windows", answer="ok 2\n")


@LIBRARY
class Sources(Served):
    def test_follow(self):
        self.serve(rich=[wheel_of("rich", "1")], flask=[wheel_of("flask", "1")])
        self.put("requirements.in", "rich\n")
        text = f'folder = "locks"\nsources = ["requirements.in"]\nindex = ["{self.index.url}"]\n{ENVIRONMENT}'
        self.put("reqlock.toml", text)
        self.accepts("init", answer="ok 0\n")
        self.accepts("env", "set", "--python", "3.12", answer="ok 1\n")
        self.accepts("add", "flask", answer="ok 2\n")
        self.accepts("undo", answer="ok 1\n")
        self.assertEqual(self.accepts("undo", answer="ok 0\n"), AGAIN)
        self.assertEqual((self.folder / "reqlock.toml").read_text(encoding="utf-8"), text)
        self.put("requirements.in", "rich\nflask\n")
        for words in ("env", "set", "--python", "3.12"), ("retarget",):
            self.assertIn("sources and lines came apart: rql lock takes the sources over", self.refuses(*words))
        self.accepts("lock", answer="ok 1\n")


if __name__ == "__main__":
    unittest.main()
