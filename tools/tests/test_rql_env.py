"""Tests of `rql env` and `rql retarget`: the environments of settings and history change as one step, which undo takes back in both."""

import importlib.util
import os
import subprocess
import unittest
import unittest.mock

from support.made.served_index import wheel_of
from support.rql_projects import Served

LIBRARY = unittest.skipUnless(importlib.util.find_spec("tomlkit"), "python3 has no tomlkit: apt-get install python3-tomlkit")
WINDOWS = "--python", "3.11", "--platform", "windows-x86_64"
AGAIN = "reqlock.toml: it has the environments of the history again: rql env list prints them\n"
FIRST = [["-", "3.11", "linux-x86_64"]]
BOTH = [["linux", "3.11", "linux-x86_64"], ["windows", "3.11", "windows-x86_64"]]


class Begun(Served):
    def setUp(self):
        super().setUp()
        self.serve(rich=[wheel_of("rich", "1"), wheel_of("rich", "2")], colors=[wheel_of("colors", "1")])
        self.begin("rich<2\n")

    @property
    def settings(self):
        return self.folder / "reqlock.toml"

    def in_front(self, text):
        """Puts a line in front of the settings."""
        self.settings.write_text(text + self.settings.read_text(encoding="utf-8"), encoding="utf-8")

    def listed(self):
        return [line.split() for line in self.rql("env", "list")[1].splitlines()[1:]]

    def locks(self):
        return sorted(name for name in os.listdir(self.folder) if "pylock" in name)

    def versions(self):
        """The version of rich in each lock."""
        return [line.split()[1] for line in self.rql("show")[1].splitlines() if line.startswith("rich")]

    def types(self, line):
        """What a line answers that is typed as it was told."""
        self.put_on_path()
        done = subprocess.run(["sh", "-c", line], cwd=self.folder, env=self.variables, capture_output=True, encoding="utf-8", check=False)
        return done.returncode, done.stdout, done.stderr.replace("rql.py: ", "")


@LIBRARY
class Steps(Begun):
    def test_one_more_and_one_less(self):
        with open(self.settings, "a", encoding="utf-8") as file:
            file.write("# mine\n")
        before = self.settings.read_text(encoding="utf-8")
        self.accepts("env", "add", "windows", *WINDOWS, answer="ok 1\n")
        self.assertEqual(self.locks(), ["pylock.linux.toml", "pylock.windows.toml"])
        text = self.settings.read_text(encoding="utf-8")
        self.assertIn("# mine\n", text)
        self.assertTrue(text.startswith(before.splitlines()[0]))
        self.accepts("check", answer="ok 1\n")
        self.accepts("env", "remove", "windows", answer="ok 2\n")
        self.assertEqual(self.locks(), ["pylock.linux.toml"])
        self.accepts("check", answer="ok 2\n")
        self.assertIn("* 2 retarget: - target windows\n", self.rql("log")[1])

    def test_undo_and_redo_take_the_settings_along(self):
        for words in ("add", "windows"), ("set", "linux", "--python", "3.12.1"), ("remove", "linux"), ("add", "mac", "--platform", "macos-arm64"):
            self.accepts("env", *words)
        states = [self.listed()]
        for step in (3, 2, 1, 0):
            self.assertEqual(self.accepts("undo", answer=f"ok {step}\n"), AGAIN)
            self.assertEqual(self.accepts("check", answer=f"ok {step}\n"), "")
            states.append(self.listed())
        self.assertEqual([sorted(state) for state in states[-2:]], [BOTH, FIRST])
        for step, wanted in zip((1, 2, 3, 4), reversed(states[:-1])):
            self.assertEqual(self.accepts("redo", answer=f"ok {step}\n"), AGAIN)
            self.assertEqual(self.accepts("check", answer=f"ok {step}\n"), "")
            self.assertEqual(sorted(self.listed()), sorted(wanted))

    def test_other_undos_leave_the_settings(self):
        self.accepts("constrain", "rich")
        self.in_front("# mine\n")
        before = self.settings.read_bytes()
        self.assertEqual(self.accepts("undo", answer="ok 0\n"), "")
        self.accepts("env", "add", "windows", "--dry-run")
        self.accepts("env", "add", "windows")
        self.accepts("undo", "--dry-run", answer=None)
        self.assertEqual(self.listed(), BOTH)
        self.accepts("-q", "undo", answer="ok 0\n")
        self.assertEqual(self.settings.read_bytes().split(b"\n")[:2], before.split(b"\n")[:2])

    def test_another_python(self):
        self.put("reqlock.toml", f'index = ["{self.index.url}"]\nenvironment = {{ platform = "linux-x86_64", python = "3.11", glibc = "2.17" }}  # old\n')
        before = self.settings.read_text(encoding="utf-8")
        self.accepts("env", "set", "--python", "3.12", answer="ok 1\n")
        self.assertEqual(self.settings.read_text(encoding="utf-8"), before.replace("3.11", "3.12"))
        self.assertEqual(self.versions(), ["1"])
        self.assertIn("target: python_version 3.11 -> 3.12\n", self.rql("diff")[1])
        self.accepts("undo")
        self.assertEqual(self.settings.read_text(encoding="utf-8"), before)

    def test_settings_that_differ_already_are_told_at_undo(self):
        self.accepts("env", "add", "windows")
        self.put("reqlock.toml", self.settings.read_text(encoding="utf-8") + 'mac = { python = "3.11", platform = "macos-arm64" }\n')
        before = self.settings.read_bytes()
        errors = self.accepts("undo", answer="ok 0\n")
        self.assertIn("target mac is in the settings, and isn't locked for: rql retarget\n", errors)
        self.assertEqual(self.settings.read_bytes(), before)
        self.assertEqual(self.types("rql retarget")[:2], (0, "ok 1\n"))
        self.assertEqual(self.accepts("check"), "")
        self.assertEqual(self.locks(), ["pylock.linux.toml", "pylock.mac.toml", "pylock.windows.toml"])

    def test_settings_that_cannot_follow_hold_up_no_undo(self):
        self.in_front('exports = [{ file = "out.txt" }]\n')
        self.accepts("env", "set", "--python", "3.12", answer="ok 1\n")
        text = self.settings.read_text(encoding="utf-8").replace("3.12", "3.x")
        self.settings.write_text(text, encoding="utf-8")
        self.assertIn("reqlock.toml: environment.python: '3.x' is no version of Python 3", self.accepts("undo", answer="ok 0\n"))
        self.assertEqual(self.settings.read_text(encoding="utf-8"), text)
        self.assertIn('python_version == "3.11"', (self.folder / "out.txt").read_text(encoding="utf-8"))

    def test_nothing_is_saved_of_a_dry_run(self):
        before = self.files()
        for words in ("env", "add", "windows"), ("env", "set", "--python", "3.12"), ("retarget",):
            self.accepts(*words, "--dry-run")
            self.assertEqual(self.files(), before)

    def test_settings_that_name_none(self):
        """There what is locked for is this Python, which stays."""
        self.put("reqlock.toml", f'index = ["{self.index.url}"]\nexports = [{{ file = "out.txt" }}]\n')
        self.accepts("retarget")
        self.accepts("env", "add", "server", "--platform", "windows-arm64")
        self.assertEqual([row[0] for row in self.listed()], ["linux", "server"])
        self.assertEqual(self.locks(), ["pylock.linux.toml", "pylock.server.toml"])
        self.assertIn('target = "linux"', self.settings.read_text(encoding="utf-8"))
        self.assertEqual(self.accepts("check"), "")
        self.accepts("undo")
        self.assertEqual((self.locks(), self.accepts("check")), (["pylock.toml"], ""))

    def test_settings_that_cannot_be_written(self):
        """What is advised then leads back."""
        before = self.settings.read_bytes()
        with unittest.mock.patch("reqlock_tools.rql.targets.write_whole", side_effect=OSError(28, "No space left on device", "reqlock.toml")):
            errors = self.refuses("env", "set", "--python", "3.12")
        self.assertIn("reqlock.toml: No space left on device: it is locked for the new environments, and the settings have the old ones: rql undo", errors)
        self.assertIn('have them be environment = { python = "3.12", platform = "linux-x86_64" }\n', errors)
        self.accepts("undo", answer="ok 0\n")
        self.assertEqual(self.accepts("check", answer="ok 0\n"), "")
        self.assertEqual(self.settings.read_bytes(), before)

    def test_before_there_is_a_history(self):
        for name in "reqlock.journal", "pylock.toml":
            (self.folder / name).unlink()
        self.accepts("env", "add", "windows", answer="")
        self.assertEqual(self.listed(), BOTH)
        self.accepts("init", answer="ok 0\n")

    def test_what_a_name_means(self):
        self.accepts("env", "add", "windows", answer="ok 1\n")
        self.assertEqual(self.listed(), BOTH)
        self.assertIn("which platform is it?", self.refuses("env", "add", "server"))
        self.assertIn("--platform vax: one of linux-x86_64, ", self.refuses("env", "add", "server", "--platform", "vax"))


@LIBRARY
class Versions(Begun):
    def test_stay(self):
        self.accepts("constrain", "rich")
        self.accepts("env", "add", "windows", answer="ok 2\n")
        self.assertEqual(self.versions(), ["1", "1"])

    def test_of_pins(self):
        self.accepts("constrain", "rich")
        pins = self.put("pins.txt", "rich==2\n")
        self.accepts("env", "add", "windows", "--pins", f"windows={pins}", answer="ok 2\n")
        self.assertEqual(self.versions(), ["1", "2"])
        self.accepts("env", "set", "windows", "--python", "3.12", "--keep-locked", answer="ok 3\n")
        self.assertEqual(self.versions(), ["1", "2"])

    def test_of_pins_that_the_settings_leave_out(self):
        """What a shell hands over can be read only once."""
        self.in_front("newest = 1\n")
        self.serve(rich=[wheel_of("rich", "1.5")])
        self.accepts("constrain", "rich")
        self.put("pins.txt", "rich==1.5\n")
        for pins in "windows=pins.txt", "windows=/dev/stdin", "-", "windows=/dev/fd/9 9<&0":
            self.assertEqual(self.types(f"cat pins.txt | rql env add windows --pins {pins}")[:2], (0, "ok 2\n"))
            self.assertEqual(self.versions(), ["1", "1.5"])
            self.accepts("undo")
        self.assertEqual(self.types("rql env add windows --pins /dev/fd/99")[0], 2)
        asked = self.types("cat pins.txt | rql why --init --pins /dev/fd/9 9<&0")
        self.assertEqual(asked[:2], (0, "solvable\n"), asked)

    def test_a_lock_that_stands_there(self):
        """What is advised of it leads on."""
        lock = self.put("pylock.windows.toml", (self.folder / "pylock.toml").read_text(encoding="utf-8"))
        way = "move it elsewhere and lock for it too by rql env add windows --pins windows=FILE"
        self.assertIn(f"remove it, or {way}\n", self.accepts("check"))
        for data in b"no TOML [", b"\xff", lock.read_bytes():
            lock.write_bytes(data)
            before = self.files()
            status, _, errors = self.types("rql -v env add windows")
            self.assertEqual(status, 5, errors)
            self.assertIn("move it elsewhere and hand its versions in by --pins windows=FILE\n", errors)
            self.assertEqual(self.files(), before)
            self.accepts("upgrade", "rich", "--dry-run")
        lock.rename(self.outside / "old.toml")
        status, output, _ = self.types(way.partition(" by ")[2].replace("FILE", str(self.outside / "old.toml")))
        self.assertEqual((status, output), (0, "ok 1\n"))


@LIBRARY
class Refused(Begun):
    def test_what_is_refused_changes_nothing(self):
        before = self.files()
        for words, fault in (
            (("add", "Windows", *WINDOWS), "it is no name of a target"),
            (("add", "linux", *WINDOWS), "this target is there already: rql env set linux changes it"),
            (("add", "a", "--python", "2.7", "--platform", "linux-x86_64"), "is no version of Python 3"),
            (("add", "windwos"), "windwos: which platform is it; did you mean windows? --platform says it: "),
            (("remove", "none"), "'none' isn't among them: rql env list prints them"), (("remove", ""), "the target without a name is the only one"),
            (("set",), "rql env set: --python VERSION or --platform NAME is wanted"),
            (("set", "linux", "--python", "3.12"), "the only environment has no name, so it is meant where none is typed: leave linux out"),
            (("set", "--python", "3.x"), "is no version of Python 3"), (("set", "--platform", "vax"), "--platform vax: one of "),
        ):
            self.assertIn(fault, self.refuses("env", *words))
        self.assertEqual(self.files(), before)
        self.accepts("env", "add", "windows")
        several = "a name is wanted: linux, windows; for several in one step, change the settings, and then: rql retarget\n"
        self.assertIn(several, self.refuses("env", "set", "--python", "3.12"))
        for words in ("set", "widows", "--python", "3.12"), ("remove", "widows"):
            self.assertIn("'widows' isn't among them; did you mean windows: rql env list prints them\n", self.refuses("env", *words))

    def test_that_nothing_can_be_locked(self):
        """What a new target lacks is told at once, as the settings don't have it."""
        self.put("requirements.txt", "rich<2\nwinonly; sys_platform == 'win32'\n")
        self.accepts("lock", answer="ok 1\n")
        before = self.files()
        status, output, errors = self.rql("-v", "env", "add", "windows")
        self.assertEqual((status, output), (3, "refused no-solution\n"))
        self.assertIn("winonly", errors)
        self.assertNotIn("ask:", errors)
        self.assertEqual(self.files(), before)
        self.put("reqlock.toml", self.settings.read_text(encoding="utf-8").replace("linux-x86_64", "windows-x86_64"))
        self.assertEqual(self.rql("retarget")[:2], (3, "refused no-solution\n"))
        self.assertEqual(self.types("rql why --explain --retarget")[0], 3)
        self.serve(winonly=[wheel_of("winonly", "1")])
        self.assertEqual(self.types("rql --refresh retarget")[:2], (0, "ok 2\n"))

    def test_why_other_bounds_have_no_solution(self):
        """What is asked then is asked over the environments of the settings."""
        self.serve(old=[wheel_of("old", "1", python="<3.12")])
        self.accepts("add", "old")
        status, _, errors = self.rql("-v", "env", "set", "--python", "3.12")
        self.assertEqual(status, 3)
        self.assertIn("old", errors)
        self.assertNotIn("ask:", errors)
        self.put("reqlock.toml", self.settings.read_text(encoding="utf-8").replace("3.11", "3.12"))
        status, _, errors = self.rql("-v", "retarget")
        self.assertEqual(status, 3)
        asked = [line.removeprefix("ask: ") for line in errors.splitlines() if line.startswith("ask: ")]
        self.assertEqual(asked, ["rql why --explain --retarget"])
        self.assertEqual(self.types(asked[0])[0], 3)

    def test_lines_that_were_changed_by_hand(self):
        self.put("requirements.txt", "rich\n")
        before = self.settings.read_bytes()
        status, _, errors = self.rql("env", "add", "windows", CI="1")
        self.assertEqual(status, 4)
        self.assertIn("rql lock has the lock fit them\n", errors)
        self.assertEqual(self.settings.read_bytes(), before)
        self.assertEqual(self.types("rql lock")[:2], (0, "ok 1\n"))
        self.accepts("env", "add", "windows", answer="ok 2\n")

    def test_lines_that_need_the_new_environment(self):
        """What is advised leads to a lock of both."""
        self.serve(new=[wheel_of("new", "1", python=">=3.12")])
        old, new = self.lines(), self.put("requirements.txt", "rich<2\nnew\n")
        self.assertNotIn("retarget", self.rql("lock")[2])
        self.settings.write_text(self.settings.read_text(encoding="utf-8").replace("3.11", "3.12"), encoding="utf-8")
        status, output, errors = self.rql("lock")
        self.assertEqual((status, output), (3, "refused no-solution\n"))
        self.assertIn("is locked for: rql retarget\n", errors)
        self.assertIn("put back those that were saved last (.reqlock/requirements.txt has them), type rql retarget, and then", errors)
        wanted = new.read_bytes()
        new.write_bytes((self.folder / ".reqlock" / "requirements.txt").read_bytes())
        self.assertEqual(self.lines(), old)
        self.accepts("retarget", answer="ok 1\n")
        new.write_bytes(wanted)
        self.accepts("lock", answer="ok 2\n")
        self.assertEqual(self.accepts("check", answer="ok 2\n"), "")


class Words(Begun):
    def test_that_are_mistyped_or_of_others(self):
        for words, hint in (
            (["env", "lock"], "there is no rql env 'lock': rql retarget locks for the environments of the settings"),
            (["env", "ad", "x"], "there is no rql env 'ad': rql env add?"), (["env", "rm", "x"], "rql env remove NAME"),
            (["env", "--offline", "change"], "rql env set --python VERSION locks for another Python"), (["env", "xyzzy"], "rql env --help names all"),
            (["env", "add", "windows", "--anew"], "it doesn't take --anew: the history goes on, and rql undo takes the change back"),
            (["retargt"], "there is no command 'retargt': rql retarget?"), (["retarget", "--env", "x=y"], "what is locked for stands in the settings"),
            (["retarget", "windows"], "it doesn't take windows: what is locked for stands in the settings"),
            (["env", "add", "linux", "windows"], "it doesn't take windows: add, set and remove take one name"),
            (["env", "set", "--name", "linux"], "it doesn't take --name: add, set and remove take one name"),
            (["env", "add", "windows", "--env", "w.json"], "--python VERSION and --platform NAME say what is locked for"),
            (["python", "3.12"], "rql env set --python VERSION locks for another Python"), (["targets"], "rql env list prints what is locked for"),
        ):
            with self.subTest(words=words):
                status, output, errors = self.rql(*words)
                self.assertEqual((status, output), (2, ""))
                self.assertIn(hint, errors)

    def test_of_each_call_stand_behind_too(self):
        self.assertIn("retarget\n", self.accepts("retarget", "--offline", "-v", "--dry-run", answer="same\n"))
        self.accepts("env", "list", "--offline")

    def test_in_a_fleet(self):
        self.put("reqlock.toml", self.settings.read_text(encoding="utf-8").replace("3.11", "3.12"))
        status, output, errors = self.rql("fleet", ".", "--", "retarget")
        self.assertEqual((status, output), (0, ".  ok 1\n1 folder, 0 refused\n"), errors)


if __name__ == "__main__":
    unittest.main()
