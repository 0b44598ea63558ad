"""One lock file of several targets, which `export --format pylock` prints: what it has, that one target gets what it got before, when it is refused,
and which targets `--covers` finds for environments. They need the program, which ./check builds first."""

import json
import re
import tomllib
import unittest

from support.installed import entries_installed
from support.joint import REFUSAL, check_in, check_joint
from support.made.environments import EXAMPLE, LINUX, MACOS, OLDER, WINDOWS
from support.places import needs_program
from support.program import Program
from support.rules.installs import referred
from support.rules.journals import file_name
from support.rules.lock_tables import read_lock_table

PYLOCK = "export", "--format", "pylock"
MIDDLE = LINUX | {"implementation_version": "3.11.5", "python_full_version": "3.11.5", "python_version": "3.11"}
NEWER = LINUX | {"implementation_version": "3.12.4", "python_full_version": "3.12.4"}
# what needs another package on one system alone, and what needs that
BY_SYSTEM = ("app", "1", ["click"]), ("click", "1", ['colorama; sys_platform=="win32"']), ("colorama", "1", [])
# two versions of a name, by the Python
BY_PYTHON = ("a", "1", []), ("a", "2", ["c"]), ("b", "1", ["a"]), ("c", "1", [])
BY_PYTHON_LINES = b'b\na<2; python_version<"3.10"\na>=2; python_version>="3.10"\n'


class Joint(Program):
    environments = {"linux": LINUX, "mac": MACOS, "win": WINDOWS}

    def init(self, lines, *releases, options=()):
        self.begin(lines, *releases)
        self.assertEqual(self.call("init", *options), (0, "ok 0\n"))

    def printed(self, *words):
        status, output, error = self.told(*PYLOCK, *words)
        self.assertEqual((status, error), (0, ""))
        return output.encode()

    def entries(self, target=""):
        return read_lock_table((self.folder / file_name(target)).read_bytes())[2]

    def locks(self):
        return {name: self.entries(name) for name in self.environments}

    def joint(self):
        """What is printed of all targets, as a table, where it is what it must be."""
        data = self.printed()
        check_joint(data, self.environments, self.locks())
        return tomllib.loads(data.decode())

    def markers(self):
        """The markers of the locks of single targets."""
        return {name: tomllib.loads(self.printed("--target", name).decode()).get("environments", [None])[0] for name in self.environments}

    def of_name(self, lock, name):
        return [package for package in lock["packages"] if package["name"] == name]


@needs_program
class Printed(Joint):
    """What the file has."""

    def test_of_an_example(self):
        (self.outside / "index.json").write_bytes((EXAMPLE / "index.json").read_bytes())
        (self.folder / "requirements.txt").write_bytes((EXAMPLE / "requirements.txt").read_bytes())
        self.assertEqual(self.call("init"), (0, "ok 0\n"))
        lock, markers = self.joint(), self.markers()
        linux, win = (tomllib.loads((self.folder / file_name(name)).read_text(encoding="utf-8")) for name in ("linux", "win"))
        self.assertEqual(set(lock["environments"]), set(markers.values()))
        self.assertEqual([package["name"] for package in lock["packages"]], ["colorama", "flask", "jinja2", "requests", "urllib3", "werkzeug"])
        self.assertEqual(lock["packages"], [win["packages"][0] | {"marker": markers["win"]}, *linux["packages"]])
        for key in "created-by", "lock-version", "tool":
            self.assertEqual(lock[key], linux[key])

    def test_of_a_dependency_on_one_system(self):
        """Two entries of one version, of which another one needs the one or the other."""
        self.init(b"app\n", *BY_SYSTEM)
        lock, markers = self.joint(), self.markers()
        self.assertEqual([package["name"] for package in lock["packages"]], ["app", "click", "click", "colorama"])
        [app], click, [colorama] = (self.of_name(lock, name) for name in ("app", "click", "colorama"))
        self.assertEqual((colorama["marker"], sum("dependencies" in package for package in click)), (markers["win"], 1))
        self.assertCountEqual(referred(app, lock["packages"]), click)
        for package in click:
            wanted = {markers["win"]} if "dependencies" in package else {markers["linux"], markers["mac"]}
            self.assertEqual(set(package["marker"].split(" or ")), wanted)
            self.assertEqual(referred(package, lock["packages"]), [colorama] if "dependencies" in package else [])
        self.assertEqual([sorted(self.locked(name)) for name in self.environments], [["app", "click"], ["app", "click"], ["app", "click", "colorama"]])

    def test_of_two_versions_by_the_python(self):
        self.lock_for({"new": LINUX, "old": OLDER})
        self.init(BY_PYTHON_LINES, *BY_PYTHON)
        lock = self.joint()
        self.assertEqual(set(lock["environments"]), {'python_version >= "3.10"', 'python_version < "3.10"'})
        told = [(package["name"], package["version"], package.get("marker")) for package in lock["packages"]]
        new, old = 'python_version >= "3.10"', 'python_version < "3.10"'
        self.assertCountEqual(told, [("a", "1", old), ("a", "2", new), ("b", "1", None), ("c", "1", new)])
        [b] = self.of_name(lock, "b")
        self.assertEqual(sorted((dependency["name"], dependency["version"]) for dependency in b["dependencies"]), [("a", "1"), ("a", "2")])
        self.assertCountEqual(referred(b, lock["packages"]), self.of_name(lock, "a"))
        for python, target in ("3.9.0", "old"), ("3.10.0", "new"), ("3.13.1", "new"), ("3.8.0rc1", "old"):
            minor = ".".join(python.split(".")[:2])
            other = WINDOWS | {"python_full_version": python, "implementation_version": python, "python_version": minor}
            self.assertEqual(check_in(self.printed(), self.environments, self.locks(), other), [target])

    def test_of_targets_that_all_have_the_same(self):
        """They are told apart by what was asked, and no package by a marker."""
        self.lock_for({"new": LINUX, "old": OLDER})
        self.init(b"a\nb; python_version<'3'\n", ("a", "1", [], {"requires_python": ">=3.8"}), ("b", "1", []))
        lock = self.joint()
        self.assertTrue(all("marker" not in package for package in lock["packages"]))
        self.assertEqual(set(lock["environments"]), {'python_full_version >= "3.8" and python_version >= "3"'})

    def test_where_nothing_is_asked_it_is_for_any_environment(self):
        self.init(b"a\n", ("a", "1", ["b"]), ("b", "1", []))
        lock = self.joint()
        self.assertNotIn("environments", lock)
        self.assertEqual([package["name"] for package in lock["packages"]], ["a", "b"])
        self.assertEqual(entries_installed(self.printed(), OLDER), self.entries("win"))

    def test_of_locks_of_nothing(self):
        self.init(b"# nothing\n", ("a", "1", []))
        self.assertEqual(self.joint()["packages"], [])

    def test_of_a_target_without_a_name_beside_others(self):
        self.lock_for({"": LINUX, "win": WINDOWS})
        self.init(b"app\n", *BY_SYSTEM)
        self.assertEqual(len(self.joint()["packages"]), 4)

    def test_after_an_edit_over_another_index(self):
        self.init(b"app\n", *BY_SYSTEM)
        self.begin((self.folder / "requirements.txt").read_bytes(), *BY_SYSTEM, ("click", "2", ['colorama; sys_platform=="darwin"']))
        self.assertEqual(self.call("upgrade"), (0, "ok 1\n"))
        lock = self.joint()
        packages = [(package["name"], package["version"]) for package in lock["packages"]]
        self.assertEqual(packages, [("app", "1"), ("click", "2"), ("click", "2"), ("colorama", "1")])
        self.assertEqual(sorted(self.locked("mac")), ["app", "click", "colorama"])


@needs_program
class Single(Joint):
    """A lock of one target is what it was, to the byte: that of its file, for the environments of its marker."""

    def check_bytes(self, data, target, marker):
        own = (self.folder / file_name(target)).read_text(encoding="utf-8")
        line = f"environments = ['{marker}']\n" if marker else ""
        self.assertEqual(data.decode(), re.sub("(?m)^environments = .*\n", line, own, count=1))

    def test_where_there_is_no_other(self):
        for name in "", "linux":
            self.lock_for({name: LINUX})
            self.init(BY_PYTHON_LINES, *BY_PYTHON)
            for words in ([], ["--target", name]) if name else ([],):
                self.check_bytes(self.printed(*words), name, 'python_version >= "3.10"')
            self.init(b"b\n", *BY_PYTHON)
            self.check_bytes(self.printed(), name, "")

    def test_of_several_the_one_that_is_named(self):
        self.lock_for({"new": LINUX, "old": OLDER})
        self.init(BY_PYTHON_LINES, *BY_PYTHON)
        self.check_bytes(self.printed("--target", "new"), "new", 'python_version >= "3.10"')
        self.check_bytes(self.printed("--target", "old"), "old", 'python_version < "3.10"')


@needs_program
class Refusals(Joint):
    """Two targets that one environment may both meet, which keep other versions."""

    RELEASES = ("a", "1", []), ("a", "2", []), ("b", "1", [], {"requires_python": ">=3.8"})

    def begin_apart(self, lines, *releases):
        pins = self.outside / "one.txt"
        pins.write_text("a==1\n", encoding="utf-8")
        self.init(lines, *releases, options=["--pins", f"one={pins}"])
        self.assertEqual((self.locked("one")["a"], self.locked("two")["a"]), ("1", "2"))

    def check_refused(self, *names):
        status, output, error = self.told(*PYLOCK)
        self.assertEqual((status, output), (2, ""))
        self.assertRegex(error, REFUSAL)
        self.assertIn(REFUSAL.match(error).groups(), [("one", "two", name) for name in names])

    def test_of_an_equal_environment(self):
        for other in LINUX, NEWER, OLDER, WINDOWS:
            with self.subTest(other=other):
                self.lock_for({"one": LINUX, "two": other})
                self.begin_apart(b"a\nb\n", *self.RELEASES)
                self.check_refused("a")
                for name in "one", "two":
                    self.assertEqual(entries_installed(self.printed("--target", name), LINUX), self.entries(name))

    def test_of_what_one_of_them_has_alone(self):
        self.lock_for({"one": LINUX, "two": LINUX})
        self.begin_apart(b"a\n", ("a", "1", []), ("a", "2", ["c"]), ("c", "1", []))
        self.check_refused("a", "c")

    def test_beside_a_third_target(self):
        self.lock_for({"one": LINUX, "three": OLDER, "two": LINUX})
        self.begin_apart(b'a\nb; python_version<"3.10"\n', *self.RELEASES)
        self.check_refused("a")

    def test_what_tells_them_apart_lets_both_stand_in_one_file(self):
        """A question of a line that is active in neither counts too."""
        for lines in b'a\nb; python_version<"3.10"\n', b'a\nb; python_version<"3.10" and os_name=="nt"\n':
            with self.subTest(lines=lines):
                self.lock_for({"one": OLDER, "two": LINUX})
                self.begin_apart(lines, *self.RELEASES)
                self.assertEqual(sorted(package["version"] for package in self.of_name(self.joint(), "a")), ["1", "2"])

    def test_an_upgrade_brings_them_together(self):
        self.lock_for({"one": LINUX, "two": NEWER})
        self.begin_apart(b"a\nb\n", *self.RELEASES)
        self.assertEqual(self.call("upgrade", "a"), (0, "ok 1\n"))
        packages = [(package["name"], package["version"], "marker" in package) for package in self.joint()["packages"]]
        self.assertEqual(packages, [("a", "2", False), ("b", "1", False)])
        self.assertEqual(self.call("undo"), (0, "ok 0\n"))
        self.check_refused("a")

    def test_what_is_refused_of_one_target_is_refused_of_several(self):
        self.lock_for({"one": LINUX, "two": OLDER})
        self.init(b"a\n", *self.RELEASES)
        status, output, error = self.answered("--dir", self.folder, *PYLOCK)
        self.assertEqual((status, output), (2, ""))
        self.assertIn("without '--index <FILE>' nothing is known of what was asked", error)
        self.begin(b"a\n", *self.RELEASES[:2])
        status, output, error = self.told(*PYLOCK)
        self.assertEqual((status, output), (2, ""))
        self.assertIn("the lock was made of another index; relock over this one first", error)


@needs_program
class Covers(Joint):
    """Which targets environments have, and which of them can go."""

    LINES, RELEASES = b'a\nb; python_version<"3.10"\n', (("a", "1", [], {"requires_python": ">=3.9"}), ("b", "1", []))

    def setUp(self):
        super().setUp()
        self.lock_for({"new": LINUX, "old": OLDER})

    def file_of(self, name, environment):
        path = self.outside / name
        path.write_text(json.dumps(environment), encoding="utf-8")
        return path

    def check_told(self, files, *told, status=0):
        """What is told of files of environments."""
        self.assertEqual(self.told(*PYLOCK, "--covers", *files), (status, "".join(f"{line}\n" for line in told), ""))

    def test_each_file_has_a_line_in_its_order(self):
        self.init(self.LINES, *self.RELEASES)
        new, old = (self.environment_file(name) for name in ("new", "old"))
        # (which tells of wheels too)
        middle = self.file_of("middle.json", json.loads((EXAMPLE / "environment.json").read_text(encoding="utf-8")) | MIDDLE)
        none = self.file_of("none.json", OLDER | {"python_full_version": "3.8.1", "python_version": "3.8"})
        windows = self.file_of("windows.json", WINDOWS)
        self.check_told([old, new], f"{old}: old", f"{new}: new")
        self.check_told([windows, middle, windows], f"{windows}: new", f"{middle}: new", f"{windows}: new")
        self.check_told([new, none, old], f"{new}: new", f"{none}: no target", f"{old}: old", status=1)
        self.check_told([none], f"{none}: no target", status=1)

    def test_all_that_it_meets_are_told(self):
        """Of targets that cover one another the first stays."""
        self.lock_for({"x-1": LINUX, "linux": NEWER, "old": OLDER})
        self.init(self.LINES, *self.RELEASES)
        middle, old = self.file_of("middle.json", MIDDLE), self.environment_file("old")
        self.check_told([middle, old], f"{middle}: linux, x-1", f"{old}: old", "target x-1 can go: target linux covers it")

    def test_targets_that_are_told_apart_stay(self):
        """They have the same entries, and the file has a marker of each."""
        self.init(b'a; python_version<"3.10" or python_version>="3.10"\n', *self.RELEASES)
        new, old = (self.environment_file(name) for name in ("new", "old"))
        self.check_told([new, old], f"{new}: new", f"{old}: old")
        self.assertEqual(["marker" in package for package in self.joint()["packages"]], [False])

    def test_the_target_without_a_name(self):
        self.lock_for({"": LINUX})
        self.init(self.LINES, *self.RELEASES)
        middle, old = self.file_of("middle.json", MIDDLE), self.file_of("old.json", OLDER)
        self.check_told([middle], f"{middle}: the target")
        self.check_told([old], f"{old}: no target", status=1)

    def test_of_targets_with_other_entries_none_can_go(self):
        """One environment may meet the conditions of both, so that no file has them; each environment still has its targets."""
        pins = self.outside / "one.txt"
        pins.write_text("a==1\n", encoding="utf-8")
        self.lock_for({"one": LINUX, "two": NEWER})
        self.init(b"a\n", ("a", "1", []), ("a", "2", []), options=["--pins", f"one={pins}"])
        middle = self.file_of("middle.json", MIDDLE)
        self.check_told([middle], f"{middle}: one, two")

    def test_what_installs_there_is_what_the_targets_have(self):
        self.lock_for({"linux": LINUX, "mac": MACOS, "win": WINDOWS})
        self.init(b"app\n", *BY_SYSTEM)
        data, locks = self.printed(), self.locks()
        for name, environment in (
            ("w.json", WINDOWS | {"platform_release": "11"}), ("m.json", MACOS | {"python_full_version": "3.9.0"}),
            ("c.json", LINUX | {"sys_platform": "cygwin"}),
        ):
            path = self.file_of(name, environment)
            status, output, error = self.told(*PYLOCK, "--covers", path)
            met = check_in(data, self.environments, locks, environment)
            self.assertEqual(error, "")
            told = output.splitlines()[0].removeprefix(f"{path}: ")
            self.assertEqual((told == "no target", status), (not met, 0 if met else 1))
            self.assertLessEqual({*told.split(", ")} - {"no target"}, {*met})

    def test_it_needs_the_index_of_the_locks(self):
        self.init(self.LINES, *self.RELEASES)
        new = self.environment_file("new")
        status, output, _ = self.answered("--dir", self.folder, *PYLOCK, "--covers", new)
        self.assertEqual((status, output), (2, ""))
        self.begin(self.LINES, *self.RELEASES, ("z", "1", []))
        status, output, error = self.told(*PYLOCK, "--covers", new)
        self.assertEqual((status, output), (2, ""))
        self.assertIn("relock over this one first", error)

    def test_it_needs_the_form_that_has_conditions(self):
        self.init(self.LINES, *self.RELEASES)
        for words in [], ["--format", "dot"], ["--format", "hashes"]:
            status, output, error = self.told("export", *words, "--covers", self.environment_file("new"))
            self.assertEqual((status, output), (2, ""))
            self.assertIn("--format pylock", error)

    def test_a_file_that_is_none_is_named(self):
        self.init(self.LINES, *self.RELEASES)
        new, bad = self.environment_file("new"), self.outside / "bad.json"
        for text in None, "{", "[]", "{}", "", json.dumps(LINUX | {"os_name": 1}), json.dumps(LINUX | {"python_version": "x"}), '{"os_name": "a"}':
            with self.subTest(text=text):
                bad.unlink(missing_ok=True)
                if text is not None:
                    bad.write_text(text, encoding="utf-8")
                for files in ([bad], [new, bad], [bad, new]):
                    status, output, error = self.told(*PYLOCK, "--covers", *files)
                    self.assertEqual((status in (2, 4), output), (True, ""))
                    self.assertIn("bad.json", error)

    def test_nothing_changes(self):
        self.init(self.LINES, *self.RELEASES)
        before = self.files()
        self.check_told([self.environment_file("new")], f"{self.environment_file('new')}: new")
        self.printed()
        self.assertEqual(self.files(), before)


if __name__ == "__main__":
    unittest.main()
