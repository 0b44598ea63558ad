"""What reqlock locks of an index is what pip installs from it: drawn worlds, each an index of the tests' own that snapshot.py, the
program and the machine's own pip are given. Nothing else is asked."""

import functools
import json
import os
import subprocess
import sys
import tomllib
import unittest
from concurrent.futures import ThreadPoolExecutor

from support.made.chance import drawing
from support.made.served_index import sdist_of, wheel_of
from support.places import IS_LONG, PROGRAM, TOOLS, needs_program
from support.simple_index import Simple

WORLDS = 300 if IS_LONG else 30
SIDE_BY_SIDE = 4
NAMES = "ant", "bee", "cow", "dog", "elk", "fly"
SETS = "", "", "", ">=2", "<3", "==1", "==2", "!=3", ">=1,<3", "~=1.0", "<=2", ">1"
MARKERS = "", "", "", "; os_name == 'nt'", "; python_version >= '3'", "; extra == 'more'", "; extra == 'more' and os_name != 'nt'"
PYTHONS = None, None, None, None, ">=3.8", "<3"
TAGS = "py3-none-any", "py3-none-any", "py3-none-any", "py2.py3-none-any", "py3-none-win32"
LATEST = "3.1"


class World:
    """The packages and the requirements of one drawn world. Its dependencies ask for extras, or none does."""

    def __init__(self, chance, has_extras):
        self.chance, self.has_extras = chance, has_extras
        self.packages = {name: self.releases(name) for name in NAMES}
        asked = chance.sample(NAMES, 2)
        self.requirements = "".join(f"{self.requirement(name, True)}\n" for name in asked)

    def requirement(self, name, has_extras):
        extras = self.chance.choice(("", "", "[more]"))
        return name + (extras if has_extras else "") + self.chance.choice(SETS)

    def releases(self, name):
        wheels = []
        for version in "1", "2", "3", LATEST:
            others = self.chance.sample([other for other in NAMES if other != name], self.chance.choice((0, 1, 1, 2)))
            needs = [self.requirement(other, self.has_extras) + self.chance.choice(MARKERS) for other in others]
            is_beside, python = self.chance.random() < 0.7, self.chance.choice(PYTHONS)
            told = {"requires-python": python} if python else {}
            wheels.append(wheel_of(
                name, version, *needs, tag=self.chance.choice(TAGS), beside=is_beside, python=python, told=told
            ))
        return wheels


@functools.cache
def python() -> str:
    """The `python3` of the PATH itself. What may stand in front of it there puts shims in order behind each installation, one call at a time."""
    return subprocess.check_output(["python3", "-c", "import sys; print(sys.executable)"], encoding="utf-8").strip()


def pip(*words):
    """A call of pip that reads no settings of the user."""
    kept = {name: value for name, value in os.environ.items() if not name.startswith(("PIP_", "PYTHON"))}
    variables = {**kept, "PIP_CONFIG_FILE": os.devnull, "PIP_DISABLE_PIP_VERSION_CHECK": "1", "PIP_NO_CACHE_DIR": "1"}
    command = [python(), "-m", "pip", *map(str, words)]
    done = subprocess.run(
        command, env=variables, stdout=subprocess.PIPE, stderr=subprocess.STDOUT, encoding="utf-8", timeout=300, check=False,
    )
    return done.returncode, done.stdout


@needs_program
class Locks(Simple):
    def setUp(self):
        super().setUp()
        if subprocess.run(["python3", "-m", "pip", "--version"], capture_output=True, check=False).returncode != 0:
            self.skipTest("python3 has no pip")
        self.environment = self.folder / "environment.json"
        printed = subprocess.run(["python3", "-B", TOOLS / "environment.py"], capture_output=True, check=True).stdout
        self.environment.write_bytes(printed)

    def reqlock(self, folder, *words):
        command = [PROGRAM, "--dir", folder, "--index", folder / "index.json", "--env", self.environment, *words]
        return subprocess.run(command, stdout=subprocess.PIPE, stderr=subprocess.STDOUT, encoding="utf-8", check=False).stdout

    def begin(self, name, requirements, index, *words):
        """A folder with the requirements and the snapshot for this machine, and what `init` answers in it."""
        folder = self.folder / name
        folder.mkdir()
        (folder / "requirements.txt").write_text(requirements, encoding="utf-8")
        self.output = folder / "index.json"
        status, lines = self.call(
            index.url, "--for", folder / "requirements.txt", "--env", self.environment, "--cache", self.folder / f"cache-{name}", *words,
        )
        self.assertEqual(status, 0, lines)
        return folder, self.reqlock(folder, "init")

    def check_installs(self, folder, index, *words):
        """What pip installs of the lock is the lock. It looks for what the lock may lack, unless the words are `--no-deps`."""
        hashed = subprocess.run(
            [sys.executable, "-B", TOOLS / "hashed_requirements.py", folder / "pylock.toml"], capture_output=True, check=True,
        ).stdout
        (folder / "hashed.txt").write_bytes(hashed)
        status, output = pip(
            "install", "--index-url", index.url, "--require-hashes", "--requirement", folder / "hashed.txt", "--target",
            folder / "site", "--no-compile", *words,
        )
        self.assertEqual(status, 0, output)
        lock = tomllib.loads((folder / "pylock.toml").read_text(encoding="utf-8"))
        installed = [path.name.removesuffix(".dist-info").split("-") for path in (folder / "site").glob("*.dist-info")]
        self.assertEqual(dict(installed), {package["name"]: package["version"] for package in lock["packages"]})

    def check_has_none(self, folder, index, *_):
        """Where there is no lock, pip finds no versions either."""
        status, output = pip(
            "install", "--index-url", index.url, "--dry-run", "--report", folder / "report.json", "--target", folder / "site",
            "--requirement", folder / "requirements.txt",
        )
        self.assertEqual(status, 1, output)
        self.assertRegex(output, "ResolutionImpossible|No matching distribution")

    def test_of_drawn_worlds_are_what_pip_installs(self):
        chance = drawing(11)
        tests = []
        for number in range(WORLDS):
            # pip 23.2 refuses by hashes what a dependency asks for with an extra
            words = ["--no-deps"] if number % 2 else []
            world = World(chance, has_extras=bool(words))
            index = self.serve(world.packages, is_html=number % 3 == 2, has_ranges=number % 2 == 0, has_sizes=number % 5 != 0)
            folder, answer = self.begin(f"world-{number}", world.requirements, index)
            self.assertIn(answer, ("ok 0\n", "refused no-solution\n"))
            tests.append((self.check_installs if answer == "ok 0\n" else self.check_has_none, folder, index, *words))
        locked = sum(test[0] == self.check_installs for test in tests)
        with ThreadPoolExecutor(SIDE_BY_SIDE) as pool:
            for under_way, folder in [(pool.submit(*test), test[1]) for test in tests]:
                with self.subTest(world=folder.name, requirements=(folder / "requirements.txt").read_text(encoding="utf-8")):
                    under_way.result()
        print(f"{locked} of {WORLDS} worlds locked and installed, and of the others pip finds no versions")
        self.assertGreater(locked, WORLDS / 2)

    def test_add_the_extras_that_are_followed(self):
        index = self.serve({
            "sockish": [wheel_of("sockish", "1", "pysockish; extra == 'Socks'")], "pysockish": [wheel_of("pysockish", "1")],
        })
        folder, answer = self.begin("followed", "# none yet\n", index, "sockish[socks]")
        self.assertEqual((answer, self.reqlock(folder, "add", "sockish[socks]")), ("ok 0\n", "ok 1\n"))
        self.check_installs(folder, index)

    def test_stay_over_a_snapshot_of_the_newest_releases(self):
        """`ant` is locked at its oldest release, which no line asks for any more. With the lock given, the snapshot has it."""
        index = self.serve({"ant": [wheel_of("ant", str(number)) for number in range(1, 13)], "bee": [wheel_of("bee", "1")]})
        folder, answer = self.begin("kept", "ant==1\n", index, "bee")
        self.assertEqual((answer, self.reqlock(folder, "constrain", "ant")), ("ok 0\n", "ok 1\n"))
        words = index.url, "bee", "--for", folder / "requirements.txt", "--env", self.environment, "--newest", 2
        self.assertEqual(self.call(*words, "--keep", folder / "pylock.toml")[0], 0)
        self.assertEqual(self.reqlock(folder, "add", "bee", "--keep-locked"), "ok 2\n")
        self.check_locked(folder, {"ant": "1", "bee": "1"})
        self.reqlock(folder, "undo")
        self.assertEqual(self.call(*words)[0], 0)
        self.assertEqual(self.reqlock(folder, "add", "bee", "--keep-locked"), "refused no-solution\n")
        self.assertEqual(self.reqlock(folder, "add", "bee"), "ok 2\n")
        self.check_locked(folder, {"ant": "12", "bee": "1"})

    def check_locked(self, folder, versions):
        lock = tomllib.loads((folder / "pylock.toml").read_text(encoding="utf-8"))
        self.assertEqual({package["name"]: package["version"] for package in lock["packages"]}, versions)

    def test_of_releases_that_have_wheels_for_others_alone(self):
        index = self.serve({"ant": [wheel_of("ant", "1"), wheel_of("ant", "2", tag="py3-none-win32")]})
        folder, answer = self.begin("ours", "ant\n", index)
        self.assertEqual(answer, "ok 0\n")
        self.check_installs(folder, index)
        index = self.serve({"ant": [sdist_of("ant", "1"), wheel_of("ant", "2", tag="py3-none-win32")]})
        folder, answer = self.begin("sdist", "ant\n", index)
        packages = json.loads((folder / "index.json").read_text(encoding="utf-8"))["packages"]
        self.assertEqual([release["version"] for release in packages[0]["releases"]], ["1"])


if __name__ == "__main__":
    unittest.main()
