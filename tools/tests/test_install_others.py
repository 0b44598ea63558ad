"""What rules/installs.py tells of locks is what others do: `packaging.pylock` on drawn locks, and installers that read pylock.toml on locks
of wheels that the test makes. Where the machine has none that is so new, the tests are skipped."""

import hashlib
import json
import shutil
import subprocess
import sys
import tomllib
import unittest

from support.made.archives import wheel
from support.packaged import own_variables
from support.places import new_folder
from support.pythons import pythons
from support.rules.installs import Installing, Refused, installed_by
from test_environment import printed
from test_install_drawn import DrawnTargets, joint_lock, tags_in

try:
    from packaging.pylock import Pylock, PylockSelectError
    from packaging.tags import parse_tag
except ImportError:
    Pylock = None

COUNT = 100
HEAD = 'lock-version = "1.0"\ncreated-by = "hand"\n'
NEW, OLD = "python_version >= '3'", "python_version < '3'"
HERE, NOWHERE = "os_name == 'posix'", "os_name == 'none'"
# the head of a lock, and its entries: a name, a version, a marker, and the tags of its wheels
LOCKS = (
    ("", [("a", "1", "", ["py3-none-any"]), ("b", "1", "", ["py3-none-any"])]),
    ("", [("a", "1", NEW, ["py3-none-any"]), ("a", "2", OLD, ["py3-none-any"])]),
    ("", [("a", "1", OLD, ["py3-none-any"]), ("a", "2", NEW, ["py3-none-any"]), ("b", "1", OLD, ["py3-none-any"])]),
    ("", [("a", "1", f"{OLD} or {HERE}", ["py3-none-any"]), ("b", "1", f"{NEW} and {NOWHERE}", ["py3-none-any"])]),
    ("", [("a", "1", "", ["py3-none-win_arm64", "py3-none-any"])]),
    ("", [("a", "1", "", ["py3-none-win_arm64"])]),
    ("", [("a", "1", NEW, ["py3-none-any"]), ("a", "2", HERE, ["py3-none-any"])]),
    (f"environments = {json.dumps([NOWHERE, HERE])}\n", [("a", "1", "", ["py3-none-any"])]),
    (f"environments = {json.dumps([NOWHERE, OLD])}\n", [("a", "1", "", ["py3-none-any"])]),
    ('requires-python = "<3"\n', [("a", "1", "", ["py3-none-any"])]),
    ("packages = []\n", []),
)


def by_the_rules(data, environment, tags):
    """The names and versions that are installed, or that there is an error."""
    try:
        return sorted((item.package["name"], item.package["version"]) for item in installed_by(data, Installing(environment, tags)))
    except Refused:
        return "an error"


@unittest.skipUnless(hasattr(Pylock, "select"), "optional: packaging 26.1 tells what a lock installs, and python3 has an older one or none")
class Packaging(unittest.TestCase):
    def test_says_the_same_of_drawn_locks(self):
        for seed in range(COUNT):
            draw = DrawnTargets(seed)
            targets = draw.targets()
            data = joint_lock(targets)
            for environment in [draw.environment(), *(target.environment for target in targets)]:
                with self.subTest(seed=seed, environment=environment):
                    tags = tags_in(environment)
                    self.assertEqual(self.theirs(data, environment, tags), by_the_rules(data, environment, tags), data.decode())

    @staticmethod
    def theirs(data, environment, tags):
        lock = Pylock.from_dict(tomllib.loads(data.decode()))
        wanted = [tag for text in tags for tag in parse_tag(text)]
        try:
            return sorted((package.name, str(package.version)) for package, _ in lock.select(environment=environment, tags=wanted))
        except PylockSelectError:
            return "an error"


def run(command, folder):
    """The status of an installer's call in a folder, and all that it tells."""
    variables = own_variables(folder, UV_NO_CONFIG="1", UV_OFFLINE="1")
    done = subprocess.run(command, cwd=folder, env=variables, stdout=subprocess.PIPE, stderr=subprocess.STDOUT, encoding="utf-8", check=False)
    return done.returncode, done.stdout


def commands():
    """The calls of installers that may read a lock, each with its Python: pip of two Pythons, and uv."""
    newest = list(pythons().values())[-1]
    calls = [([python, "-m", "pip", "install", "--no-index"], python) for python in dict.fromkeys([sys.executable, newest])]
    return [*calls, ([shutil.which("uv"), "pip", "install", "--no-index", "--python", newest], newest)] if shutil.which("uv") else calls


def package_text(folder, name, version, marker, tags):
    """An entry of wheels, which are made in a folder."""
    files = [wheel(folder / "wheels", name, version, tag=tag) for tag in tags]
    digests = {path.name: hashlib.sha256(path.read_bytes()).hexdigest() for path in files}
    told = ", ".join(f'{{path = "wheels/{file}", hashes = {{sha256 = "{digest}"}}}}' for file, digest in digests.items())
    text = f'[[packages]]\nname = "{name}"\nversion = "{version}"\nwheels = [{told}]\n'
    return f"{text}marker = {json.dumps(marker)}\n" if marker else text


class Installers(unittest.TestCase):
    WORDS = "--target", "site", "-r", "pylock.toml"

    @classmethod
    def setUpClass(cls):
        """Those are taken that install a lock of nothing. To older ones it isn't a file of requirements."""
        folder = new_folder(cls.addClassCleanup)
        (folder / "pylock.toml").write_text(f"{HEAD}packages = []\n", encoding="utf-8")
        cls.installers = [(command, python) for command, python in commands() if run([*command, *cls.WORDS], folder)[0] == 0]
        if not cls.installers:
            raise unittest.SkipTest("optional: no pip here installs by a pylock.toml, as 26.1 does, and there is no uv, of which 0.6.15 does")

    def test_install_the_same(self):
        for command, python in self.installers:
            environment = printed(python=python)
            tags = *(f"py3-none-{platform}" for platform in environment["platforms"]), "py3-none-any"
            for head, packages in LOCKS:
                folder = new_folder(self.addCleanup)
                data = (HEAD + head + "".join(package_text(folder, *entry) for entry in packages)).encode()
                (folder / "pylock.toml").write_bytes(data)
                with self.subTest(command=command, lock=data):
                    status, output = run([*command, *self.WORDS], folder)
                    self.assertEqual(self.outcome(status, folder), by_the_rules(data, environment, tags), output)

    @staticmethod
    def outcome(status, folder):
        """The names and versions in the folder into which it installs, or that there was an error."""
        names = [path.name.removesuffix(".dist-info").split("-") for path in (folder / "site").glob("*.dist-info")]
        return sorted(map(tuple, names)) if status == 0 else "an error"


if __name__ == "__main__":
    unittest.main()
