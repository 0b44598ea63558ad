"""Tests of tools/hashed_requirements.py: what it prints of a lock, and the locks that it refuses."""

import subprocess
import sys
import tempfile
import unittest
from pathlib import Path

from support.places import TOOLS
from support.tool_calls import called
from support.wanted_libraries import want_libraries

SCRIPT = TOOLS / "hashed_requirements.py"

LOCK = """lock-version = "1.0"
environments = ["os_name == \\"posix\\""]
created-by = "reqlock"

[[packages]]
name = "cup"
version = "1.0.post1"
wheels = [
    {name = "cup-1.0.post1-py3-none-any.whl", url = "u", size = 1, hashes = {sha256 = "DDDD"}},
    {name = "cup-1.0.post1-py3-none-win.whl", url = "u", size = 1, hashes = {sha256 = "AAAA"}},
]
sdist = {name = "cup-1.0.post1.tar.gz", url = "u", size = 1, hashes = {sha256 = "BBBB"}}

[[packages]]
name = "tea-pot"
version = "2"
dependencies = [{name = "cup"}]
wheels = [{name = "tea_pot-2-py3-none-any.whl", url = "u", size = 1, hashes = {sha256 = "CCCC"}}]

[[packages]]
name = "tray"
version = "3"
dependencies = [{name = "cup"}, {name = "tea-pot"}]
wheels = [{name = "tray-3-py3-none-any.whl", url = "u", size = 1, hashes = {sha256 = "CCCC"}}]

[tool.reqlock]
snapshot = "0"
"""

WANTED = """# for os_name == "posix"
cup==1.0.post1 \\
    --hash=sha256:AAAA \\
    --hash=sha256:BBBB \\
    --hash=sha256:DDDD
    # via tea-pot, tray
tea-pot==2 \\
    --hash=sha256:CCCC
    # via tray
tray==3 \\
    --hash=sha256:CCCC
"""


def spelled(text):
    """The text with each AAAA and so on made 64 digits."""
    for letter in "ABCD":
        text = text.replace(letter * 4, letter.lower() * 64)
    return text


@want_libraries("packaging.version")
class HashedRequirements(unittest.TestCase):
    def run_on(self, text):
        with tempfile.TemporaryDirectory() as folder:
            path = Path(folder) / "pylock.toml"
            path.write_bytes(text if isinstance(text, bytes) else spelled(text).encode())
            done = called("hashed_requirements", [path])
            return done.returncode, done.stdout, done.stderr.replace(f"{path}: ", "")

    def check_refused(self, fault, old, new):
        text = LOCK.replace(old, new, 1)
        self.assertNotEqual(text, LOCK)
        status, output, errors = self.run_on(text)
        self.assertEqual((status, output, errors.count("\n")), (1, "", 1), errors)
        self.assertTrue(errors.startswith(f"hashed_requirements.py: {fault}"), errors)

    def test_prints_the_packages_in_the_form_of_pip(self):
        self.assertEqual(self.run_on(LOCK), (0, spelled(WANTED), ""))
        begin, *packages = LOCK.removesuffix(end := "\n[tool.reqlock]\nsnapshot = \"0\"\n").split("[[packages]]")
        other = "[[packages]]".join([begin, *reversed(packages)]) + end
        self.assertEqual(self.run_on(other), (0, spelled(WANTED), ""))

    def test_prints_nothing_of_a_lock_without_packages(self):
        self.assertEqual(self.run_on('lock-version = "1.0"\npackages = []\n'), (0, "", ""))

    def test_refuses_what_is_no_lock_of_version_1_0(self):
        odd = "isn't of the form that a lock of version 1.0 has"
        self.check_refused("it is no TOML", "[[packages]]", "[[packages]")
        self.check_refused("its lock-version is '1.1', not 1.0", '"1.0"', '"1.1"')
        self.check_refused(f"lock-version {odd}", '"1.0"', "1.0")
        self.check_refused(f"lock-version {odd}", "lock-version", "version")
        self.check_refused(f"the name of a package {odd}", '"cup"', '"Cup"')
        self.check_refused(f"the name of a package {odd}", 'name = "cup"\n', "")
        self.check_refused("cup: '1.x' is no version", "1.0.post1", "1.x")
        self.check_refused("cup: '1\\n' is no version", "1.0.post1", "1\\n")
        self.check_refused(f"cup: sha256 {odd}", "AAAA", "AAA")
        self.check_refused(f"cup: sha256 {odd}", "sha256", "sha512")
        self.check_refused(f"cup: hashes {odd}", "hashes", "hash")
        self.check_refused(f"tea-pot: dependencies {odd}", '{name = "cup"}', "{}")
        self.check_refused(f"tea-pot: dependencies {odd}", '[{name = "cup"}]', '["cup"]')
        self.check_refused("tea-pot: it stands twice", '"tray"', '"tea-pot"')
        self.assertEqual(self.run_on("")[0], 1)
        self.assertEqual(self.run_on(b"\xff")[0], 1)

    def test_refuses_what_lines_can_not_tell(self):
        for key in "marker", "vcs", "directory", "archive":
            fault = f"cup: {key} can't be told in a requirements file with hashes"
            self.check_refused(fault, 'version = "1.0.post1"', f'version = "1"\n{key} = "x"')
        self.check_refused("tray: it has no file", 'wheels = [{name = "tray', 'wheel = [{name = "tray')

    def test_takes_one_argument(self):
        for words in [], ["a", "b"], ["--output"]:
            done = subprocess.run([sys.executable, "-B", SCRIPT, *words], capture_output=True, check=False)
            self.assertEqual(done.returncode, 2)
        done = subprocess.run([sys.executable, "-B", SCRIPT, "absent"], capture_output=True, check=False)
        self.assertEqual(done.returncode, 1)
        self.assertIn(b"absent", done.stderr)


if __name__ == "__main__":
    unittest.main()
