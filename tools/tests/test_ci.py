"""Tests of .ci/run and .ci/daily with stand-ins for the programs that know packages and install them, and for ./check."""

import os
import shutil
import subprocess
import unittest

from support.places import TOP, new_folder

PACKAGES = "# what the tests need\nfish   # a shell\n\nzsh\nnone\n"
ASKS = r"""
[ -e "$INSTALLED/${@: -1}" ] || exit 1
echo -n installed
"""
# It refuses all where it doesn't know one.
INSTALLS = r"""
echo "apt-get $*" >>"$CALLS"
[ "$1" = install ] || exit 0
case " $* " in *" none "*) exit 100 ;; esac
for word; do case $word in install | -*) ;; *) : >"$INSTALLED/$word" ;; esac; done
"""
INSTALL = "apt-get install -y -q --no-install-recommends"


class Run(unittest.TestCase):
    def setUp(self):
        self.folder = new_folder(self.addCleanup)
        self.programs, self.installed, self.copy = (self.folder / name for name in ("programs", "installed", "copy"))
        for folder in self.programs, self.installed, self.copy / ".ci":
            folder.mkdir(parents=True)
        for name in "bash", "dirname", "sed":
            os.symlink(shutil.which(name), self.programs / name)
        shutil.copy(TOP / ".ci" / "run", self.copy / ".ci")
        (self.copy / ".ci" / "packages").write_text(PACKAGES, encoding="utf-8")
        self.put(self.copy / "check", 'echo "all $REQUIRE_ALL"\nexit 7')
        self.put(self.programs / "python3", "")

    def put(self, path, text):
        path.write_text(f"#!{shutil.which('bash')}\n{text}\n", encoding="utf-8")
        path.chmod(0o755)

    def give(self, user, *names):
        """Debian's programs, for a user by number."""
        scripts = {"dpkg-query": ASKS, "apt-get": INSTALLS, "id": f"echo {user}"}
        for name in names or scripts:
            self.put(self.programs / name, scripts[name])

    def run_all(self):
        """What is told on standard error, and the calls of apt-get. ./check is run with its own status and output."""
        calls = self.folder / "calls"
        calls.touch()
        variables = {"PATH": str(self.programs), "INSTALLED": str(self.installed), "CALLS": str(calls)}
        done = subprocess.run([self.copy / ".ci" / "run"], env=variables, capture_output=True, encoding="utf-8", check=False)
        self.assertEqual((done.returncode, done.stdout), (7, "all 1\n"))
        return done.stderr, calls.read_text(encoding="utf-8").splitlines()

    def absent(self, *names):
        return f"these packages are absent, and the tests that need them fail: {' '.join(names)}\n"

    def test_installs_what_is_missing(self):
        self.give(0)
        (self.installed / "zsh").touch()
        (self.installed / "none").touch()
        self.assertEqual(self.run_all(), ("", ["apt-get update -q", f"{INSTALL} fish"]))

    def test_asks_for_nothing_where_all_is_there(self):
        self.give(0)
        for name in "fish", "zsh", "none":
            (self.installed / name).touch()
        self.assertEqual(self.run_all(), ("", []))

    def test_a_package_that_is_unknown_hinders_no_other(self):
        self.give(0)
        calls = ["apt-get update -q", *(f"{INSTALL} {names}" for names in ("fish zsh none", "fish", "zsh", "none"))]
        self.assertEqual(self.run_all(), (self.absent("none"), calls))

    def test_draws_by_the_day(self):
        shutil.copy(TOP / ".ci" / "daily", self.copy / ".ci")
        self.put(self.copy / ".ci" / "run", 'echo "$REQLOCK_SEED"')
        self.put(self.programs / "date", 'echo "$*"')
        for more, seed in ({}, "-u +%Y%m%d"), ({"REQLOCK_SEED": "7"}, "7"):
            variables = {"PATH": str(self.programs), **more}
            done = subprocess.run([self.copy / ".ci" / "daily"], env=variables, capture_output=True, encoding="utf-8", check=True)
            self.assertEqual(done.stdout, f"{seed}\n")

    def test_tells_what_is_missing_where_nothing_can_be_installed(self):
        self.give(1000)
        self.assertEqual(self.run_all(), (self.absent("fish", "zsh", "none"), []))
        for name in "apt-get", "dpkg-query":
            (self.programs / name).unlink()
        self.give(0, "id")
        self.assertEqual(self.run_all(), (self.absent("fish", "zsh", "none"), []))


if __name__ == "__main__":
    unittest.main()
