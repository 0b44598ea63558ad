"""What tests of ./package share: a copy of the files of which the wheel is made, as one commit or outside of git, and what a release has,
which is made of such a commit once a run. Where the program isn't built, another one stands in its place."""

import importlib.util
import os
import shutil
import subprocess
import sys
import unittest
from functools import cache

from support.once import made_once
from support.places import PROGRAM, TOP, new_folder

from reqlock_tools.names import COMMANDS

COPIED = (
    "pyproject.toml", "package", "README.md", "LICENSE", "share", "tools/reqlock_tools", "tools/wheel_hook.py", ".commit-time",
    ".gitattributes",
)
VERSION_FILE = "crates/command_line/src/command_words.rt"
OTHER = shutil.which("true")
TIME = 1700000000  # of the commit, and what a tree outside of git is told
PAGES = [
    page for name in ("reqlock", *COMMANDS.values())
    for page in (
        f"man/man1/{name}.1", f"bash-completion/completions/{name}", f"zsh/site-functions/_{name}", f"fish/vendor_completions.d/{name}.fish",
    )
]


@cache
def has_backend():
    """Whether ./package finds what it needs."""
    asks = "import importlib.util, sys; sys.exit(importlib.util.find_spec('hatchling') is None)"
    is_here = importlib.util.find_spec("hatchling") is not None or any(
        shutil.which(python) and subprocess.run([python, "-c", asks], check=False).returncode == 0 for python in ("python3", "/usr/bin/python3")
    )
    return is_here and bool(shutil.which("readelf"))


def copy_tree(folder):
    """The files of which the wheel is made."""
    for name in (*COPIED, VERSION_FILE):
        place = folder / name
        place.parent.mkdir(parents=True, exist_ok=True)
        if (TOP / name).is_dir():
            shutil.copytree(TOP / name, place, ignore=shutil.ignore_patterns("__pycache__", ".*"))
        else:
            shutil.copy(TOP / name, place)


def own_variables(folder, **more):
    """The variables of a user whose home is a folder, and for whom no index is there."""
    kept = {name: value for name, value in os.environ.items() if not name.startswith(("PIP_", "PIPX_", "PYTHON", "XDG_", "GIT_", "PRE_COMMIT"))}
    pip = {"PIP_NO_INDEX": "1", "PIP_CONFIG_FILE": os.devnull, "PIP_DISABLE_PIP_VERSION_CHECK": "1", "PIP_RETRIES": "0"}
    return {**kept, **pip, "HOME": str(folder), **more}


def git(tree, *words):
    """What git prints in a tree, for an author whose commits have all one time."""
    parts = ("NAME", "a"), ("EMAIL", "a@x"), ("DATE", f"{TIME} +0000")
    author = {f"GIT_{who}_{part}": value for who in ("AUTHOR", "COMMITTER") for part, value in parts}
    variables = own_variables(tree.parent / "home", GIT_CONFIG_GLOBAL=os.devnull, GIT_CONFIG_NOSYSTEM="1", **author)
    done = subprocess.run(["git", *words], cwd=tree, env=variables, stdout=subprocess.PIPE, stderr=subprocess.STDOUT, encoding="utf-8", check=False)
    assert done.returncode == 0, f"{words}: {done.stdout}"
    return done.stdout


def commit(tree):
    """All of a tree becomes a commit."""
    git(tree, "init", "--quiet")
    git(tree, "add", "--all")
    git(tree, "commit", "--quiet", "--message=all")


def package(tree, *words, user=None, **variables):
    """A call of ./package in a tree."""
    own = {**os.environ, "SOURCE_DATE_EPOCH": str(TIME), **variables}
    return subprocess.run(
        [tree / "package", *words], cwd=tree.parent, capture_output=True, encoding="utf-8", check=False, env=own, **user or {}
    )


def put_program(tree, program=PROGRAM if PROGRAM.exists() else OTHER):
    place = tree / "crates" / "reqlock" / "out"
    place.mkdir(parents=True, exist_ok=True)
    shutil.copy(program, place / "reqlock")


def make_release(folder):
    """What a release has, below tree/dist of a commit, and what ./package told of it in the file `told`."""
    tree = folder / "tree"
    copy_tree(tree)
    commit(tree)
    put_program(tree)
    done = package(tree, SOURCE_DATE_EPOCH="")
    assert done.returncode == 0, done.stdout + done.stderr
    (folder / "told").write_text(done.stdout + done.stderr, encoding="utf-8")


@unittest.skipUnless(has_backend(), "no python3 has hatchling, or there is no readelf: apt-get install python3-hatchling binutils")
@unittest.skipUnless(shutil.which("git"), "there is no git")
@unittest.skipUnless(sys.platform == "linux", "the wheel is for Linux")
class Packaged(unittest.TestCase):
    """A test with a folder, and with what a release has, which it doesn't change."""

    def setUp(self):
        self.folder = new_folder(self.addCleanup)

    @property
    def release(self):
        """The tree of the release's commit, with what was made of it below `dist`."""
        return made_once("release", make_release) / "tree"

    def wheel(self, folder=None):
        """The wheel of the release, or the one in a folder."""
        return self.one("*.whl", folder or self.release / "dist")

    @staticmethod
    def one(pattern, folder):
        """The one file of this form that ./package left in a folder."""
        [path] = folder.glob(pattern)
        return path

    def run_in(self, folder, *words, status=0, **variables):
        """What a command prints in a folder, for a user with nothing else at home."""
        done = subprocess.run(
            words, cwd=folder, env=own_variables(self.folder / "home", **variables), stdin=subprocess.DEVNULL, stdout=subprocess.PIPE,
            stderr=subprocess.STDOUT, encoding="utf-8", check=False,
        )
        self.assertEqual(done.returncode, status, f"{words}: {done.stdout}")
        return done.stdout
