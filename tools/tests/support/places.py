"""Where things stand, which tests are asked for, and a folder for a test. With this imported, the modules of tools/ are found by
their names."""

import os
import sys
import tempfile
import unittest
from pathlib import Path

SUPPORT = Path(__file__).resolve().parent
TESTS = SUPPORT.parent
TOOLS = TESTS.parent
TOP = TOOLS.parent
IS_LONG = os.environ.get("LONG_TESTS") == "1"
IS_WITHOUT_PROGRAM = os.environ.get("WITHOUT_PROGRAM") == "1"

sys.path.insert(0, str(TOOLS))
# (a job that runs the tests is told more of the program's calls than what they test)
os.environ.pop("CI", None)


def in_memory() -> str | None:
    """A file system in memory with room for small folders, from which programs can be run; None where there is none."""
    place = "/dev/shm"
    if not os.access(place, os.W_OK | os.X_OK):
        return None
    told = os.statvfs(place)
    return place if told.f_bavail * told.f_frsize >= 2**26 and not told.f_flag & os.ST_NOEXEC else None


# Where thousands of small folders are made, one behind the other. (The program reads a file whose whole path begins with /dev/ otherwise, so no
# other folders are made there.)
MEMORY = in_memory()


def built(crate: str) -> Path:
    """The program of a crate. Where tests without a program are asked for, it isn't there."""
    return TOP / "crates" / crate / ("none" if IS_WITHOUT_PROGRAM else "out") / crate


PROGRAM = built("reqlock")


def needs_program(test):
    """A test, or a class of tests, that is skipped where the program isn't built."""
    test.needs_program = True
    return unittest.skipUnless(PROGRAM.exists(), "the program isn't built")(test)


def new_folder(add_cleanup):
    """A new folder. What removes it is given to the `addCleanup` of a test, or to the `addClassCleanup` of a class."""
    folder = tempfile.TemporaryDirectory()
    add_cleanup(folder.cleanup)
    return Path(folder.name)
