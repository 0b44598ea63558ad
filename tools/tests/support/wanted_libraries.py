"""Tests that need libraries of which python3 may have neither its own nor pip's copy are skipped, and say so."""

import unittest

from support.places import TOOLS  # noqa: F401  (with it the package is found)

from reqlock_tools.libraries import library

ASKING = "packaging.version", "urllib3", "platformdirs"


def want_libraries(*names):
    """Skips a class of tests where one of the libraries is absent."""
    absent = [name for name in names if library(name) is None]
    return unittest.skipIf(absent, f"python3 has neither {' '.join(absent)} nor pip: apt-get install python3-pip")
