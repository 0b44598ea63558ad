"""Each name of support/marks.py stands for a test, a class or a file of tests."""

import importlib
import unittest
from operator import attrgetter

from support.marks import MEASURED, SLOW
from support.places import TESTS


class Marks(unittest.TestCase):
    def test_each_name_is_that_of_a_test(self):
        for name in SLOW + MEASURED:
            with self.subTest(name=name):
                file, _, inner = name.partition(".")
                self.assertTrue((TESTS / f"{file}.py").is_file())
                if inner:
                    attrgetter(inner)(importlib.import_module(file))


if __name__ == "__main__":
    unittest.main()
