"""Runs tests by the standard library, one at a time."""

import re
import sys
import unittest
from collections.abc import Iterator
from functools import partial
from pathlib import Path

from support.outcomes import Outcomes

WHOLE = re.compile(r"(?:setUp|tearDown)(?:Class|Module) \((.*)\)")


def name_of(test: unittest.TestCase) -> str:
    """The name of a test, also of a part of it, of a class or module that can't be begun or ended, or of a file that can't be read."""
    name = getattr(test, "test_case", test).id()
    whole = WHOLE.fullmatch(name)
    return whole[1] if whole else name.removeprefix("unittest.loader._FailedTest.")


class Result(unittest.TextTestResult):
    """A result that tells what came of each test."""

    def __init__(self, outcomes: Outcomes, *others) -> None:
        super().__init__(*others)
        self.outcomes = outcomes

    def addSuccess(self, test):
        super().addSuccess(test)
        self.outcomes.passed.add(name_of(test))

    def addSkip(self, test, reason):
        super().addSkip(test, reason)
        self.outcomes.skips(name_of(test), reason)

    def addFailure(self, test, err):
        super().addFailure(test, err)
        self.outcomes.fails(name_of(test))

    def addError(self, test, err):
        super().addError(test, err)
        self.outcomes.fails(name_of(test))

    def addSubTest(self, test, subtest, err):
        super().addSubTest(test, subtest, err)
        if err is not None:
            self.outcomes.fails(name_of(test))

    def addExpectedFailure(self, test, err):
        super().addExpectedFailure(test, err)
        self.outcomes.expected.add(name_of(test))

    def addUnexpectedSuccess(self, test):
        super().addUnexpectedSuccess(test)
        self.outcomes.fails(name_of(test))


def each(tests: unittest.TestSuite) -> Iterator[unittest.TestCase]:
    for test in tests:
        if isinstance(test, unittest.TestSuite):
            yield from each(test)
        else:
            yield test


def run(place: Path, names: list[str], outcomes: Outcomes) -> None:
    """Runs the tests of a folder, or those of these names."""
    loader = unittest.defaultTestLoader
    if names:
        sys.path.insert(0, str(place))
        tests = loader.loadTestsFromNames(names)
    else:
        tests = loader.discover(str(place))
    outcomes.planned.update(dict.fromkeys(map(name_of, each(tests))))
    unittest.TextTestRunner(stream=sys.stdout, verbosity=2, buffer=True, resultclass=partial(Result, outcomes)).run(tests)
