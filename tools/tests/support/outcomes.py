"""What came of each test, and how it is counted: the same whoever runs them. A test counts once, with all its parts."""

from dataclasses import dataclass, field
from pathlib import Path

from support.made.chance import SEED

OPTIONAL = "optional: "
NEEDS_PROGRAM = "the program", "there is no program"


def name_of(node: str) -> str:
    """The name of a test, test_x.Class.test_y, of what pytest calls it."""
    place, *inner = node.partition("@")[0].split("::")
    return ".".join([Path(place).stem, *inner])


def told_seed() -> str:
    """What has the same drawn once more."""
    return f"REQLOCK_SEED={SEED}"


@dataclass
class Outcomes:
    """What came of the tests so far. One that was planned and of which nothing is told has failed."""

    planned: dict[str, None] = field(default_factory=dict)
    passed: set[str] = field(default_factory=set)
    failed: dict[str, None] = field(default_factory=dict)
    skipped: dict[str, str] = field(default_factory=dict)
    # (those that were expected to fail, and did)
    expected: set[str] = field(default_factory=set)

    def fails(self, name: str) -> None:
        """A test has failed. Where a class or a module can't be begun each of its tests has, and the last one where it can't be ended."""
        inside = self.inside(name)
        waiting = [test for test in inside if test not in self.known()]
        self.failed.update(dict.fromkeys(waiting or inside[-1:] or [name]))

    def skips(self, name: str, reason: str) -> None:
        """A test is skipped, or each one of a class or a module."""
        self.skipped.update(dict.fromkeys(self.inside(name) or [name], reason))

    def inside(self, name: str) -> list[str]:
        """The tests of a class or a module that are planned."""
        return [test for test in self.planned if test.startswith(f"{name}.")]

    def known(self) -> set[str]:
        """The tests of which something is told."""
        return self.passed.union(self.expected, self.failed, self.skipped)

    def counted(self, is_all_required: bool, is_without_program: bool) -> tuple[int, int, int]:
        """How many passed, failed and were skipped. Those that failed or were skipped are told."""
        for name in self.planned.keys() - self.known():
            print(f"nothing is told of {name}")
            self.failed[name] = None
        missed, skipped = 0, 0
        for name, reason in self.skipped.items():
            if name in self.failed or (is_without_program and reason.startswith(NEEDS_PROGRAM)):
                continue
            is_missed = is_all_required and not reason.startswith(OPTIONAL)
            print(f"{'FAILED, as it was skipped' if is_missed else 'skipped'}: {name}: {reason}")
            missed += is_missed
            skipped += not is_missed
        if self.failed:
            print(f"what is drawn is drawn so again: {told_seed()}")
        for name in self.failed:
            print(f"FAILED: {name}")
        return len(self.passed.difference(self.failed, self.skipped)), len(self.failed) + missed, skipped
