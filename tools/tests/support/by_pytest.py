"""Runs tests by pytest, several at a time."""

from pathlib import Path

import pytest
from support.outcomes import Outcomes, name_of

ENDED = 0, 1, 5  # (all passed, some failed, there are none)


class Plugin:
    """What pytest tells of each test, where the processes that run them report to."""

    def __init__(self, outcomes: Outcomes) -> None:
        self.outcomes = outcomes

    @pytest.hookimpl(optionalhook=True)
    def pytest_xdist_make_scheduler(self, config, log):
        from support.groups import Groups  # (pytest reads the modules of xdist first)

        return Groups(config, log)

    def pytest_collection_finish(self, session):
        self.plan([item.nodeid for item in session.items])

    @pytest.hookimpl(optionalhook=True)
    def pytest_xdist_node_collection_finished(self, node, ids):
        self.plan(ids)

    def plan(self, nodes):
        self.outcomes.planned.update(dict.fromkeys(map(name_of, nodes)))

    def pytest_collectreport(self, report):
        if report.failed:
            self.outcomes.fails(name_of(report.nodeid))

    def pytest_runtest_logreport(self, report):
        name = name_of(report.nodeid)
        if report.failed:
            self.outcomes.fails(name)
        elif hasattr(report, "wasxfail"):
            self.outcomes.expected.add(name)
        elif report.skipped:
            self.outcomes.skips(name, report.longrepr[2].removeprefix("Skipped: "))
        elif report.when == "call":
            self.outcomes.passed.add(name)


def node_of(place: Path, name: str) -> str:
    """What pytest calls a test, a class or a file."""
    file, *inner = name.split(".")
    return "::".join([str(place / f"{file}.py"), *inner])


def run(place: Path, names: list[str], outcomes: Outcomes, workers: int) -> None:
    """Runs the tests of a folder, or those of these names, in so many processes beside this one; 1 runs them in this one."""
    # (unittest's own assertions tell what differs; those of pytest would have each file written anew before it is read)
    words = ["-v", "--tb=short", "-p", "no:cacheprovider", "--assert=plain", "--continue-on-collection-errors"]
    words += ["-n", str(workers), "--dist=loadgroup"] if workers > 1 else ["-n", "0"]
    places = [node_of(place, name) for name in names] or [str(place)]
    status = pytest.main([*words, *places], plugins=[Plugin(outcomes)])
    if status not in ENDED:
        print(f"pytest ended with status {int(status)}")
        outcomes.fails("pytest")
