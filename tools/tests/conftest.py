"""What pytest is told of the tests: their marks, and which of them run one behind the other in the same process."""

import gc
import signal
import threading
import unittest

import pytest
from support import once
from support.marks import MEASURED, SLOW, is_among
from support.outcomes import name_of, told_seed


def pytest_configure(config):
    once.begin()
    config.addinivalue_line("markers", "xdist_group(name): tests of one group run one behind the other in the same process")
    # (a shell's background job ignores SIGINT, and so would each program that a test interrupts)
    if threading.current_thread() is threading.main_thread():
        signal.signal(signal.SIGINT, signal.default_int_handler)


def pytest_report_header():
    return told_seed()


def pytest_terminal_summary(terminalreporter):
    if terminalreporter.stats.get("failed"):
        terminalreporter.write_line(f"what is drawn is drawn so again: {told_seed()}")


def pytest_collection_finish():
    """What was read stays to the end: nobody looks for garbage in it any more, here and in copies of this process."""
    gc.collect()
    gc.freeze()


def begins_once(test_class: type) -> bool:
    """Whether something is made or ended once for all tests of a class."""
    return any(getattr(test_class, name).__func__ is not getattr(unittest.TestCase, name).__func__ for name in ("setUpClass", "tearDownClass"))


def marks_of(name: str, test_class: type, test: object) -> list[str]:
    """The marks of a test: whether it needs the program, whether it takes long, and `quick` where neither is so."""
    marks = [mark for mark, is_so in (
        ("program", getattr(test, "needs_program", False) or getattr(test_class, "needs_program", False)), ("slow", is_among(name, SLOW)),
    ) if is_so]
    return marks or ["quick"]


@pytest.hookimpl(tryfirst=True)
def pytest_collection_modifyitems(config, items):
    slow = []
    for item in items:
        name = name_of(item.nodeid)
        for mark in marks_of(name, item.cls, item.obj):
            item.add_marker(mark)
        if is_among(name, MEASURED):
            item.add_marker(pytest.mark.xdist_group("measured"))
        elif begins_once(item.cls):
            item.add_marker(pytest.mark.xdist_group(name.rpartition(".")[0]))
        if item.get_closest_marker("slow"):
            slow.append(item)
    # what takes long begins first, so that no process is left with it at the end
    if getattr(config, "workerinput", None):
        items[:] = [*slow, *(item for item in items if item not in slow)]
