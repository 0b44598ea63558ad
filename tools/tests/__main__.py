"""python3 -B tools/tests [--by pytest|unittest] [--workers N] [FOLDER | NAME ..]: runs the tests of tools/, those of another folder, or those
of these names, as test_x or test_x.Class.test_y. pytest runs them where it is there with xdist, one in each of N processes: half as many again
as there are processors, since some wait. Else the standard library does. The last line is 'N passed, N failed, N skipped'; each that failed or
is skipped is told above it.
With REQUIRE_ALL=1 one that is skipped has failed, unless its reason begins with 'optional': what Debian has no package for, what needs
the rights of root, and what LONG_TESTS=1 alone asks for. With WITHOUT_PROGRAM=1 those that need the built program are left out. Another
REQLOCK_SEED than 0 has others drawn where a test draws what it tries; the first line tells it, and so do failures."""

import argparse
import importlib.util
import os
import signal
import sys
from pathlib import Path

from support import by_unittest
from support.outcomes import Outcomes, told_seed
from support.places import IS_WITHOUT_PROGRAM, TESTS

# Some tests wait most of their time: for an index that is slow on purpose, or for a call that has to come first.
WORKERS = len(os.sched_getaffinity(0)) * 3 // 2


def chosen() -> argparse.Namespace:
    """What the words of the call ask for."""
    has_pytest = all(map(importlib.util.find_spec, ("pytest", "xdist")))
    parser = argparse.ArgumentParser(prog="tools/tests", description="Runs the tests of tools/.")
    parser.add_argument("--by", choices=("pytest", "unittest"), default="pytest" if has_pytest else "unittest", help="what runs them")
    parser.add_argument("--workers", type=int, default=WORKERS, metavar="N", help="how many run at a time, by pytest")
    parser.add_argument("names", nargs="*", metavar="NAME", help="test_x, test_x.Class, test_x.Class.test_y, or a folder of tests")
    return parser.parse_args()


def main() -> int:
    # (a shell's background job ignores SIGINT, and so would each program that a test interrupts)
    signal.signal(signal.SIGINT, signal.default_int_handler)
    call, outcomes = chosen(), Outcomes()
    place, names = (Path(call.names[0]), []) if len(call.names) == 1 and Path(call.names[0]).is_dir() else (TESTS, call.names)
    print(told_seed(), flush=True)
    if call.by == "pytest":
        from support import by_pytest  # (pytest may be absent)

        by_pytest.run(place, names, outcomes, call.workers)
    else:
        by_unittest.run(place, names, outcomes)
    passed, failed, skipped = outcomes.counted(os.environ.get("REQUIRE_ALL") == "1", IS_WITHOUT_PROGRAM)
    print(f"{passed} passed, {failed} failed, {skipped} skipped")
    return int(failed != 0)


if __name__ == "__main__":
    sys.exit(main())
