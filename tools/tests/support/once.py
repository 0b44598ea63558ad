"""What is made once in a run and read by many tests, whichever process runs them: a wheel, an environment, what is installed. Who changes
it makes a copy first."""

import atexit
import fcntl
import os
import shutil
import tempfile
from collections.abc import Callable
from pathlib import Path

# The folder of the run. The first process makes it, and removes it at its end; those that it starts find it by this.
VARIABLE = "REQLOCK_TESTS_FOLDER"


def begin() -> Path:
    """The folder of this run."""
    told = os.environ.get(VARIABLE, "")
    if told and Path(told).is_dir():
        return Path(told)
    place, owner = tempfile.mkdtemp(), os.getpid()
    os.environ[VARIABLE] = place
    # (a copy of this process, which makes a call of a tool, leaves it)
    atexit.register(lambda: os.getpid() == owner and shutil.rmtree(place, ignore_errors=True))
    return Path(place)


def made_once(name: str, make: Callable[[Path], object]) -> Path:
    """The folder of this name, as `make` filled it. Who comes while it is being made waits."""
    place = begin() / name
    with open(f"{place}.lock", "ab") as lock:
        fcntl.flock(lock, fcntl.LOCK_EX)
        if not Path(f"{place}.made").exists():
            shutil.rmtree(place, ignore_errors=True)
            place.mkdir()
            make(place)
            Path(f"{place}.made").touch()
    return place
