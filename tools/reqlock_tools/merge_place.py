"""The files of the folder that a merge is for: they are put there all at once or not at all."""

import contextlib
import os
import shutil
import signal
from collections.abc import Callable, Iterable


def ignore_stops() -> None:
    """From here on Ctrl-C doesn't end the tool, nor what it calls."""
    for number in signal.SIGINT, signal.SIGTERM, signal.SIGHUP:
        signal.signal(number, signal.SIG_IGN)


def write_beside(path: str, data: bytes) -> None:
    """Writes what is to stand at a path under the name under which reqlock writes it, so that reqlock can end what was stopped."""
    with contextlib.suppress(FileNotFoundError):
        os.unlink(f"{path}.new")
    with open(f"{path}.new", "xb") as file:
        file.write(data)
        file.flush()
        if os.path.exists(path):
            shutil.copymode(path, f"{path}.new")
        os.fsync(file.fileno())


def put(folder: str, files: dict[str, bytes], gone: Iterable[str], stage: Callable[[], None]) -> None:
    """Puts files into a folder in their order, once all are written and staged, and removes those that go. A fault before that changes
    nothing."""
    paths = {os.path.join(folder, name): data for name, data in files.items()}
    ignore_stops()
    try:
        for path, data in paths.items():
            write_beside(path, data)
        stage()
    except BaseException:
        for path in paths:
            with contextlib.suppress(OSError):
                os.unlink(f"{path}.new")
        raise
    for path in paths:
        os.replace(f"{path}.new", path)
    for name in gone:
        with contextlib.suppress(OSError):
            os.unlink(os.path.join(folder, name))
