"""Files that are read whole, of which none is waited for."""

import os
import stat
from typing import BinaryIO

from reqlock_tools.refusal import Refusal

# So begin the paths of what a shell hands over, as in <(..).
HANDED_OVER = "/dev/", "/proc/"


def open_at_once(path: str, flags: int) -> int:
    """Opens a file, and waits for nobody who writes to it where it is a named pipe."""
    return os.open(path, flags | getattr(os, "O_NONBLOCK", 0))


def open_regular(path: str) -> BinaryIO:
    """Opens a regular file to be read. What is none could be without an end, or never begin, so it is refused and not waited for;
    what a shell hands over is read as it is."""
    if path.startswith(HANDED_OVER):
        return open(path, "rb")
    file = open(path, "rb", opener=open_at_once)
    if not stat.S_ISREG(os.fstat(file.fileno()).st_mode):
        file.close()
        raise Refusal(f"{path}: it is no file")
    return file


def read_bytes(path: str) -> bytes:
    """What a regular file holds."""
    with open_regular(path) as file:
        return file.read()
