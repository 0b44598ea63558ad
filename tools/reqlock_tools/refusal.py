"""What a tool refuses, and how it tells so."""

import os
import re
import sys
from collections.abc import Callable

from reqlock_tools.names import speaking

Say = Callable[[str], None]
# A line on standard error has no more characters than these.
LONGEST_LINE = 2**15
# The user and password of an index's URL; or what reads as a host, a port and a part of a path, and may be a password with a `/` in it.
SECRET = re.compile(r"(?:(?<=http://)|(?<=https://))[^/?#\s]{0,999}@|(?<=://)[^/\s@]*:[0-9]*/\S{0,999}@")


class Refusal(Exception):
    """What is wrong, beginning with the file, folder or URL."""


def shown(text: str) -> str:
    """A text in which nothing can act on a terminal."""
    return "".join(letter if letter.isprintable() else letter.encode("unicode_escape").decode() for letter in text)


def hidden(text: str) -> str:
    """A text as it may be told: what may be a user or a password is cut out of its URLs."""
    return SECRET.sub("", text)


def tell(text: str) -> None:
    """Prints a line on standard error. Where it can't be written nothing more is told, and nothing else changes."""
    try:
        print(text, file=sys.stderr, flush=True)
    except OSError:
        os.dup2(os.open(os.devnull, os.O_WRONLY), sys.stderr.fileno())


def speaker(module: str) -> Say:
    """What tells lines on standard error, each behind the name of the tool that has this module, and without a password in a URL."""

    def say(whole: str) -> None:
        text = hidden(whole)
        tell(f"{speaking(module)}: {shown(text[:LONGEST_LINE])}{' ..' if len(text) > LONGEST_LINE else ''}")

    return say


def fault_text(fault: Exception) -> str:
    """What is told of a refusal, or of a file that can't be read or written."""
    if isinstance(fault, OSError) and fault.filename is not None:
        return f"{fault.filename}: {fault.strerror}"
    return str(fault)
