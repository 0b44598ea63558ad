"""What a call of the program tells on standard error. It is read here, and handed on in the words of rql."""

import contextlib
import os
import threading
import tty
from collections.abc import Callable, Collection, Sequence
from pathlib import Path

from reqlock_tools.names import speaking
from reqlock_tools.refusal import Refusal, hidden
from reqlock_tools.rql.requests import Options

# Answers the names of which rql tells that the index lacks them.
Lacking = Callable[[], Collection[str]]
ERRORS = 2
# The least width for which the program breaks its sentences.
LEAST_WIDTH = 20
# What the program tells of a call that takes long, while rql tells it already.
STILL_AT_IT = b"reqlock: still at it; Ctrl-C ends the call, and changes no file\n"
LEFT = "rql has no word for a call of reqlock above; what that changes, sources and exports don't follow"


class Told:
    """The standard error of a call. Where that of rql is a terminal the call has one too, so that it tells what a person is told."""

    def __init__(self) -> None:
        self.ours, self.theirs = both_ends()
        self.data = bytearray()
        self.reader = threading.Thread(target=self.read, daemon=True)

    def begin(self) -> None:
        """Reads from here on; the call has its end already."""
        os.close(self.theirs)
        self.reader.start()

    def read(self) -> None:
        # (Linux tells the end of a terminal by a fault)
        with contextlib.suppress(OSError):
            while piece := os.read(self.ours, 2**16):
                self.data += piece

    def whole(self) -> bytes:
        """All that was told by a call that has ended, but that it goes on."""
        self.reader.join()
        os.close(self.ours)
        return bytes(self.data).replace(STILL_AT_IT, b"")


def both_ends() -> tuple[int, int]:
    """The end that rql reads, and the one that a call writes to."""
    if os.isatty(ERRORS):
        with contextlib.suppress(OSError):
            ours, theirs = os.openpty()
            tty.setraw(theirs)
            return ours, theirs
    return os.pipe()


def in_words_of_rql(told: bytes, options: Options, question: Sequence[str] = (), lacking: Lacking = frozenset) -> bytes:
    """What a call told, with the calls of rql that do what it names. Where there is none for one of them, that is told behind it. That the
    index lacks some names is left out, as rql tells it."""
    if not told:
        return told
    from reqlock_tools.rql.own_calls import Here
    from reqlock_tools.rql.own_words import has_call, in_own_words, without_lacking

    here = Here(options.start, base_of(options), tuple(question))
    text = in_own_words(without_lacking(hidden(told.decode(errors="surrogateescape")), lacking), here, width())
    if has_call(text):
        text += f"{speaking('rql')}: {LEFT}\n"
    return text.encode(errors="surrogateescape")


def base_of(options: Options) -> str:
    """The folder of the settings, as it is typed here; where there are none yet, the one in which a project begins."""
    from reqlock_tools.rql.project import find_settings

    start = Path(os.path.realpath(options.start))
    try:
        settings = find_settings(start)
    except (Refusal, OSError):
        settings = None
    base = os.path.relpath(settings.file.parent if settings else start)
    return os.path.abspath(base) if base.startswith("..") else base


def width() -> int | None:
    """How many characters a line of a sentence has at most, where the program is told that."""
    told = os.environ.get("COLUMNS", "")
    return int(told) if told.isdecimal() and int(told) >= LEAST_WIDTH else None
