"""A file of a server as a file here, of which only what is read is fetched."""

import io
import re
from collections.abc import Callable
from typing import Any

from reqlock_tools.files import LARGEST_SIZE
from reqlock_tools.limits import Limits
from reqlock_tools.simple.client import Response
from reqlock_tools.sought_file import SoughtFile

LEAST_FETCHED = 2**15
RANGE = re.compile("bytes ([0-9]{1,19})-([0-9]{1,19})/([0-9]{1,19})")


class NoRanges(Exception):
    """The server doesn't answer for a part of the file."""


class RangedFile(SoughtFile):
    """A file that can be read and sought. `ask` gives the answer to a request with the header Range."""

    def __init__(self, url: str, ask: Callable[[str], Response], limits: Limits) -> None:
        super().__init__()
        self.url, self.ask, self.limits = url, ask, limits
        self.pieces: list[tuple[int, bytes]] = []
        self.size, self.fetched = -1, 0
        self.fetch(f"bytes=-{LEAST_FETCHED}")

    def fetch(self, asked: str) -> None:
        answer = self.ask(asked)
        content_range = RANGE.fullmatch(answer.headers.get("Content-Range", ""))
        if answer.status != 206 or content_range is None:
            raise NoRanges
        start, last, size = map(int, content_range.groups())
        if len(answer.body) != last + 1 - start or self.size not in (-1, size) or size > LARGEST_SIZE:
            raise NoRanges
        self.fetched += len(answer.body)
        self.limits.refuse_over("directory", self.fetched - self.limits.metadata, self.url)
        self.size = size
        self.pieces.append((start, answer.body))

    def seek(self, offset: int, whence: int = io.SEEK_SET) -> int:
        self.place = max(0, {io.SEEK_SET: 0, io.SEEK_CUR: self.place, io.SEEK_END: self.size}[whence] + offset)
        return self.place

    def known(self) -> bytes:
        """What is known from the present place on, possibly nothing."""
        for start, data in self.pieces:
            if start <= self.place < start + len(data):
                return data[self.place - start :]
        return b""

    def readinto(self, buffer: Any) -> int:
        if self.place >= self.size or len(buffer) == 0:
            return 0
        if not self.known():
            self.fetch(f"bytes={self.place}-{min(self.size, self.place + max(len(buffer), LEAST_FETCHED)) - 1}")
        data = self.known()[: len(buffer)]
        if not data:
            raise NoRanges
        buffer[: len(data)] = data
        self.place += len(data)
        return len(data)
