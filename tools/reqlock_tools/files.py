"""Files that tools read and write, and values of JSON with their places."""

import contextlib
import json
import os
import re
import shutil
import tempfile
from collections.abc import Callable
from typing import Any, TypeVar

from reqlock_tools.refusal import Refusal
from reqlock_tools.regular_file import read_bytes
from reqlock_tools.versions import is_name

LARGEST_SIZE = 2**63 - 1
# The rights of a file that is its user's alone.
OWN = 0o600
Read = TypeVar("Read")


class Node:
    """A JSON value with its document and the JSON Pointer (RFC 6901) to it."""

    def __init__(self, path: str, value: Any, pointer: str = "") -> None:
        self.path, self.value, self.pointer = path, value, pointer

    def want(self, holds: object, wanted: str) -> Any:
        if not holds:
            raise Refusal(f"{self.path}: {self.pointer or 'the whole'}: {wanted} is wanted")
        return self.value

    def below(self, key: object, value: Any) -> "Node":
        text = str(key).replace("~", "~0").replace("/", "~1")
        return Node(self.path, value, f"{self.pointer}/{text}")

    def member(self, key: str) -> "Node":
        """The member of an object, null where there is none."""
        return self.below(key, self.object().get(key))

    def members(self) -> dict[str, "Node"]:
        return {Node(self.path, key, self.pointer).text(): self.below(key, value) for key, value in self.object().items()}

    def items(self) -> list["Node"]:
        items = self.want(isinstance(self.value, list), "an array")
        return [self.below(place, item) for place, item in enumerate(items)]

    def object(self) -> dict[str, Any]:
        members: dict[str, Any] = self.want(isinstance(self.value, dict), "an object")
        return members

    def text(self) -> str:
        # JSON can write half of a surrogate pair, which UTF-8 can't.
        is_text = isinstance(self.value, str) and not re.search("[\ud800-\udfff]", self.value)
        text: str = self.want(is_text, "a text")
        return text

    def texts(self) -> list[str]:
        return [item.text() for item in self.items()]

    def full_text(self) -> str:
        text: str = self.want(self.text() != "", "a text that isn't empty")
        return text

    def name(self) -> str:
        name: str = self.want(is_name(self.text()), "a name")
        return name

    def sha256(self) -> str:
        digest: str = self.want(re.fullmatch("[0-9A-Fa-f]{64}", self.text()), "a text of 64 hexadecimal digits")
        return digest

    def boolean(self) -> bool:
        value: bool = self.want(isinstance(self.value, bool), "true or false")
        return value

    def size(self) -> int:
        is_size = type(self.value) is int and 0 <= self.value <= LARGEST_SIZE
        number: int = self.want(is_size, f"a number from 0 to {LARGEST_SIZE}")
        return number

    def or_none(self, read: Callable[["Node"], Read]) -> Read | None:
        return None if self.value is None else read(self)


def decoded(path: str, data: bytes) -> str:
    try:
        return data.decode("utf-8-sig")
    except UnicodeDecodeError as error:
        raise Refusal(f"{path}: not UTF-8: {error}") from None


def read_text(path: str) -> str:
    return decoded(path, read_bytes(path))


def read_json(path: str) -> Node:
    return json_of(path, read_text(path))


def json_of(path: str, text: str) -> Node:
    """The value of a document that was read."""
    try:
        return Node(path, json.loads(text))
    except (ValueError, RecursionError) as error:
        raise Refusal(f"{path}: not JSON: {error}") from None


def refuse_no_file(path: str) -> None:
    """Refuses what is no file, and could be without an end: a pipe, or a device that a link leads to."""
    if not os.path.isfile(path):
        raise Refusal(f"{path}: it is no file")


def is_own(status: os.stat_result) -> bool:
    """Whether a file or folder is of the user who runs this. Where there are no users, each is."""
    return not hasattr(os, "geteuid") or status.st_uid == os.geteuid()


def usual_mode() -> int:
    """The rights that a new file has here, unless it is told otherwise."""
    mask = os.umask(0o077)
    os.umask(mask)
    return 0o666 & ~mask


def write_whole(path: str, data: bytes, mode: int) -> None:
    """Writes a file beside its place, by a name that nobody knows, and puts it there once it is whole. It gets this mode; unless
    that is OWN, one that stands there keeps its rights."""
    try:
        number, beside = tempfile.mkstemp(prefix=f".{os.path.basename(path)[:64]}.", suffix=".part", dir=os.path.dirname(path) or ".")
    except OSError as fault:
        raise OSError(fault.errno, fault.strerror, path) from None
    try:
        try:
            left = memoryview(data)
            while left:
                left = left[os.write(number, left) :]
        finally:
            os.close(number)
        if mode != OWN and os.path.exists(path):
            shutil.copymode(path, beside)
        elif mode != OWN:
            os.chmod(beside, mode)
        os.replace(beside, path)
    except BaseException:
        with contextlib.suppress(OSError):
            os.unlink(beside)
        raise
