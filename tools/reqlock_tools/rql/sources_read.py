"""What sources are read as: lists of requirements in files, and the lines in them with their places."""

import contextlib
import os
import re
from collections.abc import Iterator, Mapping
from dataclasses import dataclass
from pathlib import Path

from reqlock_tools.refusal import Refusal
from reqlock_tools.regular_file import read_bytes
from reqlock_tools.requirements import doubt_of, fault_of
from reqlock_tools.rql.faults import SettingsFault
from reqlock_tools.rql.places import place_in
from reqlock_tools.rql.texts import outside

FROM = "  # from "
NAME_OF_URL = re.compile(r"([A-Za-z0-9._-]+)\s*(?:\[[^\]]*\]\s*)?@")


@dataclass(frozen=True)
class Section:
    """A list of requirements: that at the keys of a pyproject.toml, or where it has no keys the lines of a file. The label is what the
    comments of its lines tell."""

    path: Path
    label: str
    keys: tuple[str, ...] = ()

    def where(self, place: int) -> str:
        """The place of an item, for a person."""
        return f"{self.path}: {'.'.join(self.keys)}[{place}]" if self.keys else f"{self.path}: line {place + 1}"


@dataclass(frozen=True)
class Line:
    """A requirement, with the list that has it and its place there: of an item in an array, or of a line in a file, from 0 on."""

    text: str
    section: Section
    place: int

    @property
    def where(self) -> str:
        return self.section.where(self.place)

    def whole(self) -> str:
        """The line as requirements.txt has it."""
        return f"{self.text}{FROM}{self.section.label}\n"


class Taken:
    """What is gathered so far, and which lists are being read: each is read once, and one that leads to itself is refused."""

    def __init__(self) -> None:
        self.lines: list[Line] = []
        self.sections: list[Section] = []
        self.constraints: dict[str, None] = {}
        self.way: list[Section] = []

    @contextlib.contextmanager
    def reading(self, section: Section, where: str) -> Iterator[bool]:
        """Whether a list is to be read, for as long as it is."""
        if section in self.way:
            raise SettingsFault(f"{where}: it leads to itself: {' -> '.join(step.label for step in [*self.way, section])}")
        is_new = section not in self.sections
        if is_new:
            self.sections.append(section)
        self.way.append(section)
        yield is_new
        self.way.pop()


class Files:
    """The files of a checkout, some of which are to have other contents. No link is followed, and none leads out."""

    def __init__(self, top: Path, base: Path, changed: Mapping[Path, bytes] | None = None) -> None:
        self.top, self.base, self.changed = top, base, changed or {}

    def place(self, text: str, key: str, base: Path | None = None) -> Path:
        """The place of a file that is named from a folder, which is that of the settings where none is given."""
        if not text.isprintable():
            raise SettingsFault(f"{key}: {text!a}: a path of visible characters is wanted")
        return place_in(self.top, base or self.base, text, key)

    def label(self, path: Path) -> str:
        return os.path.relpath(path, self.base).replace(os.sep, "/")

    def data(self, path: Path, key: str) -> bytes:
        if path in self.changed:
            return self.changed[path]
        try:
            return read_bytes(str(path))
        except Refusal:
            raise SettingsFault(f"{key}: {path} is no file") from None
        except OSError as fault:
            raise SettingsFault(f"{key}: {path}: {fault.strerror}") from None

    def text(self, path: Path, key: str) -> str:
        """The text of a file, with its line endings as they are."""
        try:
            return self.data(path, key).decode("utf-8")
        except UnicodeDecodeError:
            raise SettingsFault(f"{path}: it isn't UTF-8") from None


def way_of_url(text: str, is_typed: bool) -> str:
    """What to do about a text that asks for a URL, and about the line of a source that has it; nothing where it doesn't."""
    name = NAME_OF_URL.match(text)
    if name is None:
        return ""
    return f": {'' if is_typed else 'take the line out of the source, or name another source; '}{outside([name[1]])}"


def checked(text: str, where: str, is_typed: bool = False) -> str:
    """A requirement as a line has it. What PEP 508 can't read is refused, and so is a URL, with the place."""
    requirement = text.strip()
    if not requirement.isprintable():
        raise SettingsFault(f"{where}: {requirement!a}: a requirement has visible characters alone")
    fault = fault_of(requirement) or doubt_of(requirement)
    if fault:
        raise SettingsFault(f"{where}: {requirement!a}: {fault}{way_of_url(requirement, is_typed)}")
    if "#" in requirement:
        raise SettingsFault(f"{where}: {requirement!a}: a requirement has no #")
    return requirement
