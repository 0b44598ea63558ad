"""A command with its words, its options and the commands below it, as its help tells them."""

from collections.abc import Iterator
from dataclasses import dataclass
from enum import Enum


class Kind(Enum):
    """What a value is, for a shell that offers some."""

    OTHER = ""
    FILE = "files"
    FOLDER = "folders"
    LINE = "line_names"
    LOCKED = "locked_names"


@dataclass(frozen=True)
class Value:
    """A word that a command or an option takes, by the name that help gives it."""

    name: str
    help: str = ""
    is_needed: bool = True
    is_many: bool = False
    choices: tuple[str, ...] = ()

    def shown(self) -> str:
        text = f"{self.name} .." if self.is_many else self.name
        return text if self.is_needed else f"[{text}]"


@dataclass(frozen=True)
class Option:
    """An option with all its forms, as -v and --verbose, and the values that stand behind it."""

    forms: tuple[str, ...]
    values: tuple[Value, ...]
    help: str
    is_repeated: bool = False

    def longest(self) -> str:
        return max(self.forms, key=len)


@dataclass(frozen=True)
class Command:
    """A command, or a subcommand of one. `path` has the names of those above it too, `more` is what help says behind its lists, `usage` its
    words where help tells them in another way. One that `passes` hands all words on."""

    path: tuple[str, ...]
    about: str
    words: tuple[Value, ...]
    options: tuple[Option, ...]
    inner: tuple["Command", ...] = ()
    more: str = ""
    usage: str = ""
    passes: bool = False

    @property
    def name(self) -> str:
        return self.path[-1]

    @property
    def first_line(self) -> str:
        return self.about.split("\n", 1)[0].rstrip(".")

    def below(self) -> Iterator["Command"]:
        """The commands below it, at any depth."""
        for command in self.inner:
            yield command
            yield from command.below()


# What the values are that are called NAME, and those of options and commands whose other names tell nothing.
NAMES = {
    "remove": Kind.LINE, "constrain": Kind.LINE, "set": Kind.LINE, "--line": Kind.LINE, "--constrain": Kind.LINE, "--remove": Kind.LINE,
    "upgrade": Kind.LOCKED, "show": Kind.LOCKED, "--upgrade": Kind.LOCKED, "--not": Kind.LOCKED,
}
FILES = "FILE", "OLD", "NEW", "LOCK", "SOURCE", "COMPILED", "INDEX", "ENVIRONMENT", "REQUIREMENTS", "[NAME=]FILE", "VERSION|PATH"
FOLDERS = "DIR", "FOLDER"


def kind_of(value: Value, place: str) -> Kind:
    """What a value is behind this option or command."""
    if value.name in FILES:
        return Kind.FILE
    if value.name in FOLDERS:
        return Kind.FOLDER
    is_name = value.name.startswith("NAME") or (place, value.name) == ("set", "TEXT")
    return NAMES.get(place, Kind.OTHER) if is_name else Kind.OTHER
