"""What the completions of all shells need: the paths of commands, and what stands where."""

import re
from collections.abc import Iterator

from page_makers.command import Command, Kind, Option, Value, kind_of
from page_makers.filling import filled

# The option that names the folder of the lines, of the commands that offer names of it.
FOLDER_OPTIONS = {"reqlock": "--dir", "rql": "-C"}


def id_of(command: Command) -> str:
    """A part of the names of functions."""
    return re.sub(r"\W", "_", command.name)


def below(top: Command) -> list[Command]:
    """The command and all that stand below it."""
    return [top, *top.below()]


def key(command: Command) -> str:
    """How a completion names a command that stands below another: by its path, without the first name."""
    return "/".join(command.path[1:])


def brief(option: Option) -> str:
    """What help says of an option, without its default and its variable."""
    return re.sub(r" \[(?:env|default): [^\]]*\]", "", option.help)


def option_words(command: Command) -> list[str]:
    """The options that are offered: of those with several forms the long one."""
    return [option.longest() for option in command.options]


def offers(top: Command, command: Command) -> Iterator[tuple[str, Value, Kind]]:
    """The values of a command's words: the place of each, or `*` where many may stand; and what it is."""
    for place, value in enumerate(command.words):
        yield "*" if value.is_many else str(place), value, known(top, kind_of(value, " ".join(command.path[1:])))


def behind(top: Command, option: Option) -> Iterator[tuple[Value, Kind]]:
    """The values behind an option, and what each is."""
    for place, value in enumerate(option.values):
        yield value, known(top, kind_of(value, option.longest())) if place == 0 else Kind.OTHER


def known(top: Command, kind: Kind) -> Kind:
    """What of a kind is offered: only the program's own completion asks for locked names."""
    if kind is Kind.LOCKED and top.name != "reqlock":
        kind = Kind.LINE
    return Kind.OTHER if kind is Kind.LINE and not has_names(top) else kind


def has_names(top: Command) -> bool:
    """Whether names of lines are offered somewhere."""
    return top.name in FOLDER_OPTIONS


def name_functions(top: Command, shell: str) -> str:
    """The functions by which a completion of a shell finds names; none where no names are offered."""
    if not has_names(top):
        return ""
    shared = {"ID": id_of(top), "NAME": top.name}
    return filled(f"names.{shell}", **shared, LOCKED=filled(f"locked.{shell}", **shared) if top.name == "reqlock" else "")
