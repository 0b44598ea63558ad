"""Reads what `--help` of a program prints that is made with clap."""

import re
import subprocess
import tempfile
from collections.abc import Callable, Iterable, Iterator
from dataclasses import replace
from pathlib import Path

from page_makers.command import Command, Option, Value

# An option that may stand several times; its help doesn't say so.
REPEATED = "--env", "--pins"
SECTION = re.compile(r"(?m)^(Arguments|Commands|Options):\n((?:  .*\n?)*)")
ROW = re.compile(r"  +(\S.*?)(?:  +(\S.*))?")
OPTION = re.compile(r"(?:(-\w), )?(--[a-z-]+)((?: .*)?)")
# <NAME>, [NAME], [NAME]..., [<NAME>...] or [<NAME>]
VALUE = re.compile(r"\[<([^<>]+)>(\.\.\.)?\]|<((?:[^<>])+)>(\.\.\.)?|\[([^\[\]<>]+)\](\.\.\.)?")
CHOICES = re.compile(r"\b((?:[a-z]+, )+[a-z]+ or [a-z]+) \[default: [a-z]+\]")


class Unread(Exception):
    """A text that isn't help as clap prints it."""


def values_of(text: str, told: str = "") -> tuple[Value, ...]:
    """The values that a text shows, as ` <NAME> [SPEC]`."""
    values, choices = [], CHOICES.search(told)
    words = tuple(re.split(", | or ", choices[1])) if choices else ()
    for value in VALUE.finditer(text):
        maybe, many, needed, all_needed, word, several = value.groups()
        values.append(Value(maybe or needed or word, told, needed is not None, bool(many or all_needed or several), words))
    if VALUE.sub("", text).strip():
        raise Unread(text)
    return tuple(values)


def option_of(left: str, told: str) -> Option:
    shape = OPTION.fullmatch(left)
    if shape is None:
        raise Unread(left)
    short, long, values = shape.groups()
    forms = (short, long) if short else (long,)
    return Option(forms, tuple(replace(value, help="") for value in values_of(values, told)), told, long in REPEATED)


def rows(text: str) -> Iterator[tuple[str, str]]:
    for line in text.splitlines():
        shape = ROW.fullmatch(line)
        if shape is None:
            raise Unread(line)
        yield shape[1], shape[2] or ""


def command_of(path: tuple[str, ...], help_of: Callable[[Iterable[str]], str]) -> Command:
    """The command of these names, of which `help_of` prints help."""
    told = help_of(path[1:])
    sections: dict[str, str] = {name: text for name, text in SECTION.findall(told)}
    if "Options" not in sections:
        raise Unread(told)
    words = [value for left, text in rows(sections.get("Arguments", "")) for value in values_of(left, text)]
    below = dict(rows(sections.get("Commands", "")))
    # (`help` has no help of its own)
    asked = Value("SUBCOMMAND", is_needed=False, choices=tuple(below))
    inner = [
        Command((*path, name), about, (asked,), ()) if name == "help" else command_of((*path, name), help_of) for name, about in below.items()
    ]
    example = re.search(r"(?m)^Example: .*", told)
    options = tuple(option_of(*row) for row in rows(sections["Options"]))
    return Command(path, told.split("\n", 1)[0], tuple(words), options, tuple(inner), example[0] if example else "")


def program_command(program: Path) -> Command:
    """The command that a built program is."""

    def help_of(words: Iterable[str]) -> str:
        return subprocess.run([program, *words, "--help"], capture_output=True, encoding="utf-8", check=True).stdout

    return command_of((program.name,), help_of)


def needed(program: Path, command: Command) -> list[str]:
    """The options that a program asks for where a subcommand lacks them, in their order."""
    words = ["a" for word in command.words if word.is_needed]
    with tempfile.TemporaryDirectory() as folder:
        options: list[str] = []
        while (option := missing(program, folder, [*(word for given in options for word in (given, "none")), command.name, *words])) is not None:
            if option == "" and len(words) == len(command.words):
                break  # (one of several options is needed)
            if option == "":
                words = ["a" for _ in command.words]
            else:
                options.append(option)
    return options


def missing(program: Path, folder: str, words: list[str]) -> str | None:
    """The option that a call lacks; an empty text where its words are wrong, and None where nothing is missing."""
    nothing: dict[str, str] = {}
    done = subprocess.run(
        [program, "--dir", folder, *words], env=nothing, stdin=subprocess.DEVNULL, stdout=subprocess.DEVNULL, stderr=subprocess.PIPE,
        encoding="utf-8", check=False,
    )
    told = re.search(r"reqlock: (--[a-z]+) is needed", done.stderr)
    return told[1] if told else "" if done.returncode == 2 else None
