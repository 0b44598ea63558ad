"""Makes completions of zsh."""

import re
import textwrap
from collections.abc import Iterator

from page_makers.command import Command, Kind, Option, Value
from page_makers.filling import filled
from page_makers.shells import FOLDER_OPTIONS, behind, brief, id_of, name_functions, offers

# What is offered where anything may stand.
ANY = "'*:word:_files'"


def quoted(text: str) -> str:
    return "'" + text.replace("'", "'\\''") + "'"


def told(text: str) -> str:
    """A text within brackets or between colons."""
    return re.sub(r"([\[\]:\\])", r"\\\1", text)


def action(top: Command, value: Value, kind: Kind) -> str:
    """What offers the words that may stand for a value."""
    if value.choices:
        return f"({' '.join(value.choices)})"
    if kind is Kind.FOLDER:
        return "_files -/"
    return "" if kind is Kind.OTHER else f"_{id_of(top)}_{kind.value}"


def option_texts(top: Command, option: Option) -> Iterator[str]:
    """An option as _arguments is told of it: each of its forms excludes the others."""
    values = "".join(
        f":{':' * (not value.is_needed)}{told(value.name.lower())}:{action(top, value, kind)}" for value, kind in behind(top, option)
    )
    others = f"({' '.join(option.forms)})" if len(option.forms) > 1 else ""
    for form in option.forms:
        yield quoted(f"{'*' if option.is_repeated else others}{form}[{told(brief(option))}]{values}")


def word_texts(top: Command, command: Command) -> Iterator[str]:
    """The words of a command for which something is offered. (One of which nothing is known would keep zsh from putting an option in.)"""
    for place, value, kind in offers(top, command):
        head = "*" if place == "*" else f"{int(place) + 1}{':' * (not value.is_needed)}"
        if text := action(top, value, kind):
            yield quoted(f"{head}:{told(value.name.lower())}:{text}")


def called(indent: str, words: list[str], flag: str = "") -> str:
    return f" \\\n{indent}    ".join([f"{indent}_arguments{flag}", *words]) + "\n"


def arguments(top: Command, command: Command, indent: str) -> str:
    """What offers the words of a command, and of those below it."""
    options = [text for option in command.options for text in option_texts(top, option)]
    if command.passes:
        return called(indent, [*options, ANY])
    if command.inner:
        return called(indent, [*options, "'1: :->command'", "'*:: :->words'"], " -C") + states(top, command, indent, options)
    return called(indent, [*options, *word_texts(top, command)]) if options or command.words else ""


def states(top: Command, command: Command, indent: str, options: list[str]) -> str:
    """What is offered for the name of a command below it, and behind one."""
    folder = FOLDER_OPTIONS.get(top.name) if command is top else None
    bodies = [(inner.name, arguments(top, inner, " " * 8)) for inner in command.inner]
    if command.words:
        bodies.append(("*", called(" " * 8, [*options, ANY])))
    text = filled(
        "states.zsh", FOLDER=f"folder=${{opt_args[{folder}]:-.}}\n" if folder else "", FILES="    _files -/\n" if command.words else "",
        COMMANDS="".join(f"        {quoted(f'{inner.name}:{told(inner.first_line)}')}\n" for inner in command.inner),
        ARMS="".join(f"    {name})\n{body}        ;;\n" for name, body in bodies if body),
    )
    return textwrap.indent(text, indent)


def zsh(top: Command) -> str:
    """The completion of a command."""
    return filled(
        "completion.zsh", ID=id_of(top), NAME=top.name, FUNCTIONS=name_functions(top, "zsh"), ARGUMENTS=arguments(top, top, "    ")
    )
