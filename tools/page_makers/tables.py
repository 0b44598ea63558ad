"""Makes the tables of pages: each stands in its page behind a line that names it."""

import re
from collections.abc import Callable, Iterable

from page_makers.command import Command, Value

MADE = "<!-- {}: made of --help by python3 tools/pages.py -->"
END = "<!-- end -->"


def table(head: Iterable[str], rows: Iterable[Iterable[str]]) -> str:
    first, *others = ("| " + " | ".join(line) + " |\n" for line in (head, *rows))
    return f"{first}{re.sub('[^|]+', '---', first.rstrip())}\n{''.join(others)}"


def words(names: Iterable[str], values: Iterable[Value]) -> str:
    return f"`{' '.join((*names, *(value.shown() for value in values)))}`"


def options(top: Command) -> str:
    """The options that stand before a subcommand or behind it."""
    told = [option for option in top.options if option.longest() not in ("--help", "--version")]
    return table(("Option", "Means"), ((", ".join(words([form], option.values) for form in option.forms), option.help) for option in told))


def subcommands(top: Command, needs: Callable[[Command], list[str]]) -> str:
    """The subcommands, with the options that the program asks for where they are missing."""
    told = [command for command in top.inner if command.options]
    rows = ((words([command.name], command.words), command.about, ", ".join(f"`{need}`" for need in needs(command))) for command in told)
    return table(("Subcommand", "Does", "Needs"), rows)


def own_options(top: Command) -> str:
    """The options of some subcommands alone."""
    takers: dict[tuple[str, str], list[str]] = {}
    for command in top.inner:
        for option in command.options:
            if option not in top.options:
                takers.setdefault((words([option.longest()], option.values), option.help), []).append(f"`{command.name}`")
    return table(("Option", "Of", "Means"), ((name, ", ".join(names), told) for (name, told), names in takers.items()))


def put(page: str, tables: dict[str, str]) -> str:
    """A page with these tables in their places."""
    for name, text in tables.items():
        begin = MADE.format(name)
        place = re.compile(f"{re.escape(begin)}\n\n.*?\n?{END}\n", re.DOTALL)
        page, count = place.subn(lambda _: f"{begin}\n\n{text}\n{END}\n", page)
        if count != 1:
            raise ValueError(f"{begin} stands {count} times")
    return page
