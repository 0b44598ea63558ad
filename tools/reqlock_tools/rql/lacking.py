"""Names that are typed, and that no index of the settings has: what may be meant by them, and what asks for them once more."""

import difflib
import re
import shlex
from collections.abc import Iterable, Mapping
from pathlib import Path

from reqlock_tools.refusal import speaker
from reqlock_tools.requirements import need_of
from reqlock_tools.rql.index import absent_names
from reqlock_tools.rql.own_calls import front
from reqlock_tools.rql.pins_fit import releases_by_name
from reqlock_tools.rql.requests import Options
from reqlock_tools.rql.telling import is_told

MOST, CLOSEST = 3, 0.75
BEGINNING = re.compile(r"\s*[A-Za-z0-9._-]+")

say = speaker("rql")


def names_of(texts: Iterable[str]) -> frozenset[str]:
    """The names with which texts begin."""
    return frozenset(need.name for need in map(need_of, texts) if need is not None)


def lacking(index: Path, texts: Iterable[str]) -> dict[str, str]:
    """The texts whose names an index was asked for and hasn't, by these names."""
    absent = absent_names(index) or frozenset()
    needs = ((need_of(text), text) for text in texts)
    return {need.name: text for need, text in needs if need is not None and need.name in absent}


def near_names(name: str, index: Path) -> list[str]:
    """The names of an index that are nearly a name, the nearest first."""
    return difflib.get_close_matches(name, [known for known, package in releases_by_name(str(index)).items() if package["releases"]], MOST, CLOSEST)


def lacking_text(options: Options, index: Path, name: str, text: str) -> str:
    """What is told of a text that is to be added, whose name an index hasn't."""
    near = near_names(name, index)
    parts = [f"{name} isn't in the index"]
    if near:
        parts.append(f"did you mean {' or '.join(near)}? (`{typed(options, 'add', BEGINNING.sub(near[0], text, count=1))}`)")
    parts.append(f"to ask the index for {name} again: `{typed(options, '--refresh', 'add', text)}`")
    return "; ".join(parts)


def typed(options: Options, *words: str) -> str:
    """A call of rql as it is typed here."""
    return shlex.join([*front(options.start), *words])


def tell_lacking(options: Options, index: Path, texts: Mapping[str, str]) -> None:
    """Tells of texts that were to be added, by their names that the index lacks."""
    for name, text in texts.items() if is_told(options) else ():
        say(lacking_text(options, index, name, text))
