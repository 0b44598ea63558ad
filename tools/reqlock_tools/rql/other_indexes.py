"""Indexes that pyproject.toml names for uv or Poetry. `rql init` takes the default one; of the others it tells what has them asked too."""

import json
from collections.abc import Iterator
from dataclasses import dataclass
from pathlib import Path
from typing import Any, Literal

from reqlock_tools.refusal import speaker
from reqlock_tools.rql.compiled import read_text
from reqlock_tools.rql.draft import project_table
from reqlock_tools.rql.settings import PROJECT_FILE
from reqlock_tools.toml import table_at

# What each priority of Poetry is for.
PRIORITIES: dict[object, "Kind"] = {"supplemental": "behind", "secondary": "behind", "explicit": "bound"}
# In the order in which they are asked.
Kind = Literal["bound", "before", "default", "behind"]
WHY: dict[Kind, str] = {
    "bound": "it is for some packages alone", "before": "it is asked before the default", "default": "it isn't the only default",
    "behind": "it is asked behind the default",
}

say = speaker("rql")


@dataclass(frozen=True)
class OtherIndex:
    """An index of another tool, at its place in the file. One that is bound is asked for the names `only`; Poetry's own has no URL."""

    place: str
    url: str
    kind: Kind
    only: tuple[str, ...] = ()

    def setting(self) -> str:
        """How the settings of rql have it."""
        url = json.dumps(plain(self.url))
        return f"{{ url = {url}, only = {json.dumps(self.only)} }}" if self.kind == "bound" else url


def other_indexes(base: Path) -> list[OtherIndex]:
    """The indexes that pyproject.toml names, in the order in which they are asked."""
    table = project_table(base)
    text = read_text(str(base / PROJECT_FILE)) if table else ""
    indexes = [*indexes_of_uv(table, text), *indexes_of_poetry(table, text)]
    return sorted(indexes, key=rank)


def indexes_of_uv(table: dict[str, Any], text: str) -> Iterator[OtherIndex]:
    uv = table_at(table, "tool", "uv")
    for number, entry in enumerate(tables(uv.get("index"))):
        kind: Kind = "bound" if entry.get("explicit") is True else "default" if entry.get("default") is True else "before"
        url = text_of(entry.get("url"))
        yield OtherIndex(place(text, f"tool.uv.index[{number}]", url), url, kind, names_bound(table_at(uv, "sources"), "index", entry.get("name")))
    extra = uv.get("extra-index-url")
    for url in map(text_of, extra if isinstance(extra, list) else []):
        yield OtherIndex(place(text, "tool.uv.extra-index-url", url), url, "before")
    if url := text_of(uv.get("index-url")):
        yield OtherIndex(place(text, "tool.uv.index-url", url), url, "default")


def indexes_of_poetry(table: dict[str, Any], text: str) -> Iterator[OtherIndex]:
    poetry = table_at(table, "tool", "poetry")
    needs = {name: need for _, group in [("", poetry), *table_at(poetry, "group").items()] for name, need in table_at(group, "dependencies").items()}
    for number, entry in enumerate(tables(poetry.get("source"))):
        priority = "secondary" if entry.get("secondary") is True else text_of(entry.get("priority")).lower()
        url = text_of(entry.get("url"))
        where = place(text, f"tool.poetry.source[{number}]", url or text_of(entry.get("name")))
        yield OtherIndex(where, url, PRIORITIES.get(priority, "default"), names_bound(needs, "source", entry.get("name")))


def tables(value: object) -> list[dict[str, Any]]:
    return [item for item in value if isinstance(item, dict)] if isinstance(value, list) else []


def text_of(value: object) -> str:
    return value if isinstance(value, str) else ""


def names_bound(needs: dict[str, Any], key: str, name: object) -> tuple[str, ...]:
    """The packages that are taken from the index of a name."""
    several = {package: tables(told if isinstance(told, list) else [told]) for package, told in needs.items()}
    return tuple(package for package, told in several.items() if name is not None and any(one.get(key) == name for one in told))


def place(text: str, key: str, url: str) -> str:
    """Where an index stands: the line that has its URL."""
    lines = [number for number, line in enumerate(text.splitlines(), 1) if url and url in line.partition(" #")[0] and not line.startswith("#")]
    return f"{PROJECT_FILE}: {f'line {lines[0]}: ' if lines else ''}{key}"


def plain(url: str) -> str:
    """An address without user, password and query; one that is no address stays hidden."""
    from reqlock_tools.simple.addresses import Unfetched, plain_url

    try:
        return plain_url(url).partition("?")[0].rstrip("/") + "/"
    except (Unfetched, ValueError):
        return "URL"


def default_of(indexes: list[OtherIndex]) -> tuple[str, str] | None:
    """The one index that another tool asks where nothing is said, and what says so."""
    defaults = {plain(index.url): index for index in indexes if index.kind == "default"}
    only = next(iter(defaults.values())) if len(defaults) == 1 else None
    return (only.url, only.place) if only is not None and only.url else None


def tell_others(indexes: list[OtherIndex], taken: str) -> None:
    """Tells which indexes aren't followed, and what has them asked too, where one is taken. That is asked in the place of a default, unless
    another tool has defaults of its own."""
    left = [index for index in indexes if index.url and plain(index.url) != taken]
    for index in left:
        say(f"{index.place}: {plain(index.url)} isn't followed: {WHY[index.kind]}")
    asked = [index for index in left if index.only or index.kind != "bound"]
    if asked:
        own = [] if any(index.kind == "default" for index in left) else [OtherIndex("", taken, "default")]
        say(f"to ask {'it' if len(asked) == 1 else 'them'} too, {way_to_ask(sorted([*asked, *own], key=rank))}")


def way_to_ask(indexes: list[OtherIndex]) -> str:
    """What has these indexes asked, in this order: settings, or where none is bound also words that begin anew."""
    way = f"write index = [{', '.join(index.setting() for index in indexes)}] into the settings, and call rql relock"
    words = " ".join(f"--index {plain(index.url)}" for index in indexes)
    return way if any(index.only for index in indexes) else f"{way}; or begin with rql init {words}"


def rank(index: OtherIndex) -> int:
    """The place of an index in the order in which they are asked."""
    return [*WHY].index(index.kind)
