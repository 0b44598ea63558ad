"""Settings: the table tool.reqlock of pyproject.toml, or reqlock.toml with the same keys. Each key has its type, and a fault its place."""

import re
from dataclasses import dataclass
from pathlib import Path
from typing import TypeVar

from reqlock_tools.files import read_text
from reqlock_tools.refusal import Refusal
from reqlock_tools.rql.faults import SettingsFault
from reqlock_tools.toml import read_toml

PROJECT_FILE, OWN_FILE = "pyproject.toml", "reqlock.toml"
FORMATS = "hashes", "dot", "pylock"
# The keys of an environment: those that it has, and those that it may have.
WANTED, SYSTEMS = ("python", "platform"), ("glibc", "musl", "macos")
TARGET = re.compile("[a-z][a-z0-9-]{0,31}")
PATTERN = re.compile(r"[A-Za-z0-9*](?:[A-Za-z0-9*._-]*[A-Za-z0-9*])?")
DAY = re.compile(r"[0-9]{4}-[0-9]{2}-[0-9]{2}(?:T[0-9:]{8}Z)?")
Kind = TypeVar("Kind")


@dataclass(frozen=True)
class IndexSetting:
    """An index. With `only` it is asked for names of these patterns alone, and no other index is asked for them."""

    url: str
    only: tuple[str, ...] = ()


@dataclass(frozen=True)
class ExportSetting:
    """A file that is written anew after each accepted call. `target` is None where there is one target alone, and where it is of all."""

    file: str
    format: str
    target: str | None

    def is_of_all(self) -> bool:
        """Whether it has all targets, however many there are. Lines for pip are of one alone."""
        return self.target is None and self.format != FORMATS[0]


@dataclass(frozen=True)
class EnvironmentSetting:
    """An environment that is locked for, by the name of its target, which is empty where it has none. The versions of its system are
    empty where they are the usual ones."""

    name: str
    python: str
    platform: str
    glibc: str = ""
    musl: str = ""
    macos: str = ""


@dataclass(frozen=True)
class Settings:
    """What the settings say, with the file in which they stand."""

    file: Path
    folder: str
    index: tuple[IndexSetting, ...]
    sources: tuple[str, ...]
    constraints: tuple[str, ...]
    exclude_newer: str
    newest: int | None
    pre_releases: bool
    only_binary: bool
    assume_no_dependencies: bool
    exports: tuple[ExportSetting, ...]
    environments: tuple[EnvironmentSetting, ...]


class Table:
    """A table of settings, with its place. What is taken of it has its type; what is left behind is refused."""

    def __init__(self, value: object, place: str) -> None:
        if not isinstance(value, dict):
            raise SettingsFault(f"{place}: a table is wanted")
        self.rest: dict[str, object] = dict(value)
        self.place = place

    def fault(self, key: str, wanted: str) -> SettingsFault:
        return SettingsFault(f"{self.place}.{key}: {wanted} is wanted")

    def take(self, key: str, kind: type[Kind], wanted: str, default: Kind) -> Kind:
        """The value of a key; the default where it isn't there."""
        value = self.rest.pop(key, default)
        if not isinstance(value, kind) or (kind is int and isinstance(value, bool)):
            raise self.fault(key, wanted)
        return value

    def text(self, key: str, default: str | None = None) -> str:
        if default is None and key not in self.rest:
            raise self.fault(key, "a text")
        text = self.take(key, str, "a text", default or "")
        if not text.isprintable():
            raise self.fault(key, "a text of visible characters")
        return text

    def flag(self, key: str, default: bool) -> bool:
        return self.take(key, bool, "true or false", default)

    def items(self, key: str) -> list[tuple[object, str]]:
        """The items of an array, each with its place."""
        return [(item, f"{self.place}.{key}[{number}]") for number, item in enumerate(self.take(key, list, "an array", []))]

    def texts(self, key: str) -> tuple[str, ...]:
        texts = []
        for item, place in self.items(key):
            if not isinstance(item, str) or not item.isprintable():
                raise SettingsFault(f"{place}: a text of visible characters is wanted")
            texts.append(item)
        return tuple(texts)

    def end(self) -> None:
        """Refuses keys that nobody knows."""
        for key in self.rest:
            raise self.unknown(key)

    def refuse_others(self, *known: str) -> None:
        """Refuses a key that isn't among these, before what is wanted in its place is missed."""
        for key in self.rest:
            if key not in known:
                raise self.unknown(key)

    def unknown(self, key: str) -> SettingsFault:
        return SettingsFault(f"{self.place}.{key}: this key isn't known")


def index_setting(item: object, place: str) -> IndexSetting:
    """An index: an address, or a table with `url` and `only`."""
    if isinstance(item, str):
        return IndexSetting(checked_address(item, place))
    table = Table(item, place)
    table.refuse_others("url", "only")
    setting = IndexSetting(checked_address(table.text("url"), f"{place}.url"), table.texts("only"))
    for pattern in setting.only:
        if not PATTERN.fullmatch(pattern):
            raise SettingsFault(f"{place}.only: {pattern!a} is no name, in which * may stand for any text")
    return IndexSetting(setting.url, tuple(re.sub("[-_.]+", "-", pattern).lower() for pattern in setting.only))


def checked_address(url: str, place: str) -> str:
    """An address of an index, without a password. That one is never told."""
    from reqlock_tools.simple.addresses import Unfetched, is_index, parts_of, plain_url

    try:
        if parts_of(url).password is not None:
            raise SettingsFault(f"{place}: a password stands in no file that others read: {way_of(url)}")
        if is_index(plain_url(url)) and plain_url(url) == url:
            return url
    except (Unfetched, ValueError):
        pass
    raise SettingsFault(f"{place}: the address of an index is wanted, as https://HOST/simple/, without a user")


def way_of(url: str) -> str:
    """Where the password of an index is put."""
    from reqlock_tools.simple.credentials import way

    return way(url)


def export_setting(item: object, place: str) -> ExportSetting:
    table = Table(item, place)
    table.refuse_others("file", "format", "target")
    setting = ExportSetting(table.text("file"), table.text("format", FORMATS[0]), table.text("target", "") or None)
    if setting.format not in FORMATS:
        raise SettingsFault(f"{place}.format: one of {', '.join(FORMATS)} is wanted")
    return setting


def environment_setting(name: str, item: object, place: str) -> EnvironmentSetting:
    from reqlock_tools.environment import PLATFORMS

    table = Table(item, place)
    table.refuse_others(*WANTED, *SYSTEMS)
    setting = EnvironmentSetting(name, *map(table.text, WANTED), *(table.text(key, "") for key in SYSTEMS))
    if setting.platform not in PLATFORMS:
        raise SettingsFault(f"{place}.platform: one of {', '.join(PLATFORMS)} is wanted")
    return setting


def environments_of(table: Table) -> tuple[EnvironmentSetting, ...]:
    """The environments: one without a name, or several by the names of their targets."""
    if "environment" in table.rest and "environments" in table.rest:
        raise SettingsFault(f"{table.place}.environment: it stands alone, or environments with names stand without it")
    if "environment" in table.rest:
        return (environment_setting("", table.rest.pop("environment"), f"{table.place}.environment"),)
    settings = []
    named = table.take("environments", dict, "a table", {})
    for name, item in named.items():
        if not TARGET.fullmatch(name):
            raise SettingsFault(f"{table.place}.environments: {name!a} is no name of a target: small letters, digits and -")
        settings.append(environment_setting(name, item, f"{table.place}.environments.{name}"))
    return tuple(settings)


def settings_of(value: object, file: Path, place: str) -> Settings:
    """The settings of a table that stands at a place of a file."""
    table = Table(value, place)
    newest = table.take("newest", int, "a number from 1", 0) if "newest" in table.rest else None
    settings = Settings(
        file=file, folder=table.text("folder", "."), index=tuple(index_setting(*item) for item in table.items("index")),
        sources=table.texts("sources"), constraints=table.texts("constraints"), exclude_newer=table.text("exclude-newer", ""),
        newest=newest, pre_releases=table.flag("pre-releases", True), only_binary=table.flag("only-binary", False),
        assume_no_dependencies=table.flag("assume-no-dependencies", False),
        exports=tuple(export_setting(*item) for item in table.items("exports")), environments=environments_of(table),
    )
    table.end()
    if newest is not None and newest < 1:
        raise table.fault("newest", "a number from 1")
    if settings.exclude_newer and not DAY.fullmatch(settings.exclude_newer):
        raise table.fault("exclude-newer", "a day, as 2024-05-01,")
    return settings


def table_in(file: Path) -> tuple[object, str] | None:
    """The table of settings in a file, and its place; None where the file has none."""
    try:
        table: object = read_toml(read_text(str(file)))
    except Refusal as fault:
        raise SettingsFault(f"{file}: {str(fault).removeprefix(f'{file}: ')}") from None
    if file.name == OWN_FILE:
        return table, f"{file}: settings"
    for key in "tool", "reqlock":
        table = table.get(key) if isinstance(table, dict) else None
    return None if table is None else (table, f"{file}: tool.reqlock")


def read_settings(file: Path) -> Settings | None:
    """The settings of a file; None where it has none."""
    table = table_in(file)
    return table and settings_of(table[0], file, table[1])
