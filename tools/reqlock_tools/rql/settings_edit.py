"""Settings that stand in a file, changed and else left as they are to the byte."""

import importlib
import sys
from collections.abc import Mapping, Sequence
from typing import TYPE_CHECKING, Any

from reqlock_tools.rql.faults import SettingsFault
from reqlock_tools.rql.settings import OWN_FILE, EnvironmentSetting, ExportSetting, Settings, settings_of
from reqlock_tools.rql.settings_text import KEYS, environment_text
from reqlock_tools.toml import read_toml

if TYPE_CHECKING:
    import tomlkit


def library() -> Any:
    """The library that writes TOML files."""
    try:
        return importlib.import_module("tomlkit")
    except ImportError:
        raise SettingsFault(f"{sys.executable} lacks the library tomlkit, which writes settings: python3 -m pip install tomlkit") from None


def with_environments(settings: Settings, environments: Sequence[EnvironmentSetting], exports: Sequence[ExportSetting]) -> bytes:
    """The file of the settings with other environments, and with the targets of exports."""
    toml, before = library(), settings.file.read_bytes().decode()
    document: "tomlkit.TOMLDocument" = toml.parse(before)
    table: Any = document if settings.file.name == OWN_FILE else document["tool"]["reqlock"]  # type: ignore[index]
    for told, export in zip(table.get("exports", []), exports):
        if export.target and "target" not in told:
            told["target"] = export.target
        elif export.target is None and "target" in told:
            del told["target"]
    named = {environment.name: environment for environment in environments}
    if "" in named:
        put_unnamed(toml, table, named[""])
    else:
        put_named(toml, table, named)
    return laid_out(document.as_string(), before).encode()


def laid_out(text: str, before: str) -> str:
    """A text with the line ends, and with the end, of the file that it changes."""
    whole = text.rstrip() + before[len(before.rstrip()) :]
    is_of_windows = "\r\n" in before and "\n" not in before.replace("\r\n", "")
    return whole.replace("\r\n", "\n").replace("\n", "\r\n") if is_of_windows else whole


def put_unnamed(toml: Any, table: Any, environment: EnvironmentSetting) -> None:
    """Puts the environment without a name there. Of those with names, in whose place it comes, the comments stay."""
    gone = table.pop("environments", None)
    inlines = [item for item in gone.values() if isinstance(item, toml.items.InlineTable)] if isinstance(gone, toml.items.Table) else []
    if inlines:
        table["environment"] = with_comments(toml, gone, next((item for item in inlines if item.get("platform") == environment.platform), inlines[0]))
    put(toml, table, "environment", environment)


def with_comments(toml: Any, table: Any, item: Any) -> Any:
    """An item of a table with the comments of the table, that of its head behind the item where this has none, and the others above."""
    above = [comment.trivia.comment for _, comment in table.value.body if isinstance(comment, toml.items.Comment)]
    if item.trivia.comment and table.trivia.comment:
        above.insert(0, table.trivia.comment)
    elif table.trivia.comment:
        item.trivia.comment_ws, item.trivia.comment = table.trivia.comment_ws, table.trivia.comment
    item.trivia.indent = "".join(f"{comment}\n" for comment in above)
    return item


def put_named(toml: Any, table: Any, named: Mapping[str, EnvironmentSetting]) -> None:
    """Puts environments with names there. The one that had none before keeps its comment."""
    unnamed = table.pop("environment", None)
    if "environments" not in table:
        table["environments"] = toml.table()
        table["environments"].trivia.indent = "\n" if len(table) > 1 else ""
    present = table["environments"]
    if isinstance(unnamed, toml.items.InlineTable):
        alike = [name for name, environment in named.items() if environment.platform == unnamed.get("platform")]
        present[[*alike, *named][0]] = unnamed
    for name in [name for name in present if name not in named]:
        del present[name]
    for name, environment in named.items():
        put(toml, present, name, environment)


def put(toml: Any, table: Any, name: str, environment: EnvironmentSetting) -> None:
    """Puts an environment under a name. Of one that stands there the keys alone change that differ, and a new one has the others' form."""
    if name not in table:
        has_tables = any(isinstance(item, toml.items.Table) for item in table.values())
        table[name] = section(toml, environment) if has_tables else inline(toml, environment)
        return
    for key in KEYS:
        value = getattr(environment, key)
        if value and table[name].get(key) != value:
            table[name][key] = value
        elif not value and key in table[name]:
            del table[name][key]


def checked(settings: Settings, text: bytes) -> bytes:
    """The file of settings that are changed. One that doesn't read as they are is refused."""
    table = read_toml(text.decode())
    told = table if settings.file.name == OWN_FILE else table["tool"]["reqlock"]
    if settings_of(told, settings.file, str(settings.file)) != settings:
        raise SettingsFault(f"{settings.file}: what is written there can't be changed by rql: have its environments be {told_text(settings)}")
    return text


def told_text(settings: Settings) -> str:
    """The environments of settings, as they are written."""
    return ", ".join(f"{environment.name or 'environment'} = {environment_text(environment)}" for environment in settings.environments)


def inline(toml: Any, environment: EnvironmentSetting) -> Any:
    """An environment as an inline table."""
    return toml.parse(f"environment = {environment_text(environment)}\n")["environment"]


def section(toml: Any, environment: EnvironmentSetting) -> Any:
    """An environment as a table with a head of its own."""
    table = toml.table()
    for key in KEYS:
        if getattr(environment, key):
            table[key] = getattr(environment, key)
    return table
