"""Groups and extras in pyproject.toml: those groups that uv installs by itself become sources of a project that begins, and of the others it is
told what takes them in."""

import json
from pathlib import Path
from typing import Any

from reqlock_tools.refusal import speaker
from reqlock_tools.requirements import need_of
from reqlock_tools.rql.faults import SettingsFault
from reqlock_tools.rql.poetry import groups_of, lines_of, tell_outside
from reqlock_tools.rql.project import top_of
from reqlock_tools.rql.settings import PROJECT_FILE
from reqlock_tools.rql.sources import Gathered, gathered
from reqlock_tools.rql.sources_pyproject import EXTRAS, GROUPS
from reqlock_tools.toml import table_at, value_at
from reqlock_tools.versions import is_name, normal

say = speaker("rql")


def default_groups(base: Path, table: dict[str, Any]) -> tuple[str, ...]:
    """The sources of the groups that uv installs by itself, where a project is one of uv. One that can't be read is told."""
    if not (isinstance(value_at(table, "tool", "uv"), dict) or (base / "uv.lock").is_file()):
        return ()
    groups = [group for group in table_at(table, *GROUPS) if is_name(group)]
    told = value_at(table, "tool", "uv", "default-groups")
    wanted = groups if told == "all" else told if isinstance(told, list) else ["dev"]
    normals = {normal(name) for name in wanted if isinstance(name, str)}
    return tuple(source for source in (f"{PROJECT_FILE}:{name}" for name in groups if normal(name) in normals) if can_be_read(base, source))


def can_be_read(base: Path, source: str) -> bool:
    try:
        gathered(top_of(base), base, [source])
    except SettingsFault as fault:
        say(f"{fault}: so {source} isn't locked")
        return False
    return True


def tell_rest(base: Path, table: dict[str, Any], sources: tuple[str, ...]) -> None:
    """Tells what of a pyproject.toml isn't locked where these are the sources, or is locked otherwise than another tool has it."""
    try:
        read = gathered(top_of(base), base, sources)
    except SettingsFault:
        return  # (which will be refused)
    default = [source for source in sources if source != PROJECT_FILE]
    if default:
        say(f"{', '.join(default)}: locked too, as `uv sync` installs it: what is taken out of sources in the settings isn't, after rql lock")
    tell_unread(table, read)
    tell_of_uv(table, read)
    groups = list(groups_of(table_at(table, "tool", "poetry")))
    for key, group, inner, _ in groups:
        if lines := lines_of(inner, key, False, say):
            say(f"{key}: it isn't locked: {taken_in(f'{PROJECT_FILE}:{group}', f'write {group} = {json.dumps(lines)} in [dependency-groups],')}")
    tell_outside((inner for _, _, inner, _ in groups), say)


def taken_in(sources: str, *first: str) -> str:
    """What takes sources in."""
    return " ".join([*first, f'write "{sources}" into sources in the settings, and call rql lock'])


def tell_unread(table: dict[str, Any], read: Gathered) -> None:
    """Tells which groups and extras aren't among the sources."""
    keys = {section.keys for section in read.sections}
    names = [f"{PROJECT_FILE}:{group}" for group in table_at(table, *GROUPS) if (*GROUPS, group) not in keys]
    names += [f"{PROJECT_FILE}[{extra}]" for extra in table_at(table, *EXTRAS) if (*EXTRAS, extra) not in keys]
    if names:
        them = "it" if len(names) == 1 else "them"
        joined = '", "'.join(names)
        say(f"{', '.join(names)}: not locked; to lock {them} too, {taken_in(joined)}")


def tell_of_uv(table: dict[str, Any], read: Gathered) -> None:
    """Tells what uv knows of dependencies in tables of its own."""
    if value_at(table, "tool", "uv", "dev-dependencies"):
        first = "put its lines into dev in [dependency-groups], which uv reads too,"
        is_there = any(section.keys == (*GROUPS, "dev") for section in read.sections)
        say(f"tool.uv.dev-dependencies: not locked: {f'{first} and call rql lock' if is_there else taken_in(f'{PROJECT_FILE}:dev', first)}")
    names = {normal(name) for name in table_at(table, "tool", "uv", "sources")}
    told = sorted({need.name for line in read.lines if (need := need_of(line.text)) is not None} & names)
    if told:
        say(f"tool.uv.sources isn't followed: {', '.join(told)}: the index is asked for it, whose package of this name may be another one")
