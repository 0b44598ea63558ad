"""Dependencies as Poetry writes them in pyproject.toml, translated once into requirements."""

import re
import shlex
from collections.abc import Iterable, Iterator
from typing import Any

from reqlock_tools.refusal import Say
from reqlock_tools.rql.texts import outside
from reqlock_tools.toml import table_at, value_at
from reqlock_tools.versions import is_name

# The keys of a dependency that no index has, and from where it comes.
ELSEWHERE = {"git": "a git repository", "path": "a folder or a file", "file": "a file", "url": "a URL"}

VERSION = re.compile(r"[0-9]+(?:\.[0-9]+)*")
CLAUSE = re.compile(r"(\^|~(?!=)|~=|===?|!=|<=?|>=?)?\s*([0-9][A-Za-z0-9.+!_-]*(?:\.\*)?|\*)")


def caret(version: str, is_tilde: bool) -> str | None:
    """What `^1.2` or `~1.2` means; None where it can't be said."""
    if not VERSION.fullmatch(version):
        return None
    parts = [int(part) for part in version.split(".")]
    if is_tilde:
        place = min(1, len(parts) - 1)
    else:
        place = next((number for number, part in enumerate(parts) if part), len(parts) - 1)
    above = [*parts[:place], parts[place] + 1]
    return f">={version},<{'.'.join(map(str, above))}"


def clause_of(text: str) -> str | None:
    """A clause of Poetry as PEP 440 has it: empty for any version, None where it can't be said."""
    clause = CLAUSE.fullmatch(text.strip())
    if clause is None:
        return None
    sign, version = clause[1] or "", clause[2]
    if version == "*":
        return "" if sign == "" else None
    if sign in ("^", "~"):
        return caret(version, sign == "~")
    return f"{sign or '=='}{version}"


def specifiers_of(text: str) -> str | None:
    """The specifiers of a text; None where it can't be translated, as alternatives can't."""
    if "||" in text or " | " in text:
        return None
    clauses = [clause_of(piece) for piece in re.split(r"\s*,\s*", text.strip())]
    if any(clause is None for clause in clauses):
        return None
    return ",".join(clause for clause in clauses if clause)


def line_of(name: str, value: Any) -> str | None:
    """The requirement of a dependency; None where it can't be translated."""
    told = value if isinstance(value, dict) else {"version": value}
    version, extras, markers = told.get("version"), told.get("extras", []), told.get("markers", "")
    known = {"version", "extras", "markers", "optional"}
    if not isinstance(version, str) or not isinstance(extras, list) or not isinstance(markers, str) or told.keys() - known:
        return None
    specifiers = specifiers_of(version)
    if specifiers is None or not markers.isprintable() or not all(isinstance(extra, str) and is_name(extra) for extra in extras):
        return None
    asked = f"[{','.join(extras)}]" if extras else ""
    return f"{name}{asked}{specifiers}" + (f" ; {markers}" if markers else "")


def lines_of_poetry(poetry: dict[str, Any], say: Say) -> bytes:
    """The lines of Poetry's dependencies, and of the groups that it installs by itself. What can't be translated is told, and so is what is
    optional, with what takes it in."""
    lines: dict[str, str] = {}
    for text in lines_of(poetry["dependencies"], "tool.poetry.dependencies", False, say):
        lines.setdefault(text, "")
    for key, group, table, is_optional in groups_of(poetry):
        group_lines = lines_of(table, key, is_optional, say)
        for text in group_lines:
            lines.setdefault(text, f"  # group {group}")
        if group_lines:
            say(f"{key}: it is locked too, as `poetry install` installs it: rql remove takes a line out")
    tell_outside([poetry["dependencies"], *(table for _, _, table, _ in groups_of(poetry))], say)
    say("tool.poetry.dependencies: translated once into requirements.txt: from now on its lines count")
    return "".join(f"{text}{comment}\n" for text, comment in lines.items()).encode()


def groups_of(poetry: dict[str, Any]) -> Iterator[tuple[str, str, dict[str, Any], bool]]:
    """The groups of dependencies: the place of each, its name, its table, and whether it is optional."""
    yield "tool.poetry.dev-dependencies", "dev", table_at(poetry, "dev-dependencies"), False
    for name in table_at(poetry, "group"):
        is_optional = bool(value_at(poetry, "group", name, "optional"))
        yield f"tool.poetry.group.{name}.dependencies", name, table_at(poetry, "group", name, "dependencies"), is_optional


def lines_of(dependencies: dict[str, Any], key: str, is_optional: bool, say: Say) -> list[str]:
    """The lines of a table of dependencies. What isn't translated is told with the place of the table."""
    lines = []
    for name, value in dependencies.items():
        if name == "python":
            continue
        line = line_of(name, value) if is_name(name) else None
        if line is None:
            say(f"{key}: {name}: {untranslated(name, value)}")
        elif is_optional or (isinstance(value, dict) and value.get("optional")):
            say(f"{key}: {name}: it is optional, so it isn't taken over: {shlex.join(['rql', 'add', line])} adds it")
        else:
            lines.append(line)
    return lines


def origin_of(value: Any) -> str | None:
    """From where a dependency comes that no index has; None for one that an index may have."""
    told = value if isinstance(value, dict) else {}
    return next((where for key, where in ELSEWHERE.items() if key in told), None)


def untranslated(name: str, value: Any) -> str:
    """Why a dependency isn't a line, and what to do."""
    origin = origin_of(value)
    if origin is not None:
        return f"it comes from {origin}, so it isn't locked"
    table = value if isinstance(value, dict) else {}
    line = line_of(name, {key: told for key, told in table.items() if key != "source"})
    wanted = f"{shlex.quote(f'{name}>=1')} adds it, with the versions that you want in the place of >=1"
    adding = f"rql add {wanted if line is None else f'{shlex.quote(line)} adds it'}"
    if isinstance(table.get("source"), str):
        return f"it comes from the index {table['source']}: put {{ url = URL, only = [\"{name}\"] }} into index in the settings; then {adding}"
    return f"it can't be translated: {adding}"


def tell_outside(tables: Iterable[dict[str, Any]], say: Say) -> None:
    """Tells what to do about dependencies that no index has."""
    names = dict.fromkeys(name for table in tables for name, value in table.items() if origin_of(value) is not None and is_name(name))
    if names:
        say(outside(list(names)))
