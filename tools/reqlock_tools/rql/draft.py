"""What stands in a folder in which a project begins: from where lines come, and which pins are kept."""

import os
from dataclasses import dataclass
from pathlib import Path
from typing import Any

from reqlock_tools.refusal import Refusal, speaker
from reqlock_tools.rql.compiled import read_text
from reqlock_tools.rql.faults import SettingsFault
from reqlock_tools.rql.pins import has_pins_alone, is_compiled
from reqlock_tools.rql.project import JOURNAL, REQUIREMENTS
from reqlock_tools.rql.settings import PROJECT_FILE
from reqlock_tools.toml import read_toml, value_at

LINES_OF_PIP_TOOLS = "requirements.in"
LOCKS_OF_OTHERS = "uv.lock", "poetry.lock", "pylock.toml"
BESIDE = "locks"

say = speaker("rql")


@dataclass(frozen=True)
class Draft:
    """What a project is begun with. `compiled` is the file of another tool that is exported from now on, and `lines` are those that are
    translated once from another form. An index and an environment may be given as files, in the place of those of the settings."""

    folder: str
    sources: tuple[str, ...]
    compiled: str | None
    pinned: tuple[Path, ...]
    lines: bytes | None = None
    index: Path | None = None
    environment: Path | None = None


def project_table(base: Path) -> dict[str, Any]:
    """What pyproject.toml holds; nothing where it isn't there."""
    path = base / PROJECT_FILE
    if not path.is_file():
        return {}
    try:
        return read_toml(read_text(str(path)))
    except Refusal as fault:
        raise SettingsFault(f"{path}: {str(fault).removeprefix(f'{path}: ')}") from None


def locks_of_others(base: Path) -> tuple[Path, ...]:
    """The lock of another tool that stands there. Of several a person says which counts."""
    files = [base / name for name in LOCKS_OF_OTHERS if (base / name).is_file()]
    if len(files) > 1:
        names = ", ".join(path.name for path in files)
        raise SettingsFault(f"{base}: {names} stand there: --from FILE says whose pins are kept")
    return tuple(files)


def is_output(path: Path, has_lines: bool) -> bool:
    """Whether a requirements file was compiled: it says so, or it has pins alone and stands beside the lines of pip-tools."""
    return is_compiled(path) or (has_lines and path.is_file() and has_pins_alone(path))


def draft_of(base: Path, given: tuple[str, ...]) -> Draft:
    """What a project in a folder begins with; `given` are the files whose pins are kept, if they were named."""
    table = project_table(base)
    is_there = os.path.lexists(base / JOURNAL)
    named = tuple(base / name for name in given)
    has_lines = (base / LINES_OF_PIP_TOOLS).is_file() and not is_there
    compiled = REQUIREMENTS if not is_there and is_output(base / REQUIREMENTS, has_lines) else None
    pinned = named or (() if is_there else locks_of_others(base)) or tuple(base / name for name in [compiled] if name)
    taken = compiled is not None or (not is_there and (base / "pylock.toml").is_file())
    folder = BESIDE if taken else "."
    if has_lines:
        is_free = not os.path.lexists(base / REQUIREMENTS)
        return Draft(BESIDE, (LINES_OF_PIP_TOOLS,), REQUIREMENTS if is_free else compiled, pinned)
    if (base / REQUIREMENTS).is_file() and compiled is None:
        return Draft(folder, (REQUIREMENTS,) if taken else (), None, pinned)
    if value_at(table, "project", "dependencies") is not None:
        from reqlock_tools.rql.groups import default_groups

        return Draft(folder, (PROJECT_FILE, *default_groups(base, table)), compiled, pinned)
    if isinstance(value_at(table, "tool", "poetry", "dependencies"), dict) and compiled is None:
        from reqlock_tools.rql.poetry import lines_of_poetry

        return Draft(folder, (), None, pinned, lines_of_poetry(value_at(table, "tool", "poetry"), say))
    if compiled is not None:
        raise SettingsFault(
            f"{base / REQUIREMENTS}: it was compiled of other lines, which aren't there. Rename it (git mv {REQUIREMENTS} compiled.txt),"
            f" write what you ask for into {REQUIREMENTS}, and then: rql init --from compiled.txt"
        )
    return Draft(folder, (), None, pinned)
