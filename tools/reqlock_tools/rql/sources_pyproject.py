"""Requirements in pyproject.toml: dependencies and extras of the project, and dependency groups (PEP 621, 735)."""

from collections.abc import Callable
from pathlib import Path
from typing import Any

from reqlock_tools.refusal import Refusal
from reqlock_tools.requirements import Need, need_of
from reqlock_tools.rql.faults import SettingsFault
from reqlock_tools.rql.sources_read import Files, Line, Section, Taken, checked
from reqlock_tools.toml import read_toml
from reqlock_tools.versions import is_name, normal

DEPENDENCIES, EXTRAS, GROUPS = ("project", "dependencies"), ("project", "optional-dependencies"), ("dependency-groups",)


class PyprojectReader:
    """Reads the lists of one pyproject.toml."""

    def __init__(self, files: Files, path: Path, key: str, into: Taken) -> None:
        self.path, self.label, self.into = path, files.label(path), into
        try:
            self.table: dict[str, Any] = read_toml(files.text(path, key))
        except Refusal as fault:
            raise SettingsFault(f"{path}: {str(fault).removeprefix(f'{path}: ')}") from None

    def fault(self, keys: tuple[str, ...], text: str) -> SettingsFault:
        return SettingsFault(f"{self.path}: {'.'.join(keys)}: {text}")

    def at(self, keys: tuple[str, ...]) -> Any:
        """The value at some keys; None where there is none."""
        value: Any = self.table
        for place, key in enumerate(keys):
            if not isinstance(value, dict):
                raise self.fault(keys[:place], "a table is wanted")
            value = value.get(key)
            if value is None:
                return None
        return value

    # The lists

    def dependencies(self) -> None:
        """Reads what the project needs."""
        self.refuse_dynamic("dependencies")
        if self.at(("project",)) is None:
            poetry = self.at(("tool", "poetry", "dependencies")) is not None
            raise self.fault(("project",), "it isn't there" + (": rql init translates tool.poetry.dependencies" if poetry else ""))
        self.read_list(Section(self.path, self.label, DEPENDENCIES), self.at(DEPENDENCIES) or [], self.need_of_project)

    def extra(self, name: str) -> None:
        """Reads what an extra of the project needs."""
        self.refuse_dynamic("optional-dependencies")
        key, items = self.named(EXTRAS, name, "extra")
        self.read_list(Section(self.path, f"{self.label}[{normal(name)}]", (*EXTRAS, key)), items, self.need_of_extra)

    def group(self, name: str) -> None:
        """Reads a dependency group."""
        key, items = self.named(GROUPS, name, "dependency group")
        self.read_list(Section(self.path, f"{self.label}:{normal(name)}", (*GROUPS, key)), items, self.need_of_group)

    def refuse_dynamic(self, key: str) -> None:
        dynamic = self.at(("project", "dynamic")) or []
        if isinstance(dynamic, list) and key in dynamic:
            raise self.fault(("project", "dynamic"), f"{key} are made by the build, so they aren't read: name the file that has them")

    def named(self, keys: tuple[str, ...], name: str, kind: str) -> tuple[str, Any]:
        """The key of an extra or a group, whose names count by their normal form, and its value."""
        table = self.at(keys)
        if table is not None and not isinstance(table, dict):
            raise self.fault(keys, "a table is wanted")
        spellings = [key for key in table or {} if normal(key) == normal(name)]
        if not spellings:
            there = f"there are {', '.join(table)}" if table else "there is none"
            raise self.fault(keys, f"no {kind} is named {name!a}; {there}")
        if len(spellings) > 1:
            raise self.fault(keys, f"{' and '.join(spellings)} are one name")
        return spellings[0], (table or {})[spellings[0]]

    def read_list(self, section: Section, items: Any, follow: Callable[[Need, str], None]) -> None:
        if not isinstance(items, list):
            raise self.fault(section.keys, "an array is wanted")
        with self.into.reading(section, f"{self.path}: {'.'.join(section.keys)}") as is_new:
            for place, item in enumerate(items) if is_new else ():
                if isinstance(item, str):
                    self.read_item(Line(item, section, place), follow)
                else:
                    self.include(item, section.where(place), section)

    def read_item(self, item: Line, follow: Callable[[Need, str], None]) -> None:
        text = checked(item.text, item.where)
        need = need_of(text)
        if need is not None and need.name == self.own_name():
            follow(need, item.where)
        else:
            self.into.lines.append(Line(text, item.section, item.place))

    def include(self, item: Any, where: str, section: Section) -> None:
        """Follows an item that includes another group."""
        is_group = section.keys[:1] == GROUPS
        if not is_group or not isinstance(item, dict) or list(item) != ["include-group"] or not isinstance(item["include-group"], str):
            raise SettingsFault(f"{where}: a requirement{', or a table with include-group,' if is_group else ''} is wanted")
        self.group(item["include-group"])

    # The project's own name

    def own_name(self) -> str | None:
        name = self.at(("project", "name"))
        return normal(name) if isinstance(name, str) and is_name(name) else None

    def need_of_project(self, need: Need, where: str) -> None:
        """What the project needs of itself are its extras; so it is of an extra, to which the dependencies don't belong."""
        if need.marker:
            raise SettingsFault(f"{where}: the project's own name is followed without a marker alone: write what the extra needs")
        for extra in need.extras:
            self.extra(extra)

    need_of_extra = need_of_project

    def need_of_group(self, need: Need, where: str) -> None:
        """A group that needs the project needs its dependencies too."""
        self.dependencies()
        self.need_of_project(need, where)
