"""A project: its settings, found as git finds its folder, and the places that they name."""

import os
import re
from dataclasses import dataclass
from pathlib import Path

from reqlock_tools.files import is_own
from reqlock_tools.rql.faults import SettingsFault
from reqlock_tools.rql.places import place_in
from reqlock_tools.rql.requests import Options
from reqlock_tools.rql.settings import OWN_FILE, PROJECT_FILE, Settings, read_settings

REQUIREMENTS, JOURNAL = "requirements.txt", "reqlock.journal"
PROGRAM_FILE = re.compile(r"(requirements\.txt|pylock(\.[^.]*)?\.toml|reqlock\.journal)(\.new)?")
EXPORT_ENDINGS = ".txt", ".toml"
# What stands behind the name of a TOML file in a source: an extra, or a group.
PART = re.compile(r"(?<=\.toml)(\[[^\[\]]*\]|:[^/:]+)\Z")


@dataclass(frozen=True)
class Project:
    """A project as its settings tell it. `base` is the folder of the settings, below which `.reqlock` stands, `top` the top of the
    checkout, which is `base` where there is none, and `folder` has the program's files. All are whole paths without links."""

    settings: Settings
    options: Options
    base: Path
    top: Path
    folder: Path

    def place(self, text: str, key: str) -> Path:
        """The place that a setting names."""
        return place_in(self.top, self.base, text, f"{self.settings.file}: {key}")

    def lock_path(self, target: str) -> Path:
        return self.folder / (f"pylock.{target}.toml" if target else "pylock.toml")


def folders_above(start: Path) -> list[Path]:
    """The folder and those above it, up to the top of a git checkout or the home."""
    home, folders = Path(os.path.realpath(os.path.expanduser("~"))), list[Path]()
    for folder in (start, *start.parents):
        folders.append(folder)
        if folder == home or os.path.lexists(folder / ".git"):
            break
    return folders


def top_of(base: Path) -> Path:
    """The top of the git checkout that a folder stands in; the folder itself where it stands in none."""
    last = folders_above(base)[-1]
    return last if os.path.lexists(last / ".git") else base


def refuse_other_owner(file: Path, start: Path) -> None:
    """Refuses settings that another user put above the folder in which the call is made."""
    owner = os.stat(file).st_uid
    if not is_own(os.stat(file)) and owner not in (0, os.stat(start).st_uid):
        raise SettingsFault(f"{file}: it belongs to another user, whose settings aren't followed")


def settings_in(folder: Path) -> Settings | None:
    """The settings of a folder; None where it has none."""
    files = [folder / name for name in (OWN_FILE, PROJECT_FILE) if os.path.lexists(folder / name)]
    present = [settings for settings in map(read_settings, files) if settings is not None]
    if len(present) > 1:
        raise SettingsFault(f"{present[1].file}: tool.reqlock: {OWN_FILE} beside it has settings too; one of them is to go")
    return present[0] if present else None


def find_settings(start: Path) -> Settings | None:
    """The settings of the nearest folder that has some."""
    for folder in folders_above(start):
        settings = settings_in(folder)
        if settings is not None:
            refuse_other_owner(settings.file, start)
            return settings
    return None


def find_project(options: Options) -> Project:
    """The project in which a call is made."""
    start = Path(os.path.realpath(options.start))
    if not start.is_dir():
        raise SettingsFault(f"{options.start}: there is no such folder")
    settings = find_settings(start)
    if settings is None:
        raise SettingsFault(f"{start}: neither here nor above is a {OWN_FILE}, or a {PROJECT_FILE} with tool.reqlock: rql init writes it")
    return project_of(settings, options)


def project_of(settings: Settings, options: Options) -> Project:
    """The project of settings. Each place that they name is looked at first."""
    base = settings.file.parent
    top = top_of(base)
    folder = place_in(top, base, settings.folder, f"{settings.file}: folder")
    project = Project(settings, options, base, top, folder)
    for text in settings.constraints:
        project.place(text, "constraints")
    for text in settings.sources:
        project.place(PART.sub("", text), "sources")
    check_exports(project)
    return project


def is_programs(place: Path, folder: Path) -> bool:
    """Whether a file is one of the program's: in its folder, or in that of another history."""
    is_there = place.parent == folder or os.path.lexists(place.parent / JOURNAL)
    return is_there and PROGRAM_FILE.fullmatch(place.name) is not None


def check_exports(project: Project) -> None:
    """Refuses exports that would take the place of something else."""
    known = {project.settings.file}
    known |= {project.place(PART.sub("", text), "sources") for text in project.settings.sources}
    known |= {project.place(text, "constraints") for text in project.settings.constraints}
    targets = {environment.name for environment in project.settings.environments} or {""}
    for number, export in enumerate(project.settings.exports):
        key = f"exports[{number}]"
        place = project.place(export.file, f"{key}.file")
        where = f"{project.settings.file}: {key}"
        if place.suffix not in EXPORT_ENDINGS:
            raise SettingsFault(f"{where}.file: {export.file!a}: a file that ends with .txt or .toml is wanted")
        if place.name in (OWN_FILE, PROJECT_FILE) or is_programs(place, project.folder):
            raise SettingsFault(f"{where}.file: {export.file!a}: it is a file of reqlock's own, or of the project's")
        if place in known:
            raise SettingsFault(f"{where}.file: {export.file!a}: the settings name this file already")
        known.add(place)
        if (export.target or "") not in targets and not export.is_of_all():
            raise SettingsFault(f"{where}.target: one of {', '.join(sorted(targets)) or 'no target'} is wanted")
