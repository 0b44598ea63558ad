"""The environments of the settings follow an undo and a redo that change those of the history."""

from collections.abc import Mapping
from dataclasses import replace
from typing import Any

from reqlock_tools.files import write_whole
from reqlock_tools.merge_sides import Journal
from reqlock_tools.refusal import fault_text, speaker
from reqlock_tools.rql.calls import typed_path
from reqlock_tools.rql.checking import differences_of
from reqlock_tools.rql.environments import of_journal
from reqlock_tools.rql.faults import SettingsFault
from reqlock_tools.rql.history import journal_of
from reqlock_tools.rql.kept import MODE
from reqlock_tools.rql.project import Project, project_of
from reqlock_tools.rql.settings import EnvironmentSetting, ExportSetting, Settings
from reqlock_tools.rql.targets import renamed_exports

say = speaker("rql")


def followed(project: Project, before: Journal | None) -> Project:
    """The project, whose settings have the environments of the history where they had those before it moved. What else they can't have is
    told."""
    after = journal_of(project)
    if before is None or after is None or before.environments == after.environments or not project.settings.environments:
        return project
    told: list[str] = []
    try:
        told = differences_of(project.settings, after)
        if not differences_of(project.settings, before):
            return written(project, followed_settings(project.settings, before, after))
    except (SettingsFault, OSError) as fault:
        # (the history has moved already, so what else follows isn't held up)
        told = [fault_text(fault), *told]
    for text in told:
        say(text)
    return project


def written(project: Project, settings: Settings) -> Project:
    """The project with these settings, which are written."""
    from reqlock_tools.rql.settings_edit import checked, with_environments

    moved = project_of(settings, project.options)
    data = checked(settings, with_environments(project.settings, settings.environments, settings.exports))
    write_whole(str(settings.file), data, MODE)
    if not project.options.is_quiet:
        say(f"{typed_path(settings.file)}: it has the environments of the history again: rql env list prints them")
    return moved


def followed_settings(settings: Settings, before: Journal, after: Journal) -> Settings:
    """The settings with the environments of the history: first those whose names stand there, then those that had another name."""
    present = {environment.name: environment for environment in settings.environments}
    there = [name for name in present if name in after.environments]
    new = [name for name in after.environments if name not in present]
    had = {name: next((old for old, told in before.environments.items() if told == after.environments[name]), None) for name in (*there, *new)}
    environments = []
    for name in (*there, *sorted(new, key=lambda name: had[name] is None)):
        old = name if before.environments.get(name) == after.environments[name] else had[name]
        setting = present[old] if old is not None else anew(name, after.environments[name], present)
        environments.append(replace(setting, name=name))
    return replace(settings, environments=tuple(environments), exports=followed_exports(settings, tuple(environments)))


def anew(name: str, told: Mapping[str, Any], present: Mapping[str, EnvironmentSetting]) -> EnvironmentSetting:
    """The setting of an environment of the history. What that doesn't tell of the platform stays as it is under this name."""
    setting = of_journal(name, told)
    version = str(told["python_version"])
    python = version if setting.python == f"{version}.0" else setting.python
    there = present.get(name)
    if there is not None and there.platform.partition("-")[0] == setting.platform.partition("-")[0]:
        return replace(there, python=python, platform=setting.platform)
    return replace(setting, python=python)


def followed_exports(settings: Settings, environments: tuple[EnvironmentSetting, ...]) -> tuple[ExportSetting, ...]:
    """The exports, for targets of these names alone."""
    names = {environment.name for environment in environments}
    if names == {""}:
        return tuple(replace(export, target=None) for export in settings.exports)
    for number, export in enumerate(settings.exports):
        if export.target and export.target not in names:
            raise SettingsFault(f"{settings.file}: exports[{number}]: {export.file} is of {export.target}, which isn't locked for any more")
    return renamed_exports(settings, environments)
