"""`rql env`: the environments that are locked for."""

from collections.abc import Iterable, Sequence
from dataclasses import replace
from difflib import get_close_matches

from reqlock_tools.environment import PLATFORMS
from reqlock_tools.files import write_whole
from reqlock_tools.refusal import fault_text
from reqlock_tools.rql.checking import named
from reqlock_tools.rql.defaults import family_name, own_platform, own_python, refuse_platform, refuse_python
from reqlock_tools.rql.edits import edited
from reqlock_tools.rql.environments import described, environments, label_of, place_of
from reqlock_tools.rql.faults import SettingsFault
from reqlock_tools.rql.history import Saving, journal_of
from reqlock_tools.rql.kept import MODE, Kept
from reqlock_tools.rql.project import Project, project_of
from reqlock_tools.rql.requests import EditRequest, EnvRequest
from reqlock_tools.rql.settings import TARGET, EnvironmentSetting, ExportSetting, Settings
from reqlock_tools.rql.settings_edit import checked, told_text, with_environments


def run_env(project: Project, request: EnvRequest) -> int:
    """Lists the environments, or locks for one more, for one less, or for another one."""
    if request.word == "list":
        for line in listed(project.settings):
            print(line)
        return 0
    kept = Kept(project)
    with kept.locked():
        return EnvironmentsChange(project, kept, request).run()


def listed(settings: Settings) -> list[str]:
    """The environments as a table; a target without a name is a hyphen."""
    if not settings.environments:
        return [f"-  {label_of(told)}" for told in environments(settings).values()]
    rows = [("target", "python", "platform")] + [(target.name or "-", target.python, target.platform) for target in settings.environments]
    widths = [max(len(row[place]) for row in rows) for place in range(2)]
    return [f"{name:<{widths[0]}}  {python:<{widths[1]}}  {platform}" for name, python, platform in rows]


class EnvironmentsChange:
    """A change of the environments in the settings, which the history follows as one step."""

    def __init__(self, project: Project, kept: Kept, request: EnvRequest) -> None:
        self.project, self.kept, self.request = project, kept, request

    def run(self) -> int:
        before = self.project.settings
        changed = self.changed()
        exports = renamed_exports(before, changed)
        settings = replace(before, environments=changed, exports=exports)
        text = checked(settings, with_environments(before, changed, exports))
        project = project_of(settings, self.project.options)
        saving, status = Saving(project), 0
        if journal_of(self.project) is not None:
            status = edited(project, Kept(project), self.retarget(), is_pending=True)
        if saving.is_done(status) and not self.request.retarget.is_dry:
            write_settings(settings, text)
        return status

    def retarget(self) -> EditRequest:
        """The edit that has the history follow. Pins are of the target that comes, and not of one that gets a name beside it."""
        request = self.request
        if request.word != "add":
            return request.retarget
        return request.retarget._replace(pins=tuple(pins if "=" in pins else f"{request.name}={pins}" for pins in request.retarget.pins))

    def changed(self) -> tuple[EnvironmentSetting, ...]:
        """The environments that there are to be."""
        before, request = self.project.settings, self.request
        if request.python:
            refuse_python(request.python)
        if request.platform:
            refuse_platform(request.platform)
        if request.word == "remove":
            return removed(before, request.name or "")
        return added(before, request, request.name or "") if request.word == "add" else changed(before, request)


def write_settings(settings: Settings, text: bytes) -> None:
    """Writes settings whose environments are locked for already."""
    try:
        write_whole(str(settings.file), text, MODE)
    except OSError as fault:
        told = f"it is locked for the new environments, and the settings have the old ones: rql undo, or have them be {told_text(settings)}"
        raise SettingsFault(f"{fault_text(fault)}: {told}") from None


def added(settings: Settings, request: EnvRequest, name: str) -> tuple[EnvironmentSetting, ...]:
    """The environments with one more. One without a name gets the name of its platform."""
    if not TARGET.fullmatch(name):
        raise SettingsFault(f"{name!a}: it is no name of a target: small letters, digits and -")
    present = present_environments(settings)
    new = EnvironmentSetting(name, request.python or present[0].python, request.platform or platform_of(name))
    described(new, place_of(settings, new))
    others = [target if target.name else replace(target, name=family_name(target.platform)) for target in present]
    if name in [other.name for other in others]:
        raise SettingsFault(f"{place_of(settings, new)}: this target is there already: rql env set {name} changes it")
    return (*others, new)


def changed(settings: Settings, request: EnvRequest) -> tuple[EnvironmentSetting, ...]:
    """The environments with another Python, or on another platform, in the place of one; that is the one alone where no name was typed."""
    if not (request.python or request.platform):
        raise SettingsFault("rql env set: --python VERSION or --platform NAME is wanted")
    present = present_environments(settings)
    name = request.name if request.name is not None else present[0].name
    if request.name is None and len(present) > 1:
        names = ", ".join(environment.name for environment in present)
        raise SettingsFault(f"rql env set: a name is wanted: {names}; for several in one step, change the settings, and then: rql retarget")
    if name and not present[0].name:
        raise SettingsFault(f"rql env set {name}: the only environment has no name, so it is meant where none is typed: leave {name} out")
    refuse_absent(settings, present, name)
    new = {"python": request.python, "platform": request.platform}
    given = {key: value for key, value in new.items() if value}
    return tuple(replace(environment, **given) if environment.name == name else environment for environment in present)


def refuse_absent(settings: Settings, environments: Sequence[EnvironmentSetting], name: str) -> None:
    """Refuses a name that is of no environment."""
    names = [environment.name for environment in environments]
    if name not in names:
        raise SettingsFault(f"{settings.file}: environments: {name!a} isn't among them{near_name(name, names)}: rql env list prints them")


def near_name(name: str, names: Iterable[str]) -> str:
    """What is told of a name that is nearly another one."""
    return "".join(f"; did you mean {near}" for near in get_close_matches(name, list(names), 1))


def renamed_exports(settings: Settings, changed: Sequence[EnvironmentSetting]) -> tuple[ExportSetting, ...]:
    """The exports, where the target without a name got one: they are of that one, but for those of all."""
    if "" in {environment.name for environment in changed} or all(environment.name for environment in present_environments(settings)):
        return settings.exports
    return tuple(export if export.target or export.is_of_all() else replace(export, target=changed[0].name) for export in settings.exports)


def present_environments(settings: Settings) -> tuple[EnvironmentSetting, ...]:
    """The environments of the settings; that of this Python where they have none."""
    return settings.environments or (EnvironmentSetting("", own_python(), own_platform()),)


def platform_of(name: str) -> str:
    """The platform that the name of a target means: the first of its family, as windows-x86_64 for windows."""
    platform = next((platform for platform in PLATFORMS if family_name(platform) == name), None)
    if platform is None:
        near = near_name(name, map(family_name, PLATFORMS))
        raise SettingsFault(f"{name}: which platform is it{near}? --platform says it: {', '.join(PLATFORMS)}")
    return platform


def removed(settings: Settings, name: str) -> tuple[EnvironmentSetting, ...]:
    """The environments with one less."""
    refuse_absent(settings, settings.environments, name)
    others = tuple(environment for environment in settings.environments if environment.name != name)
    if not others:
        raise SettingsFault(f"{settings.file}: environments: {named(name)} is the only one")
    for number, export in enumerate(settings.exports):
        if export.target == name:
            raise SettingsFault(f"{settings.file}: exports[{number}]: {export.file} is of {name}: take it out of the settings first")
    return others
