"""The environments that are locked for: described by the settings, and what the journal has of them."""

from collections.abc import Mapping
from typing import Any

from reqlock_tools.environment import SYSTEMS, VARIABLES, Refused, described_environment, own_environment, pair_of
from reqlock_tools.rql.defaults import platform_name
from reqlock_tools.rql.faults import SettingsFault
from reqlock_tools.rql.settings import EnvironmentSetting, Settings

# What makes two environments the same for a lock: a kernel's release and a patch of Python make no difference.
TELLING = "implementation_name", "python_version", "os_name", "sys_platform", "platform_machine"


def described(setting: EnvironmentSetting, place: str) -> dict[str, Any]:
    """The environment that a setting describes, with what wheels' tags are made of."""
    versions = dict(SYSTEMS)
    for system in versions:
        text = getattr(setting, system)
        pair = pair_of(text if "." in text else f"{text}.0") if text else versions[system]
        if pair is None:
            raise SettingsFault(f"{place}.{system}: {text!a} is no version")
        versions[system] = pair
    try:
        return described_environment(setting.python, setting.platform, versions)
    except Refused as fault:
        raise SettingsFault(f"{place}.python: {str(fault).removeprefix('--python: ')}") from None


def place_of(settings: Settings, setting: EnvironmentSetting) -> str:
    """Where an environment stands in the settings."""
    return f"{settings.file}: " + (f"environments.{setting.name}" if setting.name else "environment")


def environments(settings: Settings) -> dict[str, dict[str, Any]]:
    """The environments of the settings by the names of their targets; the one of this Python where they have none."""
    targets = {environment.name: described(environment, place_of(settings, environment)) for environment in settings.environments}
    return targets or {"": own_environment()}


def variables_of(told: Mapping[str, Any]) -> dict[str, str]:
    return {name: str(told[name]) for name in VARIABLES}


def are_alike(one: Mapping[str, Any], other: Mapping[str, Any]) -> bool:
    """Whether two environments are the same for a lock."""
    return all(one.get(name) == other.get(name) for name in TELLING)


def label_of(told: Mapping[str, Any]) -> str:
    return f"Python {told['python_version']} on {told['sys_platform']} {told['platform_machine']}".rstrip()


def of_journal(name: str, told: Mapping[str, Any]) -> EnvironmentSetting:
    """The setting of an environment that is locked for."""
    platform = platform_name(told)
    if platform is None:
        raise SettingsFault(f"{told.get('sys_platform')} {told.get('platform_machine')}, which is locked for, has no name: --platform gives one")
    return EnvironmentSetting(name, str(told["python_full_version"]), platform)
