"""What `rql init` takes where no word tells it: the index that pip asks, and this machine's platform."""

import ast
import os
import re
import subprocess
import sys
from collections.abc import Mapping
from pathlib import Path

from reqlock_tools.environment import PLATFORMS, SYSTEMS, Refused, described_environment, own_environment
from reqlock_tools.refusal import speaker
from reqlock_tools.rql.faults import SettingsFault
from reqlock_tools.rql.pip_files import may_be_configured

PIP = sys.executable, "-m", "pip"
VARIABLES_OF_INDEXES = "PIP_INDEX_URL", "UV_INDEX_URL", "UV_DEFAULT_INDEX"
DEFAULT = re.compile(r"\(default:?\s+(https?://\S+?)\)")

say = speaker("rql")


def pip_told(*words: str) -> str:
    """What pip prints; nothing where it isn't there."""
    try:
        done = subprocess.run([*PIP, *words], stdin=subprocess.DEVNULL, capture_output=True, encoding="utf-8", errors="replace", check=False)
    except OSError:
        return ""
    return done.stdout if done.returncode == 0 else ""


def pip_configuration() -> str:
    """What pip has in the files of its configuration."""
    return pip_told("config", "list") if may_be_configured(sys.prefix) else ""


def configured(key: str, of_pip: str) -> str | None:
    """What pip's configuration has at a key, as index-url; None where it has nothing."""
    values = re.findall(rf"(?m)^(?:global|install)\.{key}=(.*)$", of_pip)
    try:
        return str(ast.literal_eval(values[-1])) if values else None
    except (SyntaxError, ValueError):
        return None


def index_of_pip(of_pip: str) -> tuple[str, str]:
    """The index that pip asks, and what says so."""
    for variable in VARIABLES_OF_INDEXES:
        if os.environ.get(variable):
            return os.environ[variable], variable
    told = configured("index-url", of_pip)
    if told:
        return told, "pip's configuration"
    default = DEFAULT.search(" ".join(pip_told("install", "--help").split()))
    if default is None:
        raise SettingsFault("no index is known: pip isn't there to tell one: give it by --index URL")
    return default[1], "pip install --help"


def plain_index(url: str, origin: str) -> str:
    """The address of an index without user and password, and with a / at its end. Where a password is put is told."""
    from reqlock_tools.rql.settings import way_of
    from reqlock_tools.simple.addresses import Unfetched, is_index, parts_of, plain_url

    try:
        parts = parts_of(url)
        plain = plain_url(url).rstrip("/") + "/"
        if not is_index(plain):
            raise SettingsFault(f"{origin}: the address of an index is wanted, as https://HOST/simple/")
    except Unfetched as fault:
        raise SettingsFault(f"{origin}: {fault}") from None
    if parts.username is not None or parts.password is not None:
        say(f"{origin}: user and password aren't written into settings: {way_of(url)}")
    return plain


def indexes(given: tuple[str, ...], base: Path) -> tuple[str, ...]:
    """The addresses of the indexes: those that are given; else the default one that the project has for uv or Poetry; else the one that pip
    asks."""
    if given:
        return tuple(plain_index(url, "--index") for url in given)
    from reqlock_tools.rql.other_indexes import default_of, other_indexes, tell_others

    others = other_indexes(base)
    default = default_of(others)
    of_pip = "" if default else pip_configuration()
    url, origin = default or index_of_pip(of_pip)
    index = plain_index(url, origin)
    say(f"index {index}, as {origin} says")
    tell_others(others, index)
    if default is not None:
        return (index,)
    if os.environ.get("PIP_EXTRA_INDEX_URL") or configured("extra-index-url", of_pip):
        say("pip's extra index isn't taken over, since pip mixes what indexes have: give all by --index URL, in order")
    return (index,)


def platform_name(told: Mapping[str, object]) -> str | None:
    """The name of the platform of an environment; None where it has none."""
    is_musl = any("musllinux" in str(tag) for tag in as_texts(told.get("platforms")))
    for name, platform in PLATFORMS.items():
        values = (told["os_name"], told["platform_machine"], told["platform_system"], told["sys_platform"])
        if values == tuple(platform[:4]) and (platform.family == "musl") == is_musl:
            return name
    return None


def as_texts(value: object) -> list[str]:
    return [str(item) for item in value] if isinstance(value, list) else []


def refuse_platform(name: str) -> None:
    """Refuses the name of a platform that nobody knows."""
    if name not in PLATFORMS:
        raise SettingsFault(f"--platform {name}: one of {', '.join(PLATFORMS)} is wanted")


def refuse_python(version: str) -> None:
    """Refuses what is no version of a Python that can be described."""
    try:
        described_environment(version, next(iter(PLATFORMS)), dict(SYSTEMS))
    except Refused as fault:
        raise SettingsFault(str(fault)) from None


def own_platform() -> str:
    """The name of this machine's platform."""
    name = platform_name(own_environment())
    if name is None:
        raise SettingsFault(f"this machine has no name as a platform: give one by --platform: {', '.join(PLATFORMS)}")
    return name


def own_python() -> str:
    """The version of this Python, without what tells of a pre-release."""
    return ".".join(map(str, sys.version_info[:3]))


def family_name(platform: str) -> str:
    """The name of a target for a platform, as linux for linux-x86_64."""
    return platform.partition("-")[0]


def target_names(platforms: tuple[str, ...]) -> list[str]:
    """A name for each platform: that of its family, or where two have the same the whole."""
    families = [family_name(platform) for platform in platforms]
    return [family if families.count(family) == 1 else whole.replace("_", "-") for family, whole in zip(families, platforms)]


