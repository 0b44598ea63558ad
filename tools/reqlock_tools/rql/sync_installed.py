"""What a virtual environment has, as its own Python tells it."""

import json
import os
import shlex
import subprocess
import sys
from collections.abc import Mapping
from dataclasses import dataclass
from pathlib import Path

from reqlock_tools import environment as description
from reqlock_tools.files import Node
from reqlock_tools.refusal import Refusal
from reqlock_tools.rql import sync_probe
from reqlock_tools.rql.faults import SettingsFault
from reqlock_tools.versions import normal

SECONDS = 60


@dataclass(frozen=True)
class Origin:
    """Where a distribution came from that no index gave (PEP 610): a folder or a checkout, or an archive with its SHA-256."""

    url: str
    is_checkout: bool
    sha256: str | None


@dataclass(frozen=True)
class Installed:
    """A distribution of an environment, by its normal name. The version is empty where nobody tells it."""

    name: str
    version: str
    requires: tuple[str, ...]
    origin: Origin | None


@dataclass(frozen=True)
class VirtualEnvironment:
    """A virtual environment: its Python, what that tells of itself, and what is installed, by name."""

    place: Path
    python: Path
    told: Mapping[str, object]
    installed: Mapping[str, Installed]

    def label(self) -> str:
        return label_of(self.told)

    @property
    def version(self) -> tuple[int, ...]:
        """The version of its Python, as 3.11."""
        return tuple(int(number) for number in str(self.told["python_version"]).split("."))


def label_of(told: Mapping[str, object]) -> str:
    """An environment as a person reads it."""
    return f"{told['implementation_name']} {told['python_version']} on {told['sys_platform']} {told['platform_machine']}".rstrip()


def making(place: Path, *options: str) -> str:
    """The call that makes a virtual environment."""
    return shlex.join(["python3", "-m", "venv", *options, str(place)])


def python_in(place: Path) -> Path:
    """The Python of a virtual environment. A folder that is none is refused, so that nobody's system is emptied."""
    if not (place / "pyvenv.cfg").is_file():
        next_step = f"{making(place)} makes one" if not place.exists() else "only those are changed that venv or virtualenv made"
        raise SettingsFault(f"{place}: it is no virtual environment: {next_step}")
    python = place / "bin" / "python"
    if not os.access(python, os.X_OK):
        raise SettingsFault(f"{place}: its Python can't be run: {making(place, '--clear')} makes it anew")
    return python


def read_environment(place: Path) -> VirtualEnvironment:
    """Asks the Python of an environment what it is and has. It sees neither the folder in which the call is made nor variables for
    Pythons."""
    python = python_in(place)
    command = [str(python), "-I", "-B", sync_probe.__file__, description.__file__]
    try:
        done = subprocess.run(command, stdin=subprocess.DEVNULL, capture_output=True, timeout=SECONDS, check=True)
        told = Node(str(python), json.loads(done.stdout))
        prefix = told.member("prefix").text()
        distributions = [installed_of(distribution) for distribution in told.member("distributions").items()]
        environment, places = told.member("environment").object(), told.member("places").texts()
    except (OSError, ValueError, Refusal, subprocess.SubprocessError):
        raise SettingsFault(f"{python}: it is no Python of version 3.6 or later that tells what it is") from None
    if prefix != os.path.realpath(place):
        raise SettingsFault(f"{place}: its Python is that of {prefix}: {making(place, '--clear')} makes it anew")
    for path in places:
        if not path.startswith(prefix + os.sep):
            raise SettingsFault(f"{place}: a link leads from it to {path}: {making(place, '--clear')} makes it anew")
    # (of two of one name the first is the one that is imported)
    return VirtualEnvironment(place, python, environment, {distribution.name: distribution for distribution in reversed(distributions)})


def installed_of(told: Node) -> Installed:
    """A distribution as the environment's Python tells it."""
    return Installed(
        normal(told.member("name").text()), told.member("version").text(), tuple(told.member("requires").texts()),
        origin_of(told.member("origin").value),
    )


def origin_of(told: object) -> Origin | None:
    """Where a distribution came from, by PEP 610; None where that tells nothing."""
    if not isinstance(told, dict):
        return None
    archive = told.get("archive_info")
    hashes = archive.get("hashes") if isinstance(archive, dict) else None
    sha256 = hashes.get("sha256") if isinstance(hashes, dict) else None
    is_checkout = isinstance(told.get("dir_info"), dict) or isinstance(told.get("vcs_info"), dict)
    return Origin(str(told.get("url", "")), is_checkout, sha256 if isinstance(sha256, str) else None)


def is_own(place: Path) -> bool:
    """Whether an environment is the one in which this runs."""
    return os.path.realpath(place) == os.path.realpath(sys.prefix)
