"""What a lock has for an environment: a version of each package, with the files of which one is installed."""

from collections.abc import Mapping
from dataclasses import dataclass
from pathlib import Path
from typing import Any

from reqlock_tools.hashed_requirements import Package, read_locked_packages, tables, want
from reqlock_tools.refusal import Refusal
from reqlock_tools.rql.faults import SettingsFault
from reqlock_tools.tags import tags_of, takes
from reqlock_tools.toml import read_toml


@dataclass(frozen=True)
class LockedFile:
    """A file that a lock has. The URL is empty where the lock tells none."""

    name: str
    url: str
    sha256: str

    @property
    def is_wheel(self) -> bool:
        return self.name.endswith(".whl")

    @property
    def is_linked(self) -> bool:
        """Whether the lock tells where it can be fetched."""
        return self.url.startswith(("https://", "http://", "file://"))


@dataclass(frozen=True)
class Locked:
    """A package as it is locked, with the files that an environment can install."""

    name: str
    version: str
    digests: tuple[str, ...]
    files: tuple[LockedFile, ...]

    @property
    def is_built(self) -> bool:
        """Whether it has to be built here, of an sdist."""
        return not any(file.is_wheel for file in self.files)

    @property
    def is_linked(self) -> bool:
        """Whether it can be had without an index."""
        return any(file.is_wheel and file.is_linked for file in self.files)

    def line(self) -> str:
        """The line for pip."""
        return f"{self.name}=={self.version}" + "".join(f" --hash=sha256:{digest}" for digest in self.digests)


def file_of(table: dict[str, Any], name: str) -> LockedFile:
    url, told = table.get("url", ""), table.get("name", "")
    text = want(told, str, f"{name}: name") or str(url).rpartition("/")[2].partition("#")[0]
    return LockedFile(text, want(url, str, f"{name}: url"), table["hashes"]["sha256"])


def files_of(table: dict[str, Any], name: str) -> list[LockedFile]:
    """The files of a package, whose hashes have been read already."""
    files = tables(table, "wheels", name) + ([table["sdist"]] if "sdist" in table else [])
    return [file_of(file, name) for file in files]


def read_locked(path: Path, text: str, environment: Mapping[str, object]) -> dict[str, Locked]:
    """The packages of a lock by name, with the files that an environment takes. A package without any is refused."""
    try:
        packages = read_locked_packages(text)[1]
        files = {package["name"]: files_of(package, package["name"]) for package in read_toml(text)["packages"]}
    except Refusal as fault:
        raise SettingsFault(f"{path}: {fault}") from None
    tags = tags_of(environment)
    locked = {}
    for name, package in packages.items():
        fitting = tuple(file for file in files[name] if not file.is_wheel or tags is None or takes(tags, file.name))
        locked[name] = locked_of(path, package, fitting)
    return locked


def locked_of(path: Path, package: Package, files: tuple[LockedFile, ...]) -> Locked:
    if not files:
        raise SettingsFault(
            f"{path}: {package.name} {package.version}: it has no sdist, and none of its wheels fits this environment: rql relock"
        )
    return Locked(package.name, package.version, tuple(package.digests), files)
