"""What locks have, which stays in a snapshot."""

from collections.abc import Iterable

from reqlock_tools.files import Node, read_text
from reqlock_tools.refusal import Refusal
from reqlock_tools.toml import read_toml
from reqlock_tools.versions import Version, normal, read_version, version_of

Locked = dict[str, set[Version]]


def lock_node(path: str) -> Node:
    text = read_text(path)
    try:
        return Node(path, read_toml(text))
    except Refusal as fault:
        raise Refusal(f"{path}: {fault}") from None


def version_of_package(package: Node) -> Version | None:
    """The version of a package; None where the lock tells none, as it may of a folder or a repository."""
    told = package.member("version")
    if told.value is None:
        return None
    version = read_version(told.text())
    told.want(version is not None, "a version")
    return version


def texts_of(locked: Locked) -> tuple[str, ...]:
    """Versions as texts NAME==VERSION, in order."""
    return tuple(f"{name}=={version}" for name in sorted(locked) for version in sorted(locked[name]))


def versions_of(texts: Iterable[str]) -> Locked:
    """The versions of such texts."""
    versions: Locked = {}
    for text in texts:
        name, _, version = text.partition("==")
        versions.setdefault(name, set()).add(version_of(version))
    return versions


def locked_versions(paths: Iterable[str]) -> Locked:
    """The versions that locks have, by the normal names of packages."""
    versions: Locked = {}
    for path in paths:
        for package in lock_node(path).member("packages").items():
            version = version_of_package(package)
            if version is not None:
                versions.setdefault(normal(package.member("name").name()), set()).add(version)
    return versions
