"""What a sync does: what is installed, what is taken out afterwards, and what stays though it isn't locked."""

from collections.abc import Mapping
from dataclasses import dataclass

from reqlock_tools.markers import Markers
from reqlock_tools.requirements import need_of
from reqlock_tools.rql.sync_installed import Installed, VirtualEnvironment
from reqlock_tools.rql.sync_locked import Locked
from reqlock_tools.versions import read_version

# What an environment has from its beginning: venv puts them there, and some of Debian's put pkg-resources beside them.
FIRST = "pip", "setuptools", "wheel", "pkg-resources"
# The distribution that rql is a part of.
OWN = "reqlock"


@dataclass(frozen=True)
class SyncPlan:
    """What is installed, with the version that stands there, where one does; what is taken out; and why the rest stays."""

    installs: tuple[tuple[Locked, Installed | None], ...]
    removals: tuple[Installed, ...]
    stays: tuple[tuple[Installed, str], ...]

    def is_empty(self) -> bool:
        return not self.installs and not self.removals

    def lines(self) -> list[str]:
        """The changes as a person reads them."""
        lines = [install_line(*install) for install in self.installs]
        return lines + [f"- {removal.name} {removal.version}".rstrip() for removal in self.removals]


def install_line(locked: Locked, installed: Installed | None) -> str:
    if installed is None:
        return f"+ {locked.name} {locked.version}"
    if installed.origin is not None:
        return f"{locked.name} {installed.version} of {installed.origin.url} -> {locked.version} as locked"
    return f"{locked.name} {installed.version or '(unknown)'} -> {locked.version}"


def is_as_locked(installed: Installed, locked: Locked) -> bool:
    """Whether what is installed is what is locked: this version, and no folder, checkout or other archive."""
    version = read_version(installed.version)
    if version is None or version != read_version(locked.version):
        return False
    return installed.origin is None or installed.origin.sha256 in locked.digests


def plan_of(environment: VirtualEnvironment, locked: Mapping[str, Locked], keep: frozenset[str], is_exact: bool) -> SyncPlan:
    """What an environment needs so that it has what is locked and nothing else."""
    installs = []
    for name, package in sorted(locked.items()):
        installed = environment.installed.get(name)
        if installed is None or not is_as_locked(installed, package):
            installs.append((package, installed))
    removals, stays = [], []
    needed = own_needs(environment)
    for name, other in sorted(environment.installed.items()):
        if name in locked or name in FIRST:
            continue
        why = reason_to_stay(other, keep, needed, is_exact)
        if why is None:
            removals.append(other)
        else:
            stays.append((other, why))
    return SyncPlan(tuple(installs), tuple(removals), tuple(stays))


def reason_to_stay(installed: Installed, keep: frozenset[str], needed: frozenset[str], is_exact: bool) -> str | None:
    """Why a distribution that isn't locked stays; None where it is taken out."""
    if installed.name in keep:
        return "--keep"
    if installed.name in needed:
        return "rql needs it"
    if installed.origin is not None and installed.origin.is_checkout and not is_exact:
        return f"it comes from {installed.origin.url}; --exact takes it out"
    return None


def own_needs(environment: VirtualEnvironment) -> frozenset[str]:
    """rql and all that it needs, where it is installed in the environment; of its own extras each counts."""
    own = environment.installed.get(OWN)
    if own is None:
        return frozenset()
    markers = Markers([{key: str(value) for key, value in environment.told.items()}])
    names, waiting = {OWN}, [(OWN, frozenset[str](), True)]
    seen = set(waiting)
    while waiting:
        name, extras, is_all = waiting.pop()
        for text in environment.installed[name].requires if name in environment.installed else ():
            need = need_of(text)
            if need is None or not (is_all or any(markers.can_hold(need.marker, extra) for extra in ("", *extras))):
                continue
            names.add(need.name)
            asked = (need.name, frozenset(need.extras), False)
            if asked not in seen:
                seen.add(asked)
                waiting.append(asked)
    return frozenset(names)
