"""Which pins an index has, and why those that it has aren't locked."""

import json
import shlex
from collections.abc import Sequence
from pathlib import Path
from typing import Any

from reqlock_tools.refusal import speaker
from reqlock_tools.rql.calls import Caller, typed_path
from reqlock_tools.rql.compiled import Pin, read_text
from reqlock_tools.versions import normal, read_version, version_of

# Of as many pins the program is asked why they aren't locked.
MOST_ASKED = 20
# What the program tells of a release that counts only where a line names it.
REASONS = ("is yanked", "is yanked, and no line pins it"), ("is a pre-release", "is admitted by its pin alone")
Packages = dict[str, dict[str, Any]]

say = speaker("rql")


def releases_by_name(path: str) -> Packages:
    """The packages of an index that reqlock has read."""
    return {normal(package["name"]): package for package in json.loads(read_text(path))["packages"]}


def pinned_release(pin: Pin, packages: Packages) -> dict[str, Any] | None:
    wanted = version_of(pin.version)
    for release in packages.get(pin.name, {"releases": []})["releases"]:
        if read_version(release["version"]) == wanted:
            listed: dict[str, Any] = release
            return listed
    return None


def must_be_named(pin: Pin, packages: Packages) -> bool:
    """Whether the release that is pinned may count only where a line names it."""
    release = pinned_release(pin, packages)
    return release is not None and (release.get("yanked") or version_of(pin.version).is_prerelease)


def fits(pin: Pin, packages: Packages, absent: frozenset[str] | None) -> bool:
    """Whether the index has the release that is pinned; else it is said why the pin isn't taken over. Names that were never asked for, as
    nothing leads to them, aren't among those that are absent."""
    release = pinned_release(pin, packages)
    if release is None:
        is_asked = absent is None or pin.name in absent
        why = "the index hasn't this release of it" if pin.name in packages else "the index hasn't the package" if is_asked else "nothing needs it"
        say(f"{pin.told()}: it isn't taken over: {why}")
        return False
    others = [file["name"] for file in release["files"] if file["sha256"].lower() not in pin.digests]
    if pin.digests and len(others) == len(release["files"]):
        say(f"{pin.told()}: it isn't taken over: no file of the index has a sha256 that is listed")
        return False
    if pin.digests and others:
        say(f"{pin.told()}: the index has files whose sha256 isn't listed, which are locked too: {', '.join(others)}")
    return True


class Outcome:
    """What came of pins over an index: locks have them, or not."""

    def __init__(self, caller: Caller, folder: Path, index: Path, packages: Packages) -> None:
        self.caller, self.folder, self.index, self.packages, self.asked = caller, folder, index, packages, 0

    def tell(self, locks: Sequence[dict[str, str]], pins: Sequence[Pin]) -> int:
        """Tells which pins aren't locked, and what is locked without one; answers how many pins are. `locks` have versions by names."""
        taken = 0
        for pin in pins:
            versions = sorted({lock[pin.name] for lock in locks if pin.name in lock})
            if any(version_of(version) == version_of(pin.version) for version in versions):
                taken += 1
            elif versions:
                say(f"{pin.told()}: it isn't taken over: {', '.join(versions)} is locked{self.why_not(pin)}")
            else:
                say(f"{pin.told()}: it isn't taken over: nothing needs it")
        for name in sorted({name for lock in locks for name in lock} - {pin.name for pin in pins}):
            say(f"{name}: it is locked, and no pin was taken over for it")
        return taken

    def why_not(self, pin: Pin) -> str:
        """Why a lock hasn't a pin that the index has."""
        reason = ", since over this index it doesn't fit"
        if not must_be_named(pin, self.packages):
            return reason
        words = ["--dir", typed_path(self.folder), "--index", typed_path(self.index), "why", "--not", f"{pin.name}=={pin.version}"]
        self.asked += 1
        if self.asked > MOST_ASKED:
            return f"; {shlex.join(['reqlock', *words])} tells why"
        told = self.caller.ask(*words).output.decode(errors="replace").partition("\n")[0]
        for word, why in REASONS:
            if told.startswith(f"{pin.name} ") and word in told:
                return f", since the pinned release {why}"
        return reason
