"""Check a refutation that `reqlock why` printed, without reqlock.

Give the files over which `why TEXT` was asked; REFUTATION is what it printed. `accepted` is printed, with status 0, where each
conflict follows from those before it and the last one is empty: then no choice of versions meets the file. Else the first one
that doesn't follow is printed, and what is left, with status 1. Where an input can't be read, the fault is told on standard
error, with status 2. docs/RULES.md has the rules.

Where `why` was asked with --keep-locked, give the lock with --keep: of each name that it has, its version alone counts then, but
for names that are given with --upgrade, as they were to `why`.

A check that takes more steps than --steps is given up, with status 2: what others wrote could take very long.

No line is shared with reqlock or its tests. Versions are read and ordered by packaging, or by pip's copy of it. Specifiers and
markers are read here, since packaging differs from the rules: by its release it takes `===`, empty clauses, `==1a1.*` and older
variables; 1.2a1 doesn't match `==1.2.0.*`, nor 1.0+local `>1.0a1`; and texts that are no versions are compared otherwise.
"""

import argparse
import json
import re
from collections.abc import Callable, Iterable
from typing import Any, NamedTuple

from reqlock_tools.names import called, tool
from reqlock_tools.refusal import Refusal, speaker
from reqlock_tools.refutation_texts import (
    VARIABLES, Extra, Requirement, holds, matches, names_pre_release, pins, read_line, read_name, read_requirement, read_set,
    read_version, want,
)
from reqlock_tools.regular_file import open_regular
from reqlock_tools.toml import read_toml

say = speaker("check_refutation")

MOST_TOLD = 10
# A check of more steps is given up. To compare a version with a clause takes about so many.
MOST_STEPS, STEPS_OF_A_CLAUSE = 5 * 10**7, 10

Choice = tuple[str, Extra, Any]
Conflict = frozenset[Choice]


class Release(NamedTuple):
    version: Any
    fits_python: bool
    needs: list[Requirement]
    is_yanked: bool


def read_conflict(line: str) -> Conflict:
    texts = line.removesuffix("\n").split(" ") if line != "-\n" else []
    choices = [re.fullmatch(r"([a-z0-9-]+)(?:\[([a-z0-9-]+)\])?==([!-~]+)", text) for text in texts]
    want(all(choices) and texts == sorted(set(texts)), "no conflict, which is - or sorted choices NAME==VERSION")
    return frozenset((choice[1], choice[2], read_version(choice[3])) for choice in choices if choice)


def read_index(text: str) -> dict[str, list[dict[str, Any]]]:
    """The releases of each name, as they stand there. Their form is tested as far as they are read."""
    value, releases_by_name = json.loads(text), dict[str, list[dict[str, Any]]]()
    want(isinstance(value, dict) and value.get("snapshot") == 1, called("no index of reqlock; tools/snapshot.py makes one"))
    for package in value["packages"]:
        for release in package["releases"]:
            texts = [release["version"], release.get("requires_python") or "", *(release.get("requires_dist") or [])]
            texts += [file["name"] for file in release["files"]]
            want(all(isinstance(text, str) for text in texts), f"in {package['name']!a} something is no text that should be one")
        name = read_name(package["name"])
        want(name not in releases_by_name, f"duplicate-package {name}")
        releases_by_name[name] = package["releases"]
    return releases_by_name


def read_held(text: str) -> dict[str, Any]:
    """The versions that a lock has, by name."""
    packages = read_toml(text)["packages"]
    versions = {read_name(package["name"]): read_version(package["version"]) for package in packages}
    want(len(versions) == len(packages), "a name stands twice in it")
    return versions


def read_environment(text: str) -> dict[str, str]:
    value = json.loads(text)
    for name in VARIABLES:
        want(re.fullmatch(r"[ !#-[\]-~]*", value[name]), called(f"bad-environment {name}; tools/environment.py makes one"))
    value["python_full_version"] = value["python_full_version"].removesuffix("+")
    list(map(read_version, (value["python_version"], value["python_full_version"])))
    return {name: value[name] for name in VARIABLES}


def at(place: str, read: Callable[..., Any], *values: Any) -> Any:
    """What is read of the values. A fault tells the place."""
    try:
        return read(*values)
    except (TypeError, LookupError, AttributeError):
        raise Refusal(f"{place}: it isn't of the form that docs/RULES.md tells") from None
    except (OSError, ValueError, RecursionError, Refusal) as fault:
        told = getattr(fault, "strerror", None) or str(fault)
        raise Refusal(f"{place}: {told.removeprefix(f'{place}: ')}") from None


def of_file(path: str | int, read: Callable[[str], Any], is_by_line: bool = False) -> Any:
    with open(path, "rb") if isinstance(path, int) else open_regular(path) as file:
        text = file.read().decode()
    lines = re.findall(r"[^\n]*\n|[^\n]+\Z", text)
    return [at(f"line {number}", read, line) for number, line in enumerate(lines, 1)] if is_by_line else read(text)


class Problem:
    """What has no solution. Of a name that is held, its version alone is a candidate."""

    def __init__(
        self, packages: dict[str, list[dict[str, Any]]], environment: dict[str, str], lines: list[Requirement | None],
        held: dict[str, Any] | None = None,
    ) -> None:
        self.packages, self.environment, self.held = packages, environment, held or {}
        self.read: dict[str, dict[Any, Release]] = {}
        self.python = read_version(environment["python_full_version"])
        self.lines: dict[str, list[Requirement]] = {}
        self.nodes: dict[tuple[str, Extra], tuple[str, str]] = {}
        for line in lines:
            if line and holds(line.marker, environment):
                self.lines.setdefault(line.name, []).append(line)
                self.nodes |= {node: ("a line", line.text) for node in line.nodes}
        self.pinned = {name for name, own in self.lines.items() if any(map(pins, own))}
        self.with_pre_releases = {name for name, own in self.lines.items() if any(map(names_pre_release, own))}
        self.admitted: dict[tuple[str, Any], bool] = {}
        self.refused: dict[tuple[str, Any], bool] = {}
        self.needed: dict[Choice, list[Requirement]] = {}
        self.kept: dict[str, list[Any]] = {}
        self.steps = self.most_steps = MOST_STEPS

    def spend(self, steps: int) -> None:
        """Counts steps, and gives up where there are too many."""
        self.steps -= steps
        want(self.steps >= 0, f"it takes over {self.most_steps} steps to check; --steps NUMBER takes more")

    def releases(self, name: str) -> dict[Any, Release]:
        """The releases of a name by version, without those that can't be read, have no file or stand twice."""
        if name not in self.read:
            by_version: dict[Any, Release] = {}
            self.read[name] = by_version
            for listed in self.packages.get(name, []):
                try:
                    version, python = read_version(listed["version"]), read_set(listed.get("requires_python") or "")
                    needs = list(map(read_requirement, listed.get("requires_dist") or []))
                except Refusal:
                    continue
                if any(file["name"].endswith((".whl", ".tar.gz", ".zip")) for file in listed["files"]):
                    release = Release(version, matches(python, self.python), needs, listed.get("yanked", False))
                    by_version.setdefault(version, release)
        return self.read[name]

    def candidates(self, name: str) -> list[Any]:
        """The versions of a name that a solution may have."""
        if name not in self.kept:
            self.kept[name] = [version for version in self.releases(name) if self.held.get(name, version) == version]
        return self.kept[name]

    def matches(self, requirement: Requirement, version: Any) -> bool:
        self.spend(STEPS_OF_A_CLAUSE * (1 + len(requirement.clauses)))
        return matches(requirement.clauses, version)

    def admits(self, requirement: Requirement, version: Any) -> bool:
        """Whether a requirement admits a release of this version, and there is one."""
        key = requirement.text, version
        if key not in self.admitted:
            release = self.releases(requirement.name).get(version)
            self.admitted[key] = release is not None and self.admits_release(requirement, release)
        return self.admitted[key]

    def admits_release(self, requirement: Requirement, release: Release) -> bool:
        name, version = requirement.name, release.version
        if not release.fits_python or not self.matches(requirement, version):
            return False
        if release.is_yanked and not (name in self.pinned or pins(requirement)):
            return False
        if not version.is_prerelease or name in self.with_pre_releases or names_pre_release(requirement):
            return True
        usable = [other for other in self.releases(name).values() if other.fits_python and not other.is_yanked]
        finals = [other.version for other in usable if not other.version.is_prerelease]
        return not any(self.matches(requirement, final) for final in finals)

    def lines_refuse(self, name: str, version: Any) -> bool:
        """Whether a line on a name doesn't admit a version."""
        if (name, version) not in self.refused:
            release, own = self.releases(name).get(version), self.lines.get(name, [])
            self.refused[name, version] = any(release is None or not self.admits_release(line, release) for line in own)
        return self.refused[name, version]

    def needs(self, choice: Choice) -> list[Requirement]:
        """What a chosen release needs here."""
        if choice not in self.needed:
            name, extra, version = choice
            asked = getattr(self.releases(name).get(version), "needs", [])
            self.needed[choice] = [need for need in asked if holds(need.marker, self.environment, extra)]
        return self.needed[choice]

    def is_ruled_out(self, choices: Conflict, earlier: dict[Choice | None, list[Conflict]]) -> bool:
        """Whether an earlier conflict is part of some choices."""
        for choice in (None, *choices):
            for place, conflict in enumerate(earlier.get(choice, ()), 1):
                if conflict <= choices:
                    self.spend(place)
                    return True
            self.spend(1 + len(earlier.get(choice, ())))
        return False

    def left(self, conflict: Conflict, earlier: dict[Choice | None, list[Conflict]]) -> list[str] | None:
        """For each needed node a release that is left; None where the conflict follows. Earlier ones stand under a choice."""
        versions, unmet = {name: version for name, _, version in conflict}, dict[tuple[str, Extra], str]()
        needs = [(told([choice]), need) for choice in conflict for need in self.needs(choice)]
        refuses = any(need.name in versions and not self.admits(need, versions[need.name]) for _, need in needs)
        if refuses or any(versions[name] != version or self.lines_refuse(name, version) for name, _, version in conflict):
            return None
        nodes = self.nodes | {node: (who, need.text) for who, need in needs for node in need.nodes}
        self.spend(len(needs) + len(nodes))
        for node, (who, text) in nodes.items():
            for version in self.candidates(node[0]):
                if not self.is_ruled_out(conflict | {(*node, version)}, earlier):
                    break
            else:
                return None
            unmet[node] = f"{who} needs {text.encode('unicode_escape').decode()}, and {told([(*node, version)])} is left"
        return list(unmet.values())


def told(conflict: Iterable[Choice]) -> str:
    return " ".join(sorted(f"{name}[{extra}]=={version}" if extra else f"{name}=={version}" for name, extra, version in conflict)) or "-"


def check(problem: Problem, conflicts: list[Conflict]) -> list[str]:
    """What there is to say against a refutation, in lines; none where it is accepted."""
    earlier: dict[Choice | None, list[Conflict]] = {}
    for number, conflict in enumerate(conflicts, 1):
        if (left := problem.left(conflict, earlier)) is not None:
            return [f"line {number}: {told(conflict)} doesn't follow from those before", *(f"  {text}" for text in left[:MOST_TOLD])]
        rarest = min(conflict, key=lambda choice: len(earlier.get(choice, ())), default=None)
        earlier.setdefault(rarest, []).append(conflict)
    end = f"line {len(conflicts)}: the last conflict isn't the empty one, -" if conflicts else "there is no conflict at all"
    return [] if conflicts and not conflicts[-1] else [end]


def parser_of() -> argparse.ArgumentParser:
    parser = argparse.ArgumentParser(
        prog=tool("check_refutation"), description=called(__doc__ or ""), formatter_class=argparse.RawDescriptionHelpFormatter
    )
    for name in "INDEX", "ENVIRONMENT", "REQUIREMENTS":
        parser.add_argument(name)
    parser.add_argument("--line", metavar="TEXT", default="", help="the text that `why` was given")
    parser.add_argument("--keep", metavar="LOCK", help="the lock, where `why` was asked with --keep-locked")
    parser.add_argument(
        "--upgrade", metavar="NAME", action="append", default=[], help="a name whose versions all count; may stand several times"
    )
    parser.add_argument("--steps", metavar="NUMBER", type=int, default=MOST_STEPS, help=f"give up behind so many steps; else {MOST_STEPS}")
    return parser


def main(words: list[str]) -> int:
    options = parser_of().parse_args(words)
    try:
        packages = at(options.INDEX, of_file, options.INDEX, read_index)
        environment = at(options.ENVIRONMENT, of_file, options.ENVIRONMENT, read_environment)
        lines = at(options.REQUIREMENTS, of_file, options.REQUIREMENTS, read_line, True) + [at("--line", read_line, options.line)]
        held = at(options.keep, of_file, options.keep, read_held) if options.keep is not None else {}
        freed = [at("--upgrade", read_name, name) for name in options.upgrade]
        held = {name: version for name, version in held.items() if name not in freed}
        problem = Problem(packages, environment, lines, held)
        problem.steps = problem.most_steps = options.steps
        against = at("standard input", check, problem, at("standard input", of_file, 0, read_conflict, True))
    except Refusal as fault:
        say(str(fault))
        return 2
    print("\n".join(against) or "accepted")
    return int(against != [])

