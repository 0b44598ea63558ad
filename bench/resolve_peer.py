#!/usr/bin/env python3
"""Locks a requirements file over an index with the library resolvelib, and a provider made of packaging.

resolve_peer.py resolve INDEX REQUIREMENTS [plain|pip [SECONDS]]
                                                prints what is locked, a pin a line, and then the microseconds that it took
resolve_peer.py check INDEX REQUIREMENTS <PINS  sees that pins, as printed, are a solution, and prints their number
resolve_peer.py versions                        prints which libraries it takes (libraries.py)

Versions and requirements are parsed before the time begins; they are matched within it. The time is processor time, and after so
many seconds of it the process is ended. There are neither markers nor extras. Of the names that are asked for and not pinned
yet, the least by bytes is next, as with reqlock; or with `pip` they go as in pip 23.2: pinned ones before others, then those for
which the search went back last, the nearest to the file, and those with specifiers. Where it finds no solution, it prints `none`.
"""
import functools
import json
import math
import re
import resource
import sys
import time
from collections import namedtuple

from libraries import SpecifierSet, Version, packaging, resolvelib

Release = namedtuple("Release", "name version dependencies")


@functools.cache
def read_requirement(text):
    """The name and the set of a requirement, for which `Requirement` takes some versions of packaging long."""
    name = re.match("[A-Za-z0-9._-]+", text)[0]
    return name, SpecifierSet(text[len(name) :])


class Wanted:
    """A requirement, which is matched with each release at most once."""

    def __init__(self, text):
        self.name, self.specifier = read_requirement(text.strip())
        self.answers = {}

    def __str__(self):
        return f"{self.name}{self.specifier}"

    def admits(self, release):
        answer = self.answers.get(id(release))
        if answer is None:
            answer = self.answers[id(release)] = self.specifier.contains(release.version)
        return answer


def read_packages(path):
    with open(path, "rb") as file:
        return json.load(file)["packages"]


def read_release(name, release):
    return Release(name, Version(release["version"]), [Wanted(text) for text in release["requires_dist"]])


def read_index(path):
    """The releases of each name, newest first."""
    found = {}
    for package in read_packages(path):
        releases = [read_release(package["name"], release) for release in package["releases"]]
        found[package["name"]] = sorted(releases, key=lambda release: release.version, reverse=True)
    return found


def read_requirements(path):
    with open(path) as file:
        return [Wanted(line) for line in file]


class Provider(resolvelib.AbstractProvider):
    """Takes the least name, by bytes, of those that are asked for and not pinned yet."""

    def __init__(self, index):
        self.index = index

    def identify(self, requirement_or_candidate):
        return requirement_or_candidate.name

    def get_preference(self, identifier, resolutions, candidates, information, backtrack_causes):
        return identifier

    def find_matches(self, identifier, requirements, incompatibilities):
        wanted = list(requirements[identifier])
        refused = {id(release) for release in incompatibilities[identifier]}
        return [
            release
            for release in self.index.get(identifier, [])
            if id(release) not in refused and all(each.admits(release) for each in wanted)
        ]

    def is_satisfied_by(self, requirement, candidate):
        return requirement.admits(candidate)

    def get_dependencies(self, candidate):
        return candidate.dependencies


class PipProvider(Provider):
    """Takes the names in the order of pip 23.2."""

    def __init__(self, index, requirements):
        super().__init__(index)
        self.asked = {requirement.name: place for place, requirement in reversed(list(enumerate(requirements)))}
        self.depths = {}

    def depth(self, identifier, parents):
        if identifier in self.asked:
            return 1.0
        return min((self.depths.get(parent.name, math.inf) if parent else 0.0 for parent in parents), default=math.inf) + 1.0

    def get_preference(self, identifier, resolutions, candidates, information, backtrack_causes):
        known = list(information[identifier])
        operators = [clause.operator for one in known for clause in one.requirement.specifier]
        is_cause = any(identifier in names_of(cause) for cause in backtrack_causes)
        self.depths[identifier] = self.depth(identifier, [one.parent for one in known])
        return (
            not any(operator.startswith("==") for operator in operators),
            not is_cause,
            self.depths[identifier],
            self.asked.get(identifier, math.inf),
            not operators,
            identifier,
        )


def names_of(cause):
    return cause.requirement.name, cause.parent and cause.parent.name


def needed(requirements, pins):
    """The pins that the requirements lead to."""
    found, names = {}, [requirement.name for requirement in requirements]
    while names:
        name = names.pop()
        if name not in found:
            found[name] = pins[name]
            names += [dependency.name for dependency in pins[name].dependencies]
    return found


def end_after(seconds):
    """Has the system end this process after so many more seconds of processor time."""
    limit = math.ceil(time.process_time() + int(seconds))
    resource.setrlimit(resource.RLIMIT_CPU, (limit, limit + 5))


def resolve(index, requirements, preference="plain", seconds=None):
    """The library's own last step, which drops the pins that nothing needs, calls itself without end where packages need each
    other in a circle. So it is done here."""
    provider = PipProvider(index, requirements) if preference == "pip" else Provider(index)
    resolution = resolvelib.resolvers.Resolution(provider, resolvelib.BaseReporter())
    if seconds:
        end_after(seconds)
    start = time.process_time()
    try:
        pins = needed(requirements, resolution.resolve(requirements, max_rounds=10**9).mapping)
    except resolvelib.ResolutionImpossible:
        print("none")
        return
    seconds = time.process_time() - start
    for name, candidate in sorted(pins.items()):
        print(f"{name}=={candidate.version}")
    print(round(seconds * 10**6))


def check(packages, requirements, pins):
    listed = {package["name"]: package["releases"] for package in packages}
    locked = {}
    for pin in pins:
        name, _, version = pin.partition("==")
        locked[name] = read_release(name, next(r for r in listed[name] if Version(r["version"]) == Version(version)))
    wanted = requirements + [dependency for release in locked.values() for dependency in release.dependencies]
    for requirement in wanted:
        release = locked.get(requirement.name)
        if release is None or not requirement.admits(release):
            sys.exit(f"resolve_peer: not met: {requirement}")
    print(len(locked))


def main():
    if sys.argv[1] == "versions":
        print(f"resolvelib {resolvelib.__version__}, packaging {packaging.__version__}")
        return
    requirements = read_requirements(sys.argv[3])
    if sys.argv[1] == "resolve":
        resolve(read_index(sys.argv[2]), requirements, *sys.argv[4:])
    else:
        pins = [line for line in sys.stdin.read().splitlines() if "==" in line]
        check(read_packages(sys.argv[2]), requirements, pins)


main()
