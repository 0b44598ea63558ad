"""Which releases a sentence of `why --explain` tells: those of a term, and those that a line or the releases of a term ask for. These have
to be the ones whose versions match."""

import re
from math import inf
from typing import NamedTuple

from support.rules import sentences
from support.rules.requirements import Requirement, matches, read_requirement, read_set, want
from support.rules.set_refutations import Term
from support.rules.versions import canonical, order_key, read_version


class Limits(NamedTuple):
    """How many lines of the file a conclusion names, and how many different requirements and runs of releases a sentence tells."""

    lines: float
    requirements: float
    runs: float


SHORT, LONG = Limits(6, 3, 3), Limits(inf, inf, inf)


class Line(NamedTuple):
    """An active line as sentences name it: in short, and with what it asks for; and the requirement."""

    short: str
    text: str
    requirement: Requirement


def node_of(text):
    name, extra = re.fullmatch(r"([^\[]+)(?:\[(.+)\])?", text).groups()
    return name, extra


def without_marker(requirement):
    return requirement.name, tuple(sorted(set(requirement.extras))), tuple(requirement.clauses)


def keys_of(problem, name):
    return sorted(problem.places.get(name, {}))


def runs_told(problem, name, told, word):
    """The keys of some runs of versions, with a word before the last one. Each version is one of the index, and a run has more than two
    releases, unless it has no end; then it has more than one."""
    keys = keys_of(problem, name)
    places = {canonical(release.version): keys.index(order_key(release.version)) for release in problem.releases.get(name, [])}
    told_keys = []
    for piece in re.split(f",? {word} (?!newer)|, ", told):
        first, to, last = re.fullmatch("(.*?)(?:( to | or newer)(.*))?", piece).groups()
        want(first in places and (not last or last in places), f"releases of {name}: {piece}")
        stop = {None: places[first] + 1, " or newer": len(keys)}.get(to) or places[last] + 1
        run = keys[places[first] : stop]
        want(len(run) > {None: 0, " or newer": 1, " to ": 2}[to], f"a run of releases: {piece}")
        told_keys += run
    want(told_keys == sorted(set(told_keys)), f"releases from the oldest on, each once: {told}")
    return frozenset(told_keys)


def releases_told(problem, name, told):
    """The keys of the releases that are told."""
    keys = keys_of(problem, name)
    if told in ("every release", "the only release"):
        want(len(keys) == 1 if told == "the only release" else len(keys) > 1, f"{told} of {name}")
        return frozenset(keys)
    want(" between " not in told, "releases that are told one by one")
    begins = re.fullmatch("from (.*) on", told)
    return runs_told(problem, name, f"{begins[1]} or newer" if begins else told, "or" if begins else "and")


def run_count(problem, name, chosen):
    """How many runs some releases are."""
    keys = keys_of(problem, name)
    return sum(key in chosen and (place == 0 or keys[place - 1] not in chosen) for place, key in enumerate(keys))


def text_of(node):
    return node[0] if node[1] is None else f"{node[0]}[{node[1]}]"


def read_needed(text):
    return without_marker(read_requirement(text))


def read_requirements(text):
    return list(map(read_needed, re.findall(sentences.REQUIREMENT, text.replace(" or ", ", "))))


class ReleaseReader:
    """Reads which releases are told, over a problem and its active lines. What is more than the limits say may be left out."""

    def __init__(self, problem, lines, limits):
        self.problem, self.lines, self.limits = problem, lines, limits

    def release(self, name, key):
        return self.problem.releases[name][self.problem.places[name][key]]

    def term(self, told):
        name, extra = node_of(told.node)
        return Term(name, extra, releases_told(self.problem, name, told.releases))

    def line(self, told):
        return next(line for line in self.lines if told in (line.text, line.short))

    def requirements_at(self, node, key, name):
        """The dependencies on a name that count at a node with a release."""
        return [dependency for dependency in self.problem.counting(node, self.problem.place_of(node[0], key)) if dependency.name == name]

    # What is asked for: the releases whose versions match

    def matching(self, requirement):
        return frozenset(key for key in keys_of(self.problem, requirement.name) if self.matches_key(requirement, key))

    def matches_key(self, requirement, key):
        return matches(requirement.clauses, self.release(requirement.name, key).version)

    def wanted(self, source, node):
        """What a line or a term asks for of a node: the releases that match, and the different requirements."""
        name, extra = node
        if isinstance(source, Line):
            want(source.requirement.name == name, f"a line on {name}: {source.short}")
            return self.matching(source.requirement), set()
        matched, needed = set(), set()
        for key in source.keys:
            each = [requirement for requirement in self.requirements_at(source[:2], key, name) if extra is None or extra in requirement.extras]
            want(each, f"a release that needs {node}: {source}")
            matched |= frozenset.intersection(*map(self.matching, each))
            needed |= {without_marker(requirement) for requirement in each}
        return frozenset(matched), needed

    def asked(self, source, told):
        """The node of which something is asked for, and the releases that match what is told. This is what the source asks for."""
        name = re.match(sentences.NODE, told.removeprefix("none of "))[0]
        range_told = told.removeprefix(name).removeprefix(" ")
        if re.fullmatch(sentences.RANGE, range_told):
            return node_of(name), self.asked_range(source, node_of(name), range_told)
        if told.endswith(sentences.ABSENT) or told.startswith("none of "):
            matched, needed = self.wanted(source, node_of(name))
            want(not matched and (isinstance(source, Line) or len(needed) > self.limits.requirements), f"nothing of {name}")
            return node_of(name), matched
        if isinstance(source, Line):
            matched, _ = self.wanted(source, node_of(name))
            want(told == name and matched == set(keys_of(self.problem, node_of(name)[0])), f"each release of {name}")
            return node_of(name), matched
        return self.asked_by_requirements(source, read_requirements(told))

    def asked_range(self, source, node, told):
        """The releases of a range, which are those that match; or the ones between the least and the greatest of many."""
        matched, needed = self.wanted(source, node)
        keys = keys_of(self.problem, node[0])
        between = re.fullmatch("between (.*) and (.*)", told)
        if between:
            ends = [order_key(read_version(version)) for version in between.groups()]
            want(run_count(self.problem, node[0], matched) > self.limits.runs and ends == [min(matched), max(matched)], f"the ends of {told}")
            return frozenset(key for key in keys if ends[0] <= key <= ends[1])
        bound = re.fullmatch(f"({sentences.VERSION}) or newer", told)
        clauses = {clauses for _, _, clauses in needed}
        if bound and clauses == {tuple(read_set(f">={bound[1]}"))}:
            return matched
        told_keys = runs_told(self.problem, node[0], told, "or")
        want(told_keys == matched and len(matched) < len(keys), f"the releases that are asked for: {told}")
        want(run_count(self.problem, node[0], matched) <= self.limits.runs, f"a few runs: {told}")
        return matched

    def asked_by_requirements(self, source, told):
        """The releases that match a requirement, which is that of each release of a term; or that match none of several."""
        names = {(name, extras[0] if len(extras) == 1 and not clauses else None) for name, extras, clauses in told}
        want(len({name for name, _ in names}) == 1, f"one name: {told}")
        node = min(names, key=str) if len(told) == 1 else (told[0][0], None)
        matched, needed = self.wanted(source, node)
        if needed == set(told) and (len(told) == 1 or not matched):
            return node, matched
        want(not told[0][2] and matched == set(keys_of(self.problem, node[0])), f"what is asked for: {told}")
        return node, matched
