"""What is locked: which releases a requirement admits, what a solution is, which one is the best, the entries of its lock, and
what a refutation is. The rules are read plainly, for tests that ask what an answer must be: each version of each name that is needed is
tried. It is written from the rules alone, so that it shares no mistake with the program. It is for small indexes."""

import hashlib
import json
import re
from typing import NamedTuple

from support.rules.requirements import (
    BLANK, NAME, Fault, Requirement, active_requirements, holds, is_pre, matches, order_key, read_name, read_requirement,
    read_set, read_version, want,
)
from support.rules.versions import Version, canonical

Node = tuple[str, str | None]

# what parts a path on some system
PARTS = {"/", "\\", ":"}


class Release(NamedTuple):
    """A release of an index. `python` is the text of what it asks of Python; files are in the form that a journal gives them."""

    version: Version
    python: str | None
    dependencies: list[Requirement]
    is_yanked: bool
    sdist: dict | None
    wheels: list[dict]


class Index(NamedTuple):
    """The releases of each name, newest first, and the digest of the bytes that were read."""

    releases: dict[str, list[Release]]
    digest: str


class Need(NamedTuple):
    """What a requirement asks for: a name, the nodes that it needs, and the releases that it admits by their places."""

    name: str
    nodes: list[Node]
    admitted: set[int]


class Choice(NamedTuple):
    """A node with a version, which is held by its key in the order of versions."""

    name: str
    extra: str | None
    key: tuple


# The index


def read_files(files):
    """The sdist of a release and its wheels by name. Files of other kinds don't count."""
    files = [{**file, "sha256": file["sha256"].lower()} for file in files]
    wheels = {file["name"]: file for file in reversed(files) if file["name"].endswith(".whl")}
    sdists = [file for ending in (".tar.gz", ".zip") for file in files if file["name"].endswith(ending)]
    return sdists[0] if sdists else None, [wheels[name] for name in sorted(wheels)]


def is_visible(text):
    """Whether a text has only characters of ASCII that one sees, so no space."""
    return all("!" <= letter <= "~" for letter in text)


def read_release(release):
    """A release, or a Fault where it is left out of the index for its own sake."""
    version, python = read_version(release["version"]), release.get("requires_python") or ""
    want(version is not None, "a version")
    read_set(python)
    dependencies = list(map(read_requirement, release.get("requires_dist") or []))
    sdist, wheels = read_files(release["files"])
    files = [*([sdist] if sdist else []), *wheels]
    want(files, "a file")
    want(all(is_visible(file["name"]) and not PARTS & set(file["name"]) for file in files), "names that are no paths")
    want(all(is_visible(file["url"]) for file in files), "URLs")
    return Release(version, python if python.strip(BLANK) else None, dependencies, release.get("yanked", False), sdist, wheels)


def counted(releases):
    """The releases of a package that count, with their places in its list, by the keys of their versions: of equal versions the first
    one that can be read."""
    kept = {}
    for place, release in enumerate(releases):
        try:
            parsed = read_release(release)
        except Fault:
            continue
        kept.setdefault(order_key(parsed.version), (place, parsed))
    return kept


def read_releases(releases):
    """The releases of a package that count, newest first."""
    kept = counted(releases)
    return [kept[key][1] for key in sorted(kept, reverse=True)]


def read_index(data):
    packages = json.loads(data)["packages"]
    releases = {read_name(package["name"]): read_releases(package["releases"]) for package in packages}
    return Index(releases, hashlib.sha256(data).hexdigest())


# Which releases are admitted


def names_pre_release(requirement):
    return any(clause.operator != "!=" and is_pre(clause.version) for clause in requirement.clauses)


def pins(requirement):
    return any(clause.operator == "==" and not clause.is_prefix for clause in requirement.clauses)


class Problem:
    """What is to be locked: the requirements of the active lines, an environment, an index, the versions that are kept, and whether
    others count beside these. A release is told by its name and its place among the releases of the name, from 0; a place that is None
    is no release."""

    def __init__(self, lines, environment, index, kept, only_kept=False):
        self.asked = active_requirements(lines, environment)
        self.environment = environment
        self.releases = index.releases
        self.places = {
            name: {order_key(release.version): place for place, release in enumerate(releases)}
            for name, releases in index.releases.items()
        }
        self.kept = {name: self.place_of(name, order_key(version)) for name, version in kept.items()}
        self.only_kept = only_kept
        self.held = kept if only_kept else {}
        self.active = [self.need_of(requirement) for requirement in self.asked]
        self.needs = {}

    def place_of(self, name, key):
        """The place of the release whose version has this key in the order."""
        return self.places.get(name, {}).get(key)

    def candidates(self, name):
        """The places of a name's candidates in their turn: the kept version, and then the others from the newest, where they count."""
        kept = self.kept.get(name)
        if name in self.held:
            return [] if kept is None else [kept]
        return sorted(range(len(self.releases.get(name, []))), key=lambda place: (place != kept, place))

    def candidate_keys(self, name):
        return {order_key(self.releases[name][place].version) for place in self.candidates(name)}

    def runs(self, release):
        """Whether what a release asks of Python is met."""
        python = read_version(self.environment["python_full_version"])
        return release.python is None or matches(read_set(release.python), python)

    def asking(self, requirement):
        """The requirement and the active lines on its name."""
        return [requirement, *(line for line in self.asked if line.name == requirement.name)]

    def fits(self, requirement, release):
        return matches(requirement.clauses, release.version) and self.runs(release)

    def takes_yanked(self, requirement):
        """A yanked release has to be pinned, by this requirement or an active line on the name."""
        return any(map(pins, self.asking(requirement)))

    def takes_pre(self, requirement):
        """A pre-release has to be asked for, by this requirement or an active line on the name, or be all that there is: no final
        release that isn't yanked has matching clauses and a Python that fits."""
        if any(map(names_pre_release, self.asking(requirement))):
            return True
        finals = [release for release in self.releases[requirement.name] if not is_pre(release.version) and not release.is_yanked]
        return not any(self.fits(requirement, final) for final in finals)

    def admits(self, requirement, release):
        """The clauses match and the Python fits, and a yanked release and a pre-release are taken."""
        if not self.fits(requirement, release) or release.is_yanked and not self.takes_yanked(requirement):
            return False
        return not is_pre(release.version) or self.takes_pre(requirement)

    def counting(self, node, place):
        """The dependencies of a release that count at a node: those whose marker holds with the node's extra."""
        name, extra = node
        dependencies = self.releases[name][place].dependencies
        return [dependency for dependency in dependencies if dependency.marker is None or holds(dependency.marker, self.environment, extra)]

    def need_of(self, requirement):
        releases = self.releases.get(requirement.name, [])
        nodes = [(requirement.name, None), *((requirement.name, extra) for extra in requirement.extras)]
        admitted = {place for place, release in enumerate(releases) if self.admits(requirement, release)}
        return Need(requirement.name, nodes, admitted)

    def needs_at(self, node, place):
        """What the dependencies of a release that count at a node ask for."""
        if place is None:
            return []
        if (node, place) not in self.needs:
            self.needs[node, place] = list(map(self.need_of, self.counting(node, place)))
        return self.needs[node, place]


# Solutions: maps from names to places of releases


def needed_nodes(problem, chosen):
    """The nodes that chains of dependencies lead to from the active lines. A name that has no release leads nowhere."""
    nodes, rest = set(), [node for need in problem.active for node in need.nodes]
    while rest:
        node = rest.pop()
        if node not in nodes:
            nodes.add(node)
            rest += [other for need in problem.needs_at(node, chosen.get(node[0])) for other in need.nodes]
    return nodes


def is_met(need, chosen):
    return chosen.get(need.name) in need.admitted


def is_solution(problem, chosen):
    """Each active line and each dependency that counts at a needed node is met, and each name is needed."""
    if not all(is_met(need, chosen) for need in problem.active):
        return False
    nodes = needed_nodes(problem, chosen)
    if {name for name, _ in nodes} != set(chosen):
        return False
    return all(is_met(need, chosen) for node in nodes for need in problem.needs_at(node, chosen[node[0]]))


def solutions(problem, chosen=None):
    """All solutions that have what is chosen so far. Each has every name that this needs, so the least one that isn't chosen yet gets each of
    its candidates in turn."""
    chosen = chosen or {}
    name = min((name for name, _ in needed_nodes(problem, chosen) if name not in chosen), default=None)
    if name is not None:
        for place in problem.candidates(name):
            yield from solutions(problem, {**chosen, name: place})
    elif is_solution(problem, chosen):
        yield chosen


def turns(problem, solution):
    """The turns of a solution's versions: names are taken as they are needed, the least one first, and the turn of a version is
    its place among the candidates of its name."""
    taken, places = {}, []
    while taken.keys() != solution.keys():
        name = min(name for name, _ in needed_nodes(problem, taken) if name not in taken)
        taken[name] = solution[name]
        places.append(problem.candidates(name).index(solution[name]))
    return places


def best_solution(problem):
    """The solution whose turns come first, or None. Two that had the same turns so far take the same name next."""
    return min(solutions(problem), key=lambda solution: turns(problem, solution), default=None)


# Locks


def entries_of(problem, solution):
    """The entries of the lock of a solution, by name, in the form that a journal gives them."""
    nodes, entries = needed_nodes(problem, solution), {}
    for name, place in sorted(solution.items()):
        release = problem.releases[name][place]
        needs = [need for node in nodes if node[0] == name for need in problem.needs_at(node, place)]
        entries[name] = {
            "dependencies": sorted({need.name for need in needs} - {name}), "requires_python": release.python,
            "sdist": release.sdist, "version": canonical(release.version), "wheels": release.wheels,
        }
    return entries


# Refutations: lists of conflicts, each a set of choices


def read_choice(text):
    match = re.fullmatch(rf"({NAME})(?:\[({NAME})\])?==(.*)", text)
    want(match, "a choice")
    version = read_version(match[3])
    want(version is not None and canonical(version) == match[3], "a canonical version")
    want(all(name is None or read_name(name) == name for name in match.groups()[:2]), "normal names")
    return Choice(match[1], match[2], order_key(version))


def read_conflict(line):
    """The conflict of a line: its choices are sorted, each stands once, and the empty one is `-`."""
    texts = [] if line == "-" else line.split(" ")
    want(texts == sorted(set(texts)), "sorted choices")
    return frozenset(map(read_choice, texts))


def read_refutation(text):
    lines = text.split("\n")
    want(lines.pop() == "", "an end of the last line")
    return list(map(read_conflict, lines))


def needs_of_choice(problem, choice):
    return problem.needs_at((choice.name, choice.extra), problem.place_of(choice.name, choice.key))


def lacks(problem, need, choice):
    """Whether a choice is on the name that is needed and isn't admitted."""
    return choice.name == need.name and problem.place_of(choice.name, choice.key) not in need.admitted


def is_left_without(problem, node, conflict, earlier):
    """Whether no release of a node is left: with each candidate the conflict has an earlier one in it."""
    return all(any(map((conflict | {Choice(*node, key)}).issuperset, earlier)) for key in problem.candidate_keys(node[0]))


def case_of(problem, conflict, earlier):
    """By which case a conflict follows from earlier ones, or None."""
    needs = [need for choice in conflict for need in needs_of_choice(problem, choice)]
    if any(lacks(problem, need, choice) for need in problem.active for choice in conflict):
        return "an active line doesn't admit a choice"
    if any(lacks(problem, need, choice) for need in needs for choice in conflict):
        return "a dependency of a choice doesn't admit a choice"
    if len({(choice.name, choice.key) for choice in conflict}) > len({choice.name for choice in conflict}):
        return "two versions of one name"
    nodes = {node for need in problem.active + needs for node in need.nodes}
    if any(is_left_without(problem, node, conflict, earlier) for node in nodes):
        return "no release of a needed node is left"
    return None


def is_refutation(problem, conflicts):
    """Whether each conflict follows from those before it, and the last one is empty."""
    followed = (case_of(problem, conflict, conflicts[:place]) for place, conflict in enumerate(conflicts))
    return bool(conflicts) and not conflicts[-1] and all(followed)
