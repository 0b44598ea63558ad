"""What states and changes are: the rules read plainly, for tests that ask what an answer must be. It is written from the rules alone, so that
it shares no mistake with the program."""

from typing import NamedTuple

from support.rules.requirements import Fault, active_requirements, cut_lines, matches, read_set, read_version
from support.rules.values import LARGEST, is_rising


class Target(NamedTuple):
    """The texts of an environment, and the entries of the lock for it by name."""

    environment: dict[str, str]
    entries: dict[str, dict]


class State(NamedTuple):
    """Lines, the digest of the index, and the targets by name."""

    lines: list[str]
    digest: str
    targets: dict[str, Target]

    @classmethod
    def of_one(cls, lines, environment, digest, entries):
        """A state whose one target has the empty name."""
        return cls(lines, digest, {"": Target(environment, entries)})

    def entries(self, name=""):
        return self.targets[name].entries


class Change(NamedTuple):
    """Splices as (place, old lines, new lines), entries as (target, name, old, new), two digests or none, and targets as (name, old
    environment, new environment)."""

    splices: list[tuple]
    entries: list[tuple]
    digests: tuple | None
    targets: list[tuple] = []


def meets(requirement, entry, environment):
    """Whether an entry's version, and the Python that it asks for, fit a requirement in an environment."""
    python = read_version(environment["python_full_version"])
    fits = entry["requires_python"] is None or matches(read_set(entry["requires_python"]), python)
    return fits and matches(requirement.clauses, read_version(entry["version"]))


def reached(names, entries):
    """The names that dependencies lead to from these."""
    seen, rest = set(), list(names)
    while rest:
        name = rest.pop()
        if name not in seen:
            seen.add(name)
            rest += entries[name]["dependencies"]
    return seen


def is_lock_for(lines, target):
    """Whether the entries of a target are a lock for lines: each active line is met, and each entry is reached. Each entry is of the
    right form."""
    try:
        asked = active_requirements(lines, target.environment)
    except Fault:
        return False
    entries = target.entries
    if cut_lines("".join(lines)) != lines or not is_rising(list(entries)):
        return False
    if not all(requirement.name in entries and meets(requirement, entries[requirement.name], target.environment) for requirement in asked):
        return False
    if not all(other in entries for entry in entries.values() for other in entry["dependencies"]):
        return False
    return reached([requirement.name for requirement in asked], entries) == set(entries)


def is_state(state):
    """What holds of every state. Environments and the digest stand in its locks by the way in which it is kept here."""
    if not state.targets or not is_rising(list(state.targets)):
        return False
    return all(is_lock_for(state.lines, target) for target in state.targets.values())


def places_of(change):
    """The places of the splices in the old list of lines, and in the new one."""
    moved, places = 0, []
    for place, old, new in change.splices:
        places.append((place, place + moved))
        moved += len(new) - len(old)
    return places


def is_minimal(change):
    behind = [place + len(old) for place, old, _ in change.splices]
    if not all(splice[0] > end for splice, end in zip(change.splices[1:], behind)):
        return False
    for _, old, new in change.splices:
        if not old and not new or old and new and (old[0] == new[0] or old[-1] == new[-1]):
            return False
    if not is_rising([entry[:2] for entry in change.entries]) or any(old == new for _, _, old, new in change.entries):
        return False
    if change.digests is not None and change.digests[0] == change.digests[1]:
        return False
    if not is_rising([name for name, _, _ in change.targets]) or any(old == new for _, old, new in change.targets):
        return False
    return all(place <= LARGEST for pair in places_of(change) for place in pair)


def inverse(change):
    places = [behind for _, behind in places_of(change)]
    splices = [(place, new, old) for place, (_, old, new) in zip(places, change.splices)]
    entries = [(target, name, new, old) for target, name, old, new in change.entries]
    targets = [(name, new, old) for name, old, new in change.targets]
    return Change(splices, entries, change.digests and change.digests[::-1], targets)


def with_entries(targets, changes):
    """The targets with other entries; None where a target or an old entry isn't there."""
    entries_by_target = {name: dict(target.entries) for name, target in targets.items()}
    for target, name, old, new in changes:
        if target not in entries_by_target or entries_by_target[target].pop(name, None) != old:
            return None
        entries_by_target[target] |= {} if new is None else {name: new}
    return {name: Target(targets[name].environment, dict(sorted(entries.items()))) for name, entries in entries_by_target.items()}


def with_environments(targets, changes):
    """The targets with other environments, among them those that come and those that go; None where an old environment isn't there."""
    changed = dict(targets)
    for name, old, new in changes:
        if (changed[name].environment if name in changed else None) != old:
            return None
        changed[name] = Target(old if new is None else new, changed[name].entries if name in changed else {})
    return changed


def without_gone(targets, changes):
    """The targets without those that go; None where one of these has entries."""
    gone = {name for name, _, new in changes if new is None}
    if any(targets[name].entries for name in gone):
        return None
    return {name: targets[name] for name in sorted(targets) if name not in gone}


def targets_after(targets, change):
    """The targets behind a change; None where an old part of them isn't there, or one goes that has entries."""
    changed = with_environments(targets, change.targets)
    changed = None if changed is None else with_entries(changed, change.entries)
    return None if changed is None else without_gone(changed, change.targets)


def after(state, change):
    """The state that a change leads to; None where an old part of it isn't there."""
    lines, done = [], 0
    for place, old, new in change.splices:
        if state.lines[place : place + len(old)] != old or place > len(state.lines):
            return None
        lines += state.lines[done:place] + new
        done = place + len(old)
    targets = targets_after(state.targets, change)
    if targets is None or change.digests is not None and change.digests[0] != state.digest:
        return None
    digest = state.digest if change.digests is None else change.digests[1]
    return State(lines + state.lines[done:], digest, targets)
