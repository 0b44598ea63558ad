"""Files of pins, and what an edit with them keeps: the rules read plainly, for tests that ask what an answer must be. It is written from the
rules alone, so that it shares no mistake with the program."""

from support.rules.edits import kept_after, locked
from support.rules.lock_tables import read_lock_table
from support.rules.locks import Problem
from support.rules.requirements import cut_lines, holds, order_key, read_line, read_version, want


def pinned(requirement):
    """The version that a requirement pins: its one clause is `==` without `.*`."""
    [clause] = requirement.clauses if len(requirement.clauses) == 1 else [None]
    want(clause is not None and clause.operator == "==" and not clause.is_prefix, "no-pin")
    return clause.version


def pins_of_lines(data, environment):
    """The names with versions that the lines of a file pin, whose markers hold in an environment."""
    asked = [requirement for requirement in map(read_line, cut_lines(data.decode())) if requirement is not None]
    pins = [(requirement, pinned(requirement)) for requirement in asked]
    return [
        (requirement.name, version)
        for requirement, version in pins if requirement.marker is None or holds(requirement.marker, environment)
    ]


def pins_of_lock(data):
    return [(name, read_version(entry["version"])) for name, entry in read_lock_table(data)[2].items()]


def newer_of(own, others, index):
    """The own versions and the others: of each name the newest one that the index has, or else the newest, and of equal ones the own."""
    newest = {}
    for name in [*own, *(name for name, _ in others)]:
        versions = [version for other, version in [*own.items(), *others] if other == name]
        keys = {order_key(release.version) for release in index.releases.get(name, [])}
        newest[name] = max([version for version in versions if order_key(version) in keys] or versions, key=order_key)
    return newest


def pins_for(files, target, environment):
    """What files pin for a target: those with its name, or where there are none those without a name. A file is its target, its name
    and its bytes."""
    own = [file for file in files if file[0] == target] or [file for file in files if file[0] == ""]
    rows = [pins_of_lock(data) if name.endswith(".toml") else pins_of_lines(data, environment) for _, name, data in own]
    return [pin for row in rows for pin in row]


def replaced(state, lines, files, index, only_kept=False):
    """The state with other lines in the place of all, which keeps of the locked versions and those that are handed in the newest
    that the index has."""
    problems = {
        name: Problem(
            lines, target.environment, index,
            newer_of(kept_after(target.entries, []), pins_for(files, name, target.environment), index), only_kept,
        )
        for name, target in state.targets.items()
    }
    return locked(lines, problems, index)


def agreed(targets):
    """The versions that are locked for targets, of each name that no two of them have different versions of."""
    locked_versions = {}
    for target in targets.values():
        for name, entry in target.entries.items():
            locked_versions.setdefault(name, []).append(read_version(entry["version"]))
    return {name: versions[0] for name, versions in locked_versions.items() if len(set(map(order_key, versions))) == 1}


def retargeted(state, environments, files, index, only_kept=False):
    """The state with other targets. One that stays by its name keeps its versions; another one those that are handed in for it, and of the
    names that these lack those that the present targets agree on."""
    problems = {}
    for name, environment in sorted(environments.items()):
        if name in state.targets:
            kept = kept_after(state.targets[name].entries, [])
        else:
            kept = agreed(state.targets) | newer_of({}, pins_for(files, name, environment), index)
        problems[name] = Problem(state.lines, environment, index, kept, only_kept)
    return locked(state.lines, problems, index)


def begun_with(lines, environments, files, index):
    """The first state of a history that keeps what files pin."""
    problems = {
        name: Problem(lines, environment, index, newer_of({}, pins_for(files, name, environment), index))
        for name, environment in sorted(environments.items())
    }
    return locked(lines, problems, index)
