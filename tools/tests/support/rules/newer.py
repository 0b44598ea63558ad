"""Who asks for the entries of a lock, and which of them have newer releases: the rules of docs/RULES.md read plainly, for tests that ask
what an answer must be. It is written from the rules alone, so that it shares no mistake with the program."""

from support.rules.locks import needed_nodes
from support.rules.requirements import Requirement, holds, order_key, read_line, read_version
from support.rules.versions import canonical


def requirement_text(requirement):
    """A requirement in normal form, without its marker."""
    extras = f"[{','.join(requirement.extras)}]" if requirement.extras else ""
    clauses = [f"{clause.operator}{canonical(clause.version)}{'.*' * clause.is_prefix}" for clause in requirement.clauses]
    return requirement.name + extras + ",".join(clauses)


def asking_lines(lines, name, environment):
    """The active lines on a name, by their numbers from 1, with what they ask for."""
    for number, line in enumerate(lines, 1):
        requirement = read_line(line)
        is_active = requirement and (requirement.marker is None or holds(requirement.marker, environment))
        if is_active and requirement.name == name:
            yield number, requirement


def place_of(problem, name, entry):
    return problem.place_of(name, order_key(read_version(entry["version"])))


def needs_of(problem, name, entries):
    """What an entry needs: the requirements of its release's dependencies that count at one of its needed nodes, or None where the
    index doesn't have its release. What is asked of its own name isn't among them."""
    chosen = {other: place_of(problem, other, entry) for other, entry in entries.items()}
    if chosen[name] is None:
        return None
    extras = [None, *(extra for node_name, extra in needed_nodes(problem, chosen) if node_name == name and extra is not None)]
    return [
        dependency for dependency in problem.releases[name][chosen[name]].dependencies
        if dependency.name != name
        and (dependency.marker is None or any(holds(dependency.marker, problem.environment, extra) for extra in extras))
    ]


def askers(problem, lines, entries, name):
    """Who asks for an entry, in order, each as an object with the requirement, which is None where it isn't known."""
    asking = [
        ({"line": number, "text": lines[number - 1].strip(), "requirement": requirement_text(requirement)}, requirement)
        for number, requirement in asking_lines(lines, name, problem.environment)
    ]
    for other, entry in sorted(entries.items()):
        who = {"name": other, "version": entry["version"]}
        needs = needs_of(problem, other, entries)
        if needs is None and name in entry["dependencies"]:
            asking.append((who | {"requirement": None}, None))
        asking += [(who | {"requirement": requirement_text(need)}, need) for need in needs or [] if need.name == name]
    return asking


def newer(problem, lines, entries, name):
    """What `outdated` tells of an entry, or None where it has no newer release."""
    releases = problem.releases.get(name, [])
    asking = askers(problem, lines, entries, name)
    known = [(who, requirement) for who, requirement in asking if requirement is not None]
    counting = [Requirement(name, [], [], None), *(requirement for _, requirement in known)]
    count = [release for release in releases if any(problem.admits(requirement, release) for requirement in counting)]
    locked = read_version(entries[name]["version"])
    if not count or order_key(count[0].version) <= order_key(locked):
        return None
    admitted = [release for release in count if all(problem.admits(requirement, release) for _, requirement in known)]
    return {
        "name": name, "locked": entries[name]["version"], "newest": canonical(count[0].version),
        "admitted": canonical(admitted[0].version) if admitted else None,
        "held_by": [who for who, requirement in known if not problem.admits(requirement, count[0])],
    }


def outdated(state, problems):
    """What `outdated` tells of a state, in the form of its JSON."""
    targets = []
    for name, target in state.targets.items():
        problem, entries = problems[name], target.entries
        rows = [newer(problem, state.lines, entries, package) for package in sorted(entries)]
        absent = [
            {"name": package, "version": entry["version"]}
            for package, entry in sorted(entries.items()) if place_of(problem, package, entry) is None
        ]
        places = [(package, entry, place_of(problem, package, entry)) for package, entry in sorted(entries.items())]
        yanked = [
            {"name": package, "version": entry["version"]}
            for package, entry, place in places if place is not None and problem.releases[package][place].is_yanked
        ]
        targets.append({"target": name, "outdated": [row for row in rows if row], "not_in_index": absent, "yanked": yanked})
    return {"targets": targets}


def told_entries(state, problems, name=None):
    """What `show --json` tells of a state: of a name alone, where it is given. Without problems it isn't known what entries ask for."""
    targets = []
    for target_name, target in state.targets.items():
        entries = target.entries
        told = []
        for package in sorted(entries):
            if name in (None, package):
                needs = [{"name": need, "version": entries[need]["version"]} for need in entries[package]["dependencies"]]
                if problems:
                    asked = [who for who, _ in askers(problems[target_name], state.lines, entries, package)]
                else:
                    asked = askers_by_lock(state.lines, target, package)
                told.append({"asked_by": asked, "entry": {"name": package} | entries[package], "needs": needs})
        targets.append({"target": target_name, "entries": told})
    return {"targets": targets}


def askers_by_lock(lines, target, name):
    """Who asks for an entry, as far as lines and lock tell it."""
    asking = [
        {"line": number, "text": lines[number - 1].strip(), "requirement": requirement_text(requirement)}
        for number, requirement in asking_lines(lines, name, target.environment)
    ]
    return asking + [
        {"name": other, "version": entry["version"], "requirement": None}
        for other, entry in sorted(target.entries.items()) if name in entry["dependencies"]
    ]


def tree(lines, target):
    """The rows of `show --tree`: each active line, and below it what it leads to, each entry with what it needs where it comes first."""
    rows, told = [], set()

    def tell(name, depth):
        rows.append({"depth": depth, "name": name, "version": target.entries[name]["version"], "shown_above": name in told})
        if name not in told:
            told.add(name)
            for needed in target.entries[name]["dependencies"]:
                tell(needed, depth + 1)

    for number, line in enumerate(lines, 1):
        for requirement in (read_line(line),):
            if requirement and (requirement.marker is None or holds(requirement.marker, target.environment)):
                rows.append({"line": number, "text": line.strip()})
                tell(requirement.name, 0)
    return rows
