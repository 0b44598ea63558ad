"""What is asked of an environment over an index (docs/RULES.md, A lock for other tools): each question that the lines can lead to. The rules are
read plainly, for tests that ask what an answer must be. It is written from the rules alone. Which names and versions can be led to is told
by clauses, whatever holds in an environment."""

from support.rules.requirements import holds, matches, order_key, read_line, read_set, read_version


def led_to(lines, index):
    """The requirements that lines can lead to, each with the name of the package that has it, or None where that is a line; and the releases
    whose versions match one of them."""
    asked, releases, place = [(None, requirement) for requirement in map(read_line, lines) if requirement is not None], {}, 0
    while place < len(asked):
        wanted = asked[place][1]
        place += 1
        for release in index.releases.get(wanted.name, []):
            key = wanted.name, order_key(release.version)
            if key not in releases and matches(wanted.clauses, release.version):
                releases[key] = release
                asked += [(wanted.name, dependency) for dependency in release.dependencies]
    return asked, list(releases.values())


def answers_in(lines, index, environment):
    """Whether each marker holds in an environment, with each extra of its package that is asked for and with none, and whether each release
    runs there."""
    asked, releases = led_to(lines, index)
    extras, python = {}, read_version(environment["python_full_version"])
    for _, requirement in asked:
        extras.setdefault(requirement.name, set()).update(requirement.extras)
    held = [
        holds(requirement.marker, environment, extra)
        for user, requirement in asked if requirement.marker is not None for extra in (None, *sorted(extras.get(user, ())))
    ]
    return held, [matches(read_set(release.python), python) for release in releases if release.python is not None]


def are_alike(lines, index, one, other):
    """Whether no question tells two environments apart."""
    return answers_in(lines, index, one) == answers_in(lines, index, other)
