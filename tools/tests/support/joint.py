"""What a lock file of several targets must be, for tests: whatever its markers ask, an installer takes by it the entries of the target whose marker
holds, as the rules of PEP 751 have it (rules/installs.py)."""

import re
import tomllib

from support.installed import check_references, entries_installed, lone_entry
from support.rules.installs import holds_in

KEYS = {"created-by", "lock-version", "packages", "tool"}
# The first line of what is told where two targets can't stand in one file: their names, and that of a package.
REFUSAL = re.compile(
    r"(?:error|reqlock): the targets '([a-z0-9-]*)' and '([a-z0-9-]*)' can't stand in one file: nothing that is asked tells them apart,"
    r" and '?([a-z0-9-]+)'? differs; [^\n]*\n"
)


def want(holds, *told):
    if not holds:
        raise AssertionError(told)


def are_equal(entries, others):
    """Whether entries by name are the same, in any order of their names."""
    return dict(entries) == dict(others)


def check_joint(data, environments, locks):
    """A file has each entry of these locks once, marked where not all have it, and in the environment of each target installs the entries
    of its lock. Targets with their environments, and with their entries, come by name."""
    lock = tomllib.loads(data.decode())
    want(set(lock) - {"environments"} == KEYS, lock.keys())
    check_references(lock)
    pairs = [lone_entry(package) for package in lock["packages"]]
    want([name for name, _ in pairs] == sorted(name for name, _ in pairs), "names in their order", pairs)
    for pair, package in zip(pairs, lock["packages"]):
        want(pairs.count(pair) == 1, "twice", pair)
        having = [target for target, entries in locks.items() if entries.get(pair[0]) == pair[1]]
        want(having and ("marker" in package) == (len(having) < len(locks)), "marked where not all have it", package, having)
    for target, environment in environments.items():
        installed = entries_installed(data, environment)
        want(installed is not None and are_equal(installed, locks[target]), target, installed, data.decode())


def targets_in(data, environments, environment):
    """Of each marker of a file that holds in an environment, the targets whose own environments meet it; all of them, where any environment
    will do."""
    texts = tomllib.loads(data.decode()).get("environments")
    if texts is None:
        return [list(environments)]
    return [[name for name, own in environments.items() if holds_in(text, own)] for text in texts if holds_in(text, environment)]


def check_in(data, environments, locks, environment):
    """The targets whose markers hold in an environment. There a file installs the entries of each of them; where none does, it is for another
    environment."""
    met, installed = targets_in(data, environments, environment), entries_installed(data, environment)
    want((installed is None) == (not met), "an installer takes it where a marker holds", met, environment, data.decode())
    for names in met:
        want(names, "a marker is that of a target", data.decode())
        for name in names:
            want(are_equal(installed, locks[name]), name, installed, environment, data.decode())
    return sorted({name for names in met for name in names})
