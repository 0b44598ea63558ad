"""What an installer installs by a lock, for tests: as the rules tell it, where `packaging` reads each marker of the lock as they do."""

import json
import re
import tomllib
from collections import Counter
from functools import lru_cache

from support.rules.installs import Installing, NotForThisEnvironment, holds_in, installed_by, referred
from support.rules.lock_tables import entry_of_table
from support.rules.requirements import Fault, read_set
from support.rules.versions import read_version

try:
    from packaging.markers import Marker
except ImportError:
    try:
        from pip._vendor.packaging.markers import Marker
    except ImportError:
        Marker = None

COMPARED = re.compile(r'(\w+|"[^"]*") (~=|[=!]=|[<>]=?) (\w+|"[^"]*")')


def is_read(environment):
    """Whether markers meet the Python of an environment at all: to `packaging` before 22 a pre-release is in no range."""
    return theirs('python_full_version > "1"').evaluate(environment)


def without_environments(data):
    """All else that a lock's bytes have, in its order, as one text."""
    lock = tomllib.loads(data.decode())
    lock.pop("environments", None)
    return json.dumps(lock)


@lru_cache(maxsize=None)
def theirs(text):
    return Marker(text)


def markers_of(lock):
    """Each marker of a lock's table."""
    return [*lock.get("environments", []), *(package["marker"] for package in lock["packages"] if "marker" in package)]


def reads_as_clause(text):
    try:
        return "," not in text and bool(read_set(text))
    except Fault:
        return False


def compares_no_version(text, environment):
    """Whether a marker holds a text that is no version against one that reads as a clause, where `packaging` says no, or raises."""
    for left, sign, right in COMPARED.findall(text):
        texts = [side[1:-1] if side.startswith('"') else environment[side] for side in (left, right)]
        if read_version(texts[0]) is None and reads_as_clause(sign + texts[1]):
            return True
    return False


def is_met_by_theirs(text, environment):
    try:
        return theirs(text).evaluate(environment)
    except ValueError:
        return False


def check_markers(data, environment):
    """`packaging`, where it is there, tells of each marker what the rules tell, or no where no version is compared. Markers of sets are
    new in it, and aren't asked."""
    if Marker is None or not is_read(environment):
        return
    for text in markers_of(tomllib.loads(data.decode())):
        theirs, wanted = is_met_by_theirs(text, environment), holds_in(text, environment)
        if theirs != wanted and (theirs or not compares_no_version(text, environment)):
            raise AssertionError((text, environment))


def check_dependencies(package, packages):
    """Of the entries that are installed one is each dependency of an entry: it has, key by key, what a table of that name tells."""
    tables = package.get("dependencies", [])
    fitting = [other["name"] for other in packages if any(table.items() <= other.items() for table in tables)]
    if sorted(fitting) != sorted({table["name"] for table in tables}):
        raise AssertionError((package, packages))


def check_references(lock):
    """Each dependency of an entry of a lock's table is one other entry of it. One of a name that has one entry alone is told by the name."""
    names = Counter(entry["name"] for entry in lock["packages"])
    for package in lock["packages"]:
        for table, other in zip(package.get("dependencies", []), referred(package, lock["packages"])):
            if names[other["name"]] == 1 and table != {"name": other["name"]}:
                raise AssertionError((package, other))


def lone_entry(package):
    """An entry by itself, as a lock of one target has it: without a marker, and its dependencies by their names."""
    lone = {key: value for key, value in package.items() if key != "marker"}
    if "dependencies" in lone:
        names = dict.fromkeys(table["name"] for table in lone["dependencies"])
        lone["dependencies"] = [{"name": name} for name in names]
    return entry_of_table(lone)


def entries_of(installed):
    """The entries that are installed, by name."""
    packages = [item.package for item in installed]
    for package in packages:
        check_dependencies(package, packages)
    return dict(map(lone_entry, packages))


def entries_installed(data, environment):
    """The entries that are installed by a lock's bytes in an environment, by name; None where the lock isn't for it."""
    check_markers(data, environment)
    try:
        return entries_of(installed_by(data, Installing(environment)))
    except NotForThisEnvironment:
        return None
