"""Which packages an installer installs by a pylock.toml: the section on installation of the specification (PEP 751), step by step, each
with the words of the specification, for tests that ask what an answer must be. It is written from these alone, and reads versions, sets
and markers as the other readings here do. Nothing is fetched: what is installed is told by the entry's table and the file's."""

import hashlib
import tomllib
from typing import NamedTuple
from urllib.parse import unquote, urlsplit

from support.rules.requirements import Fault, MarkerReader, holds, matches, normal, read_name, read_set, want
from support.rules.versions import read_version
from support.rules.wheel_names import best_wheel

ALONE = "vcs", "directory", "archive"
SETS = "extras", "dependency_groups"
# (a digest of these is as long as one likes)
ALGORITHMS = {name for name in hashlib.algorithms_guaranteed if not name.startswith("shake")}


class Refused(Exception):
    """An error that an installer must raise. `step` is the key of the file, or the word of the step, at which it is raised."""

    def __init__(self, step):
        super().__init__(step)
        self.step = step


class NotForThisEnvironment(Refused):
    """The whole lock isn't for the environment."""


class Installing(NamedTuple):
    """Where and what is installed: the eleven variables; the tags of the wheels that run there, the best first; the extras; and the
    groups, None for those that the lock has by default."""

    variables: dict[str, str]
    tags: tuple[str, ...] = ("py3-none-any",)
    extras: tuple[str, ...] = ()
    groups: tuple[str, ...] | None = None


class Installed(NamedTuple):
    """An entry that is installed: its table, the key of its source, and the table of the file or the tree that is taken."""

    package: dict
    key: str
    source: dict


def ask(condition, step, fault=Refused):
    if not condition:
        raise fault(step)


# The file


def read_table(data):
    """`lock-version`, `created-by` and `packages` are required, and the name of each package."""
    try:
        lock = tomllib.loads(data.decode("utf-8"))
    except (ValueError, RecursionError):
        raise Refused("TOML") from None
    for key, kind in ("lock-version", str), ("created-by", str), ("packages", list):
        ask(isinstance(lock.get(key), kind), key)
    for package in lock["packages"]:
        ask(isinstance(package, dict) and is_normal(package.get("name")), "packages.name")
    return lock


def is_normal(name):
    """A name is normalized by the rules of names."""
    try:
        return isinstance(name, str) and read_name(name) == name
    except Fault:
        return False


def texts_at(table, key):
    """An array of texts, which has none where it is absent."""
    texts = table.get(key, [])
    ask(isinstance(texts, list) and all(isinstance(text, str) for text in texts), key)
    return texts


class LockMarkerReader(MarkerReader):
    """In a lock `extras` and `dependency_groups` are sets of names, and `in` and `not in` ask whether one is there: `"x" in extras`. The
    variable `extra` isn't there: no extra's requirements are read."""

    def operand(self):
        if self.tokens and self.tokens[-1] in SETS:
            return self.tokens.pop()
        token = super().operand()
        want(token != "extra", "a variable of locks")
        return token

    def atom(self):
        relation = super().atom()
        if relation[0] == "or" or not set(SETS) & {relation[0], relation[2]}:
            return relation
        left, operator, right = relation
        want(left[0] in "'\"" and operator in ("in", "not in"), "a text in a set")
        return f"'{normal(left[1:-1])}'", operator, right


def holds_in(text, variables):
    """Whether a lock's marker holds. Each text is read, also one of which nothing depends."""
    try:
        reader = LockMarkerReader(text)
        tree = reader.marker()
        want(not reader.tokens, "an end")
        return holds(tree, variables)
    except Fault:
        raise Refused("marker") from None


def meets_python(table, variables, step, fault=Refused):
    """`requires-python` holds the version specifiers of the Python; where it is absent each will do."""
    text = table.get("requires-python", "")
    ask(isinstance(text, str), step)
    try:
        clauses = read_set(text)
    except Fault:
        raise Refused(step) from None
    ask(matches(clauses, read_version(variables["python_full_version"])), step, fault)


# The steps


def installed_by(data, installing):
    """What is installed by a file with these bytes, in the order of its entries. A Refused, or a NotForThisEnvironment, where an error
    must be raised."""
    lock = read_table(data)
    variables = gathered(lock, installing)
    check_version(lock)
    meets_python(lock, variables, "requires-python", NotForThisEnvironment)
    check_environments(lock, variables)
    return [source_of(package, installing.tags) for package in slated(lock, variables)]


def gathered(lock, installing):
    """"Gather the extras and dependency groups to install and set `extras` and `dependency_groups` for marker evaluation, respectively.
    `extras` SHOULD be set to the empty set by default. `dependency_groups` SHOULD be the set created from `default-groups` by
    default." `extras` and `dependency-groups` are "the list .. supported by this lock file"."""
    extras, groups, default = (set(map(normal, texts_at(lock, key))) for key in ("extras", "dependency-groups", "default-groups"))
    asked = frozenset(map(normal, installing.extras))
    ask(asked <= extras, "extras")
    taken = default if installing.groups is None else set(map(normal, installing.groups))
    ask(taken <= groups | default, "dependency-groups")
    return installing.variables | {"extras": asked, "dependency_groups": frozenset(taken)}


def check_version(lock):
    """"Check if the metadata version specified by `lock-version` is supported; an error or warning MUST be raised as appropriate." "If
    a tool doesn't support a major version, it MUST raise an error", and with another minor version it only warns."""
    major, dot, minor = lock["lock-version"].partition(".")
    ask(major == "1" and dot and minor.isdecimal(), "lock-version")


def check_environments(lock, variables):
    """"If `environments` is specified, check that at least one of the environment marker expressions is satisfied; an error MUST be raised
    if no expression is satisfied." """
    held = [holds_in(text, variables) for text in texts_at(lock, "environments")]
    ask(any(held) or "environments" not in lock, "environments", NotForThisEnvironment)


def slated(lock, variables):
    """"For each package listed in `[[packages]]`: if `packages.marker` is specified, check if it is satisfied; if it isn't, skip to
    the next package. .. Add the package to the set of packages to install." """
    by_name = {}
    for package in lock["packages"]:
        if is_asked(package, variables):
            check_package(package, variables, by_name)
            by_name[package["name"]] = package
    return list(by_name.values())


def is_asked(package, variables):
    if "marker" not in package:
        return True
    ask(isinstance(package["marker"], str), "marker")
    return holds_in(package["marker"], variables)


def check_package(package, variables, slated_before):
    """"If `packages.requires-python` is specified, check if it is satisfied; an error MUST be raised if it isn't. Check that no other
    conflicting instance of the package has been slated to be installed; an error about the ambiguity MUST be raised otherwise. Check
    that the source of the package is specified appropriately (i.e. there are no conflicting sources in the package entry); an error
    MUST be raised if any issues are found." """
    meets_python(package, variables, "packages.requires-python")
    ask(package["name"] not in slated_before, "ambiguity")
    ask(len(sources_of(package)) == 1, "sources")


def sources_of(package):
    """`vcs`, `directory` and `archive` each exclude all others; `sdist` and `wheels` go together. Wheels of which there is none are no
    source."""
    alone = [key for key in ALONE if key in package]
    return [*alone, "files"] if "sdist" in package or package.get("wheels") else alone


# What depends on what, which is for those who audit a lock: installers "MUST NOT use this information when doing installation"


def fits(told, actual):
    """Whether what is told of an entry is so of one, "key-by-key"."""
    if isinstance(told, dict) and isinstance(actual, dict):
        return all(key in actual and fits(value, actual[key]) for key, value in told.items())
    return told == actual


def referred(package, packages):
    """The entries on which one depends, in the order in which they are told: "each entry is a table which contains the minimum information
    required to tell which other package entry it corresponds to where doing a key-by-key comparison would find the appropriate package
    with no ambiguity (e.g. if there are two entries for the `spam` package, then you can include the version number like
    `{name = "spam", version = "1.0.0"}`, or by source like `{name = "spam", vcs = { url = "..."}`)". """
    tables = package.get("dependencies", [])
    ask(isinstance(tables, list) and all(isinstance(table, dict) and is_normal(table.get("name")) for table in tables), "packages.dependencies")
    fitting = [[other for other in packages if fits(table, other)] for table in tables]
    ask(all(len(entries) == 1 and entries[0] is not package for entries in fitting), "packages.dependencies")
    return [entries[0] for entries in fitting]


# Sources


def source_of(package, tags):
    """"For each package to be installed: if `packages.vcs` is set, clone the repository to the commit ID .. else if
    `packages.directory` is set .. else if `packages.archive` is set, get the file .. else if there are entries for `packages.wheels`,
    look for the appropriate wheel file based on `packages.wheels.name`; if one is not found then move on to `packages.sdist` or an error
    MUST be raised about a lack of source for the project." """
    [source] = sources_of(package)
    if source != "files":
        return Installed(package, source, checked_source(package, source))
    wheel = wheel_of(package.get("wheels", []), tags)
    if wheel is not None:
        return Installed(package, "wheels", checked_file(wheel))
    ask(isinstance(package.get("sdist"), dict), "wheels")
    return Installed(package, "sdist", checked_file(package["sdist"]))


def checked_source(package, key):
    """A tree of a repository has a commit, a directory a path, and an archive is a file."""
    table = package[key]
    ask(isinstance(table, dict), key)
    if key == "archive":
        return checked_file(table)
    wanted = ("path",) if key == "directory" else ("type", "commit-id")
    ask(all(isinstance(table.get(name), str) for name in wanted), key)
    ask(key == "directory" or has_place(table), key)
    return table


def has_place(file):
    """`url` is required where there is no `path`."""
    return isinstance(file.get("path", file.get("url")), str)


def name_of(file):
    """`name` may be left out where it is the last part of `path` or `url`."""
    if "name" in file:
        return file["name"]
    return file["path"].split("/")[-1] if "path" in file else unquote(urlsplit(file["url"]).path).split("/")[-1]


def wheel_of(wheels, tags):
    """The wheel that is taken where wheels of these tags run, None where none does."""
    ask(isinstance(wheels, list) and all(isinstance(file, dict) and has_place(file) for file in wheels), "wheels")
    named = {name_of(file): file for file in wheels}
    try:
        return named.get(best_wheel(list(named), tags))
    except Fault:
        raise Refused("wheels") from None


def checked_file(file):
    """`hashes` is required, and must contain at least one entry; by one of a known algorithm the file is validated."""
    ask(has_place(file), "url")
    hashes = file.get("hashes")
    ask(isinstance(hashes, dict) and ALGORITHMS & hashes.keys(), "hashes")
    return file


def validate(file, data):
    """"Validate using `size` and `hashes`": a size where it is told, and each digest of a known algorithm."""
    ask(file.get("size", len(data)) == len(data), "size")
    for name in ALGORITHMS & file["hashes"].keys():
        ask(hashlib.new(name, data).hexdigest() == file["hashes"][name], "hashes")
