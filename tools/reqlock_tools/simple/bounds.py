"""Constraints: bounds on packages that ask for none of them, from files of requirements and from locks."""

import os
import re
from collections.abc import Iterable, Sequence

from reqlock_tools.markers import NO_EXTRA, Markers
from reqlock_tools.refusal import Refusal, Say
from reqlock_tools.requirements import need_of, read_lines
from reqlock_tools.simple.locked import Locked, locked_versions, texts_of, versions_of
from reqlock_tools.simple.plan import Constraints
from reqlock_tools.specifiers import Clause, matches, read_set
from reqlock_tools.versions import Version

# What stands in front of the versions of a requirement.
NAME_AND_EXTRAS = re.compile(r"[ \t]*[A-Za-z0-9._-]+[ \t]*(?:\[[^\]]*\])?[ \t]*")


def clauses_of(text: str) -> list[Clause] | None:
    """The clauses of a requirement; None where they aren't read."""
    rest = NAME_AND_EXTRAS.sub("", text.partition(";")[0], count=1).strip()
    return read_set(rest[1:-1] if rest[:1] == "(" and rest[-1:] == ")" else rest)


def read_constraints(path: str, say: Say) -> Constraints:
    """The bounds of a file: requirements, or a lock in TOML, whose versions are the only ones of the packages that it has."""
    if os.path.basename(path).endswith(".toml"):
        return Constraints(path, (), texts_of(locked_versions([path])))
    lines = read_lines(path, say)
    for text in lines:
        if clauses_of(text) is None:
            raise Refusal(f"{path}: {text!a}: its versions can't be read")
    return Constraints(path, tuple(lines), ())


def why_out(file: str) -> str:
    """Why releases are left out that are outside of the bounds of a file."""
    return f"by {file}"


class Bound:
    """What one file asks of packages, by normal names: with the clauses stand the requirements that ask for them."""

    def __init__(self, told: Constraints, markers: Markers) -> None:
        self.versions: Locked = versions_of(told.versions)
        self.clauses: dict[str, list[Clause]] = {}
        self.requirements: dict[str, list[str]] = {}
        for text in told.requirements:
            need = need_of(text)
            if need is not None and markers.can_hold(need.marker, NO_EXTRA):
                self.clauses.setdefault(need.name, []).extend(clauses_of(text) or ())
                self.requirements.setdefault(need.name, []).append(text)

    def told(self, name: str) -> str:
        """What is asked of a package, as a text."""
        clauses = [(clause.sign, str(clause.version), clause.is_prefix) for clause in self.clauses.get(name, ())]
        return repr((sorted(map(str, self.versions.get(name, ()))), name in self.versions, clauses))

    def is_out(self, name: str, version: Version) -> bool:
        """Whether a release is outside."""
        if name in self.versions and version not in self.versions[name]:
            return True
        return not matches(self.clauses.get(name, ()), version)


class Bounds:
    """The bounds of all files. One with a marker counts where it can hold in one of the environments."""

    def __init__(self, constraints: Iterable[Constraints], markers: Markers) -> None:
        self.files = [(told.file, Bound(told, markers)) for told in constraints]

    def of(self, name: str) -> Sequence[tuple[str, Bound]]:
        """The files that bound a package."""
        return [(file, bound) for file, bound in self.files if name in bound.versions or name in bound.clauses]
