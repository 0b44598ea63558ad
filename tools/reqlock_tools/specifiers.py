"""Clauses of versions (PEP 440) as reqlock reads them. The library `packaging` takes more texts, and matches a few otherwise:
docs/RULES.md says which."""

import operator
from collections.abc import Callable, Iterable
from typing import Any, NamedTuple

from reqlock_tools.versions import SPACE, Version, read_version, version_of

BLANK = " \t"
SIGNS: dict[str, Callable[[Any, Any], bool]] = {
    "==": operator.eq, "!=": operator.ne, "<": operator.lt, "<=": operator.le, ">": operator.gt, ">=": operator.ge,
}

ALL_SIGNS = "~=", "==", "!=", "<=", ">=", "<", ">"


class Clause(NamedTuple):
    """A sign and a version; `==1.*` has a prefix."""

    sign: str
    version: Version
    is_prefix: bool


def read_clause(text: str) -> Clause | None:
    """The clause that a text spells; None where it spells none."""
    text = text.strip(BLANK)
    sign = next((sign for sign in ALL_SIGNS if text.startswith(sign)), None)
    if sign is None:
        return None
    rest = text.removeprefix(sign).lstrip(BLANK)
    is_prefix = rest.endswith(".*")
    rest = rest.removesuffix(".*")
    version = read_version(rest)
    if version is None or rest != rest.strip(SPACE):
        return None
    is_bare = {version.pre, version.post, version.dev, version.local} == {None}
    if sign not in ("==", "!=") and (is_prefix or version.local) or is_prefix and not is_bare:
        return None
    return None if sign == "~=" and len(version.release) < 2 else Clause(sign, version, is_prefix)


def read_set(text: str) -> list[Clause] | None:
    """The clauses of a set; None where one of them is none."""
    pieces = text.split(",") if text.strip(BLANK) else []
    pieces = pieces[:-1] if len(pieces) > 1 and not pieces[-1].strip(BLANK) else pieces
    clauses = [clause for piece in pieces if (clause := read_clause(piece)) is not None]
    return clauses if len(clauses) == len(pieces) else None


def matches(clauses: Iterable[Clause], version: Version) -> bool:
    """Whether a version matches all clauses."""
    return all(is_met(clause, version) for clause in clauses)


def is_met(clause: Clause, version: Version) -> bool:
    wanted = clause.version
    begin = wanted.release[: -1 if clause.sign == "~=" else None]
    begins = version.epoch == wanted.epoch and (version.release + (0,) * len(begin))[: len(begin)] == begin
    ours = version if wanted.local or not version.local else version_of(version.public)
    if clause.is_prefix or clause.sign == "~=":
        return begins == (clause.sign != "!=") and (clause.is_prefix or bool(ours >= wanted))
    if clause.sign == "<" and ours.is_prerelease > wanted.is_prerelease and is_same_base(ours, wanted):
        return False
    if clause.sign == ">" and ours.is_postrelease > wanted.is_postrelease and is_same_base(ours, wanted):
        return False
    return SIGNS[clause.sign](ours, wanted)


def is_same_base(one: Version, other: Version) -> bool:
    return bool(version_of(one.base_version) == version_of(other.base_version))
