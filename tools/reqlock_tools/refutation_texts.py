"""The texts of requirements, as check_refutation.py reads them beside reqlock: versions, specifiers, markers and lines."""

import operator
import re
from collections.abc import Callable, Iterable
from typing import Any, NamedTuple

from reqlock_tools.libraries import packaging_version
from reqlock_tools.refusal import Refusal

SPACE, BLANK = " \t\n\r\f\v", " \t"
NAME = "[A-Za-z0-9](?:[A-Za-z0-9._-]*[A-Za-z0-9])?"
ODD = re.compile("[\0-\x08\n-\x1f\x7f\x85\u2028\u2029]|^\ufeff")
PARTS = re.compile(r"([A-Za-z0-9._-]*)[ \t]*(?:\[([^]]*)\])?[ \t]*([^;]*)(?:;(.*))?", re.DOTALL)
SIDE = r"""('[ -&(-[\]-~]*'|"[ !#-[\]-~]*"|\b[a-z_]+\b)"""
ATOM = re.compile(rf"{SIDE}[ \t]*(~=|==|!=|<=|>=|<|>|(?:\bnot[ \t]+)?\bin\b)[ \t]*{SIDE}")
VARIABLES = (
    "implementation_name implementation_version os_name platform_machine platform_python_implementation platform_release"
    " platform_system platform_version python_full_version python_version sys_platform"
).split()
SIGNS: dict[str, Callable[[Any, Any], bool]] = {
    "==": operator.eq, "!=": operator.ne, "<": operator.lt, "<=": operator.le, ">": operator.gt, ">=": operator.ge,
}
LARGEST, MOST_OPEN = 2**64 - 1, 64

Extra = str | None


class Clause(NamedTuple):
    sign: str
    version: Any
    is_prefix: bool


class Requirement(NamedTuple):
    text: str
    name: str
    nodes: list[tuple[str, Extra]]
    clauses: list[Clause]
    marker: str | None


def want(holds: object, fault: str) -> None:
    if not holds:
        raise Refusal(fault)


def read_version(text: str) -> Any:
    text = text.strip(SPACE)
    want(re.fullmatch("[!-~]+", text), "bad-version")
    try:
        version = packaging_version.Version(text)
    except ValueError:
        raise Refusal("bad-version") from None
    numbers = [version.epoch, *version.release, *(version.pre or ())[1:], version.post or 0, version.dev or 0]
    numbers += [int(part) for part in (version.local or "").split(".") if part.isdigit()]
    want(max(numbers) <= LARGEST, "number-too-large")
    return version


def parts_of(pattern: str | re.Pattern[str], text: str, flags: int = 0) -> tuple[Any, ...]:
    """The groups of a pattern that each text matches."""
    parts = re.fullmatch(pattern, text, flags)
    want(parts, "bad-text")
    return parts.groups() if parts else ()


def read_clause(text: str) -> Clause:
    sign, rest, star = parts_of(r"(~=|==|!=|<=|>=|<|>|)(.*?)(\.\*)?", text.strip(BLANK), re.DOTALL)
    rest = rest.lstrip(BLANK)
    want(sign and rest == rest.strip(SPACE), "bad-clause")
    version = read_version(rest)
    is_bare = {version.pre, version.post, version.dev, version.local} == {None}
    want(sign in ("==", "!=") or not star and not version.local, "bad-clause")
    want((is_bare or not star) and (sign != "~=" or len(version.release) > 1), "bad-clause")
    return Clause(sign, version, star is not None)


def read_set(text: str) -> list[Clause]:
    pieces = text.split(",") if text.strip(BLANK) else []
    return list(map(read_clause, pieces[:-1] if len(pieces) > 1 and not pieces[-1].strip(BLANK) else pieces))


def is_met(clause: Clause, version: Any, public: Any) -> bool:
    """Whether a version meets a clause. It is given without its local part too."""
    sign, wanted, is_prefix = clause
    ours = version if wanted.local else public
    if is_prefix or sign == "~=":
        begin = wanted.release[: -1 if sign == "~=" else None]
        begins = version.epoch == wanted.epoch and (version.release + (0,) * len(begin))[: len(begin)] == begin
        return bool(begins == (sign != "!=") and (is_prefix or ours >= wanted))
    if not SIGNS[sign](ours, wanted):
        return False
    is_odd = sign == "<" and ours.is_prerelease > wanted.is_prerelease or sign == ">" and ours.is_postrelease > wanted.is_postrelease
    return not (is_odd and packaging_version.Version(ours.base_version) == packaging_version.Version(wanted.base_version))


def matches(clauses: Iterable[Clause], version: Any) -> bool:
    public = packaging_version.Version(version.public) if version.local else version
    return all(is_met(clause, version, public) for clause in clauses)


def atom_holds(left: str, sign: str, right: str, environment: dict[str, str], extra: Extra) -> bool:
    for side in left, right:
        want(side[0] in "'\"" or side in VARIABLES or side == "extra" and sign in ("==", "!="), "bad-marker")
    if "extra" in (left, right):
        quoted = right if left == "extra" else left
        want(quoted[0] in "'\"", "bad-marker")
        return (re.sub("[-_.]+", "-", quoted[1:-1]).lower() == extra) == (sign == "==")
    left, right = (side[1:-1] if side[0] in "'\"" else environment.get(side, "") for side in (left, right))
    if sign.endswith("in"):
        return (left in right) == (sign == "in")
    try:
        want("," not in right, "bad-clause")
        return matches([read_clause(sign + right)], read_version(left))
    except Refusal:
        return sign in SIGNS and SIGNS[sign](left, right)


def joined(text: str) -> str:
    want(re.fullmatch("[TF]((and|or)[TF])*", text), "bad-marker")
    return "T" if any("F" not in part for part in text.split("or")) else "F"


def holds(marker: str | None, environment: dict[str, str], extra: Extra = None) -> bool:
    """Whether a marker holds, or there is none: its atoms are answered, then what stands in parentheses, the innermost first."""
    if marker is None:
        return True
    text = ATOM.sub(lambda atom: " T " if atom_holds(atom[1], atom[2], atom[3], environment, extra) else " F ", marker)
    text = re.sub("[ \t]+(?![a-z])|(?<![a-z])[ \t]+", "", text)
    for _ in range(MOST_OPEN):
        text = re.sub(r"\(([^()]*)\)", lambda group: joined(group[1]), text)
    return joined(text) == "T"


def read_name(text: str) -> str:
    want(re.fullmatch(NAME, text), "bad-name")
    return re.sub("[-_.]+", "-", text).lower()


def read_requirement(text: str) -> Requirement:
    text = text.strip(BLANK)
    name, extras, part, marker = parts_of(PARTS, text)
    name, part = read_name(name), part.strip(BLANK)
    want(part[:1] not in ("[", "@"), "url-requirement" if part[:1] == "@" else "bad-name")
    extras = [read_name(piece.strip(BLANK)) for piece in extras.split(",")] if (extras or "").strip(BLANK) else []
    clauses = read_set(part[1:-1] if part[:1] == "(" and part[-1] == ")" else part)
    holds(marker, {})
    return Requirement(text, name, [(name, extra) for extra in (None, *extras)], clauses, marker)


def read_line(line: str) -> Requirement | None:
    body = re.sub("\r?\n\\Z", "", line)
    want(not ODD.search(body), "odd-character")
    want(not body.endswith("\\"), "continuation")
    want(not body.lstrip(BLANK).startswith("-"), "option-line")
    text = re.split(r"(?:^|(?<=[ \t]))#", body, maxsplit=1)[0]
    return read_requirement(text) if text.strip(BLANK) else None


def pins(requirement: Requirement) -> bool:
    return any(clause.sign == "==" and not clause.is_prefix for clause in requirement.clauses)


def names_pre_release(requirement: Requirement) -> bool:
    return any(clause.sign != "!=" and clause.version.is_prerelease for clause in requirement.clauses)
