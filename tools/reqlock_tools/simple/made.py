"""How a snapshot was made: the key `made` of one, written and read."""

import json
from collections.abc import Mapping
from contextlib import suppress
from dataclasses import asdict, dataclass, fields
from typing import Any

from reqlock_tools.files import Node, json_of, read_text
from reqlock_tools.names import called
from reqlock_tools.refusal import Refusal
from reqlock_tools.requirements import fault_of, variables_in
from reqlock_tools.simple.addresses import Unfetched, is_index, plain_url
from reqlock_tools.simple.bounds import clauses_of
from reqlock_tools.simple.choices import moment_of
from reqlock_tools.simple.plan import Constraints, Environment, IndexAddress, Options, Plan, environment_of
from reqlock_tools.tags import built_of
from reqlock_tools.versions import is_name, read_version

Json = dict[str, Any]
BUILT = "interpreter", "abis", "platforms"
# So a snapshot begins that tells how it was made.
FRONT = '{"snapshot":1,"made":'


@dataclass(frozen=True)
class Findings:
    """What a run found: the packages of each index, by its place; the extras that it followed and those that it passed over; the names
    that no index has; and what it left out, as `left_json` has it."""

    packages: tuple[tuple[str, ...], ...]
    extras: Mapping[str, list[str]]
    passed: Mapping[str, list[str]]
    absent: tuple[str, ...]
    left: tuple[Json, ...]


@dataclass(frozen=True)
class LeftOut:
    """The releases of a package that one cause left out: how many, and which, as ranges."""

    name: str
    why: str
    releases: int
    ranges: tuple[str, ...]


# Writing


def environment_json(environment: Environment) -> Json:
    told: Json = dict(environment.variables)
    if environment.built is not None:
        told |= {"interpreter": environment.built.interpreter, "abis": list(environment.built.abis), "platforms": list(environment.built.platforms)}
    return ({"name": environment.name} if environment.name else {}) | dict(sorted(told.items()))


def index_json(address: IndexAddress, packages: tuple[str, ...]) -> Json:
    return {"url": address.url} | ({"only": list(address.only)} if address.only else {}) | {"packages": list(packages)}


def constraints_json(constraints: Constraints) -> Json:
    return {"file": constraints.file, "requirements": list(constraints.requirements), "versions": list(constraints.versions)}


def made_json(plan: Plan, findings: Findings) -> Json:
    """The value of `made`: the plan, and what was found. It has no time in it, so the same answers give the same value."""
    options = {name: value for name, value in asdict(plan.options).items() if value not in (None, False)}
    return {
        "indexes": [index_json(*pair) for pair in zip(plan.indexes, findings.packages, strict=True)],
        "names": list(plan.names),
        "lines": list(plan.lines),
        "environments": [environment_json(environment) for environment in plan.environments],
        "constraints": [constraints_json(constraints) for constraints in plan.constraints],
        "keep": list(plan.keep),
        "options": options,
        "extras": dict(findings.extras),
        "lacks": {"names": list(findings.absent), "extras": dict(findings.passed)},
        "left": list(findings.left),
    }


# Reading


def read_plan(path: str) -> Plan:
    """The plan by which a snapshot was made."""
    return plan_of(read_made(path))


def read_made(path: str) -> Node:
    """How a snapshot tells that it was made."""
    text = read_text(path)
    made = in_front(path, text)
    if made is not None:
        return made
    body = json_of(path, text)
    if not (isinstance(body.value, dict) and "snapshot" in body.value):
        raise Refusal(f"{path}: it is no snapshot")
    if "made" not in body.value:
        way = called("`snapshot.py simple URL ..` makes one that does")
        raise Refusal(f"{path}: it doesn't tell how it was made, as snapshots of folders and those of an older reqlock don't; {way}")
    return body.member("made")


def in_front(path: str, text: str) -> Node | None:
    """How a snapshot tells in front that it was made; None where it doesn't. What stands behind is nearly all of it, and isn't read."""
    if text.startswith(FRONT):
        with suppress(ValueError, RecursionError):
            return Node(path, json.JSONDecoder().raw_decode(text, len(FRONT))[0], "/made")
    return None


def plan_of(made: Node) -> Plan:
    return Plan(
        indexes=indexes_of(made.member("indexes")),
        names=tuple(map(requirement_of, made.member("names").items())),
        lines=tuple(map(requirement_of, made.member("lines").items())),
        environments=tuple(map(told_environment, made.member("environments").items())),
        constraints=tuple(map(constraints_of, made.member("constraints").items())),
        keep=tuple(map(pin_of, made.member("keep").items())),
        options=options_of(made.member("options")),
    )


def left_of(made: Node) -> list[LeftOut]:
    """What was left out of a snapshot."""
    return [
        LeftOut(item.member("name").name(), item.member("why").text(), item.member("releases").size(), tuple(item.member("ranges").texts()))
        for item in made.member("left").items()
    ]


def indexes_of(node: Node) -> tuple[IndexAddress, ...]:
    node.want(node.items(), "an index")
    return tuple(map(index_of, node.items()))


def index_of(node: Node) -> IndexAddress:
    url, only = node.member("url"), node.member("only").or_none(Node.texts) or []
    try:
        text = plain_url(url.text())
        url.want(text == url.text() and is_index(text), "the address of an index, without user and password")
    except Unfetched as fault:
        raise Refusal(f"{node.path}: {url.pointer}: {fault}") from None
    for pattern in only:
        node.member("only").want(is_pattern(pattern), "a list of names, in which `*` stands for any text")
    return IndexAddress(text, tuple(only))


def is_pattern(text: str) -> bool:
    return is_name(text.replace("*", "a"))


def requirement_of(node: Node) -> str:
    node.want(fault_of(node.text()) is None, "a requirement")
    return node.text()


def pin_of(node: Node) -> str:
    name, _, version = node.text().partition("==")
    node.want(is_name(name) and read_version(version) is not None, "NAME==VERSION")
    return node.text()


def told_environment(node: Node) -> Environment:
    variables = variables_in(node)
    for name in "python_version", "python_full_version":
        node.member(name).want(read_version(variables[name]) is not None, "a version")
    if node.object().keys() & set(BUILT):
        node.want(built_of(node.object()) is not None, "an environment with interpreter, abis and platforms")
    return environment_of(node.member("name").or_none(Node.text) or "", node.object(), variables)


def constraints_of(node: Node) -> Constraints:
    requirements = tuple(map(requirement_of, node.member("requirements").items()))
    for text in requirements:
        node.want(clauses_of(text) is not None, "requirements whose versions can be read")
    return Constraints(node.member("file").text(), requirements, tuple(map(pin_of, node.member("versions").items())))


def options_of(node: Node) -> Options:
    options = node.object()
    kinds = {option_field.name: bool for option_field in fields(Options)} | {"newest": int, "exclude_newer": str}
    for name, value in options.items():
        node.want(name in kinds, f"one of {' '.join(kinds)} as a key")
        node.member(name).want(type(value) is kinds[name], f"a value of the kind {kinds[name].__name__}")
    if "newest" in options:
        node.member("newest").want(options["newest"] > 0, "a number from 1")
    if "exclude_newer" in options:
        node.member("exclude_newer").want(is_moment(options["exclude_newer"]), "a date or a time")
    return Options(**options)


def is_moment(text: str) -> bool:
    try:
        moment_of(text)
    except ValueError:
        return False
    return True
