"""What the definitions of the crates give, in the forms of the rules' second readings, for tests that hold the one beside the other."""

from functools import cache

from support.places import TOP
from support.rules.locks import Index, Release
from support.rules.requirements import TEXTS, Clause, Requirement
from support.rules.versions import Version

from definitions.values import Made, text, written
from definitions.whole import Definitions

PRE = {"Alpha": "a", "Beta": "b", "Candidate": "rc"}
SIGNS = {
    "Compatible": "~=", "Equal": "==", "NotEqual": "!=", "EqualPrefix": "==", "NotEqualPrefix": "!=", "AtMost": "<=", "AtLeast": ">=",
    "Below": "<", "Above": ">",
}


@cache
def definitions():
    """The definitions of this checkout, translated once."""
    return Definitions(TOP / "crates")


def defined(crate, module, name):
    return definitions()[crate, module, name]


def value_of(answer):
    """What an answer has, None where it is a fault or nothing."""
    return answer.parts[0] if answer.name in ("Ok", "Some") else None


def part_of(part):
    return written(part.parts[0]) if part.name == "Word" else part.parts[0]


def rules_version(parts):
    """A version in the form of rules/versions.py."""
    pre = value_of(parts.pre)
    return Version(
        parts.epoch, parts.release, pre and (PRE[pre.name], pre.parts[0]), value_of(parts.post), value_of(parts.dev),
        tuple(map(part_of, parts.local)) or None,
    )


def rules_clause(clause):
    return Clause(SIGNS[clause.operator.name], rules_version(clause.version), clause.operator.name.endswith("Prefix"))


def rules_requirement(parts):
    """A requirement; its marker is the definition's own tree, to be asked by `holds`."""
    return Requirement(written(parts.name), [*map(written, parts.extras)], [*map(rules_clause, parts.clauses)], value_of(parts.marker))


def rules_file(file):
    return {"name": written(file.name), "sha256": written(file.sha256), "size": file.size, "url": written(file.url)}


def rules_release(release):
    python, sdist = value_of(release.requires_python), value_of(release.sdist)
    return Release(
        rules_version(release.version), python and written(python.text), [*map(rules_requirement, release.dependencies)], release.yanked,
        sdist and rules_file(sdist), [*map(rules_file, release.wheels)],
    )


def rules_index(index):
    return Index({written(package.name): [*map(rules_release, package.releases)] for package in index.packages}, bytes(index.digest).hex())


def texts_of(environment):
    """An environment as definitions have it: its texts in the order of its variables."""
    return tuple(text(environment[name]) for name in TEXTS)


def extra_of(extra):
    return Made("None") if extra is None else Made("Some", (text(extra),))
