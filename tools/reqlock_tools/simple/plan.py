"""What a snapshot is made of, and how an index is asked."""

from collections.abc import Iterable, Mapping
from dataclasses import dataclass
from typing import Any

from reqlock_tools.limits import Limits
from reqlock_tools.requirements import need_of
from reqlock_tools.tags import Built, built_of

# So many requests are under way at the same time, unless it is told otherwise.
JOBS = 32
# So long an answer is waited for, and so often a request is tried again.
SECONDS, RETRIES = 30.0, 5


@dataclass(frozen=True)
class IndexAddress:
    """An index, without user and password. With `only`, patterns of normal names, it is asked for these alone, and no other is."""

    url: str
    only: tuple[str, ...] = ()


@dataclass(frozen=True)
class Environment:
    """An environment that is locked for, by the name of its target, which is empty where it has none. `built` is None where it tells
    nothing of wheels."""

    name: str
    variables: Mapping[str, str]
    built: Built | None

    @property
    def label(self) -> str:
        """The name, or what it is."""
        told = self.variables
        return self.name or f"Python {told['python_version']} on {told['sys_platform']} {told['platform_machine']}".rstrip()


@dataclass(frozen=True)
class Constraints:
    """The bounds of a file: requirements that must all be met, or versions that are the only ones of their packages, as
    NAME==VERSION."""

    file: str
    requirements: tuple[str, ...]
    versions: tuple[str, ...]


@dataclass(frozen=True)
class Options:
    """What is chosen of that which indexes have."""

    only_binary: bool = False
    no_pre: bool = False
    newest: int | None = None
    exclude_newer: str | None = None
    assume_no_dependencies: bool = False
    any_platform: bool = False


@dataclass(frozen=True)
class Plan:
    """All that decides what is in a snapshot, beside the answers of indexes. It stands in the snapshot, so that it can be made again.
    `names` are requirements that were typed, `lines` those of requirements files, `keep` what locks have, as NAME==VERSION."""

    indexes: tuple[IndexAddress, ...]
    names: tuple[str, ...]
    lines: tuple[str, ...]
    environments: tuple[Environment, ...]
    constraints: tuple[Constraints, ...]
    keep: tuple[str, ...]
    options: Options


@dataclass(frozen=True)
class Asking:
    """How indexes are asked, and how much is taken of them, which changes nothing of a snapshot."""

    jobs: int
    timeout: float
    retries: int
    cache: str
    is_offline: bool
    is_refreshed: bool
    limits: Limits


def environment_of(name: str, described: Mapping[str, Any], variables: Mapping[str, str]) -> Environment:
    return Environment(name, dict(variables), built_of({**described, **variables}))


def followed_texts(texts: Iterable[str]) -> tuple[str, ...]:
    """What is followed of requirements, each once and in order: names with extras and markers. Their versions make no difference."""
    followed = set()
    for text in texts:
        need = need_of(text)
        if need is not None:
            extras = f"[{','.join(need.extras)}]" if need.extras else ""
            followed.add(f"{need.name}{extras}" + (f" ; {need.marker}" if need.marker else ""))
    return tuple(sorted(followed))
