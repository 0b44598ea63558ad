"""Wheel tags (the packaging guide's platform compatibility tags) of environments."""

import math
import re
from collections.abc import Mapping
from functools import lru_cache
from typing import TYPE_CHECKING, NamedTuple

from reqlock_tools.libraries import packaging_tags

if TYPE_CHECKING:
    from packaging.tags import Tag

# A wheel's name can stand for so many tags and no more.
MOST_TAGS = 1000
# An environment has fewer, and its tags are made of each pair.
MOST_ABIS, MOST_PLATFORMS = 16, 1000


class Built(NamedTuple):
    """What an environment tells of its Python for wheels' tags."""

    interpreter: str
    version: tuple[int, int]
    abis: tuple[str, ...]
    platforms: tuple[str, ...]


def built_of(environment: Mapping[str, object]) -> Built | None:
    """What an environment tells; None where it tells nothing."""
    interpreter, abis, platforms = (environment.get(name) for name in ("interpreter", "abis", "platforms"))
    if not (isinstance(interpreter, str) and isinstance(abis, (list, tuple)) and isinstance(platforms, (list, tuple))):
        return None
    version = re.fullmatch(r"([0-9])\.([0-9]{1,2})", str(environment.get("python_version")))
    if version is None or not all(isinstance(text, str) for text in (*abis, *platforms)):
        return None
    if len(abis) > MOST_ABIS or len(platforms) > MOST_PLATFORMS:
        return None
    return Built(interpreter, (int(version[1]), int(version[2])), tuple(abis), tuple(platforms))


@lru_cache(maxsize=2**8)
def built_tags(built: Built) -> "frozenset[Tag]":
    """The tags of the wheels that such a Python takes. Nothing is asked of the Python that runs."""
    if built.interpreter.startswith("cp"):
        own = packaging_tags.cpython_tags(built.version, built.abis, built.platforms)
        interpreter: str | None = built.interpreter
    else:
        own = packaging_tags.generic_tags(built.interpreter, built.abis, built.platforms)
        interpreter = f"pp{built.version[0]}" if built.interpreter.startswith("pp") else None
    return frozenset([*own, *packaging_tags.compatible_tags(built.version, interpreter, built.platforms)])


def tags_of(environment: Mapping[str, object]) -> "frozenset[Tag] | None":
    """The tags of the wheels that an environment takes; None where it doesn't tell of them."""
    built = built_of(environment)
    return None if built is None else built_tags(built)


@lru_cache(maxsize=2**14)
def wheel_tags(words: str) -> "frozenset[Tag]":
    """The tags that the last three words of a wheel's name stand for; none where they are too many."""
    count = math.prod(word.count(".") + 1 for word in words.split("-"))
    return packaging_tags.parse_tag(words) if count <= MOST_TAGS else frozenset()


def takes(tags: "frozenset[Tag]", name: str) -> bool:
    """Whether a wheel of a name is among those of some tags."""
    return not tags.isdisjoint(wheel_tags("-".join(name.removesuffix(".whl").split("-")[-3:])))
