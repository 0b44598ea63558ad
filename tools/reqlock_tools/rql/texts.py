"""Texts of requirements, as they are typed."""

import re
from collections.abc import Sequence

from reqlock_tools.requirements import need_of
from reqlock_tools.rql.faults import SettingsFault


def outside(names: Sequence[str]) -> str:
    """What to do about packages that no index has."""
    return (
        f"only what an index has can be locked, and not {', '.join(names)}: publish it to one; or install it after rql sync, by pip install"
        f" --no-deps, add what it needs by rql add, and have it stay by rql sync {' '.join(f'--keep {name}' for name in names)}"
    )


def is_url(text: str) -> bool:
    """Whether a text begins with the address of something, where a name would stand."""
    return re.match(r"\s*[A-Za-z0-9+.-]+://", text) is not None


def name_in(text: str) -> str:
    """The name with which a requirement begins."""
    need = need_of(text)
    if need is None:
        raise SettingsFault(f"{text!a}: it begins with no name")
    return need.name
