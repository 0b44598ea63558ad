"""Versions (PEP 440) as the library `packaging` reads and orders them, so far as reqlock takes them, and names (PEP 503)."""

import re
from functools import lru_cache
from typing import TYPE_CHECKING

from reqlock_tools.libraries import packaging_utils, packaging_version

if TYPE_CHECKING:
    from packaging.version import Version as Version
else:
    Version = object

LARGEST = 2**64 - 1
SPACE = " \t\n\r\f\v"
LONGEST = 2**12


def read_version(text: str) -> Version | None:
    """The version that a text spells; None where it spells none, or a longer one than any is, or has a number of more than 64
    bits."""
    return read_short(text) if len(text) <= LONGEST else None


@lru_cache(maxsize=2**14)
def read_short(text: str) -> Version | None:
    text = text.strip(SPACE)
    if re.fullmatch("[!-~]+", text) is None:
        return None
    try:
        version = packaging_version.Version(text)
    except ValueError:
        return None
    numbers = [version.epoch, *version.release, *(version.pre or ())[1:], version.post or 0, version.dev or 0]
    numbers += [int(part) for part in (version.local or "").split(".") if part.isdigit()]
    return version if max(numbers) <= LARGEST else None


def version_of(text: str) -> Version:
    """The version of a text that spells one."""
    version = read_version(text)
    if version is None:
        raise ValueError(text)
    return version


@lru_cache(maxsize=2**14)
def normal(name: str) -> str:
    """The form of a name by which packages are compared (PEP 503)."""
    return packaging_utils.canonicalize_name(name)


def is_name(text: str) -> bool:
    return re.fullmatch("[A-Za-z0-9]([A-Za-z0-9._-]*[A-Za-z0-9])?", text) is not None
