"""Versions as PEP 440 has them: what a text spells, a version's one text, and the key by which versions are ordered."""

import re
from functools import lru_cache
from typing import NamedTuple

LARGEST = 2**64 - 1
SPACE = " \t\n\r\f\v"
PRE_WORDS = {"alpha": "a", "beta": "b", "c": "rc", "pre": "rc", "preview": "rc"}

VERSION = re.compile(
    r"""v?
    (?:(?P<epoch>[0-9]+)!)?
    (?P<release>[0-9]+(?:\.[0-9]+)*)
    (?:[-_.]?(?P<pre>alpha|a|beta|b|preview|pre|c|rc)[-_.]?(?P<pre_number>[0-9]*))?
    (?:-(?P<bare_post>[0-9]+)|[-_.]?(?P<post>post|rev|r)[-_.]?(?P<post_number>[0-9]*))?
    (?:[-_.]?(?P<dev>dev)[-_.]?(?P<dev_number>[0-9]*))?
    (?:\+(?P<local>[a-z0-9]+(?:[-_.][a-z0-9]+)*))?""",
    re.VERBOSE | re.IGNORECASE | re.ASCII,
)


class Version(NamedTuple):
    """The parts of a version; None for those that it doesn't have."""

    epoch: int
    release: tuple[int, ...]
    pre: tuple[str, int] | None
    post: int | None
    dev: int | None
    local: tuple[int | str, ...] | None


def number_of(digits):
    """The number that digits spell, 0 for none. One that can't be right is made 2**64, which saves its reading."""
    digits = digits.lstrip("0")
    return LARGEST + 1 if len(digits) > len(str(LARGEST)) else int(digits or "0")


def local_part(text):
    return number_of(text) if text.isdigit() else text.lower()


@lru_cache(2**14)
def read_version(text):
    """The version that a text spells; None where it spells none, or has a number of more than 64 bits."""
    match = VERSION.fullmatch(text.strip(SPACE))
    if match is None:
        return None
    word, post = match["pre"], match["bare_post"] or match["post_number"]
    version = Version(
        epoch=number_of(match["epoch"] or ""),
        release=tuple(map(number_of, match["release"].split("."))),
        pre=word and (PRE_WORDS.get(word.lower(), word.lower()), number_of(match["pre_number"])),
        post=None if post is None else number_of(post),
        dev=number_of(match["dev_number"]) if match["dev"] else None,
        local=match["local"] and tuple(map(local_part, re.split("[-_.]", match["local"]))),
    )
    return version if max(numbers_of(version)) <= LARGEST else None


def numbers_of(version):
    """All numbers of a version."""
    ends = [version.epoch, version.pre[1] if version.pre else 0, version.post or 0, version.dev or 0]
    return [*ends, *version.release, *(part for part in version.local or () if isinstance(part, int))]


def canonical(version):
    """A version's one text."""
    text = f"{version.epoch}!" if version.epoch else ""
    text += ".".join(map(str, version.release))
    text += f"{version.pre[0]}{version.pre[1]}" if version.pre else ""
    text += "" if version.post is None else f".post{version.post}"
    text += "" if version.dev is None else f".dev{version.dev}"
    return text + ("+" + ".".join(map(str, version.local)) if version.local else "")


def without_zeros(release):
    """A release without the zeros at its end."""
    kept = list(release)
    while kept and kept[-1] == 0:
        kept.pop()
    return tuple(kept)


def order_key(version):
    """A key that orders versions. Two are equal where neither is less: `1.0` and `1.0.0` have one key."""
    if version.pre is not None:
        pre = version.pre
    else:
        pre = ("", 0) if version.dev is not None and version.post is None else ("s", 0)
    post = -1 if version.post is None else version.post
    dev = (1, 0) if version.dev is None else (0, version.dev)
    local = tuple((1, part, "") if isinstance(part, int) else (0, 0, part) for part in version.local or ())
    return version.epoch, without_zeros(version.release), pre, post, dev, version.local is not None, local
