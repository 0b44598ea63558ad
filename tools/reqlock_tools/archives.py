"""Wheels and sdists that snapshot.py reads: what they tell of their release, their sizes and their digests."""

import hashlib
import os
import re
from dataclasses import dataclass, field
from functools import lru_cache
from typing import IO

from reqlock_tools.archive_members import BROKEN, Find, finder_of
from reqlock_tools.files import decoded, refuse_no_file
from reqlock_tools.index_documents import Document, File, fail, headers_of, told_by_headers, tells
from reqlock_tools.limits import Limits
from reqlock_tools.refusal import Refusal, Say
from reqlock_tools.versions import normal, read_version

SUFFIXES = ".whl", ".tar.gz", ".zip"
# No file system has longer names.
LONGEST_NAME = 255
METADATA = re.compile(r"[^/]+\.dist-info/METADATA")
PKG_INFO = re.compile("[^/]+/PKG-INFO")


@dataclass
class Archive:
    """A wheel or an sdist, and whether it tells all that its release asks for."""

    told: Document
    is_wheel: bool
    tells_python: bool
    tells_dependencies: bool


@dataclass
class ArchivedRelease(Document):
    """A release that its archives tell of. It is left out where they disagree; `assumed` are the dependencies that are listed
    where it isn't told that these are all."""

    is_left_out: bool = field(compare=False)
    assumed: list[str] | None = field(compare=False)


def archive_paths(folder: str) -> list[str]:
    """The paths of the archives in a folder and those below it, in order. No two have one name."""
    walk = os.walk(folder, onerror=fail)
    paths = sorted(os.path.join(place, name) for place, _, names in walk for name in names if name.endswith(SUFFIXES))
    first: dict[str, str] = {}
    for path in paths:
        other = first.setdefault(os.path.basename(path), path)
        if other != path:
            raise Refusal(f"{path}: {other} has the same name")
    return paths


def version_key(text: str) -> object:
    """A key that versions have in common where they are equal. A text that is no version has one of its own."""
    version = read_version(text)
    return ("", re.sub("[^A-Za-z0-9.]+", "_", text)) if version is None else ("v", version)


def is_of(stem: str, name: str, version: str) -> bool:
    """Whether the beginning of a file's name is that of a release, as NAME-VERSION. `_` may stand for `-` in it."""
    wanted_name, wanted_key = normal(name), version_key(version)
    for place in (dash.start() for dash in re.finditer("-", stem)):
        ours = stem[place + 1 :]
        if normal(stem[:place]) == wanted_name and wanted_key in (version_key(ours), version_key(ours.replace("_", "-"))):
            return True
    return False


def metadata_of(path: str, file: IO[bytes], is_wheel: bool, find: Find, limits: Limits) -> tuple[str, bytes]:
    """The folder of an archive that holds its metadata, and the bytes of the metadata."""
    try:
        members = find(path, file, METADATA if is_wheel else PKG_INFO, limits)
    except BROKEN as error:
        raise Refusal(f"{path}: not a whole archive: {error}") from None
    if isinstance(members, list):
        form = "NAME-VERSION.dist-info/METADATA" if is_wheel else "NAME-VERSION/PKG-INFO"
        raise Refusal(f"{path}: one {form} is wanted in it, and it has {len(members)}")
    name, data = members
    return name.rpartition("/")[0], data


def refuse_other_names(path: str, name: str, is_wheel: bool, inner: str | None, told: Document) -> None:
    """An archive of a name and the folder of a wheel's metadata, where that is known, have the name and version that the metadata
    tells."""
    if len(name) > LONGEST_NAME or re.fullmatch(r"[\w.+!-]+", name, re.ASCII) is None:
        raise Refusal(f"{path}: the name isn't that of an archive")
    if is_wheel:
        words = name.removesuffix(".whl").split("-")
        fits = len(words) in (5, 6) and all(words) and is_of("-".join(words[:2]), told.name, told.version)
        folder = (inner or "").removesuffix(".dist-info")
        if fits and inner is not None and (len(folder) > LONGEST_NAME or not is_of(folder, told.name, told.version)):
            raise Refusal(f"{path}: its metadata is in {inner[:LONGEST_NAME]}, and tells of {told.name} {told.version}")
    else:
        fits = is_of(name.removesuffix(".tar.gz").removesuffix(".zip"), told.name, told.version)
    if not fits:
        raise Refusal(f"{path}: the name isn't that of {told.name} {told.version}, of which its metadata tells")


def read_archive(path: str, url: str, limits: Limits) -> Archive:
    """A wheel or an sdist that is at a URL."""
    name = os.path.basename(path)
    refuse_no_file(path)
    with open(path, "rb") as file:
        limits.refuse_over("file", os.fstat(file.fileno()).st_size, path)
        inner, data = metadata_of(path, file, name.endswith(".whl"), finder_of(name), limits)
        file.seek(0)
        digest = hashlib.file_digest(file, "sha256").hexdigest()
        size = file.tell()
    return archive_of(path, File(name, url, size, digest, requires_python=None, yanked=None), inner, data)


def archive_of(path: str, file: File, inner: str | None, data: bytes) -> Archive:
    """An archive with this metadata, from a folder of it that is None where it isn't known."""
    is_wheel = file.name.endswith(".whl")
    place = path if inner is None else f"{path}: {inner}"
    headers = headers_of(place, decoded(place, data))
    told = told_by_headers(path, headers, [file], headers("Requires-Dist"))
    refuse_other_names(path, file.name, is_wheel, inner, told)
    return Archive(
        told,
        is_wheel,
        tells_python=is_wheel or tells(headers, "Requires-Python"),
        tells_dependencies=is_wheel or tells(headers, "Requires-Dist"),
    )


@lru_cache(maxsize=2**12)
def plain(text: str) -> object:
    """A requirement or a set of specifiers without what makes no difference: spaces, parentheses, order of clauses."""
    asked, semicolon, marker = text.partition(";")
    asked = asked.strip()
    name = re.match(r"[\w.-]*", asked)[0]  # type: ignore[index]  # (it matches each text)
    rest, extras = asked.removeprefix(name).lstrip(), ""
    if rest.startswith("[") and "]" in rest:
        extras, _, rest = rest[1:].partition("]")
    rest = rest.strip().removeprefix("(").removesuffix(")")
    if re.search("[()]", rest):
        return text
    clauses = sorted("".join(clause.split()) for clause in rest.split(","))
    words = re.findall(r"'[^']*'|\"[^\"]*\"|[\w.]+|[^\w\s'\"]+", marker)
    words = [f'"{word[1:-1]}"' if word[0] == "'" and '"' not in word else word for word in words]
    return normal(name), sorted(normal(extra.strip()) for extra in extras.split(",")), clauses, semicolon, words


def difference(one: Archive, other: Archive) -> str:
    """What the second archive asks for otherwise than the first, of what both tell; empty where they agree."""
    differences = []
    if one.tells_python and other.tells_python:
        pythons = [archive.told.requires_python or "" for archive in (other, one)]
        if plain(pythons[0]) != plain(pythons[1]):
            differences.append("Requires-Python is {}, and there {}".format(*(text or "absent" for text in pythons)))
    if one.tells_dependencies and other.tells_dependencies:
        for first, second, place in (other, one, "is here alone"), (one, other, "is there alone"):
            known = set(map(repr, map(plain, second.told.requires_dist or [])))
            alone = [text for text in first.told.requires_dist or [] if repr(plain(text)) not in known]
            differences += [f"Requires-Dist {text} {place}" for text in alone]
    return "; ".join(differences)


def release_of_archives(archives: list[Archive], say: Say) -> ArchivedRelease:
    """The release of archives, wheels first. An archive that doesn't tell its dependencies is one more file of it."""
    telling = [archive for archive in archives if archive.tells_dependencies]
    first = telling[0] if telling else archives[0]
    differences = [(other.told, difference(first, other)) for other in telling[1:]]
    for told, text in differences:
        if text:
            path = first.told.path
            say(f"{told.path}: {told.name} {told.version}: left out, as {path} asks for other things: {text}")
    own = first.told
    return ArchivedRelease(
        own.path, own.name, own.version, own.requires_python, own.requires_dist if telling else None, own.yanked,
        [archive.told.files[0] for archive in archives], own.listed,
        is_left_out=any(text for _, text in differences),
        assumed=own.requires_dist,
    )


def releases_of(archives: list[Archive], say: Say) -> list[ArchivedRelease]:
    """The releases that archives tell of."""
    by_release: dict[object, list[Archive]] = {}
    for archive in sorted(archives, key=lambda archive: not archive.is_wheel):
        key = normal(archive.told.name), version_key(archive.told.version)
        by_release.setdefault(key, []).append(archive)
    return [release_of_archives(of_one, say) for of_one in by_release.values()]
