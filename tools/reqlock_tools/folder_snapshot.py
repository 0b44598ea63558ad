"""The packages of a folder of archives and documents."""

import os
import pathlib
import urllib.parse
from collections.abc import Iterator
from dataclasses import dataclass

from reqlock_tools.archives import ArchivedRelease, archive_paths, read_archive, releases_of
from reqlock_tools.index_documents import Document, File, documents_of
from reqlock_tools.limits import limits_of
from reqlock_tools.markers import Markers
from reqlock_tools.progress import Progress
from reqlock_tools.refusal import Refusal, Say
from reqlock_tools.releases import snapshot_release
from reqlock_tools.snapshot_output import Packages, say
from reqlock_tools.versions import normal
from reqlock_tools.walk import Walk, extras_text


@dataclass(frozen=True)
class FolderRequest:
    """A snapshot of a folder that is to be made, and where it is to stand: standard output where `output` is None."""

    folder: str
    base_url: str | None
    requirements: tuple[str, ...]
    environments: tuple[str, ...]
    assumes_none: bool
    limits: tuple[str, ...]
    output: str | None


Listed = dict[str, tuple[list[File], str]]


def own_documents(documents: list[Document]) -> dict[str, Document]:
    """For each version the document about that release. One that lists no other releases counts before one that does:
    it is the body of the release itself."""
    own: dict[str, Document] = {}
    for document in sorted(documents, key=lambda document: document.listed is not None):
        first = own.setdefault(document.version, document)
        if document != first and (document.listed is None) == (first.listed is None):
            raise Refusal(f"{document.path}: {first.path} tells otherwise of {document.name} {document.version}")
    return own


def listed_files(documents: list[Document]) -> Listed:
    """For each version that a document lists the files, and the document's path."""
    by_version: Listed = {}
    for document in documents:
        for version, files in (document.listed or {}).items():
            first, path = by_version.setdefault(version, (files, document.path))
            if files != first:
                raise Refusal(f"{document.path}: {path} lists other files of {document.name} {version}")
    return by_version


def refuse_other_digests(release: ArchivedRelease, files: list[File], path: str) -> None:
    """A document lists no file with another digest than the archive of that name has."""
    digests = {file.name: file.sha256 for file in release.files}
    for file in files:
        if file.name in digests and file.sha256 and file.sha256.lower() != digests[file.name]:
            raise Refusal(f"{path}: it tells another sha256 of {file.name} than {release.path} has")


def put_archives(archived: list[ArchivedRelease], own: dict[str, Document], listed: Listed, assume_none: bool) -> None:
    """Puts the releases of archives in place of what documents tell of them, and leaves out those that disagree. Documents are
    asked whether a release is yanked, and for its dependencies where no archive tells them."""
    for release in archived:
        files, path = listed.pop(release.version, ([], ""))
        refuse_other_digests(release, files, path)
        release.yanked = files != [] and all(file.yanked for file in files)
        if document := own.pop(release.version, None):
            refuse_other_digests(release, document.files, document.path)
            release.yanked = release.yanked or document.yanked
            if release.requires_dist is None and document.requires_dist is not None:
                release.requires_python, release.requires_dist = document.requires_python, document.requires_dist
        if release.requires_dist is None and assume_none:
            release.requires_dist = release.assumed
        if not release.is_left_out:
            own[release.version] = release


def package_of(documents: list[Document], assume_none: bool) -> dict[str, object]:
    """The package that the documents tell of: the releases in the order in which they are listed, then others."""
    archived = [document for document in documents if isinstance(document, ArchivedRelease)]
    others = [document for document in documents if not isinstance(document, ArchivedRelease)]
    name, own, listed = documents[0].name, own_documents(others), listed_files(others)
    put_archives(archived, own, listed, assume_none)
    releases, unknown = [], dict[str, list[str]]()
    for version in dict.fromkeys([*listed, *own]):
        files, path = listed.get(version) or (own[version].files, own[version].path)
        release = snapshot_release(version, own.get(version), files, saying(f"{path}: {name} {version}"))
        if release["files"] and release["requires_dist"] is None and not assume_none:
            unknown.setdefault(path, []).append(version)
        else:
            releases.append(release)
    for path, versions in unknown.items():
        say(f"{path}: {name}: left out, as no document tells their requires_dist: {', '.join(versions)}")
    return {"name": name, "releases": releases}


def saying(place: str) -> Say:
    """What tells texts of a place."""
    return lambda text: say(f"{place}: {text}")


def packages_of(documents: list[Document], assume_none: bool) -> Packages:
    """The packages of the documents, by normal name."""
    by_name: dict[str, list[Document]] = {}
    for document in sorted(documents, key=lambda document: document.path):
        by_name.setdefault(normal(document.name), []).append(document)
    return {name: package_of(by_name[name], assume_none) for name in sorted(by_name)}


def counted(paths: list[str]) -> Iterator[str]:
    """The paths one by one, while a terminal at standard error shows how many are done."""
    progress = Progress()
    try:
        for count, path in enumerate(paths):
            progress.show(f"{count} of {len(paths)} archives read", count, len(paths))
            yield path
    finally:
        progress.clear()


def url_of(path: str, request: FolderRequest) -> str:
    """Where a file is: below the base URL as it is below the folder, or on this machine."""
    if request.base_url is None:
        return pathlib.Path(path).resolve().as_uri()
    below = os.path.relpath(path, request.folder).replace(os.sep, "/")
    return f"{request.base_url.rstrip('/')}/{urllib.parse.quote(os.fsencode(below))}"


def absent_names(
    packages: Packages, texts: list[str] | None, environments: list[dict[str, str]]
) -> tuple[list[str], str]:
    """The names that requirements lead to, or all packages where there are none, and of which no document tells."""
    walk = Walk(Markers(environments))
    for name, package in packages.items():
        for release in package["releases"]:
            walk.add(name, release["requires_dist"] or [])
    walk.ask(packages if texts is None else texts)
    return sorted(set(walk.asked).difference(packages)), extras_text(walk.extras_asked())


def say_absent(packages: Packages, texts: list[str] | None, environments: list[dict[str, str]]) -> None:
    names, extras = absent_names(packages, texts, environments)
    if names:
        by = "others depend on" if texts is None else "are needed"
        say(f"no document tells of these packages, which {by}: {' '.join(names)}")
    if texts is not None and extras:
        say(f"extras that are followed: {extras}")


def folder_packages(request: FolderRequest) -> Packages:
    """The packages of the archives and documents of a folder."""
    limits = limits_of(list(request.limits))
    paths, documents = archive_paths(request.folder), documents_of(request.folder, limits, say)
    if not paths and not documents:
        raise Refusal(f"{request.folder}: no archive and no document is in it")
    archives = [read_archive(path, url_of(path, request), limits) for path in counted(paths)]
    documents += releases_of(archives, say)
    return packages_of(documents, request.assumes_none)
