"""Documents that snapshot.py reads: bodies of the JSON API of package indexes, and metadata beside a list of files."""

import os
import re
from collections.abc import Callable, Iterator
from dataclasses import dataclass, field
from typing import Any, NoReturn

from reqlock_tools.files import Node, read_json, read_text, refuse_no_file
from reqlock_tools.limits import Limits
from reqlock_tools.refusal import Refusal, Say

FILE_LIST = "files.json"
HEADER = re.compile("([!-9;-~]+):")
LINE_END = re.compile("\r\n|\r|\n")
HEADERS_END = re.compile("\\A(?:\r\n|\r|\n)|(?>\r\n|\r|\n)(?:\r\n|\r|\n)")
Headers = Callable[[str], list[str]]
# No other header is read.
READ = {"metadata-version", "name", "version", "requires-python", "requires-dist", "dynamic"}


@dataclass
class File:
    """A file of a release. None stands for what the document doesn't tell."""

    name: str
    url: str
    size: int | None
    sha256: str | None
    requires_python: str | None
    yanked: bool | None


@dataclass
class Document:
    """What a document tells of one release, and the files that it lists by version, None where it lists none."""

    path: str = field(compare=False)
    name: str
    version: str
    requires_python: str | None
    requires_dist: list[str] | None
    yanked: bool | None
    files: list[File]
    listed: dict[str, list[File]] | None = field(compare=False)


def file_of(item: Node, name: str, sha256: Node) -> File:
    return File(
        name=item.member(name).full_text(),
        url=item.member("url").text(),
        size=item.member("size").or_none(Node.size),
        sha256=sha256.or_none(Node.sha256),
        requires_python=item.member("requires_python").or_none(Node.text),
        yanked=item.member("yanked").or_none(Node.boolean),
    )


def api_file(item: Node) -> File:
    digests = item.member("digests")
    return file_of(item, "filename", digests if digests.value is None else digests.member("sha256"))


def api_files(node: Node) -> list[File]:
    return [api_file(item) for item in node.items()]


def is_snapshot(value: Any) -> bool:
    return isinstance(value, dict) and "snapshot" in value and "info" not in value


def read_api_body(path: str) -> Document | None:
    """A body of the JSON API; None for a snapshot, as snapshot.py writes it. Where the API was defined, `releases` stands in the
    body of a package alone; other indexes have it in that of a release too."""
    body = read_json(path)
    if is_snapshot(body.value):
        return None
    info, urls, releases = (body.member(key) for key in ("info", "urls", "releases"))
    listed = releases.or_none(lambda node: {version: api_files(files) for version, files in node.members().items()})
    return Document(
        path,
        name=info.member("name").name(),
        version=info.member("version").text(),
        requires_python=info.member("requires_python").or_none(Node.text),
        requires_dist=info.member("requires_dist").or_none(Node.texts) or [],
        yanked=info.member("yanked").or_none(Node.boolean),
        files=api_files(urls) if listed is None else urls.or_none(api_files) or [],
        listed=listed,
    )


def header_lines(text: str) -> Iterator[str]:
    """The lines before the first blank one, without their ends."""
    blank = HEADERS_END.search(text)
    place, end = 0, blank.start() if blank else len(text)
    for line_end in LINE_END.finditer(text, 0, end):
        yield text[place : line_end.start()]
        place = line_end.end()
    yield text[place:end]


def header_values(path: str, text: str) -> dict[str, list[str]]:
    """The values of each header that is read by its name in small letters, each value on one line. What stands behind the headers
    isn't read."""
    folded: dict[str, list[list[str]]] = {}
    last: list[str] | None = None
    is_read = False
    for line in header_lines(text):
        header = HEADER.match(line)
        if header:
            last, is_read = [line[header.end() :]], header[1].lower() in READ
            if is_read:
                folded.setdefault(header[1].lower(), []).append(last)
        elif last is not None and line[:1] in (" ", "\t", ""):
            if is_read and line.strip():
                last.append(line)
        elif line:
            raise Refusal(f"{path}: a line among the headers is neither a header nor the continuation of one")
    return {name: [" ".join(filter(None, map(str.strip, lines))) for lines in values] for name, values in folded.items()}


def headers_of(path: str, text: str) -> Headers:
    """A function from a header's name to its values. The headers that snapshot.py reads are there as often as they may be."""
    values = header_values(path, text)
    for header, fewest in ("Name", 1), ("Version", 1), ("Requires-Python", 0):
        count = len(values.get(header.lower(), ()))
        if not fewest <= count <= 1:
            raise Refusal(f"{path}: {header} stands {count} times")
    return lambda name: values.get(name.lower(), [])


def told_by_headers(path: str, headers: Headers, files: list[File], requires_dist: list[str] | None) -> Document:
    """What the headers of a METADATA or PKG-INFO tell of a release that has these files."""
    return Document(
        path,
        name=Node(path, headers("Name")[0], "Name").name(),
        version=headers("Version")[0],
        requires_python=next(iter(headers("Requires-Python")), None),
        requires_dist=requires_dist,
        yanked=None,
        files=files,
        listed=None,
    )


def read_metadata(path: str) -> Document:
    """A METADATA or PKG-INFO with the list of files beside it."""
    headers = headers_of(path, read_text(path))
    files = os.path.join(os.path.dirname(path), FILE_LIST)
    if not os.path.exists(files):
        raise Refusal(f"{path}: no {FILE_LIST} is beside it")
    refuse_no_file(files)
    items = [file_of(item, "name", item.member("sha256")) for item in read_json(files).items()]
    dependencies = headers("Requires-Dist")
    is_told = os.path.basename(path) == "METADATA" or dependencies or tells(headers, "Requires-Dist")
    return told_by_headers(path, headers, items, dependencies if is_told else None)


def tells(headers: Headers, header: str) -> bool:
    """Whether the headers of an sdist tell all that its wheels will have of a header. An sdist may leave that to its
    build, and before metadata 2.2 it doesn't say whether it does (PEP 643)."""
    version = re.match(r"[ ]*0*([0-9]{1,9})\.0*([0-9]{1,9})(?![0-9])", " ".join(headers("Metadata-Version")))
    is_new = version is not None and (int(version[1]), int(version[2])) >= (2, 2)
    return is_new and header.lower() not in map(str.lower, headers("Dynamic"))


def fail(error: OSError) -> NoReturn:
    """For os.walk, which else passes over a folder that can't be read."""
    raise error


def refuse_large(path: str, limits: Limits) -> None:
    """Refuses a document that is no file, or has more bytes than one of its kind."""
    refuse_no_file(path)
    limits.refuse_over("page" if path.endswith("json") else "metadata", os.path.getsize(path), path)


def documents_of(folder: str, limits: Limits, say: Say) -> list[Document]:
    """The documents of a folder and those below it, by path. A METADATA counts before a PKG-INFO beside it. Where
    neither is, a files.json is a body, such as that of a package named `files`. Snapshots are passed over."""
    readers: list[tuple[str, Callable[[str], Document | None]]] = []
    for place, _, names in os.walk(folder, onerror=fail):
        headers = [name for name in ("METADATA", "PKG-INFO") if name in names]
        bodies = [name for name in names if re.search(r"(^|\.)json\Z", name) and not (headers and name == FILE_LIST)]
        readers += [(os.path.join(place, name), read_metadata) for name in headers[:1]]
        readers += [(os.path.join(place, name), read_api_body) for name in bodies]
    for path, _ in readers:
        refuse_large(path, limits)
    documents = {path: read(path) for path, read in sorted(readers, key=lambda pair: pair[0])}
    for path, document in documents.items():
        if document is None:
            say(f"{path}: passed over, as it is a snapshot")
    return [document for document in documents.values() if document is not None]
