"""A project's page of the Simple API, in JSON (PEP 691 and 700) or in HTML (PEP 503), and the files that it lists."""

import json
import re
import urllib.parse
from dataclasses import dataclass

from reqlock_tools.archives import LONGEST_NAME, SUFFIXES
from reqlock_tools.files import Node, decoded
from reqlock_tools.index_documents import File
from reqlock_tools.limits import Limits
from reqlock_tools.names import called
from reqlock_tools.refusal import Refusal
from reqlock_tools.simple.addresses import Unfetched, joined
from reqlock_tools.simple.links import Attributes, read_links
from reqlock_tools.versions import normal, read_version

ACCEPT = ", ".join([
    "application/vnd.pypi.simple.v1+json", "application/vnd.pypi.simple.v1+html;q=0.2", "text/html;q=0.1",
])
DIGEST = re.compile(r"(?:^|&)([a-z0-9_]+)=([0-9a-fA-F]+)(?=&|$)")
FILE_NAME = re.compile(r"[\w.+!-]+", re.ASCII)
# A page in JSON has fewer values for each file, and fewer beside them.
VALUES_OF_A_FILE, OTHER_VALUES = 32, 100_000
# Other charsets are read as UTF-8, in which what isn't UTF-8 is no name.
CHARSETS = {"iso-8859-1": "iso-8859-1", "latin-1": "iso-8859-1", "windows-1252": "windows-1252"}


@dataclass
class Link:
    """A file that a page lists. `metadata` has the digests of the file beside it that tells its metadata, and is None where there
    is no such file; `uploaded` is when it came, None where that isn't told."""

    file: File
    version: str
    metadata: dict[str, str] | None
    uploaded: str | None

    @property
    def is_wheel(self) -> bool:
        return self.file.name.endswith(".whl")


def version_in(file_name: str, project: str) -> str | None:
    """The version that the name of an archive has behind that of its project; None where it isn't of the project, or no version."""
    if not FILE_NAME.fullmatch(file_name) or not file_name.endswith(SUFFIXES):
        return None
    stem = next(file_name.removesuffix(end) for end in SUFFIXES if file_name.endswith(end))
    if file_name.endswith(".whl"):
        words = stem.split("-")
        if len(words) not in (5, 6) or not all(words) or normal(words[0]) != project:
            return None
        text = words[1]
    else:
        places = (dash.start() for dash in re.finditer("-", stem))
        text = next((stem[place + 1 :] for place in places if normal(stem[:place]) == project), "")
    texts = text, text.replace("_", "-")
    return next((text for text in texts if read_version(text) is not None), None)


def refuse_other_api(url: str, text: str) -> None:
    """Only the first major version of the API is read. Another minor one only adds to it."""
    if re.match(r"\s*0*1(\.[0-9.]*)?\s*$", text) is None:
        hint = called("snapshot.py reads version 1; is there a newer snapshot.py?")
        raise Refusal(f"{url}: it has version {text[:99]!a} of the Simple API, and {hint}")


class PageFiles:
    """The archives of a project that a page lists, each name once. Names that are too long for a file are counted."""

    def __init__(self, url: str, project: str) -> None:
        self.url, self.project = url, project
        self.by_name: dict[str, Link] = {}
        self.long_names = 0

    def links(self) -> list[Link]:
        """The files in the order of their names."""
        return [self.by_name[name] for name in sorted(self.by_name)]

    def take(self, base: str, url: str, name: str | None, link: Link) -> None:
        """Takes a file that is no other's. It stands at a URL relative to a base, which tells its name where nothing else does."""
        try:
            place = joined(base, url)
        except Unfetched:
            return
        link.file.url, link.file.name = place, name or urllib.parse.unquote(place.partition("?")[0].rpartition("/")[2])
        if len(link.file.name) > LONGEST_NAME:
            self.long_names += 1
            return
        version = version_in(link.file.name, self.project)
        if version is None or not place.startswith(("http://", "https://")):
            return
        if self.url.startswith("https:") and place.startswith("http:"):
            raise Unfetched(f"{self.url}: it leads to {place}, which isn't encrypted")
        link.version = version
        self.by_name.setdefault(link.file.name, link)


# JSON


def metadata_of(item: Node) -> dict[str, str] | None:
    """The digests of a file's metadata: `core-metadata`, or its older name."""
    for key in "core-metadata", "dist-info-metadata":
        told = item.member(key)
        if told.value is not None:
            if isinstance(told.value, bool):
                return {} if told.value else None
            return {name: digest.text().lower() for name, digest in told.members().items()}
    return None


def is_yanked(item: Node) -> bool:
    told = item.member("yanked")
    return told.want(told.value is None or isinstance(told.value, (bool, str)), "true, false or a text") not in (None, False)


def take_json(page: PageFiles, item: Node) -> None:
    url, name = item.member("url").text(), item.member("filename").full_text()
    file = File(
        name=name,
        url=url,
        size=item.member("size").or_none(Node.size),
        sha256=item.member("hashes").member("sha256").or_none(Node.sha256),
        requires_python=item.member("requires-python").or_none(Node.text),
        yanked=is_yanked(item),
    )
    page.take(page.url, url, name, Link(file, "", metadata_of(item), item.member("upload-time").or_none(Node.text)))


def read_json_page(page: PageFiles, data: bytes, limits: Limits) -> None:
    values = sum(map(data.count, (b",", b"[", b"{")))
    limits.refuse_over("files", (values - OTHER_VALUES) // VALUES_OF_A_FILE, page.url)
    try:
        body = Node(page.url, json.loads(decoded(page.url, data)))
    except (ValueError, RecursionError) as error:
        raise Refusal(f"{page.url}: not JSON, though it is sent as such: {error}") from None
    refuse_other_api(page.url, body.member("meta").member("api-version").text())
    files = body.member("files")
    limits.refuse_over("files", len(files.want(isinstance(files.value, list), "an array")), page.url)
    for item in files.items():
        take_json(page, item)


# HTML


def html_metadata(attributes: Attributes) -> dict[str, str] | None:
    for key in "data-core-metadata", "data-dist-info-metadata":
        if key in attributes:
            return {} if attributes[key] == "true" else {name: digest.lower() for name, digest in DIGEST.findall(attributes[key])}
    return None


def take_html(page: PageFiles, base: str, attributes: Attributes) -> None:
    url = attributes["href"].strip()
    sha256 = dict(DIGEST.findall(url.partition("#")[2])).get("sha256", "")
    file = File(
        name="",
        url=url,
        size=None,
        sha256=sha256 if len(sha256) == 64 else None,
        requires_python=attributes.get("data-requires-python"),
        yanked="data-yanked" in attributes,
    )
    page.take(base, url, None, Link(file, "", html_metadata(attributes), None))


def read_html_page(page: PageFiles, data: bytes, charset: str, limits: Limits) -> None:
    read = read_links(page.url, data.decode(CHARSETS.get(charset.lower(), "utf-8"), errors="replace"), limits)
    refuse_other_api(page.url, read.version)
    base = page.url if read.base is None else joined(page.url, read.base)
    for attributes in read.links:
        take_html(page, base, attributes)


def read_page(url: str, content_type: str, data: bytes, project: str, limits: Limits) -> PageFiles:
    """The archives of a project that its page lists."""
    kind, _, more = content_type.partition(";")
    kind = kind.strip().lower()
    other = re.fullmatch(r"application/vnd\.pypi\.simple\.v([0-9]+)\+(?:json|html)", kind)
    if other and other[1] != "1":
        refuse_other_api(url, other[1])
    page = PageFiles(url, project)
    if kind in ("application/vnd.pypi.simple.v1+json", "application/json"):
        read_json_page(page, data, limits)
    elif kind in ("application/vnd.pypi.simple.v1+html", "text/html", "application/xhtml+xml"):
        charset = re.search(r"charset\s*=\s*\"?([\w.-]+)", more)
        read_html_page(page, data, charset[1] if charset else "utf-8", limits)
    else:
        told = content_type or "of no told type"
        raise Refusal(f"{url}: its content is {told}, no page of the Simple API; is the address right?")
    return page
