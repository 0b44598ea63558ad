"""A project of an index: its page, and the releases that its files tell of."""

import re
import threading
import urllib.parse
from dataclasses import dataclass
from fnmatch import fnmatchcase

from reqlock_tools.archives import LONGEST_NAME, ArchivedRelease, plain, release_of_archives
from reqlock_tools.refusal import Refusal
from reqlock_tools.releases import Release, snapshot_release
from reqlock_tools.simple import known
from reqlock_tools.simple.addresses import Unfetched, plain_url, without_passwords
from reqlock_tools.simple.cache import Beside, Cache
from reqlock_tools.simple.choices import Choices, Chosen
from reqlock_tools.simple.client import Client, Response
from reqlock_tools.simple.fresh import freshness, is_fresh
from reqlock_tools.simple.metadata import ABSENT, Absent, MetadataReader
from reqlock_tools.simple.pages import ACCEPT, Link, read_page
from reqlock_tools.simple.plan import Asking, IndexAddress, Plan
from reqlock_tools.simple.project import Project, ReadRelease
from reqlock_tools.simple.served import Served

# Longer pages are read one at a time, as each takes much memory meanwhile.
LONG_PAGE = 2**20


def stamp(text: str | None) -> str | None:
    """A text by which a page is known again; None for one that no header can have."""
    return text if text is not None and re.fullmatch("[ -~]{1,1000}", text) else None


def put_release(read: ReadRelease, told: ArchivedRelease, links: list[Link]) -> None:
    """Puts what the archives of a release tell, and its files, where one of them can be locked."""
    for link in links:
        asked = link.file.requires_python
        if plain(asked or "") == plain(told.requires_python or ""):
            link.file.requires_python = None
    told.yanked = all(link.file.yanked for link in links)
    files = [link.file for link in links]
    release = snapshot_release(told.version, told, files, lambda text: read.notes.append(f"{told.version}: {text}"))
    read.release = release if release["files"] else None


class Index:
    """Asks an index for projects and releases. It may be asked by several threads."""

    def __init__(self, address: IndexAddress, client: Client, cache: Cache, choices: Choices, asking: Asking) -> None:
        self.address, self.base = address, plain_url(address.url).rstrip("/")
        self.client, self.cache, self.choices, self.asking = client, cache, choices, asking
        self.reader = MetadataReader(client, cache, client.limits)
        self.lock = threading.Lock()

    def url(self, name: str) -> str:
        """Where the page of a project is."""
        return f"{self.base}/{urllib.parse.quote(name)}/"

    def project_of(self, name: str) -> "IndexedProject | None":
        """What is chosen of a project, or the whole of it where an earlier run read it; None where there is no page."""
        page = None if len(name) > LONGEST_NAME else self.page(self.url(name))
        return None if page is None else self.project_on(name, page)

    def at_hand(self, name: str) -> "IndexedProject | None":
        """The same of a project whose page is kept and needs no asking; None where it does, or where there is none."""
        kept = self.cache.get("page", self.url(name))
        return None if kept is None or kept[0]["is_absent"] or not self.needs_no_asking(kept[0]) else self.project_on(name, kept)

    def is_kept(self, name: str) -> bool:
        """Whether a page may be at hand."""
        return not self.asking.is_refreshed and self.cache.has("page", self.url(name))

    def needs_no_asking(self, kept: Beside) -> bool:
        return self.asking.is_offline or not self.asking.is_refreshed and is_fresh(kept)

    def project_on(self, name: str, page: tuple[Beside, bytes]) -> "IndexedProject":
        """What is chosen of a project's page."""
        key = known.key_of(self.url(name), page, self.choices.told(name), self.client.limits)
        project = known.known(self.cache, key, name, self.base)
        if project is not None:
            return IndexedProject(self, key, project, [])
        if len(page[1]) > LONG_PAGE:
            with self.lock:
                chosen = self.chosen(name, *page)
        else:
            chosen = self.chosen(name, *page)
        return IndexedProject(self, key, Project(name, self.base, chosen.versions, chosen.left), chosen.releases)

    def chosen(self, name: str, told: Beside, body: bytes) -> Chosen:
        """What is chosen of a page."""
        return self.choices.chosen(told["url"], read_page(told["url"], told["type"], body, name, self.client.limits))

    def keep(self, key: str, project: Project) -> None:
        """Keeps a project that is read whole."""
        known.keep(self.cache, key, project)

    def page(self, url: str) -> tuple[Beside, bytes] | None:
        """A page with its type and last URL; None where there is none. One that is kept is asked for only where it isn't fresh, and
        comes only if it has changed."""
        kept = self.cache.get("page", url)
        if kept is None:
            self.cache.refuse_absent(url)
        elif self.needs_no_asking(kept[0]):
            return None if kept[0]["is_absent"] else kept
        headers = {"Accept": ACCEPT, "Accept-Encoding": "gzip"}
        if kept is not None:
            names = {"etag": "If-None-Match", "modified": "If-Modified-Since"}
            headers |= {names[key]: kept[0][key] for key in names if kept[0][key] is not None}
        answer = self.client.ask(url, headers)
        if answer.status == 304 and kept is not None:
            return self.still(url, kept, answer)
        told = {
            "url": answer.url, "type": answer.headers.get("Content-Type", ""), "etag": stamp(answer.headers.get("ETag")),
            "modified": stamp(answer.headers.get("Last-Modified")), "is_absent": answer.status in ABSENT,
        }
        if told["is_absent"]:
            self.cache.put("page", url, told | {"etag": None, "modified": None}, b"")
            return None
        if self.client.wanted(answer).status != 200:
            raise Unfetched(f"{answer.url}: {answer.status} {answer.reason}, which wasn't asked for")
        body = without_passwords(answer.body)
        self.cache.put("page", url, told | freshness(answer.headers), body)
        return told, body

    def still(self, url: str, kept: tuple[Beside, bytes], answer: Response) -> tuple[Beside, bytes]:
        """A page that is still as it was, which is fresh again as long as the answer says."""
        more = freshness(answer.headers)
        if more:
            self.cache.put("page", url, kept[0] | more, kept[1])
        return kept

    def release(self, name: str, links: list[Link]) -> ReadRelease:
        """A release of its files. The wheels tell of it, or where there is none, its sdists."""
        served = Served(links, self.choices.is_locked(name, links), self.base)
        read = ReadRelease(links[0].version, left=served.left)
        try:
            archives = served.archives(self.reader.archive)
            if not archives:
                return read
            told = release_of_archives(archives, read.notes.append)
        except Unfetched:
            raise
        except Refusal as fault:
            read.is_lasting = not isinstance(fault, Absent)
            read.notes.append(f"{links[0].version}: left out: {fault}")
            return read
        if told.requires_dist is None and self.choices.options.assume_no_dependencies:
            told.requires_dist = told.assumed
        if told.is_left_out or told.requires_dist is None:
            read.untold = None if told.is_left_out else told.version
            return read
        served.each(self.reader.find_size)
        read.is_lasting = all(link.file.size is not None for link in served.links)
        if served.links:
            put_release(read, told, served.links)
        return read


@dataclass
class IndexedProject:
    """A project of an index, and the releases of it that are to be read yet, each as its files. It is known again by the key."""

    index: Index
    key: str
    project: Project
    releases: list[list[Link]]


class Indexes:
    """The indexes of a plan. A name is asked of the first that has it, and of no other: of those whose `only` it matches, or where it
    matches none, of those without `only`."""

    def __init__(self, plan: Plan, client: Client, cache: Cache, choices: Choices, asking: Asking) -> None:
        self.all = [Index(address, client, cache, choices, asking) for address in plan.indexes]

    def project_of(self, name: str) -> IndexedProject | None:
        """What is found of a project in the index that has it; None where none has it."""
        return next((project for index in self.asked_for(name) if (project := index.project_of(name)) is not None), None)

    def is_kept(self, name: str) -> bool:
        """Whether a project may be at hand: of the first index that is asked for it."""
        return next((index.is_kept(name) for index in self.asked_for(name)), False)

    def at_hand(self, name: str) -> IndexedProject | None:
        """What is found of a project where nobody need be asked; None where somebody must be."""
        return next((index.at_hand(name) for index in self.asked_for(name)), None)

    def count_needs(self, name: str, release: Release) -> None:
        """Counts what a release depends on that an earlier run read."""
        self.all[0].reader.count_needs(f"{name} {release['version']}", release["requires_dist"])

    def asked_for(self, name: str) -> list[Index]:
        """The indexes that are asked for a name, in order."""
        bound = [index for index in self.all if any(fnmatchcase(name, pattern) for pattern in index.address.only)]
        return bound or [index for index in self.all if not index.address.only]
