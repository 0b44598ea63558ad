"""What the files of a release tell of it: by the metadata beside a wheel, by a wheel's end, or by a whole file."""

import hashlib
import io
import os
import re
import tempfile
import threading
from typing import IO, Any

from reqlock_tools.archive_members import at_end_of_zip, finder_of
from reqlock_tools.archives import Archive, archive_of, metadata_of
from reqlock_tools.files import LARGEST_SIZE
from reqlock_tools.limits import Limits
from reqlock_tools.refusal import Refusal
from reqlock_tools.simple.addresses import Unfetched
from reqlock_tools.simple.cache import Beside, Cache
from reqlock_tools.simple.client import Client, Response
from reqlock_tools.simple.pages import Link
from reqlock_tools.simple.ranges import NoRanges, RangedFile

ABSENT = 404, 410
# Longer ones are read one at a time, as each takes much memory meanwhile.
LONG_METADATA = 2**18
# So much memory a text takes beside its bytes.
BYTES_BESIDE = 64
DIGESTS = {name for name in hashlib.algorithms_guaranteed if not name.startswith("shake")}
SIZE = re.compile("[0-9]{1,19}")


def refuse_other_digest(url: str, told: str, own: str) -> None:
    if told != own:
        raise Unfetched(f"{url}: its digest is {own}, and the index tells {told}: it was altered, or is broken on its way")


def sha256_of(file: IO[bytes]) -> str:
    file.seek(0)
    return hashlib.file_digest(file, "sha256").hexdigest()  # type: ignore[arg-type]  # (it is a file that can be read)


def key_of(link: Link) -> str:
    """What is kept of a file has been tested against its digest in part at most, so it counts for its URL alone."""
    return f"{(link.file.sha256 or '').lower()} {link.file.url}"


class Absent(Refusal):
    """The index doesn't have a file, which it may have later."""


class MetadataReader:
    """Reads files of an index, each once: metadata beside a wheel is kept by its digest, or by its URL where none is told."""

    def __init__(self, client: Client, cache: Cache, limits: Limits) -> None:
        self.client, self.cache, self.limits = client, cache, limits
        self.lock, self.needs = threading.Lock(), 0

    def archive(self, link: Link) -> Archive:
        """What a file tells. A Refusal other than Unfetched is a fault of the file alone."""
        inner, data = self.metadata(link)
        if len(data) > LONG_METADATA:
            with self.lock:
                return self.read(link, inner, data)
        return self.read(link, inner, data)

    def read(self, link: Link, inner: str | None, data: bytes) -> Archive:
        """What metadata of a file tells, which counts for the limit of all."""
        archive = archive_of(link.file.url, link.file, inner, data)
        self.count_needs(link.file.url, archive.told.requires_dist or [])
        return archive

    def count_needs(self, url: str, texts: list[str]) -> None:
        """Ends the run where the files depend on too much together, which all stays in memory."""
        self.needs += sum(len(text) + BYTES_BESIDE for text in texts)
        if self.needs > self.limits.needs:
            raise Unfetched(str(self.limits.over("needs", url)))

    def metadata(self, link: Link) -> tuple[str | None, bytes]:
        """The folder of the metadata, None where it isn't known, and the metadata."""
        kept = self.cache.get("archive", key_of(link))
        if kept is None and link.is_wheel and link.metadata is not None:
            data = self.beside(link, link.metadata)
            if data is not None:
                return None, data
        told, data = kept or self.within(link)
        if "fault" in told:
            raise (Absent if told.get("is_absent") else Refusal)(f"{link.file.url}: {told['fault']}")
        return told.get("inner"), data

    # The file beside a wheel

    def beside(self, link: Link, told: dict[str, str]) -> bytes | None:
        """The metadata beside a wheel; None where the index tells of it and doesn't have it."""
        url = f"{link.file.url}.metadata"
        digests = {name: text for name, text in told.items() if name in DIGESTS}
        if told and not digests:
            raise Unfetched(f"{url}: the index tells its digest by {' '.join(told)} alone, which python3 doesn't know")
        key = f"sha256={digests['sha256']}" if "sha256" in digests else url
        kept = self.cache.get("metadata", key)
        if kept is not None:
            return kept[1]
        if self.is_absent_offline(url):
            return None
        answer = self.client.ask(url, most="metadata")
        if answer.status in ABSENT:
            self.cache.put("absent", url, {}, b"")
            return None
        self.client.wanted(answer)
        for name, text in digests.items():
            refuse_other_digest(url, f"{name}={text}", f"{name}={hashlib.new(name, answer.body).hexdigest()}")
        self.cache.put("metadata", key, {}, answer.body)
        return answer.body

    def is_absent_offline(self, url: str) -> bool:
        """Whether an earlier run saw that the index lacks this, so far as that is all that can be known."""
        if not self.cache.is_offline:
            return False
        if self.cache.get("absent", url) is None:
            self.cache.refuse_absent(url)
        return True

    # The file itself

    def within(self, link: Link) -> tuple[Beside, bytes]:
        """What is kept of a file, which is fetched: as far as its end tells the metadata, or whole."""
        url = link.file.url
        told: Beside = {}
        data = b""
        if self.is_absent_offline(url):
            return {"fault": "the index doesn't have it", "is_absent": True}, b""
        with tempfile.TemporaryFile() as file:
            try:
                told, data = (self.by_ranges if link.is_wheel else self.by_whole)(link, file)
            except Unfetched:
                raise
            except Refusal as fault:
                told, data = {"fault": str(fault).removeprefix(f"{url}: ")}, b""
        self.cache.put(*(("absent", url) if told.get("is_absent") else ("archive", key_of(link))), told, data)
        return told, data

    def by_ranges(self, link: Link, file: IO[bytes]) -> tuple[Beside, bytes]:
        """Reads a wheel by parts. A server that doesn't know parts answers with the whole, which then is in the file."""
        url = link.file.url

        def ask(asked: str) -> Response:
            answer = self.client.ask(url, {"Range": asked}, into=file, most="file")
            if answer.status in ABSENT:
                raise FileNotFoundError
            return answer

        try:
            ranged = RangedFile(url, ask, self.limits)
            inner, data = metadata_of(url, io.BufferedReader(ranged), True, at_end_of_zip, self.limits)
        except FileNotFoundError:
            return {"fault": "the index doesn't have it", "is_absent": True}, b""
        except NoRanges:
            return self.by_whole(link, file)
        self.keep_size(link, ranged.size)
        return {"inner": inner}, data

    def by_whole(self, link: Link, file: IO[bytes]) -> tuple[Beside, bytes]:
        url = link.file.url
        if file.seek(0, os.SEEK_END) == 0:
            answer = self.client.ask(url, into=file, most="file")
            if answer.status in ABSENT:
                return {"fault": "the index doesn't have it", "is_absent": True}, b""
            self.client.wanted(answer)
        refuse_other_digest(url, f"sha256={(link.file.sha256 or '').lower()}", f"sha256={sha256_of(file)}")
        self.keep_size(link, file.tell())
        file.seek(0)
        inner, data = metadata_of(url, file, link.is_wheel, finder_of(link.file.name), self.limits)
        return {"inner": inner}, data

    # Sizes

    def keep_size(self, link: Link, size: int) -> None:
        link.file.size = size
        self.cache.put("size", key_of(link), {"size": size}, b"")

    def find_size(self, link: Link) -> None:
        """Finds the size of a file whose page doesn't tell it. It stays unknown where the index lacks the file."""
        if link.file.size is not None:
            return
        kept = self.cache.get("size", key_of(link))
        if kept is not None:
            link.file.size = kept[0]["size"]
        elif not self.is_absent_offline(link.file.url):
            self.ask_size(link)

    def ask_size(self, link: Link) -> None:
        url = link.file.url
        answer = self.client.ask(url, method="HEAD")
        length: Any = SIZE.fullmatch(answer.headers.get("Content-Length", ""))
        if answer.status in ABSENT:
            self.cache.put("absent", url, {}, b"")
        elif answer.status == 200 and length and int(length[0]) <= LARGEST_SIZE:
            self.keep_size(link, int(length[0]))
        else:
            with tempfile.TemporaryFile() as file:
                self.by_whole(link, file)
