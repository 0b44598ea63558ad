"""The one member of a zip or tar.gz file that has a name of some form. No more of a file is taken into memory, and no more is
unpacked, than limits say."""

import gzip
import io
import lzma
import re
import struct
import tarfile
import zipfile
import zlib
from collections.abc import Callable, Iterator
from typing import IO, cast

from reqlock_tools.limits import Limits
from reqlock_tools.sought_file import SoughtFile

PIECE = 2**20
# How much is read at once of a file that is packed so that a piece of it can become thousands of times as long.
SMALL_PIECE = 2**12
# No tar tells a longer number. Python takes time with the square of its length to read one.
LONG_NUMBER = re.compile(rb"[0-9]{64}")
# The end of a zip file, with its comment, is read without a count.
ZIP_END = 2**16 + 22
BROKEN = (
    zipfile.BadZipFile, tarfile.TarError, gzip.BadGzipFile, zlib.error, lzma.LZMAError, struct.error, EOFError,
    NotImplementedError, RuntimeError, ValueError, OverflowError, MemoryError,
)
# What is read of an archive: its path for faults, the file, the form of the name, and the limits.
Find = Callable[[str, IO[bytes], re.Pattern[str], Limits], tuple[str, bytes] | list[str]]


class BoundedFile:
    """A file of which no single read may be large, as the reading of an archive's own lists is."""

    def __init__(self, path: str, file: IO[bytes], limits: Limits) -> None:
        self.path, self.file, self.limits = path, file, limits

    def read(self, size: int = -1) -> bytes:
        if size is None or size < 0:
            data = self.file.read(ZIP_END + 1)
            self.limits.refuse_over("directory", len(data) if len(data) <= ZIP_END else self.limits.directory + 1, self.path)
            return data
        self.limits.refuse_over("directory", size, self.path)
        return self.file.read(size)

    def seekable(self) -> bool:
        return True

    def readable(self) -> bool:
        return True

    def seek(self, offset: int, whence: int = io.SEEK_SET) -> int:
        return self.file.seek(offset, whence)

    def tell(self) -> int:
        return self.file.tell()


class UnpackedFile(SoughtFile):
    """What a gzip file holds, read from its beginning to its end. Seeking goes forward alone, and takes nothing into memory. Between
    two calls of `begin_member` no more may be read than a tar's headers of one file have."""

    def __init__(self, path: str, stream: IO[bytes], limits: Limits) -> None:
        super().__init__()
        self.path, self.stream, self.limits = path, stream, limits
        self.read_bytes, self.is_list = 0, True

    def begin_member(self, more: int = 0) -> None:
        """From here on that much may be read again, and these bytes more."""
        self.read_bytes, self.is_list = -more, more == 0

    def read(self, size: int = -1) -> bytes:
        self.read_bytes += max(size, 0)
        self.limits.refuse_over("directory", self.limits.directory + 1 if size < 0 else self.read_bytes, self.path)
        data = self.stream.read(size)
        self.place += len(data)
        self.limits.refuse_over("unpacked", self.place, self.path)
        if self.is_list and LONG_NUMBER.search(data):
            raise tarfile.ReadError("a number in its headers has over 63 digits")
        return data

    def seek(self, offset: int, whence: int = io.SEEK_SET) -> int:
        if whence != io.SEEK_SET or offset < self.place:
            raise tarfile.ReadError("it leads back in itself")
        self.limits.refuse_over("unpacked", offset, self.path)
        while self.place < offset and (data := self.stream.read(min(PIECE, offset - self.place))):
            self.place += len(data)
        return self.place

    def read_rest(self) -> None:
        while data := self.stream.read(PIECE):
            self.place += len(data)
            self.limits.refuse_over("unpacked", self.place, self.path)


def member_of_zip(path: str, archive: zipfile.ZipFile, wanted: re.Pattern[str], limits: Limits) -> tuple[str, bytes] | list[str]:
    """The one member of an open zip file whose name matches, with what it holds; else the names that match."""
    members = [info for info in archive.infolist() if wanted.fullmatch(info.filename)]
    if len(members) != 1:
        return [info.filename for info in members]
    limits.refuse_over("metadata", members[0].file_size, path)
    return members[0].filename, b"".join(pieces_of(archive, members[0]))


def pieces_of(archive: zipfile.ZipFile, info: zipfile.ZipInfo) -> Iterator[bytes]:
    """What a member holds, which must have the checksum that is told."""
    is_bounded = info.compress_type in (zipfile.ZIP_STORED, zipfile.ZIP_DEFLATED)
    with archive.open(info) as file:
        while data := file.read(PIECE if is_bounded else SMALL_PIECE):
            yield data


def in_zip(path: str, file: IO[bytes], wanted: re.Pattern[str], limits: Limits) -> tuple[str, bytes] | list[str]:
    """The same of a zip file that is read whole, and must be whole."""
    with zipfile.ZipFile(cast(IO[bytes], BoundedFile(path, file, limits))) as archive:
        members = archive.infolist()
        limits.refuse_over("members", len(members), path)
        limits.refuse_over("member", max((info.file_size for info in members), default=0), path)
        limits.refuse_over("unpacked", sum(info.file_size for info in members), path)
        for info in members:
            for _ in pieces_of(archive, info):
                pass
        return member_of_zip(path, archive, wanted, limits)


def at_end_of_zip(path: str, file: IO[bytes], wanted: re.Pattern[str], limits: Limits) -> tuple[str, bytes] | list[str]:
    """The same of a zip file of which no more is read than that takes."""
    with zipfile.ZipFile(cast(IO[bytes], BoundedFile(path, file, limits))) as archive:
        return member_of_zip(path, archive, wanted, limits)


def in_tar(path: str, file: IO[bytes], wanted: re.Pattern[str], limits: Limits) -> tuple[str, bytes] | list[str]:
    """The same of a tar.gz file. The whole file is read, as its digest at the end tells whether it is whole."""
    names, data, count = [], b"", 0
    with gzip.open(file) as stream:
        unpacked = UnpackedFile(path, cast(IO[bytes], stream), limits)
        with tarfile.open(fileobj=cast(IO[bytes], unpacked), mode="r:") as archive:
            while (member := archive.next()) is not None:
                archive.members.clear()  # type: ignore[attr-defined]  # (it keeps what it has read)
                unpacked.begin_member()
                count += 1
                limits.refuse_over("members", count, path)
                limits.refuse_over("member", member.size, path)
                name = member.name.removeprefix("./")
                if member.isfile() and wanted.fullmatch(name):
                    names.append(name)
                    unpacked.begin_member(limits.metadata)
                    data = b"" if len(names) > 1 else data_of(path, archive, member, limits)
        unpacked.read_rest()
    return (names[0], data) if len(names) == 1 else names


def data_of(path: str, archive: tarfile.TarFile, member: tarfile.TarInfo, limits: Limits) -> bytes:
    limits.refuse_over("metadata", member.size, path)
    file = archive.extractfile(member)
    return b"" if file is None else file.read()


def finder_of(name: str) -> Find:
    """What finds a member in the whole archive of a name."""
    return in_tar if name.endswith(".tar.gz") else in_zip
