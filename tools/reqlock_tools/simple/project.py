"""A project of an index, and a release of it that was read."""

from dataclasses import dataclass, field

from reqlock_tools.releases import Release
from reqlock_tools.simple.left import Left

UNTOLD = "as no file tells what they depend on"
FAULTY = "as a file of them can't be read, or their files ask for different things"


@dataclass
class Project:
    """A project of an index with its releases in their places, None where one is left out; all versions of its page, what is left out
    of them, and what is said of it."""

    name: str
    base: str
    versions: list[str]
    left: Left
    releases: list[Release | None] = field(default_factory=list)
    notes: list[str] = field(default_factory=list)
    untold: list[str] = field(default_factory=list)
    is_lasting: bool = True

    def take(self, place: int, read: "ReadRelease") -> None:
        """Takes a release that was read, at its place."""
        self.releases[place] = read.release
        self.is_lasting = self.is_lasting and read.is_lasting and not any(read.left.files.values())
        self.notes += read.notes
        self.left.add(read.left)
        if read.untold is not None:
            self.untold.append(read.untold)
            self.left.count(UNTOLD, 0, [read.version])
        elif read.release is None and not any(read.left.versions.values()):
            self.left.count(FAULTY, 0, [read.version])


@dataclass
class ReadRelease:
    """A release as a snapshot has it, None where it is left out; and why, or its version where nothing tells what it needs. It is
    lasting unless another time there may be a file of it that wasn't there."""

    version: str
    release: Release | None = None
    notes: list[str] = field(default_factory=list)
    untold: str | None = None
    left: Left = field(default_factory=Left)
    is_lasting: bool = True
