"""The two sides of a merge: what their journals tell, and whether they are of one history."""

import importlib
import json
import re
from typing import Any, NamedTuple

from reqlock_tools.merge_git import Blob, Checkout
from reqlock_tools.refusal import Refusal

REQUIREMENTS, JOURNAL = "requirements.txt", "reqlock.journal"
FOLDER = "the folder"
TARGET = re.compile("[a-z][a-z0-9-]{0,31}|")
# The steps of a history that is compared with another one move no more lines than these.
MOST_MOVED = 10**9


def lock_name(target: str) -> str:
    return f"pylock.{target}.toml" if target else "pylock.toml"


def digest_of(data: bytes) -> str:
    digest: str = importlib.import_module("hashlib").sha256(data).hexdigest()  # (many calls need none)
    return digest


class Journal(NamedTuple):
    """A journal with what its header tells: digests, the environments by the names of targets, and the present state."""

    data: bytes
    requirements: str
    locks: dict[str, str]
    environments: dict[str, Any]
    cursor: int

    def first_lines(self, requirements: bytes) -> list[bytes]:
        """The lines with which the history began, given those of its present state."""
        lines = re.findall(rb"[^\n]*\n|[^\n]+", requirements)
        moved = 0
        for step in reversed(self.data.split(b"\n")[1 : self.cursor + 1]):
            moved += take_back(lines, json.loads(step)["lines"])
            if moved > MOST_MOVED:
                raise Refusal(f"{JOURNAL}: its steps move over {MOST_MOVED} lines: --ours or --theirs tells whose history goes on")
        return lines

    def steps(self) -> list[bytes]:
        """The lines of the steps, the first one first."""
        return self.data.split(b"\n")[1:-1]

    def goes_on_in(self, other: "Journal") -> bool:
        """Whether the first step is one of another history's, which may have more in front of it."""
        return any(step in other.steps() for step in self.steps()[:1])


def take_back(lines: list[bytes], splices: list[Any]) -> int:
    """Makes of the lines behind a step those before it. How many lines were moved to other places is answered."""
    moved = 0
    for place, old, new in splices:
        if len(old) != len(new):
            moved += len(lines) - place
        lines[place : place + len(new)] = [line.encode() for line in old]
    return moved


def read_journal(place: str, data: bytes) -> Journal:
    """A journal of any version."""
    try:
        header = json.loads(data.partition(b"\n")[0])
        targets = header["targets"] if header["journal"] in (2, 3) else [header | {"name": ""}]
        locks = {target["name"]: target["lock"] for target in targets}
        environments = {target["name"]: target["environment"] for target in targets}
        is_read = all(TARGET.fullmatch(name) for name in locks) and isinstance(header["cursor"], int)
        journal = Journal(data, header["requirements"], locks, environments, header["cursor"]) if is_read else None
    except (KeyError, TypeError, ValueError, RecursionError):
        journal = None
    if journal is None:
        raise Refusal(f"{place}: it is no journal of reqlock")
    return journal


class SavedFile(NamedTuple):
    """A file that a journal is for, and git's name for it."""

    data: bytes
    source: str


class Side(NamedTuple):
    """The files that a side's journal is for, by its digests. None stands for one that wasn't found."""

    name: str
    journal: Journal
    old: SavedFile | None
    locks: dict[str, bytes | None]

    def way_out(self) -> str:
        """What to type where the journal is older than the locks."""
        if self.name != FOLDER:
            return "end this, and have that side's files belong together first"
        pins = [f"{target}={lock_name(target)}" if target else lock_name(target) for target in self.locks]
        return f"stage the newer one, or begin anew: reqlock init {' '.join(f'--pins {pin}' for pin in pins)}"

    def whole(self) -> SavedFile:
        """The requirements file of a side whose files belong together; others are refused."""
        if self.old is None:
            raise Refusal(
                f"{REQUIREMENTS}: no version of it in HEAD, in the index or in the last commits is the one that reqlock saved; where"
                " line endings were changed, .gitattributes needs: requirements.txt -text; else begin anew: reqlock init --pins pylock.toml"
            )
        for target, data in self.locks.items():
            if data is None:
                told = f"{lock_name(target)} of {self.name}: it isn't the one that reqlock saved with its journal"
                raise Refusal(f"{told}, which is older where it wasn't committed with the lock; {self.way_out()}")
        return self.old


def saved(checkout: Checkout, name: str, digest: str, places: list[str]) -> SavedFile | None:
    """The version of a file with a digest: it is sought in these places, in the index, and in the last commits."""
    near = [f"{place}:./{name}" for place in [*places, ":0"]]
    seen: set[Blob] = set()
    return version_with(checkout, digest, near, seen) or version_with(checkout, digest, checkout.versions_of(name), seen)


def version_with(checkout: Checkout, digest: str, places: list[str], seen: set[Blob]) -> SavedFile | None:
    """The first of these versions with a digest. They are looked at one by one, and none that was seen already."""
    for place, blob in zip(places, checkout.blobs(places)):
        if blob is None or blob in seen:
            continue
        seen.add(blob)
        data = checkout.content(place, blob)
        if digest_of(data) == digest:
            return SavedFile(data, place)
    return None


def read_side(checkout: Checkout, name: str, places: list[str]) -> Side | None:
    """A side as git has it; None where it has no journal. Of its places in git the first one counts that has a file: what git
    couldn't merge is in the index."""
    names = [f"{place}:./{JOURNAL}" for place in places]
    named_blob = next(((name, blob) for name, blob in zip(names, checkout.blobs(names)) if blob is not None), None)
    if named_blob is None:
        return None
    journal = read_journal(f"{JOURNAL} of {name}", checkout.content(*named_blob))
    locks = {target: saved(checkout, lock_name(target), digest, places) for target, digest in sorted(journal.locks.items())}
    old = saved(checkout, REQUIREMENTS, journal.requirements, places)
    return Side(name, journal, old, {target: blob and blob.data for target, blob in locks.items()})


def are_of_one_history(one: Side, other: Side) -> bool:
    """Whether two histories began alike, or one of them is without its first steps, as far as it can be seen."""
    if one.journal.goes_on_in(other.journal) or other.journal.goes_on_in(one.journal):
        return True
    if one.old is None or other.old is None:
        return True
    try:
        return one.journal.first_lines(one.old.data) == other.journal.first_lines(other.old.data)
    except (KeyError, TypeError, ValueError, AttributeError, RecursionError):
        return False


def counterparts(one: Side, other: Side | None) -> dict[str, bytes]:
    """The locks of the other side by the targets of this one: that of the same name, or else of a target that is for the same environment."""
    if other is None:
        return {}
    there = other.journal.environments
    alike = {target: next((name for name in there if there[name] == told), target) for target, told in one.journal.environments.items()}
    locks = {target: other.locks.get(target if target in there else alike[target]) for target in one.locks}
    return {target: data for target, data in locks.items() if data is not None}
