"""Lock requirements that git merged, or that somebody changed by hand, and keep the pins and the history.

Run it in the folder of reqlock's files, a git checkout or a folder in one, while a merge, a rebase,
a cherry-pick or a revert is in progress, once requirements.txt has the lines that are wanted and no
conflict markers. The lock and the history of this side (git's "ours") go on with one step more,
which `reqlock undo` takes back: it puts the merged lines in, and keeps the pins of both sides. Of a
name that both have locked the newer version is kept, where it can be. Which pins came from which
side is printed, and the files are staged.

Where nothing is in progress, the version of requirements.txt that reqlock saved is sought in HEAD,
in the index and in the last hundred commits of the file, and what was changed since then becomes
one step of the history.

Nothing changes unless a lock is found. The status is 0 where it is, or where nothing is to be done;
3 where no choice of versions meets the lines; 1 where something is wrong, and what to type is told;
2 where the words are no request.
"""

import argparse
import os
import shlex
import subprocess
import tempfile
from dataclasses import dataclass
from pathlib import Path

from reqlock_tools.conflicts import conflict_in
from reqlock_tools.files import refuse_no_file
from reqlock_tools.folder_lock import alone_in
from reqlock_tools.merge_git import Checkout
from reqlock_tools.merge_pins import told_pins, versions_in
from reqlock_tools.merge_place import put
from reqlock_tools.merge_sides import (
    FOLDER, JOURNAL, REQUIREMENTS, Journal, SavedFile, Side, are_of_one_history, counterparts, digest_of, lock_name, read_journal, read_side, saved,
)
from reqlock_tools.names import called, tool
from reqlock_tools.program import program_path
from reqlock_tools.refusal import Refusal, fault_text, speaker

DONE, FAILED, UNSOLVED, STOPPED = 0, 1, 3, 130
OURS, THEIRS = "this side", "the other side"

say = speaker("merge")


@dataclass(frozen=True)
class MergeRequest:
    """What is asked for: in which folder, over which index, by which program, and whose history goes on where there are two."""

    dir: str
    index: str
    program: str
    dry_run: bool
    keep_locked: bool
    ours: bool
    theirs: bool


class MergedFolder:
    """The folder as it stands, and what is asked for."""

    def __init__(self, options: MergeRequest) -> None:
        self.options, self.path = options, Path(options.dir)
        self.checkout = Checkout(options.dir)

    def read(self, name: str) -> bytes | None:
        """What a file holds; None where it isn't there. Git keeps a link as a link, so none is followed."""
        path = self.path / name
        if not os.path.lexists(path):
            return None
        if os.path.islink(path):
            raise Refusal(f"{path}: it is a link, which this doesn't follow; call reqlock replace --was")
        refuse_no_file(str(path))
        return path.read_bytes()

    def requirements(self) -> bytes:
        """The lines that are wanted."""
        data = self.read(REQUIREMENTS)
        if data is None:
            raise Refusal(f"{self.path / REQUIREMENTS}: it isn't there; give it the lines that are wanted")
        conflict = conflict_in(data.decode("latin-1"))
        if conflict is not None:
            raise Refusal(f"{REQUIREMENTS}: {conflict}")
        return data

    def is_whole(self) -> bool:
        """Whether the folder's files belong together, by their digests."""
        data, requirements = self.read(JOURNAL), self.read(REQUIREMENTS)
        try:
            journal = read_journal(JOURNAL, data or b"")
        except Refusal:
            return False
        digests = {lock_name(target): digest for target, digest in journal.locks.items()}
        present = {name: digest_of(self.read(name) or b"") for name in digests}
        return digests == present and journal.requirements == digest_of(requirements or b"")

    def changed(self) -> Side:
        """The folder's own files, whose requirements file was changed."""
        data = self.read(JOURNAL)
        if data is None:
            lock = self.path / lock_name("")
            kept = f" --pins {shlex.quote(str(lock))}" if lock.exists() else ""
            raise Refusal(f"{self.path / JOURNAL}: it isn't there, so there is no history; reqlock init{kept} begins one")
        journal = read_journal(JOURNAL, data)
        locks = {target: self.lock(target, digest) for target, digest in sorted(journal.locks.items())}
        return Side(FOLDER, journal, saved(self.checkout, REQUIREMENTS, journal.requirements, ["HEAD"]), locks)

    def lock(self, target: str, digest: str) -> bytes | None:
        data = self.read(lock_name(target))
        return data if data is not None and digest_of(data) == digest else None


# The sides


def names_of(*journals: Journal | None) -> list[str]:
    """The names of the files of histories."""
    targets = {target for journal in journals if journal for target in journal.locks}
    return [REQUIREMENTS, *map(lock_name, sorted(targets)), JOURNAL]


def chosen(folder: MergedFolder) -> tuple[Side, Side | None] | None:
    """The side whose history goes on, and the other one where something is in progress; None where nothing is to be done."""
    checkout = folder.checkout
    sides = checkout.sides([REQUIREMENTS, JOURNAL])
    if sides is None and (folder.options.ours or folder.options.theirs):
        raise Refusal("nothing is in progress, so there is no other side")
    if sides is None:
        return None if folder.is_whole() else (folder.changed(), None)
    ours = read_side(checkout, OURS, [":2", sides.ours])
    theirs = read_side(checkout, THEIRS, [":3", sides.theirs or ":0"])
    names = names_of(ours and ours.journal, theirs and theirs.journal)
    if folder.is_whole() and not checkout.unmerged(names):
        return None
    one, other = (theirs, ours) if folder.options.theirs else (ours, theirs)
    if one is None:
        raise Refusal(f"{THEIRS if folder.options.theirs else OURS} has no {JOURNAL}; {choice()}")
    if not (folder.options.ours or folder.options.theirs):
        refuse_others(one, other)
    return one, other


def choice() -> str:
    return f"type {tool('merge')} --ours to go on with the history of this side, --theirs with that of the other"


def refuse_others(one: Side, other: Side | None) -> None:
    """Refuses sides of which a person must say whose history goes on."""
    if other is None:
        raise Refusal(f"{THEIRS} has no {JOURNAL}; {choice()}")
    if one.journal.environments != other.journal.environments:
        here, there = (", ".join(name or "the one without a name" for name in side.journal.locks) for side in (one, other))
        kind = "other environments under the same names" if here == there else f"{there}; here: {here}"
        raise Refusal(f"{THEIRS} locks for other targets ({kind}); {choice()}. Its pins count for targets of the same name or environment")
    if not are_of_one_history(one, other):
        raise Refusal(f"{THEIRS} began another history, by reqlock init or forget; {choice()}")


# The call of reqlock


def answered(options: MergeRequest, words: list[str]) -> tuple[int, str]:
    """The status and the standard output of a call of reqlock. A fault of it is a refusal."""
    try:
        done = subprocess.run(
            [options.program, *words], stdin=subprocess.DEVNULL, capture_output=True, encoding="utf-8", errors="replace", check=False
        )
    except OSError as fault:
        raise Refusal(f"{options.program}: {fault.strerror}; give the program by --program") from None
    if done.returncode in (DONE, UNSOLVED):
        return done.returncode, done.stdout
    told = done.stderr.strip() or done.stdout.strip() or f"reqlock ended with status {done.returncode}"
    raise Refusal(told_fault(options, told))


def told_fault(options: MergeRequest, fault: str) -> str:
    """A fault of reqlock with the names that are known here."""
    file, colon, word = fault.removeprefix("reqlock: ").partition(": ")
    if file == "pins" or file.startswith("pins "):
        file = f"{lock_name(file.removeprefix('pins').strip())} of {THEIRS}"
    return f"{options.index if file == 'index' else file}{colon}{word}"


class Trial:
    """A folder of its own, in which reqlock does what is then put into the folder."""

    def __init__(self, path: Path, options: MergeRequest, one: Side, old: SavedFile, requirements: bytes) -> None:
        self.path, self.options = path, options
        self.made, self.others = path / "made", path / "others"
        for folder in self.made, self.others:
            folder.mkdir()
        (self.made / REQUIREMENTS).write_bytes(requirements)
        (self.made / JOURNAL).write_bytes(one.journal.data)
        for target, data in one.locks.items():
            (self.made / lock_name(target)).write_bytes(data or b"")
        (path / "old.txt").write_bytes(old.data)

    def pins(self, one: Side, other: Side | None) -> list[str]:
        """The options for the locks of the other side."""
        words: list[str] = []
        for target, data in counterparts(one, other).items():
            path = self.others / lock_name(target)
            path.write_bytes(data)
            words += ["--pins", f"{target}={path}"]
        return words

    def replace(self, pins: list[str]) -> tuple[int, str]:
        """The status and the reply of reqlock."""
        keep = ["--keep-locked"] * self.options.keep_locked
        words = ["--dir", str(self.made), "--index", self.options.index, "replace", "--was", str(self.path / "old.txt"), *keep, *pins]
        return answered(self.options, words)

    def files(self, one: Side) -> dict[str, bytes]:
        """What reqlock made, in the order in which it is to be put into the folder."""
        return {name: (self.made / name).read_bytes() for name in names_of(one.journal)}


def told_result(trial: Trial, one: Side, other: Side | None, files: dict[str, bytes], reply: str) -> list[str]:
    """What is printed behind the reply: where the pins came from, or what was changed."""
    if other is None:
        return answered(trial.options, ["--dir", str(trial.made), "diff"])[1].splitlines() if reply.startswith("ok") else []
    lines, there = list[str](), counterparts(one, other)
    for target, lock in one.locks.items():
        versions = [versions_in(data) for data in (lock, there.get(target), files[lock_name(target)])]
        lines += told_pins(target, *versions)
    return lines


def gone_locks(folder: MergedFolder, one: Side, other: Side | None) -> list[str]:
    """The locks of the other side alone, where git put them there. What somebody wrote in their places since stays."""
    targets = other.locks.keys() - one.locks.keys() if other else ()
    names = [lock_name(target) for target in sorted(targets) if not os.path.islink(folder.path / lock_name(target))]
    unmerged = folder.checkout.unmerged(names) if names else set()
    known = [data for side in (one, other) if side for data in side.locks.values() if data is not None]
    return [name for name in names if name in unmerged or folder.read(name) in known]


# What to type where nothing fits


def question(folder: MergedFolder, one: Side, old: SavedFile) -> str:
    """The commands that tell why nothing fits."""
    place = [] if folder.options.dir == "." else ["-C", folder.options.dir]
    other = [] if folder.options.dir == "." else ["--dir", folder.options.dir]
    keep = ["--keep-locked"] * folder.options.keep_locked
    commands = []
    wrong = [lock_name(target) for target, data in one.locks.items() if folder.read(lock_name(target)) != data]
    wrong += [JOURNAL] * (folder.read(JOURNAL) != one.journal.data)
    if wrong:
        commands.append(shlex.join(["git", *place, "checkout", "--theirs" if one.name == THEIRS else "--ours", "--", *wrong]))
    show = shlex.join(["git", *place, "show", old.source])
    why = shlex.join(["reqlock", *other, "--index", folder.options.index, "why", "--explain", *keep, "--replace", "--was", "-"])
    return "; ".join([*commands, f"{show} | {why}"])


def lock(folder: MergedFolder, one: Side, other: Side | None, place: Path) -> int:
    """Locks the lines that are wanted in a place of its own, and puts what comes of it into the folder."""
    options, requirements, old = folder.options, folder.requirements(), one.whole()
    trial = Trial(place, options, one, old, requirements)
    status, reply = trial.replace(trial.pins(one, other))
    if status == UNSOLVED:
        print(reply, end="")
        say("nothing is changed; change the lines and call this again, or ask: " + question(folder, one, old))
        return UNSOLVED
    files = trial.files(one)
    lines = told_result(trial, one, other, files, reply)
    if not options.dry_run:
        others, gone = {name: data for name, data in files.items() if folder.read(name) != data}, gone_locks(folder, one, other)
        put(options.dir, others, gone, lambda: folder.checkout.stage(files, gone))
    print(reply, *(f"{line}\n" for line in lines), sep="", end="")
    return DONE


def run(options: MergeRequest) -> int:
    folder = MergedFolder(options)
    with alone_in(options.dir), tempfile.TemporaryDirectory() as name:
        sides = chosen(folder)
        if sides is not None:
            return lock(folder, *sides, Path(name))
    # (reqlock waits for the lock on the folder; it reads the steps of the journal too)
    answered(options, ["--dir", options.dir, "check"])
    print("nothing is to be done: the files belong together")
    return DONE


def parser_of() -> argparse.ArgumentParser:
    parser = argparse.ArgumentParser(
        prog=tool("merge"), description=called(__doc__ or ""), formatter_class=argparse.RawDescriptionHelpFormatter
    )
    parser.add_argument("--index", metavar="FILE", help="the snapshot of the index; REQLOCK_INDEX where none is given")
    parser.add_argument("--dir", metavar="DIR", help="the folder of the files; REQLOCK_DIR, or else . where none is given")
    parser.add_argument("--program", metavar="FILE", help="reqlock, where it isn't on the PATH")
    parser.add_argument("--dry-run", action="store_true", help="save nothing; print what would be locked")
    parser.add_argument("--keep-locked", action="store_true", help="move no locked version that is still needed")
    histories = parser.add_mutually_exclusive_group()
    histories.add_argument("--ours", action="store_true", help="go on with the history of this side, though the other has another")
    histories.add_argument("--theirs", action="store_true", help="go on with the history of the other side")
    return parser


def main(words: list[str]) -> int:
    parser = parser_of()
    told = parser.parse_args(words)
    index = told.index or os.environ.get("REQLOCK_INDEX")
    if not index:
        parser.error("--index is needed")
    options = MergeRequest(
        dir=told.dir or os.environ.get("REQLOCK_DIR") or ".", index=index, program=program_path(told.program), dry_run=told.dry_run,
        keep_locked=told.keep_locked, ours=told.ours, theirs=told.theirs,
    )
    try:
        return run(options)
    except (Refusal, OSError) as fault:
        say(fault_text(fault))
        return FAILED
    except KeyboardInterrupt:
        say("stopped; nothing is changed")
        return STOPPED
