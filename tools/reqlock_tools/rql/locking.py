"""`rql lock`: the lock fits the lines again, whoever changed them."""

import contextlib
import io
import os
import shlex
import tempfile
from collections.abc import Sequence
from pathlib import Path

from reqlock_tools.files import write_whole
from reqlock_tools.merge_git import Checkout, Sides
from reqlock_tools.merge_sides import Journal, digest_of, lock_name, read_side, saved
from reqlock_tools.refusal import Refusal, speaker
from reqlock_tools.rql.calls import Caller, hand_on_errors, tell_call, typed_path
from reqlock_tools.rql.checking import target_differences
from reqlock_tools.rql.edits import UNSOLVED, accepted
from reqlock_tools.rql.exports import stale_exports, write_exports
from reqlock_tools.rql.faults import FOUND, SettingsFault
from reqlock_tools.rql.history import Saving, content, is_whole, wanted_journal
from reqlock_tools.rql.index import Wanted, made_index, requirements_in
from reqlock_tools.rql.kept import MODE, Kept
from reqlock_tools.rql.project import JOURNAL, REQUIREMENTS, Project
from reqlock_tools.rql.requests import LockRequest
from reqlock_tools.rql.stopped import end_save, tell_stopped
from reqlock_tools.rql.told import in_words_of_rql

say = speaker("rql")


def run_lock(project: Project, request: LockRequest) -> int:
    """Locks what was changed, or tells whether anything was."""
    kept = Kept(project)
    with kept.locked():
        return Locking(project, kept, request).run()


def run_merge(project: Project, words: Sequence[str]) -> int:
    """`rql merge`: what reqlock-merge does with these words, with folder and index filled in."""
    kept = Kept(project)
    with kept.locked():
        locking = Locking(project, kept, LockRequest(is_check=False))
        sides = locking.checkout.sides([REQUIREMENTS, JOURNAL]) if locking.checkout else None
        return locking.merge(sides, gathered(project) if sides else None, words)


def checkout_of(project: Project) -> Checkout | None:
    """The git checkout in which the project stands; None where it stands in none, or git isn't there."""
    try:
        return Checkout(str(project.folder))
    except Refusal:
        return None


def gathered(project: Project) -> bytes | None:
    """The lines that the sources have now; None where there are no sources."""
    if not project.settings.sources:
        return None
    from reqlock_tools.rql.sources import gather

    return gather(project.base, project.settings.sources, project.top)


class Locking:
    """A project whose lines may have been changed by hand, by a bot or by git."""

    def __init__(self, project: Project, kept: Kept, request: LockRequest) -> None:
        self.project, self.kept, self.request = project, kept, request
        self.caller = Caller(project.options)
        self.checkout = checkout_of(project)

    def run(self) -> int:
        lines = gathered(self.project)
        sides = self.checkout.sides([REQUIREMENTS, JOURNAL]) if self.checkout else None
        if self.checkout is not None and sides is not None:
            return self.check_merge(self.checkout) if self.request.is_check else self.merge(sides, lines)
        if not self.request.is_check:
            end_save(self.project, self.kept, self.caller)
        journal = wanted_journal(self.project)
        are_same = lines is None or lines == content(self.project.folder / REQUIREMENTS)
        if is_whole(self.project, journal) and are_same:
            return self.fits()
        if self.request.is_check:
            return self.differs()
        return self.replace(journal, lines)

    def differs(self) -> int:
        say("the lock doesn't fit the lines: rql lock has it fit them")
        return FOUND

    def fits(self) -> int:
        """The status where the lock fits the lines: exports follow, or are told where they don't."""
        status = self.caller.hand_over("--dir", typed_path(self.project.folder), "check")
        if status == 0 and not self.request.is_check:
            write_exports(self.project, self.kept, self.caller)
            return status
        told = stale_exports(self.project, self.kept, self.caller)
        for text in told:
            say(text)
        return status or (FOUND if told else 0)

    # Changes by hand

    def replace(self, journal: Journal, lines: bytes | None) -> int:
        """Has the lines that stand there take the place of those that were saved last."""
        if lines is not None and is_whole(self.project, journal):
            new = self.kept.write("requirements.new.txt", lines)
            return self.replaced(lines, typed_path(new))
        if lines is not None:
            write_whole(str(self.project.folder / REQUIREMENTS), lines, MODE)
        old = self.kept.write(REQUIREMENTS, self.saved_lines(journal))
        return self.replaced(content(self.project.folder / REQUIREMENTS), "--was", typed_path(old))

    def replaced(self, lines: bytes, *words: str) -> int:
        index = made_index(self.project, self.kept, Wanted(texts=tuple(requirements_in(lines))))
        place = ["--dir", typed_path(self.project.folder), "--index", typed_path(index)]
        saving = Saving(self.project)
        status = self.caller.hand_over(*place, "replace", *words)
        if saving.is_done(status):
            accepted(self.project, self.kept, self.caller, index)
        tell_stopped(self.project, status)
        if status == UNSOLVED:
            self.tell_other_environments()
        return status

    def tell_other_environments(self) -> None:
        """Tells where the settings have other environments, for which the lines may have a solution."""
        differences = target_differences(self.project)
        for text in differences:
            say(text)
        if differences:
            lines = f"those that were saved last ({typed_path(self.kept.saved)} has them)"
            say(f"these lines have no lock for what is locked for now: put back {lines}, type rql retarget, and then rql lock with these")

    def saved_lines(self, journal: Journal) -> bytes:
        """The lines that were saved with the journal: rql keeps them, or git has them."""
        if self.kept.saved.is_file() and digest_of(content(self.kept.saved)) == journal.requirements:
            return content(self.kept.saved)
        earlier = saved(self.checkout, REQUIREMENTS, journal.requirements, ["HEAD"]) if self.checkout else None
        if earlier is None:
            raise SettingsFault(
                f"{typed_path(self.project.folder / REQUIREMENTS)}: nobody has the lines that were saved last. A new history, with the versions"
                f" that are locked, is begun by: {self.beginning(journal)}"
            )
        return earlier.data

    def beginning(self, journal: Journal) -> str:
        """What begins a new history with the versions that are locked, as it is typed here."""
        place = [] if Path.cwd() == self.project.base else ["-C", typed_path(self.project.base)]
        locks = [os.path.relpath(self.project.lock_path(target), self.project.base) for target in sorted(journal.locks)]
        return shlex.join(["rql", *place, "init", *(word for path in locks for word in ("--from", path))])

    # What git merges

    def merge(self, sides: Sides | None, lines: bytes | None, more: Sequence[str] = ()) -> int:
        """Does what reqlock-merge does with these words, over an index that has what both sides have locked."""
        from reqlock_tools import merge

        if lines is not None:
            write_whole(str(self.project.folder / REQUIREMENTS), lines, MODE)
        with tempfile.TemporaryDirectory() as name:
            locks = both_locks(self.checkout, sides, Path(name)) if self.checkout and sides else None
            index = made_index(self.project, self.kept, Wanted(locks=locks))
        words = ["--dir", typed_path(self.project.folder), "--index", typed_path(index), *more]
        if self.project.options.is_verbose:
            tell_call(["reqlock-merge", *words])
        told = io.StringIO()
        try:
            with contextlib.redirect_stderr(told):
                status = merge.main([*words, "--program", self.caller.program])
        finally:
            hand_on_errors(in_words_of_rql(told.getvalue().encode(errors="backslashreplace"), self.project.options))
        if status == 0 and "--dry-run" not in more:
            accepted(self.project, self.kept, self.caller, index)
            if self.checkout is not None:
                self.stage(self.checkout)
        return status

    def check_merge(self, checkout: Checkout) -> int:
        journal = content(self.project.folder / JOURNAL)
        names = [REQUIREMENTS, JOURNAL]
        if checkout.unmerged(names) or b"<<<<<<<" in journal or not is_whole(self.project, wanted_journal(self.project)):
            return self.differs()
        return self.fits()

    def stage(self, checkout: Checkout) -> None:
        """Tells git that those exports and sources are merged which it couldn't merge, as reqlock-merge does of the program's files."""
        places = [self.project.place(export.file, "exports") for export in self.project.settings.exports]
        if self.project.settings.sources:
            from reqlock_tools.rql import sources

            places += [section.path for section in sources.gathered(self.project.top, self.project.base, self.project.settings.sources).sections]
        names = [os.path.relpath(place, self.project.folder) for place in places]
        unmerged = checkout.unmerged(names).intersection(names) if names else set()
        if unmerged:
            checkout.call("add", "--", *sorted(unmerged))


def both_locks(checkout: Checkout, sides: Sides, place: Path) -> tuple[Path, ...]:
    """The locks of both sides, as files."""
    paths: list[Path] = []
    for name, places in ("ours", [":2", sides.ours]), ("theirs", [":3", sides.theirs or ":0"]):
        side = read_side(checkout, name, places)
        for target, data in (side.locks if side else {}).items():
            if data is not None:
                paths.append(place / f"{name}.{lock_name(target)}")
                paths[-1].write_bytes(data)
    return tuple(paths)


