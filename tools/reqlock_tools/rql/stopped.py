"""A save of the program that was stopped midway: what it left beside the places of the files, and its end."""

from reqlock_tools.merge_sides import digest_of, read_journal
from reqlock_tools.refusal import speaker
from reqlock_tools.rql.calls import Caller, typed_path
from reqlock_tools.rql.history import content, is_whole, journal_of
from reqlock_tools.rql.kept import NAME, Kept
from reqlock_tools.rql.project import JOURNAL, REQUIREMENTS, Project

LEFT = f"{REQUIREMENTS}.new", f"{JOURNAL}.new", "pylock*.toml.new"
# The program's status where its files don't read, or don't belong together.
BAD_INPUT = 4

say = speaker("rql")


def is_stopped(project: Project) -> bool:
    """Whether a save that was stopped has left files beside their places."""
    return any(place.is_file() for pattern in LEFT for place in project.folder.glob(pattern))


def are_lines_changed(project: Project) -> bool:
    """Whether the lines are neither those before a save that was stopped nor those behind it. Then it can't be ended."""
    journals = [data for name in (JOURNAL, f"{JOURNAL}.new") if (data := content(project.folder / name))]
    return digest_of(content(project.folder / REQUIREMENTS)) not in [read_journal(JOURNAL, data).requirements for data in journals]


def tell_stopped(project: Project, status: int) -> None:
    """Tells what ends a save that was stopped, where the program refuses the files that it left."""
    if status != BAD_INPUT or not is_stopped(project):
        return
    if are_lines_changed(project):
        saved = f"have them be those that were saved last, which {NAME}/{REQUIREMENTS} beside the settings has"
        say(f"a save was stopped midway, and the lines were changed since: {saved}, type rql lock, and then change them again")
    else:
        say("a save was stopped midway, and nothing of it is lost: rql lock ends it")


def end_save(project: Project, kept: Kept, caller: Caller) -> None:
    """Ends a save that was stopped, so that nothing of its history is taken for lost or changed: a batch without a line does."""
    journal = journal_of(project) if is_stopped(project) else None
    if journal is None or is_whole(project, journal):
        return
    from reqlock_tools.rql.index import present_index

    index = present_index(project, kept)
    caller.answered("--dir", typed_path(project.folder), "--index", typed_path(index), "batch", text="")
