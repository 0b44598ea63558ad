"""What the program's files tell: the journal, and whether the files belong together."""

from pathlib import Path

from reqlock_tools.merge_sides import Journal, digest_of, lock_name, read_journal
from reqlock_tools.refusal import speaker
from reqlock_tools.regular_file import read_bytes
from reqlock_tools.rql.faults import SettingsFault
from reqlock_tools.rql.project import JOURNAL, REQUIREMENTS, Project

say = speaker("rql")


def content(path: Path) -> bytes:
    """What a file of the program holds; nothing where it isn't there. A link is followed by nobody."""
    if path.is_symlink():
        raise SettingsFault(f"{path}: it is a link, which isn't followed")
    return read_bytes(str(path)) if path.exists() else b""


def journal_of(project: Project) -> Journal | None:
    """The journal; None where no history has begun."""
    data = content(project.folder / JOURNAL)
    return read_journal(str(project.folder / JOURNAL), data) if data else None


def wanted_journal(project: Project) -> Journal:
    journal = journal_of(project)
    if journal is None:
        lock = lock_name("")
        kept = f" --from {lock}" if (project.folder / lock).exists() else ""
        raise SettingsFault(f"{project.folder / JOURNAL}: it isn't there, so there is no history: rql init{kept} begins one")
    return journal


def is_whole(project: Project, journal: Journal) -> bool:
    """Whether lines and locks are those that were saved with the journal."""
    return digest_of(content(project.folder / REQUIREMENTS)) == journal.requirements and not changed_locks(project, journal)


def changed_locks(project: Project, journal: Journal) -> list[str]:
    """The names of the locks that aren't those that were saved with the journal."""
    names = {lock_name(target): digest for target, digest in journal.locks.items()}
    return [name for name, digest in names.items() if digest_of(content(project.folder / name)) != digest]


class Saving:
    """Whether a call of the program saves something in a project: it says so, or the history is another one though its answer couldn't be
    written, or Ctrl-C came behind it."""

    def __init__(self, project: Project) -> None:
        self.project, self.before = project, content(project.folder / JOURNAL)

    def is_done(self, status: int) -> bool:
        """Whether something is saved, or the call says that all is as it is to be."""
        if status == 0:
            return True
        if content(self.project.folder / JOURNAL) == self.before:
            return False
        journal = journal_of(self.project)
        return journal is not None and is_whole(self.project, journal)


def tell_changed(project: Project) -> None:
    """Tells what has lines and locks fit again that somebody changed since they were saved."""
    journal = journal_of(project)
    if journal is None or is_whole(project, journal):
        return
    locks = changed_locks(project, journal)
    if locks:
        say(f"{', '.join(locks)}: it isn't what was saved: rql lock mends what git merges; else rql -v check tells how it is brought back")
    else:
        say("the lines were changed since they were saved: rql lock has the lock fit them")
