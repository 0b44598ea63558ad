"""Files that are written anew after each accepted call, for tools that read no lock."""

import re
from collections.abc import Sequence
from pathlib import Path

from reqlock_tools.files import write_whole
from reqlock_tools.refusal import speaker
from reqlock_tools.regular_file import open_regular
from reqlock_tools.rql.calls import Caller, typed_path
from reqlock_tools.rql.history import journal_of
from reqlock_tools.rql.kept import MODE, Kept
from reqlock_tools.rql.project import Project
from reqlock_tools.rql.settings import ExportSetting

FIRST_LINE = b"# Exported by rql. What is changed here is lost with its next call.\n"
# What the program tells of targets that no file can have together.
APART = re.compile(rb"(?m)^(?:error|reqlock): (the targets [^\n]* can't stand in one file: [^\n]*?)(, or export one by [^\n]*)?$")
GONE = "the index of this lock is gone: rql relock makes it anew"

say = speaker("rql")


def exported(project: Project, kept: Kept, caller: Caller, export: ExportSetting) -> bytes | str:
    """What an export is to hold, or why it can't be made: its target isn't locked for, two targets can't stand in one file, or the index of its
    lock is gone. The latter is also the answer where the lines were changed since they were locked, of which the program tells beside it."""
    journal = journal_of(project) if export.target else None
    if journal is not None and export.target not in journal.environments:
        return f"target {export.target} isn't locked for: rql retarget"
    target = ["--target", export.target] if export.target else []
    indexes = [["--index", typed_path(index)] for index in kept.earlier()] if export.format == "pylock" else [[]]
    for index in indexes:
        words = ["--dir", typed_path(project.folder), *index, "export", "--format", export.format, *target]
        answer = caller.ask(*words)
        if answer.status == 0 and not answer.errors:
            caller.tell([caller.program, *words])
            return FIRST_LINE + answer.output
        if apart := APART.search(answer.errors):
            return apart[1].decode(errors="replace") + ", or have exports in the settings name a target" * bool(apart[2])
    return GONE


def is_exported(place: Path) -> bool:
    """Whether a file may be written anew: it isn't there, or was exported before."""
    try:
        with open_regular(str(place)) as file:
            return file.readline(len(FIRST_LINE)) == FIRST_LINE
    except FileNotFoundError:
        return True


def write_exports(project: Project, kept: Kept, caller: Caller, forced: Sequence[str] = ()) -> None:
    """Writes each export anew. Those that are forced take the place of what another tool wrote."""
    for export in project.settings.exports:
        write_export(project, kept, caller, export, export.file in forced)


def stale_exports(project: Project, kept: Kept, caller: Caller) -> list[str]:
    """Which exports aren't what is locked, each with what to type, and which no file can be. One whose index is gone is passed over."""
    stale = []
    for export in project.settings.exports:
        place = project.place(export.file, "exports")
        data = exported(project, kept, caller, export)
        if data == GONE:
            continue
        if isinstance(data, str):
            stale.append(f"{typed_path(place)}: it can't be made: {data}")
        elif not is_exported(place):
            stale.append(f"{typed_path(place)}: rql didn't write it, so it isn't exported: move it away, and then: rql lock")
        elif not place.exists():
            stale.append(f"{typed_path(place)}: this export isn't there: rql lock writes it")
        elif place.read_bytes() != data:
            stale.append(f"{typed_path(place)}: it isn't what is locked: rql lock exports it anew")
    return stale


def write_export(project: Project, kept: Kept, caller: Caller, export: ExportSetting, is_forced: bool) -> None:
    place = project.place(export.file, "exports")
    if not is_forced and not is_exported(place):
        say(f"{typed_path(place)}: it isn't exported anew, since rql didn't write it: move it away")
        return
    data = exported(project, kept, caller, export)
    if isinstance(data, str):
        say(f"{typed_path(place)}: it is as it was, since {data}")
        return
    place.parent.mkdir(parents=True, exist_ok=True)
    if not place.is_file() or place.read_bytes() != data:
        write_whole(str(place), data, MODE)
