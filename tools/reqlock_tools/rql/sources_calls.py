"""Edits, undo and redo of a project whose lines come from sources: what the program accepts, the sources get too; what they can't have is
refused before anything is written."""

import tempfile
from collections.abc import Callable, Sequence
from pathlib import Path

from reqlock_tools.rql.calls import Caller, typed_path
from reqlock_tools.rql.edits import UNSOLVED, accepted, copied
from reqlock_tools.rql.faults import SettingsFault
from reqlock_tools.rql.history import Saving, content
from reqlock_tools.rql.index import Wanted, made_index, present_index
from reqlock_tools.rql.kept import Kept
from reqlock_tools.rql.lacking import lacking, names_of, tell_lacking
from reqlock_tools.rql.project import REQUIREMENTS, Project
from reqlock_tools.rql.requests import EditRequest
from reqlock_tools.rql.sources import differences
from reqlock_tools.rql.sources_change import Change, Sources


def sources_of(project: Project) -> Sources:
    """The sources of a project. Where they and the lines came apart, they are refused with what differs."""
    sources = Sources(project.top, project.base, project.settings.sources)
    path = project.folder / REQUIREMENTS
    told = differences(sources.present, content(path), typed_path(path))
    if told:
        raise SettingsFault("\n".join([*told, "sources and lines came apart: rql lock takes the sources over"]))
    return sources


def edit_sources(project: Project, kept: Kept, request: EditRequest) -> int:
    """The status of an edit of lines, which is a `replace` by those that the changed sources give."""
    change = sources_of(project).edited(request.word, request.texts)
    asked = request.texts if request.word == "add" else ()
    wanted = Wanted(texts=texts_in(change), untold=names_of(asked))
    index = present_index(project, kept) if request.word == "remove" else made_index(project, kept, wanted)
    words = [*["--keep-locked"] * request.keeps_locked, *["--dry-run"] * request.is_dry]
    new = kept.write("requirements.new.txt", change.data)
    given = ["--dir", typed_path(project.folder), "--index", typed_path(index)]
    saving, caller = Saving(project), Caller(project.options)
    caller.lacking = lambda: lacking(index, asked)
    status = caller.hand_over(*given, *words, "replace", typed_path(new), question=question_of(request))
    if saving.is_done(status) and not request.is_dry:
        change.write()
        accepted(project, kept, caller, index)
    if status == UNSOLVED:
        tell_lacking(project.options, index, lacking(index, asked))
    return status


def question_of(request: EditRequest) -> list[str]:
    """How it is asked why an edit has no solution, as if its lines had no sources; of several texts it is asked by their lines."""
    if request.word == "set" or (request.word != "constrain" and len(request.texts) > 1):
        return []
    return [*([] if request.word == "add" else [f"--{request.word}"]), *request.texts]


def texts_in(change: Change) -> tuple[str, ...]:
    """The requirements that are gathered then."""
    return tuple(line.partition("  # from ")[0] for line in change.data.decode().splitlines())


def moved_sources(project: Project, kept: Kept, words: Sequence[str], move: Callable[[], int]) -> int:
    """The status of an undo or a redo, which the sources follow. The words are tried on a copy first."""
    sources, caller = sources_of(project), Caller(project.options)
    with tempfile.TemporaryDirectory() as name:
        trial = copied(project.folder, Path(name))
        answer = caller.quietly("--dir", str(trial), *words)
        change = sources.followed(content(trial / REQUIREMENTS)) if answer.status == 0 else None
    saving = Saving(project)
    status = move()
    if saving.is_done(status) and change is not None and "--dry-run" not in words:
        change.write()
    return status
