"""Calls that are handed on: the program's own, with folder and index filled in, and those of other tools."""

import importlib
import shlex
from contextlib import suppress
from itertools import takewhile
from pathlib import Path

from reqlock_tools.refusal import Refusal
from reqlock_tools.rql.calls import Caller, typed_path
from reqlock_tools.rql.faults import SettingsFault
from reqlock_tools.rql.kept import Kept
from reqlock_tools.rql.project import Project
from reqlock_tools.rql.requests import Options, PassedRequest
from reqlock_tools.rql.telling import is_told

# Those that go to another state of the history.
MOVING = "undo", "redo"
# The options of a question that is about the environments of the settings.
TARGETING = frozenset(("--init", "--retarget"))
# What saves a history, and leaves its present state.
SHORTENING = "forget"
# Those that read the index, where it is there.
READING = "show", "tree", "export", "skipped"
# The statuses of a question that is answered: by what is printed, by a refusal, or by that nothing can be locked.
ANSWERS = 0, 1, 3


def run_passed(project: Project, request: PassedRequest) -> int:
    """The status of a call of the program with the words that were given."""
    if request.word == "tree" and request.words and not request.words[0].startswith("-"):
        raise SettingsFault(f"tree: it takes no name: {shlex.join(['rql', 'show', request.words[0]])} tells what needs it")
    from reqlock_tools.rql.stopped import tell_stopped

    status = passed(project, request)
    tell_stopped(project, status)
    return status


def passed(project: Project, request: PassedRequest) -> int:
    caller = Caller(project.options)
    words = ["show", "--tree"] if request.word == "tree" else [request.word]
    call = [*words, *request.words]
    given = ["--dir", typed_path(project.folder)]
    if is_help(request.words):
        return caller.hand_over(*call)
    kept = Kept(project)
    if request.word in MOVING:
        return moved(project, kept, caller, given, call)
    if request.word == SHORTENING:
        with kept.locked():
            return caller.hand_over(*given, *call)
    if request.word in READING:
        return caller.hand_over(*given, *index_words(index_to_read(project, kept, request.word)), *call)
    if request.word in ("outdated", "why"):
        with kept.locked():
            return answered(project, asked_index(project, kept, request), caller, given, request)
    return caller.hand_over(*given, *call)


def is_help(words: tuple[str, ...]) -> bool:
    return "-h" in words or "--help" in words


def index_words(indexes: list[Path]) -> list[str]:
    return [word for path in indexes for word in ("--index", typed_path(path))]


def index_to_read(project: Project, kept: Kept, word: str) -> list[Path]:
    """The index that is there. What is left out of an index can't be told without any, so then one is made."""
    if word != "skipped" or kept.earlier() or not project.settings.index:
        return kept.earlier()[:1]
    from reqlock_tools.rql.index import present_index

    with kept.locked():
        return [present_index(project, kept)]


def moved(project: Project, kept: Kept, caller: Caller, given: list[str], call: list[str]) -> int:
    """Goes to another state, and has the sources, the environments of the settings and the exports follow."""
    from reqlock_tools.rql.edits import accepted
    from reqlock_tools.rql.history import Saving, journal_of
    from reqlock_tools.rql.targets_followed import followed

    with kept.locked():
        saving, before = Saving(project), journal_of(project)
        if project.settings.sources:
            from reqlock_tools.rql.sources_calls import moved_sources

            status = moved_sources(project, kept, call, lambda: caller.hand_over(*given, *call))
        else:
            status = caller.hand_over(*given, *call)
        if saving.is_done(status) and "--dry-run" not in call:
            accepted(followed(project, before), kept, caller, None)
    return status


def answered(project: Project, index: Path, caller: Caller, given: list[str], request: PassedRequest) -> int:
    """Hands a question on. Behind the answer it is told what constraints leave out of the packages that this is about: where that can't be
    read any more, the status stays the program's."""
    environments = Kept(project).environment_words() if not TARGETING.isdisjoint(request.words) else []
    whole = [*given, *index_words([index]), *environments, request.word, *request.words]
    status = caller.hand_over(*whole)
    if status in ANSWERS and is_told(with_told(project.options, request.words)):
        from reqlock_tools.rql.left_out import tell_left_out

        with suppress(Refusal, OSError):
            tell_left_out(project, index, request.words, lambda: caller.ask(*whole).output)
    return status


def with_told(options: Options, words: tuple[str, ...]) -> Options:
    """The options, with what the program's words ask for of telling."""
    is_quiet, is_verbose = (not {short, long}.isdisjoint(words) for short, long in (("-q", "--quiet"), ("-v", "--verbose")))
    return options._replace(is_quiet=options.is_quiet or is_quiet, is_verbose=options.is_verbose or is_verbose)


def asked_index(project: Project, kept: Kept, request: PassedRequest) -> Path:
    """The index for a question: for what is new, or with what the words name."""
    from reqlock_tools.requirements import fault_of
    from reqlock_tools.rql.index import Wanted, made_index

    if request.word == "outdated":
        return made_index(project, kept, Wanted(is_asked=True))
    texts = [text for text in request.words if fault_of(text) is None] + new_lines(request.words)
    return made_index(project, kept, Wanted(texts=tuple(texts)))


def new_lines(words: tuple[str, ...]) -> list[str]:
    """The lines of the file that a question asks for in the place of those that stand there."""
    from reqlock_tools.rql.index import lines_of

    file = next((new for option, new in zip(words, words[1:]) if option == "--replace" and not new.startswith("-")), None)
    return lines_of(Path(file)) if file is not None and Path(file).is_file() else []


def run_tool(options: Options, request: PassedRequest) -> int:
    """The status of another tool, which reads the words that were given. A fleet without an index of its own is one of rql's projects."""
    words = request.words
    if request.word == "fleet" and words[:1] == ("show",):
        from reqlock_tools.rql.fleet_table import run_table

        return run_table(words[1:])
    # (what stands behind -- is the call's own)
    if request.word == "fleet" and not any(word.startswith(("--index", "-h", "--help")) for word in takewhile("--".__ne__, words)):
        from reqlock_tools.rql.fleet_each import run_each

        return run_each(options, words)
    if request.word == "merge" and not any(word.startswith(("--index", "-h", "--help")) for word in words):
        from reqlock_tools.rql.locking import run_merge
        from reqlock_tools.rql.project import find_project

        return run_merge(find_project(options), words)
    module = importlib.import_module(f"reqlock_tools.{request.word.replace('-', '_')}")
    status: int = module.main(list(words))
    return status
