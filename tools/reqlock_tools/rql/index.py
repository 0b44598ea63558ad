"""The index, brought up to date by the functions of the snapshot tool: for what the lines, the locks and a call ask."""

from collections.abc import Iterable
from dataclasses import dataclass, replace
from pathlib import Path
from typing import TYPE_CHECKING

from reqlock_tools.refusal import Refusal, fault_text, speaker
from reqlock_tools.rql.faults import IndexFault, SettingsFault
from reqlock_tools.rql.kept import Kept
from reqlock_tools.rql.project import REQUIREMENTS, Project
from reqlock_tools.rql.requests import IndexRequest, Options
from reqlock_tools.rql.settings import Settings
from reqlock_tools.rql.telling import is_told, telling

if TYPE_CHECKING:
    from reqlock_tools.simple.locked import Locked
    from reqlock_tools.simple.plan import Asking, IndexAddress, Plan

say = speaker("rql")


@dataclass(frozen=True)
class Wanted:
    """What an index is made for, beside the lines and the locks that stand there: texts of requirements, and names that are remembered.
    With `is_asked` pages are asked for even where they are fresh; `locks` are those of both sides of a merge, and `pins`, as
    NAME==VERSION, what was locked by another tool. That no index has one of the names `untold` is told by who asks."""

    texts: tuple[str, ...] = ()
    names: tuple[str, ...] = ()
    is_asked: bool = False
    locks: tuple[Path, ...] | None = None
    pins: tuple[str, ...] = ()
    untold: frozenset[str] = frozenset()


def refuse_absent() -> None:
    """Refuses a Python that lacks what an index is asked with."""
    from reqlock_tools.libraries import absent_text, library
    from reqlock_tools.simple.request import LIBRARIES

    for name in LIBRARIES:
        if library(name) is None:
            raise IndexFault(absent_text(name))


def asking_of(options: Options, is_asked: bool) -> "Asking":
    """How the index is asked."""
    from reqlock_tools.limits import limits_of
    from reqlock_tools.simple.cache import default_folder
    from reqlock_tools.simple.plan import JOBS, RETRIES, SECONDS, Asking

    cache = default_folder()
    if cache is None:
        raise IndexFault("no folder for a cache is known, since neither platformdirs nor pip is there")
    return Asking(
        jobs=JOBS, timeout=SECONDS if options.timeout is None else options.timeout, retries=RETRIES if options.retries is None else options.retries,
        cache=cache, is_offline=options.is_offline, is_refreshed=is_asked or options.is_refreshed, limits=limits_of([]),
    )


def lines_of(path: Path) -> list[str]:
    """The requirements of a file. Through a link a stranger could have lines of another file told to an index of his."""
    from reqlock_tools.rql.history import content

    return requirements_in(content(path))


def requirements_in(lines: bytes) -> list[str]:
    """The requirements of lines. What is none is left to the program, which says so."""
    from reqlock_tools.requirements import fault_of
    from reqlock_tools.rql.texts import is_url

    texts = (line.partition(" #")[0].strip() for line in lines.decode(errors="replace").splitlines())
    return [text for text in texts if text and not text.startswith("#") and fault_of(text) is None and not is_url(text)]


def addresses(project: Project) -> tuple["IndexAddress", ...]:
    from reqlock_tools.simple.plan import IndexAddress

    if not project.settings.index:
        raise SettingsFault(f"{project.settings.file}: index: the address of an index is wanted, as [\"https://HOST/simple/\"]")
    return tuple(IndexAddress(setting.url, setting.only) for setting in project.settings.index)


def locks_of(project: Project) -> list[Path]:
    """The locks of the history; none where there is none. What doesn't read of them is passed over, since the program tells of it."""
    from reqlock_tools.rql.history import journal_of

    try:
        journal = journal_of(project)
    except Refusal:
        return []
    locks = {project.lock_path(target): digest for target, digest in sorted(journal.locks.items())} if journal else {}
    return [path for path, digest in locks.items() if path.is_file() and not path.is_symlink() and is_read(path, digest)]


def is_read(lock: Path, digest: str) -> bool:
    """Whether a lock reads, as the one of this digest does, which the program has saved."""
    from reqlock_tools.merge_sides import digest_of
    from reqlock_tools.simple.locked import locked_versions

    try:
        if digest_of(lock.read_bytes()) != digest:
            locked_versions([str(lock)])
    except (Refusal, OSError):
        return False
    return True


def remembered(kept: Kept) -> tuple[str, ...]:
    """The names that the present index was made for beside lines."""
    from reqlock_tools.simple.made import read_plan

    try:
        return read_plan(str(kept.index)).names if kept.index.is_file() else ()
    except (Refusal, OSError):
        return ()


def with_pins(locked: "Locked", pins: Iterable[str]) -> "Locked":
    """What locks have, and what pins name."""
    from reqlock_tools.simple.locked import versions_of

    for name, versions in versions_of(pins).items():
        locked.setdefault(name, set()).update(versions)
    return locked


def is_choosy(settings: Settings) -> bool:
    """Whether the settings leave out releases that a lock may have. Where they don't, what is locked needs no naming, and an index that
    tells the same stays the same."""
    return bool(settings.exclude_newer or settings.newest or settings.only_binary or not settings.pre_releases)


def constraint_files(project: Project) -> list[tuple[str, Path]]:
    """The files of constraints as they are told: those of the settings, and those that sources name."""
    names = dict.fromkeys(project.settings.constraints)
    if project.settings.sources:
        from reqlock_tools.rql.sources import gathered

        names |= dict.fromkeys(gathered(project.top, project.base, project.settings.sources).constraints)
    return [(text, project.place(text, "constraints")) for text in names]


def plan_of(project: Project, kept: Kept, wanted: Wanted) -> "Plan":
    """What the index is to be made of."""
    from reqlock_tools.rql.environments import environments, variables_of
    from reqlock_tools.simple.bounds import read_constraints
    from reqlock_tools.simple.locked import locked_versions, texts_of
    from reqlock_tools.simple.plan import Options as Choices
    from reqlock_tools.simple.plan import Plan, environment_of, followed_texts

    settings = project.settings
    told = environments(settings)
    locks = wanted.locks if wanted.locks is not None else tuple(locks_of(project))
    return Plan(
        indexes=addresses(project),
        names=followed_texts([*remembered(kept), *wanted.names]),
        lines=followed_texts([*lines_of(project.folder / REQUIREMENTS), *wanted.texts]),
        environments=tuple(environment_of(name, described, variables_of(described)) for name, described in told.items()),
        constraints=tuple(replace(read_constraints(str(path), say), file=text) for text, path in constraint_files(project)),
        keep=texts_of(with_pins(locked_versions(map(str, locks)), wanted.pins)) if is_choosy(settings) else (),
        options=Choices(
            only_binary=settings.only_binary, no_pre=not settings.pre_releases, newest=settings.newest,
            exclude_newer=settings.exclude_newer or None, assume_no_dependencies=settings.assume_no_dependencies,
        ),
    )


def made_index(project: Project, kept: Kept, wanted: Wanted) -> Path:
    """An index for what is wanted: the present one where nothing of it changes, else one that is to take its place once the program
    has accepted what is asked."""
    refuse_absent()
    plan = plan_of(project, kept, wanted)
    data = index_bytes(plan, asking_of(project.options, wanted.is_asked), project.options, is_first(project, wanted), wanted.untold)
    if kept.index.is_file() and not kept.index.is_symlink() and kept.index.read_bytes() == data:
        return kept.index
    return kept.write(kept.asked.name, data)


def is_first(project: Project, wanted: Wanted) -> bool:
    """Whether lines are asked for the first time, so that an index which has nothing of them may be asked for a name that is mistyped."""
    from reqlock_tools.simple.locked import locked_versions

    return not wanted.pins and not wanted.locks and not locked_versions(map(str, locks_of(project)))


def index_bytes(
    plan: "Plan", asking: "Asking", options: Options, may_be_none: bool = False, untold: frozenset[str] = frozenset()
) -> bytes:
    """The index that a plan gives, as a file has it. Where it has nothing of what is asked for, that is told, or else refused."""
    from reqlock_tools.simple.credentials import Credentials
    from reqlock_tools.simple.run import IS_ADDRESS, Run
    from reqlock_tools.snapshot_output import say as say_index
    from reqlock_tools.snapshot_output import snapshot_text

    try:
        with telling(is_told(options)):
            # (settings are a file, which may be a stranger's)
            credentials = Credentials((address.url for address in plan.indexes), say_index, are_typed=False)
            run = Run(plan, asking, credentials)
            data = snapshot_text(run.snapshot(may_be_none, untold)).encode()
    except (Refusal, OSError) as fault:
        raise IndexFault(fault_text(fault)) from None
    if run.none is not None and not options.is_quiet:
        say(f"{run.none}; is the name right? And {IS_ADDRESS}")
    return data


def present_index(project: Project, kept: Kept) -> Path:
    """The present index, or where it isn't there one that is made."""
    return kept.index if kept.index in kept.earlier() else made_index(project, kept, Wanted())


def run_index(project: Project, request: IndexRequest) -> int:
    """Makes the index anew."""
    kept = Kept(project)
    with kept.locked():
        refuse_no_names(request.names)
        index = made_index(project, kept, Wanted(names=request.names, is_asked=True))
        refuse_absent_names(index, request.names)
        kept.accept(index)
    return 0


def refuse_no_names(names: Iterable[str]) -> None:
    from reqlock_tools.requirements import doubt_of, fault_of

    for text in names:
        if fault := fault_of(text) or doubt_of(text):
            raise SettingsFault(f"{text!a}: {fault}")


def absent_names(path: Path) -> frozenset[str] | None:
    """The names that an index was asked for and hadn't; None where it doesn't tell that."""
    from reqlock_tools.simple.made import read_made

    try:
        return frozenset(read_made(str(path)).member("lacks").member("names").texts())
    except Refusal:
        return None


def refuse_absent_names(index: Path, names: Iterable[str]) -> None:
    """Refuses names that are mistyped, as they would be asked for again each time."""
    from reqlock_tools.requirements import need_of

    lacking = absent_names(index) or frozenset()
    told = [need.name for text in names if (need := need_of(text)) is not None and need.name in lacking]
    if told:
        raise IndexFault(f"no index of the settings has {', '.join(told)}: nothing is changed; is the name right?")


