"""`rql check`: sources, settings and exports against lines, targets and locks first, then what the program checks."""

from reqlock_tools.merge_sides import Journal
from reqlock_tools.refusal import Refusal, fault_text, speaker
from reqlock_tools.rql.calls import Caller, typed_path
from reqlock_tools.rql.environments import are_alike, environments, label_of
from reqlock_tools.rql.exports import stale_exports
from reqlock_tools.rql.faults import FOUND
from reqlock_tools.rql.history import content, journal_of
from reqlock_tools.rql.kept import Kept
from reqlock_tools.rql.project import REQUIREMENTS, Project
from reqlock_tools.rql.requests import CheckRequest
from reqlock_tools.rql.settings import Settings
from reqlock_tools.rql.stopped import tell_stopped

say = speaker("rql")


def run_check(project: Project, request: CheckRequest) -> int:
    """The program's status; or 1 where settings, sources or exports differ and the program finds nothing."""
    exports = stale_exports(project, Kept(project), Caller(project.options))
    differences = [*target_differences(project), *source_differences(project), *constraint_faults(project), *exports]
    for text in differences:
        say(text)
    words = [*["--json"] * request.is_json, *["--current"] * request.is_current]
    status = checked(project, request, words)
    tell_stopped(project, status)
    return status or (FOUND if differences else 0)


def checked(project: Project, request: CheckRequest, words: list[str]) -> int:
    caller, place = Caller(project.options), ["--dir", typed_path(project.folder)]
    if not request.is_current:
        return caller.hand_over(*place, "check", *words)
    from reqlock_tools.rql.index import Wanted, made_index

    kept = Kept(project)
    with kept.locked():
        index = made_index(project, kept, Wanted(is_asked=True))
        return caller.hand_over(*place, "--index", typed_path(index), "check", *words)


def target_differences(project: Project) -> list[str]:
    """What the settings and the journal tell otherwise of environments."""
    journal = journal_of(project)
    return differences_of(project.settings, journal) if journal is not None else []


def differences_of(settings: Settings, journal: Journal) -> list[str]:
    if not settings.environments:
        return []
    wanted, locked = environments(settings), journal.environments
    lines = [f"{named(name)} is in the settings, and isn't locked for: rql retarget" for name in wanted.keys() - locked.keys()]
    lines += [f"{named(name)} is locked for, and isn't in the settings: rql retarget" for name in locked.keys() - wanted.keys()]
    for name in sorted(wanted.keys() & locked.keys()):
        if not are_alike(wanted[name], locked[name]):
            lines.append(f"{named(name)} is {label_of(wanted[name])} in the settings, and {label_of(locked[name])} is locked for: rql retarget")
    return sorted(lines)


def named(target: str) -> str:
    return f"target {target}" if target else "the target without a name"


def source_differences(project: Project) -> list[str]:
    """What the sources and the lines tell otherwise."""
    if not project.settings.sources:
        return []
    from reqlock_tools.rql.sources import differences, gathered

    path = project.folder / REQUIREMENTS
    differing = differences(gathered(project.top, project.base, project.settings.sources), content(path), typed_path(path))
    return [*differing, "sources and lines came apart: rql lock takes the sources over"] if differing else []


def constraint_faults(project: Project) -> list[str]:
    """Which files of constraints don't read. With one of them no edit is made."""
    if not (project.settings.constraints or project.settings.sources):
        return []
    from reqlock_tools.rql.index import constraint_files
    from reqlock_tools.simple.bounds import read_constraints

    faults = []
    for text, path in constraint_files(project):
        try:
            read_constraints(str(path), lambda passed_over: None)
        except (Refusal, OSError) as fault:
            faults.append(f"{fault_text(fault)}: without it no edit is made: write it, or take {text} out of the constraints")
    return faults
