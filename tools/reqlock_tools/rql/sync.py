"""`rql sync`: a virtual environment gets exactly what is locked. First all of it is installed, and only then what isn't is taken out."""

import contextlib
import os
import shlex
from dataclasses import dataclass
from pathlib import Path
from typing import TYPE_CHECKING

from reqlock_tools.folder_lock import alone_in
from reqlock_tools.refusal import Refusal, shown, speaker
from reqlock_tools.rql.faults import NETWORK, STOPPED, SettingsFault
from reqlock_tools.rql.sync_installed import VirtualEnvironment, is_own, making, python_in, read_environment
from reqlock_tools.rql.sync_locked import Locked, read_locked
from reqlock_tools.rql.sync_netrc import known_credentials, netrc_file, netrc_text, refuse_elsewhere
from reqlock_tools.rql.sync_pip import Pip, mended_end, pip_of, variables_for
from reqlock_tools.rql.sync_plan import SyncPlan, is_as_locked, plan_of
from reqlock_tools.rql.sync_targets import chosen_target
from reqlock_tools.simple.plan import IndexAddress
from reqlock_tools.versions import is_name, normal

if TYPE_CHECKING:
    from reqlock_tools.rql.project import Project
    from reqlock_tools.rql.requests import SyncRequest

VENV = ".venv"

say = speaker("rql")


@dataclass(frozen=True)
class Sync:
    """What a sync is for: the folder of the settings, that of the program's files, the indexes, and what a person asks; `ways` are pip's words
    of how a server is asked."""

    base: Path
    folder: Path
    indexes: tuple[IndexAddress, ...] = ()
    venv: str | None = None
    target: str | None = None
    keep: tuple[str, ...] = ()
    is_exact: bool = False
    is_dry: bool = False
    is_offline: bool = False
    is_verbose: bool = False
    is_quiet: bool = False
    ways: tuple[str, ...] = ()


def run_sync(project: "Project", request: "SyncRequest") -> int:
    """Has a virtual environment hold what a project has locked."""
    options, settings = project.options, project.settings
    if settings.sources and not options.is_quiet:
        tell_apart(project)
    return sync(Sync(
        base=project.base, folder=project.folder, indexes=tuple(IndexAddress(setting.url, setting.only) for setting in settings.index),
        venv=request.venv, target=request.target, keep=request.keep, is_exact=request.is_exact, is_dry=request.is_dry,
        is_offline=options.is_offline, is_verbose=options.is_verbose, is_quiet=options.is_quiet,
        ways=tuple(options.ways()),
    ))


def tell_apart(project: "Project") -> None:
    """Tells where the lock isn't of what the sources have now. They need not be there, as in an image."""
    from reqlock_tools.rql.history import content
    from reqlock_tools.rql.sources import differences, gathered

    with contextlib.suppress(Refusal, OSError):
        present = gathered(project.top, project.base, project.settings.sources)
        if differences(present, content(project.folder / "requirements.txt")):
            say("the sources have other lines than those that are locked: rql check tells which, rql lock takes them over")


def sync(asked: Sync) -> int:
    """The status of a sync."""
    keep = frozenset(kept_name(word) for word in asked.keep)
    place = venv_of(asked)
    python_in(place)
    with alone_in(place):
        environment = read_environment(place)
        target = chosen_target(asked.folder, asked.target, environment.told)
        locked = read_locked(target.path, target.text, environment.told)
        plan = plan_of(environment, locked, keep, asked.is_exact)
        tell(asked, plan)
        return 0 if asked.is_dry or plan.is_empty() else done(asked, environment, locked, plan)


def kept_name(text: str) -> str:
    if not is_name(text):
        raise SettingsFault(f"--keep {text!a}: the name of a package is wanted")
    return normal(text)


def venv_of(asked: Sync) -> Path:
    """The environment that is asked for: the one that is named, else the one that is active, else .venv beside the settings."""
    if asked.venv is not None:
        return Path(os.path.abspath(asked.venv))
    active = os.environ.get("VIRTUAL_ENV", "")
    place = Path(active) if active else asked.base / VENV
    if not active and not place.exists():
        raise SettingsFault(f"{place}: there is no environment, and none is active: {making(place)} makes one")
    if not active and place.is_symlink():
        meant = shlex.quote(os.path.realpath(place))
        raise SettingsFault(f"{place}: it is a link, which isn't followed: rql sync --venv {meant} says that it is meant")
    if is_own(place):
        raise SettingsFault(f"{place}: rql itself runs in it: rql sync --venv {shlex.quote(str(place))} says that it is meant")
    return place


def tell(asked: Sync, plan: SyncPlan) -> None:
    """Prints what is changed, and tells what stays though it isn't locked."""
    for line in plan.lines() or ["nothing to do"]:
        print(shown(line), flush=True)
    if not asked.is_quiet:
        for installed, why in plan.stays:
            say(f"{installed.name} {installed.version}".rstrip() + f" stays: {why}")


def done(asked: Sync, environment: VirtualEnvironment, locked: dict[str, Locked], plan: SyncPlan) -> int:
    """The status of doing what is planned."""
    installs = [package for package, _ in plan.installs]
    if asked.is_offline and installs:
        say("--offline: nothing is changed, since pip asks the network for what is to be installed")
        return NETWORK
    tell_built(asked, installs)
    words = pip_of(environment)
    with mended_end(), netrc_file(text_for(asked, environment, installs)) as netrc:
        pip = Pip(words, variables_for(words, environment, netrc), asked.is_verbose)
        status = pip.install(installs, asked.indexes, asked.ways)
        if status != 0:
            return left(environment, locked, status)
        status = pip.uninstall([installed.name for installed in plan.removals]) if plan.removals else 0
    if status != 0:
        say("all that is locked is installed; not all that isn't could be taken out: rql sync goes on")
    return status and failed(status)


def text_for(asked: Sync, environment: VirtualEnvironment, installs: list[Locked]) -> str:
    """The netrc file for pip; empty where nothing is fetched."""
    if not installs:
        return ""
    known = known_credentials((address.url for address in asked.indexes), say)
    refuse_elsewhere(known, (file.url for package in installs for file in package.files if file.is_linked))
    return netrc_text(known, environment.version)


def tell_built(asked: Sync, installs: list[Locked]) -> None:
    """Tells what is built here: what its build needs is locked by nobody."""
    names = [f"{package.name} {package.version}" for package in installs if package.is_built]
    if names and not asked.is_quiet:
        say(f"{', '.join(names)}: built here of what is locked; what the build itself needs, pip takes of the index, unlocked")


def left(environment: VirtualEnvironment, locked: dict[str, Locked], status: int) -> int:
    """Tells what is there after pip failed."""
    has = read_environment(environment.place).installed
    count = sum(1 for name, package in locked.items() if name in has and is_as_locked(has[name], package))
    say(f"pip ended with status {status}: {count} of {len(locked)} packages are as locked, and nothing is taken out; rql sync goes on")
    return failed(status)


def failed(status: int) -> int:
    return STOPPED if status == STOPPED else NETWORK
