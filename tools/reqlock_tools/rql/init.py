"""`rql init`: settings where there are none, environments, the index, and the first lock. Pins that stand there are kept."""

import contextlib
import os
import shutil
from dataclasses import replace
from pathlib import Path
from typing import Any

from reqlock_tools.files import write_whole
from reqlock_tools.merge_sides import Journal
from reqlock_tools.refusal import speaker
from reqlock_tools.rql.calls import Caller, typed_path
from reqlock_tools.rql.compiled import Pin
from reqlock_tools.rql.defaults import indexes, own_platform, own_python, refuse_platform, refuse_python, target_names
from reqlock_tools.rql.draft import Draft, draft_of, project_table
from reqlock_tools.rql.edits import accepted
from reqlock_tools.rql.environments import environments, of_journal
from reqlock_tools.rql.faults import IndexFault, SettingsFault
from reqlock_tools.rql.history import Saving, content, is_whole, journal_of
from reqlock_tools.rql.index import Wanted, absent_names, made_index
from reqlock_tools.rql.kept import MODE, NAME, Kept
from reqlock_tools.rql.pins import read_pins
from reqlock_tools.rql.pins_fit import Outcome, fits, releases_by_name
from reqlock_tools.rql.project import REQUIREMENTS, Project, project_of, settings_in
from reqlock_tools.rql.requests import InitRequest, Options
from reqlock_tools.rql.settings import OWN_FILE, PROJECT_FILE, EnvironmentSetting, ExportSetting, settings_of
from reqlock_tools.rql.settings_text import settings_text
from reqlock_tools.rql.stopped import end_save
from reqlock_tools.rql.telling import telling
from reqlock_tools.toml import read_toml

say = speaker("rql")


def run_init(options: Options, request: InitRequest) -> int:
    """Begins a project in the folder in which the call is made. With -q nothing is told beside the program's answer."""
    with telling(not options.is_quiet):
        return begun(options, request)


def begun(options: Options, request: InitRequest) -> int:
    """The status of beginning a project."""
    base = Path(os.path.realpath(options.start))
    if not base.is_dir():
        raise SettingsFault(f"{options.start}: there is no such folder")
    present = settings_in(base)
    if present is not None and (request.indexes or request.platforms or request.python):
        raise SettingsFault(f"{present.file}: settings stand there already: change them there, or remove them")
    for platform in request.platforms:
        refuse_platform(platform)
    if request.python:
        refuse_python(request.python)
    draft = draft_of(base, request.pinned)
    if present is None and PROJECT_FILE in draft.sources:
        from reqlock_tools.rql.groups import tell_rest

        tell_rest(base, project_table(base), draft.sources)
    if present is not None:
        return Beginning(project_of(present, options), draft, None, bool(request.pinned)).run()
    file, text = new_settings(base, draft, request)
    whole = read_toml(text)
    settings = settings_of(whole if file.name == OWN_FILE else whole["tool"]["reqlock"], file, f"{file}: new settings")
    return Beginning(project_of(settings, options), draft, text, bool(request.pinned)).run()


def new_settings(base: Path, draft: Draft, request: InitRequest) -> tuple[Path, str]:
    """The settings that are to be written, and the file."""
    file = base / (PROJECT_FILE if (base / PROJECT_FILE).is_file() else OWN_FILE)
    targets = new_environments(base, draft, request)
    exports = [ExportSetting(draft.compiled, "hashes", targets[0].name or None)] if draft.compiled else []
    table = "tool.reqlock" if file.name == PROJECT_FILE else ""
    return file, settings_text(table, draft.folder, indexes(request.indexes, base), draft.sources, exports, targets)


def new_environments(base: Path, draft: Draft, request: InitRequest) -> list[EnvironmentSetting]:
    """The environments: those of the history that stands there, or what the words say, or what is here."""
    journal = journal_in(base / draft.folder)
    if journal and not (request.platforms or request.python):
        return [of_journal(name, told) for name, told in journal.items()]
    python = request.python or own_python()
    if len(request.platforms) < 2:
        return [EnvironmentSetting("", python, request.platforms[0] if request.platforms else own_platform())]
    names = target_names(request.platforms)
    return [EnvironmentSetting(name, python, platform) for name, platform in zip(names, request.platforms)]


def journal_in(folder: Path) -> dict[str, Any]:
    """The environments of the history of a folder; none where it has none."""
    from reqlock_tools.merge_sides import read_journal
    from reqlock_tools.rql.project import JOURNAL

    data = content(folder / JOURNAL)
    return read_journal(str(folder / JOURNAL), data).environments if data else {}


class Beginning:
    """The begin of a project. `text` is what is written as settings, None where they stand there; with `is_from` it was said whose pins are
    kept."""

    def __init__(self, project: Project, draft: Draft, text: str | None, is_from: bool) -> None:
        self.project, self.draft, self.text, self.is_from = project, draft, text, is_from
        self.caller = Caller(project.options)
        self.is_made: list[Path] = []
        # Whether all that was pinned is locked as it was.
        self.is_taken = True

    def run(self) -> int:
        kept = Kept(self.project)
        if not kept.folder.exists():
            self.is_made.append(kept.folder)
        try:
            with kept.locked():
                end_save(self.project, kept, self.caller)
                journal = journal_of(self.project)
                status = self.begin(kept) if journal is None or self.is_lost(journal) else self.go_on(kept)
        except BaseException:
            self.take_back()
            raise
        return status

    def is_lost(self, journal: Journal) -> bool:
        """Whether a new history is begun in the place of one that stands there: its files don't belong together any more, and it is said
        whose pins are kept; or a lock of it is gone, and those of the others are."""
        if self.is_from and is_whole(self.project, journal):
            raise SettingsFault(f"{self.project.folder}: a history stands there, with its own pins: rql init without --from goes on with it")
        paths = [self.project.lock_path(target) for target in journal.locks]
        gone = [path for path in paths if not os.path.lexists(path)]
        if self.is_from or not gone:
            return self.is_from
        say(f"{', '.join(map(typed_path, gone))}: gone, so a new history begins in the place of the one that stands there")
        self.draft = replace(self.draft, pinned=tuple(path for path in paths if path not in gone))
        return True

    def go_on(self, kept: Kept) -> int:
        """Writes settings for a history that stands there, and makes its index."""
        kept.accept(made_index(self.project, kept, Wanted(is_asked=True)))
        kept.save_lines()
        self.is_made.clear()
        self.write_settings()
        say("the history that stands there goes on")
        return self.caller.hand_over("--dir", typed_path(self.project.folder), "check")

    def begin(self, kept: Kept) -> int:
        self.put_lines()
        read = [read_pins(path) for path in self.draft.pinned]
        pins = [pin for several, _ in read for pin in several]
        index = self.index(kept, pins)
        packages = releases_by_name(str(index))
        absent = absent_names(index)
        taken = [pin for pin in pins if fits(pin, packages, absent)]
        words = ["--dir", typed_path(self.project.folder), "--index", typed_path(index), *self.environment_words(kept)]
        saving = Saving(self.project)
        # (where it is refused nothing of it is left, so why it is can be asked now alone)
        why = [*words, "why", "--explain", "--init"]
        status = self.caller.hand_over(*words, "init", *self.pin_words(kept, taken), answer=lambda: self.caller.ask(*why).output)
        if not saving.is_done(status):
            self.take_back()
            return status
        self.is_made.clear()
        self.write_settings()
        accepted(self.project, kept, self.caller, None if self.draft.index else index, self.forced())
        if self.draft.pinned:
            locks = [locked_in(self.project.lock_path(target)) for target in environments(self.project.settings)]
            count = Outcome(self.caller, self.project.folder, self.draft.index or kept.index, packages).tell(locks, taken)
            self.is_taken = count == len(pins) and all(is_whole for _, is_whole in read)
            say(f"{count} of {len(pins)} pins are taken over")
        return status

    def index(self, kept: Kept, pins: list[Pin]) -> Path:
        """The index that is given, once the program has read it; or else one that has what is pinned."""
        given = self.draft.index
        if given is None:
            return made_index(self.project, kept, Wanted(is_asked=True, pins=tuple(f"{pin.name}=={pin.version}" for pin in pins)))
        answer = self.caller.ask("--dir", typed_path(self.project.folder), "--index", str(given), "skipped")
        if answer.status != 0:
            raise IndexFault(f"{given}: {answer.errors.decode(errors='replace').strip().removeprefix('reqlock: index: ')}")
        return given

    def environment_words(self, kept: Kept) -> list[str]:
        """The words that tell the program what is locked for."""
        if self.draft.environment is not None:
            return ["--env", str(self.draft.environment)]
        return kept.environment_words()

    def pin_words(self, kept: Kept, pins: list[Pin]) -> list[str]:
        """The words that have pins kept, for each target."""
        if not pins:
            return []
        data = "".join(f"{pin.name}=={pin.version} {pin.marker}".rstrip() + "\n" for pin in pins)
        path = typed_path(kept.write("pins.txt", data.encode()))
        return [word for name in environments(self.project.settings) for word in ("--pins", f"{name}={path}" if name else path)]

    # The files of the project

    def put_lines(self) -> None:
        """Puts the lines there with which the history begins."""
        folder, path = self.project.folder, self.project.folder / REQUIREMENTS
        for place in [*reversed(folder.parents), folder]:
            if not place.exists():
                place.mkdir()
                self.is_made.append(place)
        lines = self.lines()
        if lines is None or (path.is_file() and content(path) == lines):
            return
        if os.path.lexists(path):
            raise SettingsFault(f"{path}: it stands there already, with other lines than {', '.join(self.draft.sources)}")
        write_whole(str(path), lines, MODE)
        self.is_made.append(path)

    def lines(self) -> bytes | None:
        """The lines that are to stand in the program's file; None where those that stand there count."""
        if self.project.settings.sources:
            from reqlock_tools.rql.locking import gathered

            return gathered(self.project)
        if self.draft.lines is not None:
            return self.draft.lines
        return None if os.path.lexists(self.project.folder / REQUIREMENTS) else b""

    def take_back(self) -> None:
        """Removes what was put there, where nothing came of it."""
        for path in reversed(self.is_made):
            with contextlib.suppress(OSError):
                if path.name == NAME:
                    shutil.rmtree(path)
                else:
                    path.rmdir() if path.is_dir() else path.unlink()

    def write_settings(self) -> None:
        """Writes settings where there are none; behind what stands in the file."""
        if self.text is None:
            return
        file = self.project.settings.file
        before = file.read_bytes() if file.is_file() else b""
        end = b"\r\n" if b"\r\n" in before else b"\n"
        gap = b"" if not before else end if before.endswith(b"\n") else end * 2
        write_whole(str(file), before + gap + self.text.encode().replace(b"\n", end), MODE)
        say(f"settings: {typed_path(file)}")

    def forced(self) -> tuple[str, ...]:
        """The files of another tool that are exported from now on."""
        if self.draft.compiled is None or self.text is None:
            return ()
        say(f"{self.draft.compiled} is exported from now on, and the lines come from {', '.join(self.draft.sources)}")
        return (self.draft.compiled,)


def locked_in(path: Path) -> dict[str, str]:
    """The versions of a lock by name."""
    lock = read_toml(content(path).decode())
    return {entry["name"]: entry["version"] for entry in lock["packages"]}


