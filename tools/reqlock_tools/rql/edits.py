"""Edits: the index is brought up to date for what is asked, and then the program decides."""

import shlex
import shutil
import sys
import tempfile
from collections.abc import Sequence
from contextlib import suppress
from dataclasses import replace
from pathlib import Path

from reqlock_tools.refusal import Refusal, speaker
from reqlock_tools.regular_file import HANDED_OVER, read_bytes
from reqlock_tools.rql.calls import Caller, typed_path
from reqlock_tools.rql.exports import write_exports
from reqlock_tools.rql.history import Saving, tell_changed
from reqlock_tools.rql.index import Wanted, made_index, present_index
from reqlock_tools.rql.kept import Kept
from reqlock_tools.rql.lacking import lacking, names_of, tell_lacking
from reqlock_tools.rql.own_calls import front
from reqlock_tools.rql.project import JOURNAL, REQUIREMENTS, Project
from reqlock_tools.rql.requests import EditRequest
from reqlock_tools.rql.stopped import BAD_INPUT, tell_stopped
from reqlock_tools.rql.telling import is_told, telling
from reqlock_tools.rql.texts import is_url

# Those that change one line for each of their texts.
OF_LINES = "add", "remove", "set"
# Those that ask the index what is new.
ASKING = "upgrade", "relock"
# The program's status where nothing can be locked.
UNSOLVED = 3
NO_SOLUTION = b"refused no-solution"

say = speaker("rql")


def run_edit(project: Project, request: EditRequest) -> int:
    """Makes an edit, or tells what it would change."""
    kept = Kept(project)
    with kept.locked():
        return edited(project, kept, request)


def edited(project: Project, kept: Kept, request: EditRequest, is_pending: bool = False) -> int:
    """The status of an edit. Where its settings are pending, and so are given up with a refusal, why it has no solution is told at once."""
    if project.settings.sources:
        from reqlock_tools.rql.sources_calls import edit_sources, sources_of

        if request.word in (*OF_LINES, "constrain"):
            return edit_sources(project, kept, request)
        sources_of(project)  # (which refuses those that came apart from the lines)
    status = Edit(project, kept, request, is_pending).run()
    tell_stopped(project, status)
    if status == BAD_INPUT and is_told(project.options):
        tell_changed(project)
    return status


class Edit:
    """An edit of a project, with what it calls."""

    def __init__(self, project: Project, kept: Kept, request: EditRequest, is_pending: bool = False) -> None:
        self.project, self.kept, self.is_pending = project, kept, is_pending
        self.request = request._replace(pins=tuple(handed_over(kept, pins, number) for number, pins in enumerate(request.pins)))
        self.caller = Caller(project.options)
        self.index = self.fresh_index()
        self.caller.lacking = self.lacking
        self.keeping = ["--keep-locked"] * request.keeps_locked
        self.drying = ["--dry-run"] * request.is_dry

    def fresh_index(self) -> Path:
        """The index that has what is asked. A removal asks for nothing new."""
        word = self.request.word
        if word == "remove":
            return present_index(self.project, self.kept)
        if word == "retarget":
            return made_index(self.project, self.kept, Wanted(pins=pinned_in(self.request.pins)))
        texts = tuple(text for text in self.request.texts if not is_url(text)) if word in ("add", "set") else ()
        return made_index(self.project, self.kept, Wanted(texts=texts, is_asked=word in ASKING, untold=names_of(texts) if word == "add" else frozenset()))

    def given(self, folder: Path | None = None) -> list[str]:
        """The words that tell of folder and index, and of what is locked for where that is to change."""
        targets = self.kept.environment_words() if self.request.word == "retarget" else []
        return ["--dir", typed_path(folder or self.project.folder), "--index", typed_path(self.index), *targets]

    def words(self, *texts: str) -> list[str]:
        """The program's words for the edit of these texts."""
        if self.request.word == "set":
            from reqlock_tools.rql.texts import name_in

            return ["replace", "--line", name_in(texts[0]), texts[0]]
        if self.request.word == "retarget":
            return ["retarget", *self.pins()]
        return [self.request.word, *(["--"] * any(text.startswith("-") for text in texts)), *texts]

    def pins(self) -> list[str]:
        return [word for pins in self.request.pins for word in ("--pins", pins)]

    def why(self) -> bytes:
        """Why a change of the environments has no solution."""
        return self.caller.ask(*self.given(), "why", "--explain", *self.keeping, "--retarget", *self.pins()).output

    def run(self) -> int:
        request, saving = self.request, Saving(self.project)
        if request.word in OF_LINES and len(request.texts) > 1:
            status = self.run_several()
        else:
            answer = self.why if self.is_pending else None
            status = self.caller.hand_over(*self.given(), *self.keeping, *self.drying, *self.words(*request.texts), answer=answer)
        if saving.is_done(status) and not request.is_dry:
            accepted(self.project, self.kept, self.caller, self.index)
        if status == UNSOLVED:
            tell_lacking(self.project.options, self.index, self.lacking())
        return status

    def lacking(self) -> dict[str, str]:
        """The texts to be added whose names the index lacks, by these names."""
        return lacking(self.index, self.request.texts) if self.request.word == "add" else {}

    def run_several(self) -> int:
        """Makes the edits of several texts where all are accepted, else none."""
        if not self.request.is_dry and self.are_commands():
            return self.run_batch()
        with tempfile.TemporaryDirectory() as name:
            trial = copied(self.project.folder, Path(name))
            for text in self.request.texts:
                answer = self.caller.quietly(*self.given(trial), *self.keeping, *self.words(text))
                if answer.status != 0:
                    say(f"nothing is changed: {text!a} is refused: {self.question(text)} tells why")
                    return answer.hand_on()
            lines = (trial / REQUIREMENTS).read_bytes()
        new = self.kept.write("requirements.new.txt", lines)
        return self.caller.hand_over(*self.given(), *self.keeping, *self.drying, "replace", typed_path(new))

    def are_commands(self) -> bool:
        """Whether each edit is a line of `batch` that means the same there."""
        word, texts = self.request.word, self.request.texts
        if word == "remove":
            return all(text.split() == [text] for text in texts)
        return word == "add" and all(text.strip().splitlines() == [text] for text in texts)

    def run_batch(self) -> int:
        """The same by one call. Where an edit is refused, the first such reply is all that is printed: no other one came true."""
        text = "".join(f"{self.request.word} {argument}\n" for argument in self.request.texts)
        answer = self.caller.answered(*self.given(), *self.keeping, "batch", "--all-or-none", text=text)
        replies = answer.output.splitlines(keepends=True)
        refused = [place for place, reply in enumerate(replies) if reply.startswith(b"refused ")]
        if answer.status == 0 or not refused:
            status = answer.hand_on()
            places = [int(reply.split()[1]) for reply in replies if reply.startswith(b"ok ")]
            if status == 0 and places:
                self.tell_change(places[0], places[-1])
            return status
        text, is_unsolved = self.request.texts[refused[0]], replies[refused[0]].strip() == NO_SOLUTION
        # (of what the index lacks more is told, where something is told)
        is_known = is_unsolved and is_told(self.project.options) and text in self.lacking().values()
        say(f"nothing is changed: {text!a} is refused" + ("" if is_known else f": {self.question(text, is_unsolved)} tells why"))
        return replace(answer, output=replies[refused[0]]).hand_on()

    def tell_change(self, first: int, last: int) -> None:
        """Tells a person what the edits up to a place changed together, as the program tells it of a single one."""
        options = self.project.options
        if not options.is_quiet and (options.is_verbose or sys.stderr.isatty()):
            change = self.caller.ask("--dir", typed_path(self.project.folder), "diff", str(first - 1), str(last))
            sys.stderr.write(change.output.decode(errors="surrogateescape"))

    def question(self, text: str, is_unsolved: bool = False) -> str:
        """The call that tells why one of several texts is refused."""
        words = ["why", "--explain"] if is_unsolved and self.request.word == "add" else ["-v", self.request.word, "--dry-run"]
        return shlex.join([*front(self.project.options.start), *words, text])


def handed_over(kept: Kept, pins: str, number: int) -> str:
    """A file of pins, as FILE or NAME=FILE. One that a shell hands over can be read only once, so it is kept."""
    name, sign, file = pins.rpartition("=")
    if file != "-" and not file.startswith(HANDED_OVER):
        return pins
    data = sys.stdin.buffer.read() if file == "-" else read_bytes(file)
    return f"{name}{sign}{typed_path(kept.write(f'pins.{number}.txt', data))}"


def pinned_in(files: Sequence[str]) -> tuple[str, ...]:
    """What files pin, as NAME==VERSION, so that the index has it. Of what they have else the program tells."""
    from reqlock_tools.rql.pins import read_pins

    pins: list[str] = []
    for file in files:
        with telling(False), suppress(Refusal, OSError):
            pins += [f"{pin.name}=={pin.version}" for pin in read_pins(Path(file.rpartition("=")[2]))[0]]
    return tuple(pins)


def copied(folder: Path, place: Path) -> Path:
    """A copy of the program's files, over which edits are tried."""
    for path in (folder / REQUIREMENTS, folder / JOURNAL, *folder.glob("pylock*.toml")):
        if path.is_file():
            shutil.copy(path, place)
    return place


def accepted(project: Project, kept: Kept, caller: Caller, index: Path | None, forced: Sequence[str] = ()) -> None:
    """What is done once the program has accepted something: the index takes its place, and exports are written. Those that are forced take
    the place of what another tool wrote."""
    if index is not None:
        kept.accept(index)
    kept.save_lines()
    write_exports(project, kept, caller, forced)
