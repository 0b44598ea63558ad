"""What a fleet is asked: the folders, the words of the program, and the tests that are made before any folder is touched."""

import os
import tempfile
from dataclasses import dataclass
from difflib import get_close_matches
from typing import NamedTuple

from reqlock_tools.fleet_call import NO_PROGRAM, Told, tell
from reqlock_tools.refusal import Refusal, Say

# The subcommands that have one reply for a folder, each with the words of the `why` that asks about it.
WHY: dict[str, list[str]] = {
    "init": ["--init"], "add": ["--"], "remove": ["--remove"], "constrain": ["--constrain"], "upgrade": ["--upgrade"], "relock": [],
    "retarget": ["--retarget"], "check": [], "undo": [], "redo": [], "forget": [],
}
# The others, with what to do in their place.
OTHERS = {
    "batch": "it reads standard input, which folders can't share: ask its lines one by one",
    "try": "it reads standard input, which folders can't share: ask its lines one by one, with --dry-run",
    "replace": "its lines are those of one folder: type reqlock --dir FOLDER replace for each folder",
    "skipped": "it reads the index and no folder: type reqlock --index FILE skipped",
    "why": "with --explain before -- each folder without a solution is asked why",
    "help": "type reqlock help",
} | {name: f"it has no reply: type reqlock --dir FOLDER {name} for each folder" for name in ("show", "log", "diff", "outdated", "export")}
FLAGS = "--dry-run", "--keep-locked", "--if-needed", "--verbose", "-v", "--current"
OWN = "--index", "--env", "--json"
# The subcommands that lock for the environments that are given.
TARGETING = "init", "retarget"
# Those that a value stands behind.
VALUED = "--before", "--keep"
PINS = "--pins"
TELLING = frozenset(("-v", "--verbose"))


class Usage(Refusal):
    """Words that are no request."""


class Words(NamedTuple):
    """The words of the program: a subcommand, its flags, the texts behind it, and files of pins."""

    subcommand: str
    flags: list[str]
    texts: list[str]
    pins: list[str]

    def is_dry(self) -> bool:
        """Whether the call saves nothing."""
        return self.subcommand == "check" or "--dry-run" in self.flags

    def of_call(self) -> list[str]:
        """What is called in a folder. A call that saves tells on standard error what changed."""
        is_told = self.is_dry() or not TELLING.isdisjoint(self.flags)
        return self.with_flags([*self.flags, *([] if is_told else ["--verbose"])])

    def of_trial(self) -> list[str]:
        """The same where no more is told than whether it is a request."""
        return self.with_flags([flag for flag in self.flags if flag not in TELLING])

    def with_flags(self, flags: list[str]) -> list[str]:
        words = [self.subcommand, *flags, *self.of_pins()]
        return [*words, "--", *self.texts] if self.texts else words

    def of_pins(self) -> list[str]:
        return [f"--pins={pins}" for pins in self.pins]

    def of_why(self) -> list[str]:
        kept = [flag for flag in self.flags if flag == "--keep-locked"]
        return ["why", "--explain", *kept, *self.of_pins(), *WHY[self.subcommand], *self.texts]


class Task(NamedTuple):
    """A folder, by its place in the order and its name as it was given, with the calls that are made in it, and whether they begin
    its history."""

    place: int
    folder: str
    path: str
    command: list[str]
    why: list[str]
    begins: bool


def divided_pins(words: list[str]) -> tuple[list[str], list[str]]:
    """The words without options of pins, and the files of pins. Those behind `--` are texts."""
    others: list[str] = []
    files: list[str] = []
    end = words.index("--") if "--" in words else len(words)
    rest = iter(words[:end])
    for word in rest:
        option, sign, file = word.partition("=")
        if option != PINS:
            others.append(word)
            continue
        files.append(file if sign else next(rest, ""))
        if files[-1].rpartition("=")[2] in ("", "-"):
            raise Usage("--pins wants a file, which each folder is given; standard input can't be shared")
    return [*others, *words[end:]], files


def read_words(typed: list[str]) -> Words:
    flags: list[str] = []
    texts: list[str] = []
    words, pins = divided_pins(typed)
    for place, word in enumerate(words):
        if word == "--":
            texts += words[place + 1 :]
            break
        option = word.partition("=")[0]
        if option in OWN:
            raise Usage(f"{option} stands before --, with the folders")
        if option == "--dir":
            raise Usage("--dir isn't given to a fleet: the folders stand before --")
        is_value = place > 0 and words[place - 1] in VALUED
        (flags if is_value or (word.startswith("-") and word != "-") else texts).append(word)
    known = f"a fleet is asked {', '.join(WHY)}"
    if not texts:
        raise Usage(f"a subcommand is missing: it stands behind --; {known}")
    subcommand, *rest = texts
    if subcommand in OTHERS:
        raise Usage(f"{subcommand}: {OTHERS[subcommand]}; {known}")
    if subcommand not in WHY:
        near = "".join(f"; did you mean {name}?" for name in get_close_matches(subcommand, WHY, 1))
        raise Usage(f"{subcommand}: reqlock has no such subcommand{near}; {known}")
    return Words(subcommand, flags, rest, pins)


def is_below(path: str, folder: str) -> bool:
    """Whether a path is that of a folder or of what is below it. Both are whole."""
    return os.path.commonpath([path, folder]) == folder


def leads_out(folder: str, place: str) -> bool:
    """Whether a link in the path of a folder leads to a place out of the present folder, or out of its parent where it is elsewhere
    by its words."""
    path, here = os.path.abspath(folder), os.path.abspath("")
    base = here if is_below(path, here) else os.path.dirname(path)
    return not is_below(place, os.path.realpath(base))


def folders_of(given: list[str], say: Say) -> list[str]:
    """The folders in their order, each once."""
    by_place: dict[str, str] = {}
    for folder in given:
        if not folder:
            raise Usage("an empty text is no folder")
        place = os.path.realpath(folder)
        if by_place.setdefault(place, folder) is not folder:
            say(f"{folder}: this folder is named twice; it is asked once")
        elif leads_out(folder, place):
            say(f"{folder}: a link leads out to {place}, which is asked")
    return list(by_place.values())


@dataclass(frozen=True)
class Request:
    """What is done: these words, by this program, with this index and these environments."""

    words: Words
    program: str
    index: str | None
    environments: list[str]
    explains: bool

    def options(self, folder: str) -> list[str]:
        index = [f"--index={self.index}"] if self.index else []
        return [f"--dir={folder}", *index, *(f"--env={environment}" for environment in self.environments)]

    def files(self) -> list[str]:
        """The files that each call reads beside those of its folder."""
        named = [*self.environments, *self.words.pins]
        return [*([self.index] if self.index else []), *(file for _, file in map(divided, named))]

    def task(self, place: int, folder: str, path: str) -> Task:
        start = [self.program, *self.options(path)]
        why = [*start, *self.words.of_why()] if self.explains else []
        return Task(place, folder, path, [*start, *self.words.of_call()], why, self.words.subcommand == "init")


@dataclass(frozen=True)
class FleetOptions:
    """What is typed beside the subcommand: the folders, what each call is given, how many calls are made at once and where, and how they
    are told."""

    folders: list[str]
    index: str | None
    environments: list[str]
    program: str
    jobs: int | None
    dask: str | None
    explains: bool
    is_json: bool


def request_of(options: FleetOptions, words: list[str]) -> Request:
    """The request of the options. For workers all paths are whole."""
    index, environments, program = options.index or os.environ.get("REQLOCK_INDEX") or None, options.environments, options.program
    read = read_words(words)
    if options.dask:
        index = index and os.path.abspath(index)
        environments, read = [*map(whole, environments)], read._replace(pins=[*map(whole, read.pins)])
        program = os.path.abspath(program)
    elif os.path.exists(program):
        program = os.path.abspath(program)
    return Request(read, program, index, environments, options.explains)


def whole(named: str) -> str:
    """A value of --env or --pins with the whole path of its file."""
    name, file = divided(named)
    return f"{name}={os.path.abspath(file)}"


def divided(environment: str) -> tuple[str, str]:
    """The name and the file of a value of --env or --pins."""
    name, sign, file = environment.partition("=")
    return (name, file) if sign else ("", name)


def checked(told: Told, request: Request) -> Told:
    """A call that was made; where none could be made, the program is refused."""
    if told[0] == NO_PROGRAM or told[0] < 0:
        fault = told[2].strip() or f"{request.program}: signal {-told[0]} ended it"
        raise Refusal(f"{fault}; give the program by --program, or put reqlock on the PATH")
    return told


def check_request(request: Request) -> None:
    """The program reads the words, the index and the environments. It is asked in an empty folder, so no other is touched."""
    with tempfile.TemporaryDirectory() as folder:
        status, _, errors = checked(tell([request.program, *request.options(folder), *request.words.of_trial()]), request)
        if status == 2:
            raise Usage(errors.strip().removeprefix("error: ").removeprefix("reqlock: "))
        reads_environments = request.words.subcommand in TARGETING
        if reads_environments:
            with open(os.path.join(folder, "requirements.txt"), "wb"):
                pass
        if request.index:
            trial = ["init", "--dry-run", *request.words.of_pins()] if reads_environments else ["skipped"]
            status, _, errors = checked(tell([request.program, *request.options(folder), *trial]), request)
            if status == 2:
                raise Usage(errors.strip().removeprefix("reqlock: "))
            if status not in (0, 3):
                raise Refusal(input_fault(errors, request))


def input_fault(errors: str, request: Request) -> str:
    """What the program told of an input, with the name of the file."""
    what, _, word = errors.strip().removeprefix("reqlock: ").partition(": ")
    files = {f"environment {name}".strip(): file for name, file in map(divided, request.environments)}
    files |= {f"pins {name}".strip(): file for name, file in map(divided, request.words.pins)}
    path = request.index if what == "index" else files.get(what, what)
    maker = {"index": "reqlock-snapshot", "environment": "reqlock-environment"}.get(what.partition(" ")[0], "")
    return f"{path}: {word or what}" + (f"; {maker} makes such a file" if maker else "")
