"""The words of rql: one parser, of which help, the manual page and the completions are made."""

import argparse
from collections.abc import Callable, Sequence
from typing import TYPE_CHECKING, Any

from reqlock_tools.number_words import number
from reqlock_tools.refusal import hidden
from reqlock_tools.rql.requests import (
    CheckRequest, EditRequest, EnvRequest, IndexRequest, InitRequest, LockRequest, Options, PassedRequest, Request, SyncRequest,
)
from reqlock_tools.rql.words import in_place_of_command, in_place_of_kind, in_place_of_options

DESCRIPTION = """Keep a project's requirements and its locks together: rql keeps the index fresh, and then calls the program reqlock,
which decides every version."""
# Behind the commands: what tells more, wherever rql is installed.
MORE = "rql COMMAND --help tells the words of one command, and man rql those of all."
EPILOG = """The status is that of the program; or 1 where a check found something; 2 where words or settings are no good; 6 where the index
or the network failed; 130 after Ctrl-C."""
# What is handed to the program with all words behind it, and what of it is told in help.
PASSED = {
    "undo": "go back to the state before the last edit", "redo": "go on to the state that an undo left",
    "forget": "take the first steps out of the history; the present state stays",
    "show": "print the lock as a table, with what asks for each entry", "tree": "print the lock below the lines that ask for it",
    "outdated": "print which locked releases have newer ones, and who holds them back",
    "why": "say why a line can't be locked", "log": "print the history, a line for each edit",
    "diff": "print what changed between two places of the history", "export": "print the lock in the form of another tool",
    "skipped": "print which releases of the index are left out, and why",
}
# What is handed to another tool.
TOOLS = {
    "fleet": "ask the same of many folders", "merge": "lock what git merged, and keep the pins of both sides",
    "check-refutation": "check a proof that nothing can be locked",
}
EDITS: dict[str, tuple[str, str, str, str]] = {
    "add": ("put lines behind the others: all or none", "TEXT", "+", "a line, as 'httpx>=0.27'"),
    "remove": ("take the lines of names out: all or none", "NAME", "+", "a name that has a line"),
    "set": ("put texts in the place of the lines of their names: all or none", "TEXT", "+", "a line, as 'flask[async]>=2'"),
    "upgrade": ("lock again without the locked versions of these names", "NAME", "*", "a locked name; without any, all of them"),
}
# The words behind `env`, and what stands for an option that isn't given.
KINDS = {
    "add": "lock for one environment more", "set": "lock for another Python, or another platform, in the place of one",
    "remove": "lock for one environment less", "list": "print the environments",
}
ENV_OPTIONS = {
    "add": ("else that of the first environment", "else the first whose name begins so"),
    "set": ("else it stays", "else it stays"),
}
# The options of each call, in front of the command or behind it.
FLAGS = {
    ("--offline",): "ask nobody: take all from the cache",
    ("--refresh",): "ask also for pages that are said to be fresh yet",
    ("-v", "--verbose"): "print each call of reqlock so that it can be typed",
    ("-q", "--quiet"): "tell nothing of what the index is asked; reqlock tells nothing beside its answer",
}
# Those that a value stands behind, as pip has them.
VALUES: dict[str, tuple[str, Callable[[str], Any], str]] = {
    "--timeout": ("SECONDS", number(float, 0.01), "longest wait for an answer of a server; 30, and of pip its own"),
    "--retries": ("N", number(int, 0), "how often a request is tried again; 5, and by pip as it has it"),
}
if TYPE_CHECKING:
    Subparsers = argparse._SubParsersAction[argparse.ArgumentParser]


def parser_of(only: str | None = None) -> argparse.ArgumentParser:
    """The parser of all words; or of one command alone, which begins sooner."""
    parser = argparse.ArgumentParser(prog="rql", description=DESCRIPTION, epilog=f"{MORE} {EPILOG}", allow_abbrev=False)
    add_options(parser)
    words = parser.add_subparsers(dest="word", metavar="COMMAND", required=True)
    for name in [only] if only in BUILDERS else BUILDERS:
        BUILDERS[name](words, name)
    return parser


def add_passed(words: "Subparsers", name: str) -> None:
    told = {**PASSED, **TOOLS}[name]
    whose = "the program" if name in PASSED else f"reqlock-{name}"
    words.add_parser(name, help=told, description=f"{told}; the words behind it are those of {whose}", add_help=False)


def own_parser(words: "Subparsers", name: str, told: str, description: str | None = None) -> argparse.ArgumentParser:
    """The parser of a command of rql's own. The options of each call may stand behind it too; its help doesn't repeat them."""
    parser = words.add_parser(name, help=told, description=description, allow_abbrev=False)
    for forms in FLAGS:
        parser.add_argument(*forms, action="store_true", default=argparse.SUPPRESS, help=argparse.SUPPRESS)
    for form, (metavar, kind, _) in VALUES.items():
        parser.add_argument(form, metavar=metavar, type=kind, default=argparse.SUPPRESS, help=argparse.SUPPRESS)
    return parser


def add_options(parser: argparse.ArgumentParser) -> None:
    parser.add_argument("-C", metavar="DIR", dest="start", default=".", help="look for the project's settings in DIR and above")
    for forms, told in FLAGS.items():
        parser.add_argument(*forms, action="store_true", help=told)
    for form, (metavar, kind, told) in VALUES.items():
        parser.add_argument(form, metavar=metavar, type=kind, help=told)
    parser.add_argument("--program", metavar="FILE", help="reqlock, where it isn't on the PATH")


def add_init(words: "Subparsers", name: str) -> None:
    parser = own_parser(words, name, "begin: settings, environments, index and lock")
    parser.add_argument("--index", metavar="URL", action="append", default=[], help="an index, in order; else pip's")
    parser.add_argument("--python", metavar="VERSION", help="the version of Python, as 3.11; this one where none is given")
    parser.add_argument("--platform", metavar="NAME", action="append", default=[], help="a platform, as linux-x86_64; this one else")
    parser.add_argument("--from", metavar="FILE", dest="pinned", action="append", default=[], help="a lock whose pins are kept")


def add_edit(words: "Subparsers", name: str) -> None:
    told, metavar, count, help_text = EDITS[name]
    parser = own_parser(words, name, told, told)
    parser.add_argument("texts", metavar=metavar, nargs=count, help=help_text)
    add_edit_options(parser)


def add_constrain(words: "Subparsers", name: str) -> None:
    parser = own_parser(words, name, "put other specifiers in the line of a name")
    parser.add_argument("name", metavar="NAME", help="a name that has a line")
    parser.add_argument("spec", metavar="SPEC", nargs="?", default="", help="the specifiers, as '>=2,<3'; without them, none")
    add_edit_options(parser)


def add_relock(words: "Subparsers", name: str) -> None:
    add_edit_options(own_parser(words, name, "lock again over a fresh index; versions stay where they can"))


def add_retarget(words: "Subparsers", name: str) -> None:
    add_retarget_options(own_parser(words, name, "lock for the environments as the settings have them, whoever changed these"))


def add_retarget_options(parser: argparse.ArgumentParser) -> None:
    told = "a lock, or lines, whose versions a new target begins with; or NAME=FILE"
    parser.add_argument("--pins", metavar="FILE", action="append", default=[], help=told)
    add_edit_options(parser)


def add_edit_options(parser: argparse.ArgumentParser) -> None:
    parser.add_argument("--keep-locked", action="store_true", help="move no locked version that is still needed")
    parser.add_argument("--dry-run", action="store_true", help="save nothing; print what would change")


def add_lock(words: "Subparsers", name: str) -> None:
    parser = own_parser(words, name, "have the lock fit the lines again, whoever changed them")
    parser.add_argument("--check", action="store_true", help="change nothing; the status is 1 where it would")


def add_sync(words: "Subparsers", name: str) -> None:
    parser = own_parser(words, name, "have a virtual environment hold exactly what is locked")
    parser.add_argument("--venv", metavar="DIR", help="the environment; else VIRTUAL_ENV, else .venv")
    parser.add_argument("--target", metavar="NAME", help="the target, where several fit")
    parser.add_argument("--keep", metavar="NAME", action="append", default=[], help="a package that stays though it isn't locked")
    parser.add_argument("--exact", action="store_true", help="take out folders and checkouts too")
    parser.add_argument("--dry-run", action="store_true", help="change nothing; print what would change")


def add_check(words: "Subparsers", name: str) -> None:
    parser = own_parser(words, name, "tell whether settings, lines and locks belong together")
    parser.add_argument("--current", action="store_true", help="tell also whether a relock over today's index changes something")
    parser.add_argument("--json", action="store_true", help="print JSON")


def add_index(words: "Subparsers", name: str) -> None:
    parser = own_parser(words, name, "make the index anew, with these names too")
    parser.add_argument("names", metavar="NAME", nargs="*", help="a package, or a requirement, to follow")


def add_env(words: "Subparsers", name: str) -> None:
    parser = own_parser(words, name, "add, set, remove or list the environments that are locked for")
    kinds = parser.add_subparsers(dest="kind", metavar="|".join(KINDS), required=True)
    for kind, told in KINDS.items():
        command = own_parser(kinds, kind, told)
        if kind == "list":
            continue
        if kind == "set":
            command.add_argument("name", metavar="NAME", nargs="?", help="the name of the target; left out where there is one alone")
        else:
            command.add_argument("name", metavar="NAME", help="the name of the target")
        if kind in ENV_OPTIONS:
            python, platform = ENV_OPTIONS[kind]
            command.add_argument("--python", metavar="VERSION", default="", help=f"the version of Python, as 3.11; {python}")
            command.add_argument("--platform", metavar="NAME", default="", help=f"the platform, as linux-x86_64; {platform}")
        add_retarget_options(command)


# What adds the parser of each command, in the order of help.
BUILDERS: dict[str, Callable[["Subparsers", str], None]] = {
    "init": add_init, **dict.fromkeys(EDITS, add_edit), "constrain": add_constrain, "relock": add_relock, "retarget": add_retarget, "lock": add_lock,
    "sync": add_sync, "check": add_check, "index": add_index, "env": add_env, **dict.fromkeys((*PASSED, *TOOLS), add_passed),
}


def parsed(arguments: Sequence[str]) -> tuple[Options, Request]:
    """The request that words spell. What stands behind the name of a call that is handed on is read by nobody here."""
    place, word = place_of_word(arguments), word_in(arguments)
    is_handed_on = word in PASSED or word in TOOLS
    # (help in front of a word is that of all words)
    asks_help = any(argument in ("-h", "--help") for argument in arguments[:place])
    parser = parser_of(None if asks_help else word)
    if word and word not in BUILDERS and not asks_help:
        parser.error(f"there is no command {hidden(word)!a}: {in_place_of_command(word, BUILDERS)}")
    kind = word_in(arguments[place + 1 :]) if word == "env" else ""
    if kind and kind not in KINDS and not asks_help:
        parser.error(f"there is no rql env {hidden(kind)!a}: {in_place_of_kind(kind, KINDS)}")
    told, rest = parser.parse_known_args(list(arguments[: place + 1] if is_handed_on else arguments))
    if rest:
        refuse_rest(parser, told.word, rest)
    options = Options(told.start, told.offline, told.refresh, told.verbose, told.quiet, told.program, told.timeout, told.retries)
    if is_handed_on:
        return options, PassedRequest(told.word, tuple(arguments[place + 1 :]))
    return options, READERS.get(told.word, edit_request)(told)


def refuse_rest(parser: argparse.ArgumentParser, word: str, rest: Sequence[str]) -> None:
    """Ends with the words that a command doesn't take, and with what does their work."""
    hint = in_place_of_options(word, rest)
    choices = next(action.choices for action in parser._actions if isinstance(action, argparse._SubParsersAction))
    # (what stands in front of a word that is handed on is rql's own)
    (parser if word in PASSED or word in TOOLS else choices[word]).error(f"it doesn't take {hidden(' '.join(rest))}" + (f": {hint}" if hint else ""))


def word_in(arguments: Sequence[str]) -> str:
    """The first word behind options; none where there is none."""
    return "".join(arguments[place_of_word(arguments) :][:1])


def place_of_word(arguments: Sequence[str]) -> int:
    """The place of the word that says which call it is, behind the options of each call."""
    place = 0
    while place < len(arguments) and arguments[place].startswith("-"):
        place += 2 if arguments[place] in ("-C", "--program", *VALUES) else 1
    return place


def edit_request(told: argparse.Namespace) -> Request:
    if told.word == "constrain":
        texts = (told.name, told.spec) if told.spec else (told.name,)
    else:
        texts = tuple(getattr(told, "texts", ()))
    return EditRequest(told.word, texts, told.keep_locked, told.dry_run)


def retarget_request(told: argparse.Namespace) -> EditRequest:
    return EditRequest("retarget", (), told.keep_locked, told.dry_run, tuple(told.pins))


def init_request(told: argparse.Namespace) -> Request:
    return InitRequest(tuple(told.index), told.python, tuple(told.platform), tuple(told.pinned))


def sync_request(told: argparse.Namespace) -> Request:
    return SyncRequest(told.venv, told.target, tuple(told.keep), told.exact, told.dry_run)


def env_request(told: argparse.Namespace) -> Request:
    python, platform = getattr(told, "python", ""), getattr(told, "platform", "")
    retarget = EditRequest("retarget", (), False, False) if told.kind == "list" else retarget_request(told)
    return EnvRequest(told.kind, getattr(told, "name", None), python, platform, retarget)


READERS: dict[str, Callable[[argparse.Namespace], Request]] = {
    "init": init_request, "sync": sync_request, "env": env_request, "retarget": retarget_request,
    "lock": lambda told: LockRequest(told.check),
    "check": lambda told: CheckRequest(told.current, told.json),
    "index": lambda told: IndexRequest(tuple(told.names)),
}
