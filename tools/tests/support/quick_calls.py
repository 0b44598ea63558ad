"""Calls of the program whose answers the rules give, in sessions over copies of the examples: those that the pages show, and others. Each
subcommand and each status is among them."""

import re
import shlex
from typing import NamedTuple

from support.made.environments import LINUX
from support.places import TOP
from support.shown import typed_blocks

PAGES = "README.md", "docs/SESSIONS.md", "docs/QUESTIONS.md", "docs/ANSWERS.md"


class Call(NamedTuple):
    """The words of a call and its standard input, and what is wanted: the status, which no page shows, and the lines that it prints."""

    words: list[str]
    text: str
    status: int | None
    lines: list[str]


class Session(NamedTuple):
    """A folder below examples/, the calls that are made in a copy of it, one after the other, and a folder that stands there already."""

    example: str
    calls: list[Call]
    blocked: str | None = None


# A command that needs no other program: reqlock's own, with a text as its standard input.
TYPED = re.compile(r"(?:printf '([^']*)' \| )?(reqlock (?:'[^']*'|[^'|<>$])*)")
# The folder of an example, or of a copy of it.
FOLDER = re.compile(r"cd examples/(\w+)|cp -r examples/(\w+) (\S+) && cd \3")


def session_of(block: list[tuple[str, list[str]]]) -> Session | None:
    """The session of a block, where nothing but the program is typed behind a `cd`."""
    (first, _), *others = block
    place = FOLDER.fullmatch(first)
    calls = []
    for command, lines in others:
        match = TYPED.fullmatch(command)
        if match is None:
            return None
        text = (match[1] or "").replace("\\n", "\n")
        calls.append(Call(shlex.split(match[2])[1:], text, None, lines))
    return Session(place[1] or place[2], calls) if place else None


def shown_sessions() -> list[Session]:
    """The sessions that the pages show."""
    blocks = [block for page in PAGES for block in typed_blocks((TOP / page).read_text(encoding="utf-8"))]
    return [session for session in map(session_of, blocks) if session is not None]


def call(words: str, status: int, *lines: str, text: str = "") -> Call:
    return Call(shlex.split(words), text, status, list(lines))


def exported_lines() -> list[str]:
    """What `export` prints of the lock of flask: for what it is, and each release with its hash."""
    lines = ["# for " + " and ".join(f'{name} == "{value}"' for name, value in sorted(LINUX.items()))]
    for release, ask in ("flask==2.3.3", []), ("jinja2==3.1.4", ["flask"]), ("werkzeug==3.0.4", ["flask"]):
        lines += [f"{release} \\", f"    --hash=sha256:{64 * '0'}", *(f"    # via {name}" for name in ask)]
    return lines


INIT = call("--index index.json --env environment.json init", 0, "ok 0")

HISTORY = Session("web", [
    call("check", 4, "reqlock: reqlock.journal: unreadable"),
    call("init", 2, "reqlock: --index is needed"),
    call("--index index.json init", 2, "reqlock: --env is needed"),
    call("--index none.json --env environment.json init", 4, "reqlock: index: unreadable"),
    INIT,
    call("--index index.json relock", 0, "same"),
    call("undo", 1, "refused nothing-to-undo"),
    call("--index index.json remove requests", 0, "ok 1"),
    call("redo", 1, "refused nothing-to-redo"),
    call("undo", 0, "ok 0"),
    call("redo", 0, "ok 1"),
    call("check", 0, "ok 1"),
    call("--index index.json check --current", 0, "current"),
    call("--index index.json skipped", 0),
    call("--index index.json constrain flask >=2,<3", 0, "ok 2"),
    call("export", 0, *exported_lines()),
    call("--index index.json upgrade nothing", 1, "refused not-locked"),
    call("--index index.json upgrade", 0, "same"),
    call("--index index.json add flask>=", 1, "refused bad-text"),
    call("--index index.json add Flask", 1, "refused already-present"),
    call("--index index.json add werkzeug<2", 3, "refused no-solution"),
    call("--index index.json batch", 0, "ok 3", "refused bad-command", text="remove colorama\nnonsense\n"),
    call("diff", 0, '- 3: colorama ; sys_platform == "win32"'),
    call("--index index.json replace -", 0, "ok 4", text="flask\nflask\n"),
    call("--index index.json remove flask", 1, "refused ambiguous"),
    call("log", 0, "  0 init", "  1 remove requests", "  2 constrain flask >=2,<3", "  3 remove colorama", "* 4 replace: 2 lines"),
    call("--index index.json --env environment.json retarget", 0, "same"),
    call("--index index.json --env windows=windows.json retarget", 0, "ok 5"),
    call("undo", 0, "ok 4"),
])

# (a folder under the name that the lock is written to)
UNWRITTEN = Session("web", [
    call("--index index.json --env environment.json init", 5, "reqlock: pylock.toml: write failed"),
], blocked="pylock.toml.new")

SESSIONS = [HISTORY, UNWRITTEN]
