"""Begin a history of reqlock from the two files of pip-tools, with the pins that they have: what
`rql init --from COMPILED` does, with an index and an environment that are given as files.

SOURCE is what pip-tools calls requirements.in, COMPILED the requirements.txt that it made of it,
with hashes or without. DIR (. where it isn't given) then has reqlock's three files: a
requirements.txt that is SOURCE to the byte, the lock with the pins of COMPILED, and the history.
Each pin that the index has is kept where the lines and the other pins admit it.

What can't be taken over is named on standard error: options, lines that pin nothing, pins that
the index hasn't, whose files are others, that don't go with the rest, or that nothing needs.
The status is 0 where all pins are taken over; 3 where some aren't; 1 where nothing is begun,
and DIR stays as it was; 2 where the words are no request.
"""

import argparse
import contextlib
import os
import shlex
import shutil
from dataclasses import dataclass
from pathlib import Path

from reqlock_tools.names import called, tool
from reqlock_tools.refusal import Refusal, fault_text, speaker
from reqlock_tools.rql.compiled import read_text
from reqlock_tools.rql.draft import Draft
from reqlock_tools.rql.init import Beginning
from reqlock_tools.rql.kept import NAME
from reqlock_tools.rql.project import project_of
from reqlock_tools.rql.requests import Options
from reqlock_tools.rql.settings import OWN_FILE, settings_of

FILES = "requirements.txt", "pylock.toml", "reqlock.journal"
DONE, FAILED, SOME = 0, 1, 3

say = speaker("adopt")


@dataclass(frozen=True)
class AdoptRequest:
    """The files of pip-tools that are taken over, what they are locked with, and the folder of the new history."""

    source: str
    compiled: str
    index: str
    env: str
    dir: str
    program: str | None


def is_same(path: Path, source: str) -> bool:
    """Whether a file stands there that is the source to the byte."""
    return path.is_file() and path.read_bytes() == source.encode()


def check_place(folder: str, source: str) -> None:
    for name in FILES:
        path = Path(folder) / name
        if os.path.lexists(path) and not (name == FILES[0] and is_same(path, source)):
            next_step = f"rename it first ({shlex.join(['git', 'mv', str(path), 'compiled.txt'])}), or give" if name == FILES[0] else "give"
            raise Refusal(f"{path}: it stands there already and would be lost: {next_step} a new folder by --dir")


def run(asked: AdoptRequest) -> int:
    source = read_text(asked.source)
    check_place(asked.dir, source)
    base = Path(os.path.realpath(asked.dir))
    is_new = not base.exists()
    base.mkdir(parents=True, exist_ok=True)
    try:
        status = begun(asked, base, source)
    finally:
        if is_new:
            with contextlib.suppress(OSError):
                base.rmdir()  # (which is empty where nothing was begun)
    return status


def begun(asked: AdoptRequest, base: Path, source: str) -> int:
    """The status of beginning a history in a folder."""
    options = Options(asked.dir, is_offline=True, is_refreshed=False, is_verbose=False, is_quiet=False, program=asked.program)
    draft = Draft(".", (), None, (Path(asked.compiled),), source.encode(), Path(asked.index), Path(asked.env))
    beginning = Beginning(project_of(settings_of({}, base / OWN_FILE, OWN_FILE), options), draft, None, is_from=True)
    has_kept = os.path.lexists(base / NAME)
    status = beginning.run()
    if not has_kept:
        shutil.rmtree(base / NAME, ignore_errors=True)
    if status != 0:
        say(f"{asked.source}: nothing is begun; what is told of requirements.txt is of this file")
        return FAILED
    return DONE if beginning.is_taken else SOME


def parser_of() -> argparse.ArgumentParser:
    parser = argparse.ArgumentParser(
        prog=tool("adopt"), description=called(__doc__ or ""), formatter_class=argparse.RawDescriptionHelpFormatter
    )
    parser.add_argument("source", metavar="SOURCE", help="the requirements.in")
    parser.add_argument("compiled", metavar="COMPILED", help="the requirements.txt that was compiled of it")
    parser.add_argument("--index", metavar="FILE", required=True, help="the snapshot of the index")
    parser.add_argument("--env", metavar="FILE", required=True, help=called("the environment, as tools/environment.py prints it"))
    parser.add_argument("--dir", metavar="DIR", default=".", help="the folder of the new history")
    parser.add_argument("--program", metavar="FILE", help="reqlock, where it isn't on the PATH")
    return parser


def main(words: list[str]) -> int:
    told = parser_of().parse_args(words)
    try:
        return run(AdoptRequest(told.source, told.compiled, told.index, told.env, told.dir, told.program))
    except (Refusal, OSError) as refusal:
        for line in fault_text(refusal).split("\n"):
            say(line)
        return FAILED
