"""`rql fleet FOLDER .. -- WORD ..`: a call of rql in each of many projects, each by its own settings, and a table of what came of it."""

import os
import re
import shlex
import subprocess
import sys
from collections.abc import Sequence
from concurrent.futures import ThreadPoolExecutor
from dataclasses import dataclass
from pathlib import Path

from reqlock_tools.refusal import shown, speaker
from reqlock_tools.rql.faults import FOUND, SettingsFault
from reqlock_tools.rql.fleet_table import folders_below
from reqlock_tools.rql.parser import BUILDERS, parsed
from reqlock_tools.rql.requests import Options

MOST_AT_ONCE = 8
LACKING = "refused not-present", "refused not-locked"
# What the program replies to an edit. With --dry-run what would change stands behind it.
REPLY = re.compile(r"ok [0-9]+|same|refused [a-z-]+")

say = speaker("rql")


@dataclass(frozen=True)
class Done:
    """What came of a call in a folder."""

    folder: str
    status: int
    output: str
    errors: str

    def reply(self) -> str:
        """The last reply of the program, or where there is none the last line of the answer, or what is wrong."""
        lines = (self.output if self.output.strip() else self.errors).strip().splitlines()
        replies = [line for line in lines if REPLY.fullmatch(line)]
        return (replies or lines or [f"status {self.status}"])[-1]

    def is_refused(self) -> bool:
        """Whether the call failed. A folder that lacks the line, or the locked name, is told so and counts as no refusal."""
        return self.status != 0 and self.reply() not in LACKING


def run_each(options: Options, words: Sequence[str]) -> int:
    """Makes the call in each folder. The status is 1 where one of them refused. Words that are no call of rql are refused once."""
    given, call = cut(words)
    parsed(call)
    folders = list(given) or [str(folder) for folder in folders_below(Path("."))]
    with ThreadPoolExecutor(min(MOST_AT_ONCE, os.cpu_count() or 1)) as pool:
        done = list(pool.map(lambda folder: called_in(options, folder, call), folders))
    print_done(done)
    return FOUND if any(answer.is_refused() for answer in done) else 0


def cut(words: Sequence[str]) -> tuple[list[str], list[str]]:
    """The folders, and the call behind them. Words without one are refused with what is meant."""
    place = words.index("--") if "--" in words else len(words)
    given, call = list(words[:place]), list(words[place + 1 :])
    option = next((word for word in given if word.startswith("-")), None)
    if option is not None:
        raise SettingsFault(f"fleet: {option}: options of rql stand in front of fleet, and those of reqlock-fleet are taken with --index FILE")
    if not call:
        word = next((number for number, word in enumerate(given) if word in BUILDERS), None)
        meant = ["services/*", "--", "upgrade", "urllib3"] if word is None else [*given[:word], "--", *given[word:]]
        typed = " ".join(text if text == "services/*" else shlex.quote(text) for text in ["rql", "fleet", *meant])
        raise SettingsFault(f"fleet: a call of rql is wanted behind --, in front of which folders may stand: {typed}")
    return given, call


def called_in(options: Options, folder: str, call: Sequence[str]) -> Done:
    """A call of rql in a folder, by a process of its own."""
    told = ["--offline"] * options.is_offline + ["--refresh"] * options.is_refreshed + ["-q"] * options.is_quiet + options.ways()
    program = ["--program", os.path.abspath(options.program)] if options.program else []
    command = [sys.executable, sys.argv[0], "-C", folder, *told, *program, *call]
    completed = subprocess.run(command, stdin=subprocess.DEVNULL, capture_output=True, encoding="utf-8", errors="replace", check=False)
    return Done(folder, completed.returncode, completed.stdout, completed.stderr)


def print_done(done: Sequence[Done]) -> None:
    """Prints a line for each folder, and behind the table what was told where a call failed."""
    width = max((len(shown(answer.folder)) for answer in done), default=0)
    for answer in done:
        print(f"{shown(answer.folder):<{width}}  {shown(answer.reply())}")
    failed = [answer for answer in done if answer.is_refused()]
    print(f"{len(done)} folder{'s' * (len(done) != 1)}, {len(failed)} refused")
    for answer in failed:
        for line in answer.errors.splitlines():
            say(f"{answer.folder}: {line}")
