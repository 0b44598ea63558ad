#!/usr/bin/env python3
"""Run a program again and again, each time with another growth of its memory refused, and show how it ends.

usage: tools/growths.py [--folder FOLDER] [--input FILE] [--mark TEXT] [--end TEXT] COMMAND..

In run N the Nth growth is refused (malloc, calloc, realloc to more), and no other, for
N = 1, 2, .. until a run meets none. Each run is in a fresh copy of FOLDER. What a run
shows is its status, its standard output and standard error, and the files that it
leaves; runs in turn that show the same are told together, and the last one is that
which meets none. The count begins where main does, or behind the write of the mark; at
the write of the end it stops, until the mark is written again.

It needs a C compiler (`cc`, or the one that CC names) and glibc: refuse_growth.c beside
it is preloaded. The status is 0; or 1 where a run doesn't end in time; or 2 where the
words are no request, or the C file can't be compiled or COMMAND not be run.
"""

import argparse
import itertools
import os
import select
import shlex
import shutil
import signal
import subprocess
import sys
import tempfile
from collections.abc import Iterable, Iterator, Sequence
from dataclasses import dataclass, field
from pathlib import Path
from typing import Any

SOURCE = Path(__file__).resolve().parent / "refuse_growth.c"
LIBRARY = "refuse_growth.so"


@dataclass(frozen=True)
class Request:
    """A program with its words, the paths of the folder and of the input, and between which writes growths are counted."""

    command: tuple[str, ...]
    folder: str | None
    input: str | None
    mark: str | None
    end: str | None


@dataclass
class Run:
    """How a run ended. `refused` is the call that was refused, as `malloc 64`, or None where none was; `growths` counts all, or
    is None where the program didn't end by exit; `files` has what the files of its folder hold, by their paths in it. The status
    is that of Python's subprocess, None where there is none."""

    number: int = field(compare=False)
    refused: str | None = field(compare=False)
    growths: int | None = field(compare=False)
    status: int | None
    output: bytes
    errors: bytes
    files: dict[str, bytes]


def compiler() -> list[str]:
    """The words that call the C compiler; none where there is none."""
    words = shlex.split(os.environ.get("CC", "cc"))
    return words if words and shutil.which(words[0]) else []


def compiled(folder: str | Path) -> Path:
    """Compiles the C file into a folder, and gives the path of the library."""
    library = Path(folder).resolve() / LIBRARY
    command = [*compiler(), "-shared", "-fPIC", "-O2", "-fno-builtin", "-o", str(library), str(SOURCE), "-ldl"]
    subprocess.run(command, check=True)
    return library


def files_in(folder: Path) -> dict[str, bytes]:
    """What files hold, by their paths in a folder."""
    contents = {}
    for place, _, names in os.walk(folder):
        for name in names:
            path = os.path.join(place, name)
            if os.path.isfile(path):
                with open(path, "rb") as file:
                    contents[os.path.relpath(path, folder)] = file.read()
    return contents


def run_once(
    command: Sequence[str | Path], library: Path, number: int, data: bytes = b"", mark: str | None = None, end: str | None = None,
    folder: str | Path | None = None, seconds: float = 60,
) -> Run:
    """Runs a command with one growth refused, in a copy of a folder."""
    variables = {**os.environ, "LD_PRELOAD": str(library), "REFUSE_GROWTH": str(number)}
    variables |= {} if mark is None else {"REFUSE_GROWTH_MARK": mark}
    variables |= {} if end is None else {"REFUSE_GROWTH_END": end}
    with tempfile.TemporaryDirectory() as scratch:
        place = Path(scratch) / "run"
        if folder is None:
            place.mkdir()
        else:
            shutil.copytree(folder, place, symlinks=True, copy_function=shutil.copy)
        status, output, errors, report = ended(command, data, variables, place, seconds)
        return Run(number, *read_report(report.decode()), status, output, errors, files_in(place))


def ended(
    command: Sequence[str | Path], data: bytes, variables: dict[str, str], place: Path, seconds: float
) -> tuple[int | None, bytes, bytes, bytes]:
    """The status of a call in a folder, None where it takes longer, and what it writes: its output, its errors and the report. All of it stands
    in memory, which takes half the time that pipes do."""
    here = os.open(".", os.O_RDONLY)
    numbers = [os.memfd_create(name) for name in ("input", "output", "errors", "report")]
    try:
        os.pwrite(numbers[0], data, 0)
        os.set_inheritable(numbers[3], True)
        moves = [(os.POSIX_SPAWN_DUP2, number, stream) for stream, number in enumerate(numbers[:3])]
        variables = {**variables, "REFUSE_GROWTH_REPORT": str(numbers[3])}
        os.chdir(place)
        try:
            child = os.posix_spawnp(command[0], tuple(command), variables, file_actions=moves, setsigdef=(signal.SIGPIPE, signal.SIGXFSZ))
        finally:
            os.fchdir(here)
        status = waited(child, seconds)
        output, errors, report = (os.pread(number, os.fstat(number).st_size, 0) for number in numbers[1:])
        return status, output, errors, report
    finally:
        for number in (here, *numbers):
            os.close(number)


def waited(child: int, seconds: float) -> int | None:
    """The status of a process, as Python's subprocess tells it; None where it doesn't end in time, and is ended."""
    watched = os.pidfd_open(child)
    has_ended = bool(select.select([watched], [], [], seconds)[0])
    os.close(watched)
    if not has_ended:
        os.kill(child, signal.SIGKILL)
    status = os.waitstatus_to_exitcode(os.waitpid(child, 0)[1])
    return status if has_ended else None


def read_report(text: str) -> tuple[str | None, int | None]:
    """The call that was refused and the count of all growths."""
    lines = text.splitlines()
    counts = [int(line.removeprefix("growths ")) for line in lines if line.startswith("growths ")]
    refused = [line for line in lines if not line.startswith("growths ")]
    return next(iter(refused), None), next(iter(counts), None)


def runs(command: Sequence[str | Path], library: Path, **others: Any) -> Iterator[Run]:
    """The runs with the first growth refused, the second, and so on. The last one is the first that meets none."""
    for number in itertools.count(1):
        run = run_once(command, library, number, **others)
        yield run
        if run.refused is None:
            return


def shown(run: Run) -> str:
    """A run's status, and the last line of what it wrote."""
    lines = [*run.output.splitlines(), *run.errors.splitlines()] or [b""]
    status = "no end in time" if run.status is None else f"status {run.status}"
    return f"{status}  {lines[-1].decode('utf-8', 'backslashreplace')}".rstrip()


def told(runs: list[Run]) -> str:
    """A line for runs in turn that show the same."""
    first, last = runs[0], runs[-1]
    if last.refused is None:
        return f"none refused: {shown(last)}"
    numbers = str(first.number) if first is last else f"{first.number}-{last.number}"
    return f"{numbers}: {shown(first)}"


def show(all_runs: Iterable[Run]) -> bool:
    """Prints the runs, those that show the same together, and tells whether each ended."""
    together: list[Run] = []
    has_ended = True
    for run in all_runs:
        has_ended = has_ended and run.status is not None
        if together and (run != together[0] or run.refused is None):
            print(told(together), flush=True)
            together = []
        together.append(run)
    print(told(together))
    print(f"{together[-1].number - 1} growths refused, one in each run")
    return has_ended


def request_of(arguments: list[str]) -> Request:
    """The request that words spell."""
    parser = argparse.ArgumentParser(
        prog="growths.py", description=__doc__, formatter_class=argparse.RawDescriptionHelpFormatter
    )
    parser.add_argument("--folder", metavar="FOLDER", help="the folder of which each run gets a copy to run in")
    parser.add_argument("--input", metavar="FILE", help="the file that each run reads as its standard input")
    parser.add_argument("--mark", metavar="TEXT", help="count the growths behind the write of TEXT alone")
    parser.add_argument("--end", metavar="TEXT", help="and none behind the write of TEXT, until the mark comes again")
    parser.add_argument("command", metavar="COMMAND", nargs=argparse.REMAINDER, help="the program and its words")
    options = parser.parse_args(arguments)
    words = options.command[options.command[:1] == ["--"] :]
    if not words:
        parser.error("it takes a command")
    command = os.path.abspath(shutil.which(words[0]) or words[0]), *words[1:]
    return Request(command, options.folder, options.input, options.mark, options.end)


def main(arguments: list[str]) -> int:
    request = request_of(arguments)
    if not compiler():
        print("growths.py: there is no C compiler", file=sys.stderr)
        return 2
    try:
        data = Path(request.input).read_bytes() if request.input else b""
        with tempfile.TemporaryDirectory() as folder:
            library = compiled(folder)
            all_runs = runs(request.command, library, data=data, mark=request.mark, end=request.end, folder=request.folder)
            return 0 if show(all_runs) else 1
    except (OSError, subprocess.CalledProcessError) as fault:
        print(f"growths.py: {fault}", file=sys.stderr)
        return 2


if __name__ == "__main__":
    sys.exit(main(sys.argv[1:]))
