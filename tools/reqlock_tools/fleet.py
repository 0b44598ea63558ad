"""Ask the same of many folders of reqlock, a few at a time.

  fleet.py --index index.json services/* -- constrain urllib3 '>=2' --dry-run

Behind -- stand the words of one subcommand: init, add, remove, constrain, upgrade, relock,
retarget, undo, redo, forget or check. It is called in each folder. A table tells each folder's reply and
what changed, or with --dry-run what would change; then come the counts. With --explain each
folder without a solution is asked why, and those with the same reason are told together.

A folder that lacks the line, or the locked name, is told so and counts as no refusal. With
Ctrl-C no new call begins; those that run are let end, and the table tells what is done.

With --dask the workers of a scheduler of dask make the calls. They need the folders, the
index and the program under the paths that they have here: docs/FLEET.md tells how.

The status is 0; or 1 where a folder refused (or is stale); or 4 where one is broken or
wasn't reached, or where the program, the index or the scheduler is no good, and then no
folder is touched; or 2 where the words are no request; or 130 after Ctrl-C.
"""

import argparse
import contextlib
import os
import sys
from collections.abc import Callable

from reqlock_tools.fleet_dask import Dask
from reqlock_tools.fleet_output import report_json, report_text
from reqlock_tools.fleet_request import FleetOptions, Request, Task, Usage, check_request, folders_of, request_of
from reqlock_tools.fleet_row import BROKEN, REFUSED, WAITING, Row
from reqlock_tools.fleet_run import Here, Rows, Run, Stop
from reqlock_tools.names import called, tool
from reqlock_tools.program import program_path
from reqlock_tools.progress import Progress
from reqlock_tools.refusal import Refusal, fault_text, shown, speaker

SOME, FAULT, OF_A_SIGNAL = 1, 4, 128

say = speaker("fleet")


def processors() -> int:
    return len(os.sched_getaffinity(0)) if hasattr(os, "sched_getaffinity") else os.cpu_count() or 1


def number(text: str) -> int:
    if not text.isascii() or not text.isdigit() or int(text) < 1:
        raise argparse.ArgumentTypeError("a number from 1 is wanted")
    return int(text)


def parser_of() -> argparse.ArgumentParser:
    parser = argparse.ArgumentParser(
        prog=tool("fleet"), usage=f"{tool('fleet')} [OPTIONS] FOLDER [FOLDER ..] -- SUBCOMMAND [WORD ..]",
        description=called(__doc__ or ""), formatter_class=argparse.RawDescriptionHelpFormatter, allow_abbrev=False,
    )
    parser.add_argument("folders", metavar="FOLDER", nargs="+", help="a folder with a requirements file and its history")
    parser.add_argument("--index", metavar="FILE", help="the snapshot of the index; else the value of REQLOCK_INDEX")
    parser.add_argument("--env", metavar="[NAME=]FILE", action="append", default=[], help="an environment, for init and retarget")
    parser.add_argument("--jobs", metavar="N", type=number, help="calls at once; else one for each processor, or thread of a worker")
    parser.add_argument("--explain", action="store_true", help="ask why of each folder without a solution")
    parser.add_argument("--json", action="store_true", help="print JSON, as docs/JSON.md tells it")
    parser.add_argument("--dask", metavar="ADDRESS", help="have the workers of this scheduler make the calls")
    parser.add_argument("--program", metavar="FILE", help="reqlock, where it isn't on the PATH")
    return parser


def shower(progress: Progress, count: int) -> Callable[[Rows], None]:
    """What shows on the terminal how many folders are done."""

    def show(rows: Rows) -> None:
        if progress.is_due():
            kinds = [row.kind for row in rows.values()]
            told = f"{len(kinds)} of {count} folders, {kinds.count(REFUSED)} refused, {kinds.count(BROKEN)} broken"
            progress.show(told, len(kinds), count)

    return show


def rows_of(tasks: list[Task], request: Request, options: FleetOptions, stop: Stop) -> list[Row]:
    """Makes the calls, here or at workers."""
    progress = Progress()
    show = shower(progress, len(tasks))

    def say_alone(text: str) -> None:
        progress.clear()
        say(text)

    try:
        if not options.dask:
            here = Here(options.jobs or processors(), request.words.is_dry(), stop)
            return Run(tasks, here, stop, say_alone, show).rows_in_order()
        there = [task.path for task in tasks if os.path.isdir(task.path)]
        with contextlib.closing(Dask(options.dask, request, there, options.jobs, say_alone, stop)) as dask:
            return Run(tasks, dask, stop, say_alone, show).rows_in_order()
    finally:
        progress.clear()


def write(text: str) -> None:
    """Prints a text. Who closes the output early has seen enough."""
    try:
        sys.stdout.write(text)
        sys.stdout.flush()
    except BrokenPipeError:
        os.dup2(os.open(os.devnull, os.O_WRONLY), sys.stdout.fileno())


def status_of(rows: list[Row], stop: Stop) -> int:
    kinds = {row.kind for row in rows}
    if stop.is_wanted():
        return OF_A_SIGNAL + stop.number
    return FAULT if kinds & {BROKEN, WAITING} else SOME if REFUSED in kinds else 0


def run(options: FleetOptions, words: list[str]) -> int:
    request = request_of(options, words)
    folders = folders_of(options.folders, say)
    with Stop() as stop:
        check_request(request)
        paths = [os.path.abspath(folder) if options.dask else folder for folder in folders]
        tasks = [request.task(place, folder, path) for place, (folder, path) in enumerate(zip(folders, paths))]
        rows = rows_of(tasks, request, options, stop)
        write((report_json if options.is_json else report_text)(rows))
    return status_of(rows, stop)


def main(words: list[str]) -> int:
    parser = parser_of()
    place = words.index("--") if "--" in words else len(words)
    told = parser.parse_intermixed_args(words[:place])
    options = FleetOptions(
        folders=told.folders, index=told.index, environments=told.env, program=program_path(told.program), jobs=told.jobs, dask=told.dask,
        explains=told.explain, is_json=told.json,
    )
    try:
        return run(options, words[place + 1 :])
    except Usage as fault:
        parser.error("\n".join(map(shown, str(fault).split("\n"))))
    except (Refusal, OSError) as fault:
        for line in fault_text(fault).split("\n"):
            say(line)
        return FAULT
