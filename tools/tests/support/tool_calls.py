"""Calls of the tools in copies of this process, which has read Python and the libraries already: starting Python anew is most of the time
of a short call. Where the start itself is tested, or the end by a signal, a test begins a process of its own."""

import importlib
import io
import os
import pkgutil
import resource
import signal
import subprocess
import sys
import tempfile
import traceback
from collections.abc import Callable, Iterable, Mapping
from functools import cache
from pathlib import Path
from typing import IO, NamedTuple, NoReturn

from support.places import TOOLS

import reqlock_tools
from reqlock_tools import commands
from reqlock_tools.libraries import library

# A call that takes longer is ended by a signal.
SECONDS = 600
# How deep the calls of a new process go.
DEEPEST = 1000
# What some tools read late.
LIBRARIES = (
    "packaging.markers", "packaging.requirements", "packaging.specifiers", "packaging.tags", "packaging.version", "platformdirs", "rich.table",
    "rich.console", "tomlkit", "urllib3", "urllib3.exceptions",
)
# (it is run by older Pythons too, by itself)
ALONE = "reqlock_tools.environment", "reqlock_tools.fleet_dask"


class Limits(NamedTuple):
    """How long a call may take, and how much memory more than there is at its start."""

    seconds: int = SECONDS
    memory: int | None = None


@cache
def read_all() -> None:
    """Reads the modules of the tools, and the libraries that they use."""
    for name in LIBRARIES:
        library(name)
    for module in pkgutil.walk_packages(reqlock_tools.__path__, "reqlock_tools."):
        if module.name not in ALONE:
            importlib.import_module(module.name)


def called(
    module: str, words: Iterable[object], cwd: Path | None = None, env: Mapping[str, str] | None = None, text: str = "", name: str = "",
    limits: Limits = Limits(),
) -> "subprocess.CompletedProcess[str]":
    """What a call of the script tools/MODULE.py would end with: its status, and what it writes. `text` is its input, and `name` another one by
    which it is called."""
    tool = "hashes" if module == "hashed_requirements" else module
    return copied([name or str(TOOLS / f"{module}.py"), *map(str, words)], lambda: getattr(commands, tool)(), cwd, env, text, limits)


def copied(
    command: list[str], work: Callable[[], int], cwd: Path | None = None, env: Mapping[str, str] | None = None, text: str = "",
    limits: Limits = Limits(), terminal: int | None = None,
) -> "subprocess.CompletedProcess[str]":
    """What comes of work that a copy of this process does, as if it was called by a command. Where a terminal is given, that is its standard
    error."""
    read_all()
    with tempfile.TemporaryFile() as given, tempfile.TemporaryFile() as output, tempfile.TemporaryFile() as errors:
        given.write(text.encode(errors="surrogateescape"))
        given.seek(0)
        child = os.fork()
        if child == 0:
            streams = given.fileno(), output.fileno(), errors.fileno() if terminal is None else terminal
            run(command, work, lambda: begin(cwd, env, streams, limits))
        _, status = os.waitpid(child, 0)
        return subprocess.CompletedProcess(command, os.waitstatus_to_exitcode(status), whole(output), whole(errors))


def whole(stream: IO[bytes]) -> str:
    """All that was written, as `subprocess` tells it."""
    stream.seek(0)
    with io.TextIOWrapper(stream, encoding="utf-8", errors="surrogateescape") as text:
        return text.read()


def begin(cwd: Path | None, env: Mapping[str, str] | None, streams: tuple[int, ...], limits: Limits) -> None:
    """Gives this process, a copy, the folder, the variables, the streams and the bounds of a new one."""
    signal.alarm(limits.seconds)
    if limits.memory is not None:
        most = limits.memory + resource.getpagesize() * int(Path("/proc/self/statm").read_text(encoding="ascii").split()[0])
        resource.setrlimit(resource.RLIMIT_AS, (most, most))
    sys.setrecursionlimit(DEEPEST + sum(1 for _ in traceback.walk_stack(None)))
    signal.signal(signal.SIGINT, signal.default_int_handler)
    for number, stream in enumerate(streams):
        os.dup2(stream, number)
    if cwd is not None:
        os.chdir(cwd)
    if env is not None:
        os.environ.clear()
        os.environ.update(env)
    sys.dont_write_bytecode = True
    sys.stdin = open(0, encoding="utf-8", errors="surrogateescape", closefd=False)
    sys.stdout = open(1, "w", encoding="utf-8", errors="surrogateescape", closefd=False)
    sys.stderr = open(2, "w", encoding="utf-8", errors="backslashreplace", buffering=1, closefd=False)


def run(words: list[str], work: Callable[[], int], begins: Callable[[], None]) -> NoReturn:
    """Makes this process, a copy, the call of a tool. It ends here, whatever comes."""
    status = commands.FAILED
    try:
        begins()
        sys.argv = words
        status = work()
    except SystemExit as end:
        status = end.code if isinstance(end.code, int) else 0 if end.code is None else commands.FAILED
        if isinstance(end.code, str):
            print(end.code, file=sys.stderr)
    except BaseException:
        traceback.print_exc()
    finally:
        try:
            sys.stdout.flush()
            sys.stderr.flush()
        finally:
            os._exit(status)
