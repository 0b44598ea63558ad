"""What is done in one folder of a fleet, here or at a worker. Workers are sent this module; it uses the standard library alone."""

import hashlib
import os
import subprocess
from collections.abc import Callable
from typing import Any

# The status, the standard output and the standard error of a call.
Told = tuple[int, str, str]
# The same, what the folder lacks, and what `why` told where it was asked.
Answer = tuple[int, str, str, str, Told | None]
Begun = Callable[["subprocess.Popen[bytes]"], None]

NO_PROGRAM = 127
NO_SOLUTION = "refused no-solution\n"
FAULTS = 4, 5


def tell(command: list[str], begun: Begun | None = None) -> Told:
    """Calls the program and waits for its end. It has a session of its own, so Ctrl-C on the terminal doesn't reach it."""
    try:
        process = subprocess.Popen(
            command, stdin=subprocess.DEVNULL, stdout=subprocess.PIPE, stderr=subprocess.PIPE, start_new_session=True
        )
    except OSError as error:
        return NO_PROGRAM, "", f"{command[0]}: {error.strerror}"
    if begun is not None:
        begun(process)
    output, errors = process.communicate()
    return process.returncode, output.decode(errors="backslashreplace"), errors.decode(errors="backslashreplace")


def what_lacks(folder: str) -> str:
    """What keeps a folder from being one of reqlock's; empty where all that it needs is there."""
    if not os.path.lexists(folder):
        return "folder"
    if not os.path.isdir(folder):
        return "no folder"
    for name in "requirements.txt", "reqlock.journal":
        if not os.path.exists(os.path.join(folder, name)):
            return name
    return ""


def ask(
    command: list[str], why: list[str], folder: str, begun: Begun | None = None, stops: Callable[[], bool] | None = None
) -> Answer:
    """Makes a call in a folder, and asks `why` where it has no solution. Where `why` is empty, nobody wants to know."""
    status, output, errors = tell(command, begun)
    lack = what_lacks(folder) if status in FAULTS else ""
    asks = bool(why) and output.startswith(NO_SOLUTION) and not (stops is not None and stops())
    return status, output, errors, lack, tell(why, begun) if asks else None


# At a worker of dask


def ask_at(worker: str, command: list[str], why: list[str], folder: str) -> Answer | None:
    """The same at one worker and at no other: where dask gives the call to another process, even at the same address, nothing is
    done and the answer is None. So no call is made twice that dask begins twice."""
    from distributed import get_worker

    return ask(command, why, folder) if get_worker().id == worker else None


def digest_of(path: str) -> str:
    try:
        with open(path, "rb") as file:
            return hashlib.file_digest(file, "sha256").hexdigest()
    except OSError as error:
        return str(error.strerror)


def look(program: str, files: list[str], folders: list[str], dask_worker: Any = None) -> tuple[str, Told, list[str], list[str]]:
    """What a worker sees: its own name, the program's version, the digests of files, and which folders aren't there."""
    absent = [folder for folder in folders if not os.path.isdir(folder)]
    return getattr(dask_worker, "id", ""), tell([program, "--version"]), [digest_of(path) for path in files], absent
