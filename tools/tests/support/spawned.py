"""Calls of programs that end by themselves. What they read and write is in memory, where subprocess has pipes, which it waits for: a short call
takes half as long so."""

import os
import signal
import subprocess
from collections.abc import Sequence
from typing import Any

# Signals that Python ignores, and a program that it begins doesn't.
HEEDED = signal.SIGPIPE, signal.SIGXFSZ


def ended(words: Sequence[Any], given: bytes = b"", is_joined: bool = False) -> "subprocess.CompletedProcess[bytes]":
    """What a call of a program, by its whole path, ends with: its status, and what it writes, in one where that is joined. `given` is its input."""
    numbers = [os.memfd_create(name) for name in ("input", "output", "errors")]
    try:
        os.pwrite(numbers[0], given, 0)
        streams = (numbers[0], numbers[1], numbers[1] if is_joined else numbers[2])
        moves = [(os.POSIX_SPAWN_DUP2, number, stream) for stream, number in enumerate(streams)]
        child = os.posix_spawn(words[0], words, os.environ, file_actions=moves, setsigdef=HEEDED)
        _, status = os.waitpid(child, 0)
        output, errors = (os.pread(number, os.fstat(number).st_size, 0) for number in numbers[1:])
        return subprocess.CompletedProcess(list(words), os.waitstatus_to_exitcode(status), output, errors)
    finally:
        for number in numbers:
            os.close(number)


def text_of(data: bytes) -> str:
    """What was written, as `subprocess` has texts."""
    return data.decode().replace("\r\n", "\n").replace("\r", "\n")
