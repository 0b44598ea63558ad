"""The commands that an installed wheel has, and what the scripts of a checkout run. Each is a module's `main`."""

import gc
import importlib
import os
import sys
from functools import partial

from reqlock_tools.names import tool

FAILED, UNWRITTEN, STOPPED = 1, 5, 130
# What the tools are written for. This module and `names` are read by older ones too, from 3.6 on, so that they can tell it.
OLDEST = 3, 11
# How many new objects there are before Python looks for garbage. A call has much that stays, as an index, and little else.
OBJECTS = 50_000


def call(module: str) -> int:
    """The status of a tool. An output that nobody reads any more ends it without a word, one that can't be written is told, and so is
    Ctrl-C. Where an answer couldn't be written rql has the program's status."""
    gc.set_threshold(OBJECTS)
    unwritten = UNWRITTEN if module == "rql" else FAILED
    if sys.version_info < OLDEST:
        print(f"{tool(module)}: Python {OLDEST[0]}.{OLDEST[1]} or later is needed, and this is {sys.version.split()[0]}", file=sys.stderr)
        return FAILED
    if sys.stderr is None:
        sys.stderr = open(os.devnull, "w")  # (which is closed: nothing is told)
    if sys.stdout is None:
        say(module, "standard output: it is closed")
        return unwritten
    try:
        return answered(module)
    except BrokenPipeError:
        forget_output()
        return unwritten
    except OSError as fault:
        if fault.filename is not None:
            raise
        forget_output()
        say(module, f"standard output: {fault.strerror}")
        return unwritten
    except KeyboardInterrupt:
        forget_output()
        say(module, "stopped")
        return STOPPED


def answered(module: str) -> int:
    """The status of a tool whose answer is written. Help is an answer too, behind which nothing comes."""
    importlib.import_module("reqlock_tools.moved").tell_moved(module)
    try:
        status: int = importlib.import_module(f"reqlock_tools.{module}").main(sys.argv[1:])
    except SystemExit:
        sys.stdout.flush()
        raise
    sys.stdout.flush()
    return status


def say(module: str, text: str) -> None:
    """Tells a text of a tool on standard error."""
    importlib.import_module("reqlock_tools.refusal").speaker(module)(text)


def forget_output() -> None:
    """Has python3 end without another try to write what is left."""
    os.dup2(os.open(os.devnull, os.O_WRONLY), sys.stdout.fileno())


adopt = partial(call, "adopt")
check_refutation = partial(call, "check_refutation")
environment = partial(call, "environment")
fleet = partial(call, "fleet")
hashes = partial(call, "hashed_requirements")
merge = partial(call, "merge")
rql = partial(call, "rql")
snapshot = partial(call, "snapshot")
