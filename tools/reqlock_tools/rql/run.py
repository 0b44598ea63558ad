"""From the words of a call to its status."""

import importlib

from reqlock_tools.refusal import Refusal, fault_text, speaker
from reqlock_tools.rql.faults import STOPPED, status_of
from reqlock_tools.rql.parser import TOOLS, parsed
from reqlock_tools.rql.requests import (
    CheckRequest, EditRequest, EnvRequest, IndexRequest, InitRequest, LockRequest, Options, PassedRequest, Request, SyncRequest,
)

# The module and the function that do what a request asks for in a project. They are imported with the call, so that others begin at
# once.
WORK: dict[type[Request], tuple[str, str]] = {
    EditRequest: ("edits", "run_edit"), LockRequest: ("locking", "run_lock"), SyncRequest: ("sync", "run_sync"),
    CheckRequest: ("checking", "run_check"), IndexRequest: ("index", "run_index"), EnvRequest: ("targets", "run_env"),
    PassedRequest: ("passed", "run_passed"),
}

say = speaker("rql")


def main(words: list[str]) -> int:
    options, request = parsed(words)
    try:
        return work(options, request)
    except (Refusal, OSError) as fault:
        if isinstance(fault, OSError) and fault.filename is None:
            raise
        for line in fault_text(fault).split("\n"):
            say(line)
        return status_of(fault)
    except KeyboardInterrupt:
        say("stopped")
        return STOPPED


def work(options: Options, request: Request) -> int:
    """The status of what a request asks for."""
    if isinstance(request, InitRequest):
        return called("init", "run_init", options, request)
    if isinstance(request, PassedRequest) and request.word in TOOLS:
        return called("passed", "run_tool", options, request)
    from reqlock_tools.rql.project import find_project

    return called(*WORK[type(request)], find_project(options), request)


def called(module: str, function: str, *arguments: object) -> int:
    status: int = getattr(importlib.import_module(f"reqlock_tools.rql.{module}"), function)(*arguments)
    return status
