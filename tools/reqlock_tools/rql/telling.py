"""What rql tells on standard error beside an answer, and where it doesn't."""

import contextlib
import io
import os
import sys
from collections.abc import Iterator

from reqlock_tools.rql.requests import Options


def is_told(options: Options) -> bool:
    """Whether it is told what is asked of the network."""
    return not options.is_quiet and (options.is_verbose or sys.stderr.isatty() or "CI" in os.environ)


@contextlib.contextmanager
def telling(is_wanted: bool) -> Iterator[None]:
    """Has lines that are told within this process pass over standard error, or not. Refusals are raised, and so they pass."""
    if is_wanted:
        yield
    else:
        with contextlib.redirect_stderr(io.StringIO()):
            yield
