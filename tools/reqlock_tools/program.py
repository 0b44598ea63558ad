"""Where the program reqlock is."""

import shutil
import sys
from pathlib import Path

from reqlock_tools.names import is_installed

# Where a checkout has the program.
BUILT = Path(__file__).resolve().parent.parent.parent / "crates" / "reqlock" / "out" / "reqlock"


def program_path(given: str | None = None) -> str:
    """The program that is given, or that of the PATH, or the one beside the command that runs, or the one that a checkout built."""
    beside = Path(sys.argv[0]).with_name("reqlock")
    own = beside if is_installed() and beside.is_file() else BUILT
    return given or shutil.which("reqlock") or str(own)
