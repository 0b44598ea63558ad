"""A terminal on which commands are typed, and what it shows of them."""

import fcntl
import os
import pty
import re
import struct
import subprocess
import sys
import termios
from collections.abc import Iterable, Mapping
from dataclasses import dataclass
from pathlib import Path

TOOLS = Path(__file__).resolve().parent.parent
TOP = TOOLS.parent
sys.path.append(str(TOOLS / "tests"))

from support.terminals import read_all  # (it stands in tools/tests)

PROGRAM = TOP / "crates" / "reqlock" / "out" / "reqlock"
WEB = TOP / "examples" / "web"
COLUMNS, ROWS = 96, 50
SECONDS = 600
# What a terminal does with the line it is at: it goes to its begin, clears it, or shows and hides a cursor.
REWRITTEN = re.compile(r"[^\n]*\r(?!\n)|\x1b\[[0-9]*[KAJG]|\x1b\[\?[0-9]+[hl]")
# A command as a wheel has it.
CALL = """#!{}
import sys
sys.path.insert(0, {!r})
from reqlock_tools.commands import {} as call
sys.exit(call())
"""


@dataclass(frozen=True)
class Typed:
    """A command that is typed; one that isn't shown prepares the next ones."""

    command: str
    is_shown: bool = True


class Failed(Exception):
    """A command that prepares others ended with a status that isn't 0, which stands behind what it wrote."""


class Terminal:
    """A terminal in a folder, for a person whose home is beside it and who has the commands of reqlock on the PATH."""

    def __init__(self, outside: Path, folder: Path, more: Mapping[str, str]) -> None:
        self.folder = folder
        home, commands = outside / "home", outside / "bin"
        self.variables = {
            "PATH": f"{commands}:{PROGRAM.parent}:{os.environ['PATH']}", "HOME": str(home), "XDG_CACHE_HOME": str(home / "cache"),
            "LC_ALL": "C.UTF-8", "TERM": "xterm-256color", "COLUMNS": str(COLUMNS), "PYTHONDONTWRITEBYTECODE": "1", **more,
        }
        # (which word of rql does the same was told already)
        told = home / "cache" / "reqlock" / "told"
        told.mkdir(parents=True)
        commands.mkdir()
        for name, function in ("rql", "rql"), ("reqlock-merge", "merge"):
            (told / name).touch()
            (commands / name).write_text(CALL.format(sys.executable, str(TOOLS), function), encoding="utf-8")
            (commands / name).chmod(0o755)

    def shown(self, command: str) -> str:
        """What the terminal shows of a command of the shell."""
        ours, theirs = pty.openpty()
        fcntl.ioctl(theirs, termios.TIOCSWINSZ, struct.pack("HHHH", ROWS, COLUMNS, 0, 0))
        call = subprocess.Popen(
            ["bash", "-c", command], cwd=self.folder, stdin=subprocess.DEVNULL, stdout=theirs, stderr=theirs, env=self.variables
        )
        os.close(theirs)
        text: str = read_all(ours).decode()
        call.wait(timeout=SECONDS)
        return REWRITTEN.sub("", text).replace("\r\n", "\n")

    def prepare(self, command: str) -> None:
        done = subprocess.run(
            ["bash", "-e", "-c", command], cwd=self.folder, env=self.variables, stdin=subprocess.DEVNULL, capture_output=True, encoding="utf-8",
            check=False, timeout=SECONDS,
        )
        if done.returncode != 0:
            raise Failed(f"{command}\n{done.stdout}{done.stderr}{done.returncode}")

    def lines(self, session: Iterable[Typed]) -> list[str]:
        """The lines of a session: each prompt with its command, and what it shows."""
        lines: list[str] = []
        for typed in session:
            if typed.is_shown:
                lines.append(f"\x1b[1m$ {typed.command}\x1b[0m")
                lines += [line.rstrip() for line in self.shown(typed.command).splitlines()]
            else:
                self.prepare(typed.command)
        return lines
