"""A session of reqlock, in a copy of examples/web."""

import shutil
from pathlib import Path

from picture_makers.drawing import picture_of
from picture_makers.terminal import WEB, Terminal, Typed

SESSION = (
    "reqlock --env environment.json init",
    "reqlock add 'pytest>=7,<8  # tests'",
    "reqlock add 'werkzeug<2'",
    "reqlock constrain flask '<3'",
    "reqlock add jinja2=3",
    "reqlock undo",
)


def picture(outside: Path) -> str:
    folder = outside / "web"
    shutil.copytree(WEB, folder)
    terminal = Terminal(outside, folder, {"REQLOCK_INDEX": "index.json"})
    return picture_of(terminal.lines(map(Typed, SESSION)), "A session of reqlock at a terminal")
