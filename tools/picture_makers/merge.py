"""Two branches that both changed the lock, and their merge, in a checkout with a copy of examples/web."""

import os
import shutil
from pathlib import Path

from picture_makers.drawing import picture_of
from picture_makers.terminal import TOP, WEB, Terminal, Typed

BEGIN = """
git init --quiet --initial-branch=main
reqlock init --env environment.json
git add --all
git commit --quiet --message='Lock'
git checkout --quiet -b other
reqlock add 'pytest>=7,<8'
git commit --quiet --all --message='Add pytest'
git checkout --quiet main
reqlock constrain flask '<3'
git commit --quiet --all --message='Keep flask back'
"""
GRAPH = "git log --graph --all --format=%s"
SESSION = (
    GRAPH, "git merge other >/dev/null 2>&1 || git status --short", "reqlock-merge", "git commit --quiet --message='Merge other'", GRAPH,
    "reqlock show", "reqlock log",
)
PERSON = {
    "GIT_CONFIG_GLOBAL": os.devnull, "GIT_CONFIG_NOSYSTEM": "1", "GIT_PAGER": "cat", "GIT_EDITOR": "true", "GIT_CONFIG_COUNT": "1",
    "GIT_CONFIG_KEY_0": "color.ui", "GIT_CONFIG_VALUE_0": "never",
    **{f"GIT_{who}_{what}": text for who in ("AUTHOR", "COMMITTER") for what, text in (("NAME", "a"), ("EMAIL", "a@example"))},
}


def dated(command: str, day: int) -> str:
    """A command whose commits are of this day: the order in which git lists them is that of their time."""
    return f"export GIT_AUTHOR_DATE='2026-01-{day:02} 12:00:00 +0000' GIT_COMMITTER_DATE='2026-01-{day:02} 12:00:00 +0000'\n{command}"


def picture(outside: Path) -> str:
    folder = outside / "web"
    shutil.copytree(WEB, folder)
    shutil.copy(TOP / "examples" / "git" / ".gitattributes", folder)
    terminal = Terminal(outside, folder, {"REQLOCK_INDEX": "index.json", **PERSON})
    begin = "\n".join(dated(line, place) if " commit " in line else line for place, line in enumerate(BEGIN.split("\n"), 1))
    terminal.prepare(begin)
    terminal.variables |= {f"GIT_{who}_DATE": "2026-02-01 12:00:00 +0000" for who in ("AUTHOR", "COMMITTER")}
    return picture_of(terminal.lines(map(Typed, SESSION)), "git merges two branches, and reqlock-merge locks what both wanted")
