"""`rql sync` in a clone of a project, over an index of the tests' on 127.0.0.1: at first, and after a colleague changed the lock. What pip
tells beside it goes to a file."""

import json
import os
import shlex
import sys
from pathlib import Path

from picture_makers.drawing import picture_of
from picture_makers.merge import PERSON
from picture_makers.terminal import WEB, Terminal, Typed

from support.made.served_index import MadeIndex, wheel_of  # (these stand in tools/tests)
from support.venvs import template

BEGIN = """
mkdir colleague
cd colleague
git init --quiet --initial-branch=main
printf 'flask>=2\\nrequests<2.32\\n' >requirements.txt
rql --quiet init --index "$INDEX"
printf '.venv\\n' >>.gitignore
git add --all
git commit --quiet --message='Lock'
cd ..
git clone --quiet colleague project
"""
CHANGE = """
cd ../colleague
rql --quiet add 'pytest>=7,<8'
rql --quiet constrain flask '<3'
rql --quiet remove requests
git commit --quiet --all --message='Test by pytest'
"""
SESSION = (
    Typed("python3 -m venv .venv"), Typed("rql sync 2>pip.log"), Typed(CHANGE, is_shown=False), Typed("git pull --quiet"),
    Typed("rql sync --dry-run"), Typed("rql sync 2>pip.log"), Typed("rql sync"),
)


# A Python whose new environments are copies of one that was made before.
PYTHON = """#!/bin/sh
[ "$1 $2" != "-m venv" ] || exec cp -al {} "$3"
exec {} "$@"
"""


def give_python(place: Path) -> None:
    """Puts python3 there, which makes an environment in no time."""
    whole = template(sys.executable, {name: value for name, value in os.environ.items() if not name.startswith("PYTHON")})
    if whole is None:
        place.symlink_to(sys.executable)
        return
    place.write_text(PYTHON.format(shlex.quote(str(whole)), shlex.quote(sys.executable)), encoding="utf-8")
    place.chmod(0o755)


def picture(outside: Path) -> str:
    index = MadeIndex()
    try:
        for package in json.loads((WEB / "index.json").read_text(encoding="utf-8"))["packages"]:
            name = package["name"].lower()
            index.add(name, *(wheel_of(name, release["version"], *release.get("requires_dist", [])) for release in package["releases"]))
        nobody = {"PIP_CONFIG_FILE": "/dev/null", "PIP_RETRIES": "0", "NETRC": "/dev/null", "NO_PROXY": "*", "no_proxy": "*"}
        terminal = Terminal(outside, outside, {"INDEX": index.url, **PERSON, **nobody})
        give_python(outside / "bin" / "python3")
        terminal.prepare(BEGIN)
        terminal.folder = outside / "project"
        return picture_of(terminal.lines(SESSION), "rql sync installs what is locked, and follows the lock")
    finally:
        index.close()
