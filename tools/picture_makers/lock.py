"""The graph of the locks of examples/web for two targets, as the program prints it and Graphviz draws it."""

import re
import shutil
import subprocess
from pathlib import Path

from picture_makers.terminal import PROGRAM, WEB

INIT = "--index", WEB / "index.json", "--env", f"linux={WEB / 'environment.json'}", "--env", f"windows={WEB / 'windows.json'}", "init"
LOOK = "-Gfontname=sans-serif", "-Gpad=0.2", "-Gbgcolor=white"
TITLE = "The locks of examples/web for linux and windows, as a graph"


def answered(folder: Path, *words: str) -> subprocess.CompletedProcess[bytes]:
    """What a call of the program answers in a folder with the locks of the example."""
    shutil.copy(WEB / "requirements.txt", folder)
    subprocess.run([PROGRAM, *INIT], cwd=folder, stdout=subprocess.DEVNULL, check=True)
    return subprocess.run([PROGRAM, *words], cwd=folder, capture_output=True, check=False)


def picture(outside: Path) -> str:
    """What Graphviz draws, with a title for who can't see it."""
    graph = answered(outside, "export", "--format", "dot").stdout
    drawn = subprocess.run(["dot", "-Tsvg", *LOOK], input=graph, stdout=subprocess.PIPE, check=True).stdout.decode()
    told = f'\\1 role="img" aria-label="{TITLE}">\n<!-- Made by tools/pictures.py: python3 tools/pictures.py makes it again. -->\n'
    return re.sub("(<svg [^>]*)>\n", told, drawn, count=1)
