"""The Pythons of this machine: those that a version manager keeps, and the system's."""

import subprocess
import sys
from functools import lru_cache
from pathlib import Path

ASKS = "import sys; print(*sys.version_info[:2])"
PLACES = "~/.pyenv/versions", "/usr/bin", "/usr/local/bin"


@lru_cache(maxsize=None)
def pythons():
    """A Python of each minor version that is here, by its version."""
    names = [sys.executable]
    for place in map(Path.expanduser, map(Path, PLACES)):
        names += sorted(map(str, [*place.glob("*/bin/python3"), *place.glob("python3.[0-9]"), *place.glob("python3.[0-9][0-9]")]))
    by_version = {}
    for name in dict.fromkeys(names):
        done = subprocess.run([name, "-c", ASKS], capture_output=True, encoding="utf-8", check=False)
        if done.returncode == 0 and "shims" not in name:
            by_version.setdefault(tuple(map(int, done.stdout.split())), name)
    return {version: by_version[version] for version in sorted(by_version) if version >= (3, 6)}
