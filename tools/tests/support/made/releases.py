"""Indexes of releases that are told in short: the JSON values, and what the rules read of them."""

import json

from support.made.environments import LINUX
from support.rules.locks import Problem, read_index

# releases of `b` of which `a` 2 and `c` can't both have one
SHARED = ("a", "1", ["b"]), ("a", "2", ["b<2"]), ("b", "1", []), ("b", "2", []), ("c", "1", ["b>=2"])
# a dependency of an extra, which no release meets
UNMET_EXTRA = ("x", "1", ['y>=2; extra=="e"']), ("y", "1", [])


def file_of(name, version, ending="-py3-none-any.whl"):
    file = f"{name.replace('-', '_')}-{version}{ending}"
    return {"name": file, "url": f"https://files.example/{file}", "size": 1000, "sha256": "0" * 64}


def index_of(*releases):
    """The index of releases, each a name, a version, its requirements, and what else its object has."""
    packages = {}
    for name, version, needs, *more in releases:
        release = {"version": version, "requires_dist": needs, "files": [file_of(name, version)]}
        packages.setdefault(name, []).append(release | dict(*more))
    return {"snapshot": 1, "packages": [{"name": name, "releases": listed} for name, listed in packages.items()]}


def index_in(*releases):
    return read_index(json.dumps(index_of(*releases)).encode())


def problem_in(lines, *releases):
    return Problem(lines.split("\n"), LINUX, index_in(*releases), {})
