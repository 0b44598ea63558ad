"""Wheels of libraries that are installed here, made of their files, so that what needs them is installed without an index.

  python3 -m support.made.library_wheels FOLDER
            makes those of the libraries that the wheel of reqlock depends on
"""

import importlib.metadata
import importlib.util
import re
import shutil
import subprocess
import sys
import tomllib
from functools import cache
from pathlib import Path

from support.made.archives import record_line, zipped
from support.places import TESTS, TOP

# The module of a library whose name is another.
MODULES = {"markdown-it-py": "markdown_it"}


def needed_names():
    """What the wheel of reqlock depends on."""
    project = tomllib.loads((TOP / "pyproject.toml").read_text(encoding="utf-8"))["project"]
    return [text.partition(">")[0] for text in project["dependencies"]]


def module_of(name):
    """Where the module of a library stands; None where it isn't installed."""
    spec = importlib.util.find_spec(MODULES.get(name, name.replace("-", "_")))
    return None if spec is None or spec.origin is None else Path(spec.origin)


def dependencies_of(name):
    """What a library needs in each environment, by names: what isn't installed here is left out, and so are the versions."""
    texts = importlib.metadata.requires(name) or []
    names = [re.match("[A-Za-z0-9._-]+", text)[0] for text in texts if ";" not in text]
    # (Debian's urllib3 has no copy of six, and doesn't tell that it needs it)
    names += ["six"] if name == "urllib3" and "from six" in (module_of(name).parent / "exceptions.py").read_text(encoding="utf-8") else []
    return [name for name in names if module_of(name) is not None]


def wheel_of_library(folder, name):
    """The wheel of an installed library."""
    version, origin = importlib.metadata.version(name), module_of(name)
    paths = sorted(origin.parent.rglob("*")) if origin.name == "__init__.py" else [origin]
    base = origin.parent.parent if origin.name == "__init__.py" else origin.parent
    paths = [path for path in paths if path.is_file() and path.suffix in (".py", ".typed", ".json")]
    members = {str(path.relative_to(base)): path.read_bytes() for path in paths}
    inner = f"{name.replace('-', '_')}-{version}"
    needs = "".join(f"Requires-Dist: {requirement}\n" for requirement in dependencies_of(name))
    members[f"{inner}.dist-info/METADATA"] = f"Metadata-Version: 2.1\nName: {name}\nVersion: {version}\n{needs}"
    members[f"{inner}.dist-info/WHEEL"] = "Wheel-Version: 1.0\nRoot-Is-Purelib: true\nTag: py3-none-any\n"
    record = f"{inner}.dist-info/RECORD"
    members[record] = "".join(record_line(*member) for member in members.items()) + f"{record},,\n"
    (folder / f"{inner}-py3-none-any.whl").write_bytes(zipped(members))


@cache
def python_with_libraries():
    """A Python that has them all; None where there is none."""
    names = [MODULES.get(name, name) for name in needed_names()]
    if all(map(importlib.util.find_spec, names)):
        return sys.executable
    asks = "import importlib.util, sys; sys.exit(not all(map(importlib.util.find_spec, sys.argv[1:])))"
    for python in "python3", "/usr/bin/python3":
        if shutil.which(python) and subprocess.run([python, "-c", asks, *names], capture_output=True, check=False).returncode == 0:
            return python
    return None


def make_library_wheels(folder):
    """A folder with the wheels of all that the wheel of reqlock depends on, each with what it needs."""
    command = [python_with_libraries(), "-B", "-m", "support.made.library_wheels", folder]
    subprocess.run(command, cwd=TESTS, check=True)
    return folder


def main(folder):
    folder.mkdir(parents=True, exist_ok=True)
    names, done = needed_names(), set()
    while names:
        name = names.pop()
        if name not in done:
            done.add(name)
            wheel_of_library(folder, name)
            names += dependencies_of(name)


if __name__ == "__main__":
    main(Path(sys.argv[1]))
