"""Print a lock as a requirements file with hashes, which any pip installs.

LOCK is a pylock.toml of version 1.0 (PEP 751). Each of its packages becomes a line
`name==version`, with one `--hash=sha256:..` for each of its files and a comment of
the packages that depend on it; one without such a comment is asked for by the
requirements file alone. Install the result with

    pip install --require-hashes --no-deps --requirement hashed.txt

It holds for the environment that the lock is for; a comment at its beginning has
the marker. A lock of another version is refused, and so are locks that such lines
can't tell: with markers of packages, with several packages of one name, or with
packages that aren't wheels and sdists with a sha256. The fault is told on standard
error, nothing is printed, and the status is 1.
"""

import argparse
import io
import re
import sys
from typing import Any, NamedTuple

from reqlock_tools.names import called, tool
from reqlock_tools.refusal import Refusal, fault_text, speaker
from reqlock_tools.regular_file import read_bytes
from reqlock_tools.toml import read_toml
from reqlock_tools.versions import read_version

NAME = "[a-z0-9]+(-[a-z0-9]+)*"
DIGEST = "[0-9a-f]{64}"
UNTOLD = "marker", "vcs", "directory", "archive"
FORM = "isn't of the form that a lock of version 1.0 has"

say = speaker("hashed_requirements")


class Package(NamedTuple):
    name: str
    version: str
    digests: list[str]
    dependencies: list[str]


def want(value: Any, kind: type, what: str) -> Any:
    """A value of a kind. A member that is absent is None, and of no kind."""
    if not isinstance(value, kind):
        raise Refusal(f"{what} {FORM}")
    return value


def tables(table: dict[str, Any], key: str, what: str) -> list[dict[str, Any]]:
    """The array of tables at a key; empty where there is none."""
    return [want(item, dict, f"{what}: {key}") for item in want(table.get(key, []), list, f"{what}: {key}")]


def matching(pattern: str, value: Any, what: str) -> str:
    text: str = want(value, str, what)
    if re.fullmatch(pattern, text) is None:
        raise Refusal(f"{what} {FORM}")
    return text


def hashes_of(package: dict[str, Any], name: str) -> list[str]:
    """The digests of a package's files, sorted."""
    for key in UNTOLD:
        if key in package:
            raise Refusal(f"{name}: {key} can't be told in a requirements file with hashes")
    files = tables(package, "wheels", name)
    if "sdist" in package:
        files.append(want(package["sdist"], dict, f"{name}: sdist"))
    digests = [want(file.get("hashes"), dict, f"{name}: hashes").get("sha256") for file in files]
    if not digests:
        raise Refusal(f"{name}: it has no file")
    return sorted({matching(DIGEST, digest, f"{name}: sha256") for digest in digests})


def read_package(package: dict[str, Any]) -> Package:
    name = matching(NAME, package.get("name"), "the name of a package")
    version = want(package.get("version"), str, f"{name}: version")
    if read_version(version) is None or version != version.strip():
        raise Refusal(f"{name}: {version!a} is no version")
    dependencies = [item.get("name") for item in tables(package, "dependencies", name)]
    return Package(name, version, hashes_of(package, name), [want(dependency, str, f"{name}: dependencies") for dependency in dependencies])


def read_locked_packages(text: str) -> tuple[list[str], dict[str, Package]]:
    """The markers of the lock's environments, and its packages by name."""
    lock = read_toml(text)
    version = want(lock.get("lock-version"), str, "lock-version")
    if version != "1.0":
        raise Refusal(f"its lock-version is {version!a}, not 1.0")
    packages: dict[str, Package] = {}
    for item in tables({"packages": want(lock.get("packages"), list, "packages")}, "packages", "the lock"):
        package = read_package(item)
        if packages.setdefault(package.name, package) is not package:
            raise Refusal(f"{package.name}: it stands twice")
    environments = want(lock.get("environments", []), list, "environments")
    return [matching("[ -~]*", text, "environments") for text in environments], packages


def requirements_text(environments: list[str], packages: dict[str, Package]) -> str:
    """The lines for pip, packages by name."""
    users: dict[str, set[str]] = {}
    for package in packages.values():
        for name in package.dependencies:
            users.setdefault(name, set()).add(package.name)
    lines = [f"# for {marker}\n" for marker in environments]
    for name, package in sorted(packages.items()):
        lines.append(f"{name}=={package.version}" + "".join(f" \\\n    --hash=sha256:{digest}" for digest in package.digests) + "\n")
        if name in users:
            lines.append(f"    # via {', '.join(sorted(users[name]))}\n")
    return "".join(lines)


def parser_of() -> argparse.ArgumentParser:
    parser = argparse.ArgumentParser(
        prog=tool("hashed_requirements"), description=called(__doc__ or ""), formatter_class=argparse.RawDescriptionHelpFormatter
    )
    parser.add_argument("lock", metavar="LOCK", help="the lock")
    return parser


def main(words: list[str]) -> int:
    options = parser_of().parse_args(words)
    try:
        data = read_bytes(options.lock)
    except (Refusal, OSError) as fault:
        say(fault_text(fault))
        return 1
    try:
        text = requirements_text(*read_locked_packages(data.decode()))
    except (Refusal, UnicodeDecodeError) as fault:
        say(f"{options.lock}: {fault}")
        return 1
    if isinstance(sys.stdout, io.TextIOWrapper):
        sys.stdout.reconfigure(newline="\n")
    sys.stdout.write(text)
    return 0
