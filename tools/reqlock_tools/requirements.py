"""What requirement texts ask for, and the lines of requirements files."""

import re
from collections.abc import Iterator
from functools import lru_cache
from typing import NamedTuple

from reqlock_tools.environment import VARIABLES
from reqlock_tools.files import Node, read_json, read_text
from reqlock_tools.libraries import library, packaging_requirements
from reqlock_tools.names import called
from reqlock_tools.refusal import Refusal, Say
from reqlock_tools.versions import is_name, normal

BEGINNING = re.compile(r"[ \t]*([A-Za-z0-9._-]+)[ \t]*(?:\[([^\]]*)\])?[ \t]*(@?)")
LONGEST = 2**16


class Need(NamedTuple):
    """What a requirement text needs, its names in normal form. The marker is empty where there is none."""

    name: str
    extras: tuple[str, ...]
    marker: str


@lru_cache(maxsize=2**17)
def need_of(text: str) -> Need | None:
    """What a text needs, None where it begins with no name or asks for a URL. Its versions are left to reqlock."""
    asked, _, marker = text.partition(";")
    beginning = BEGINNING.match(asked)
    if beginning is None or not is_name(beginning[1]) or beginning[3]:
        return None
    extras = sorted({normal(extra.strip()) for extra in (beginning[2] or "").split(",") if extra.strip()})
    return Need(normal(beginning[1]), tuple(extras), marker.strip())


def fault_of(text: str) -> str | None:
    """Why a text is no requirement that reqlock takes; None where it may be one."""
    if text.startswith("-"):
        return "it is an option, and reqlock reads requirements alone"
    if text.endswith("\\"):
        return "it goes on in the next line, and reqlock wants a requirement in one"
    if need_of(text) is None:
        return "reqlock takes no URL" if BEGINNING.match(text) and "@" in text else "it begins with no name"
    return None


def doubt_of(text: str) -> str | None:
    """Why packaging doesn't read a text as a requirement; None where it does."""
    if library("packaging.requirements") is None or len(text) > LONGEST:
        return None
    try:
        packaging_requirements.Requirement(text)
    except (ValueError, RecursionError) as error:
        return str(error).partition("\n")[0]
    return None


def numbered_lines(text: str) -> Iterator[tuple[int, str]]:
    """The lines of a requirements file without comments, each with its number; not those that are blank."""
    for number, line in enumerate(text.split("\n"), 1):
        if content := re.sub(r"(^|[ \t])#.*", "", line.removesuffix("\r")).strip():
            yield number, content


def read_lines(path: str, say: Say) -> list[str]:
    """The requirements of a requirements file. A line that only packaging refuses is said."""
    requirements = []
    for number, text in numbered_lines(read_text(path)):
        if fault := fault_of(text):
            raise Refusal(f"{path}: line {number}: {text!a}: {fault}")
        if doubt := doubt_of(text):
            say(f"{path}: line {number}: {text!a} may be no requirement: {doubt}")
        requirements.append(text)
    return requirements


def environment_node(path: str) -> Node:
    """What stands in an environment file."""
    try:
        return read_json(path)
    except FileNotFoundError:
        raise Refusal(f"{path}: there is no such file; {called('tools/environment.py')} prints an environment") from None


def variables_in(told: Node) -> dict[str, str]:
    """The eleven variables of an environment."""
    variables = {name: told.member(name).text() for name in VARIABLES}
    return {**variables, "python_full_version": variables["python_full_version"].removesuffix("+")}
