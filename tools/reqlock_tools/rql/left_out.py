"""What constraints leave out of the index, told beside an answer that it matters to."""

import re
from collections.abc import Callable, Iterable
from pathlib import Path

from reqlock_tools.files import read_text
from reqlock_tools.markers import Markers
from reqlock_tools.refusal import speaker
from reqlock_tools.requirements import need_of, numbered_lines
from reqlock_tools.rql.index import constraint_files
from reqlock_tools.rql.project import Project
from reqlock_tools.simple.bounds import Bound, Bounds, why_out
from reqlock_tools.simple.made import LeftOut, left_of, plan_of, read_made
from reqlock_tools.snapshot_output import plural
from reqlock_tools.versions import normal

MOST_LINES, MOST_RANGES = 3, 4
NAME = re.compile(r"[A-Za-z0-9](?:[A-Za-z0-9._-]*[A-Za-z0-9])?")
COLOR = re.compile(r"\x1b\[[0-9;]*m")

say = speaker("rql")


def tell_left_out(project: Project, index: Path, words: Iterable[str], ask: Callable[[], bytes]) -> None:
    """Tells what constraints left out of an index of packages that are typed, or that the answer names. It is asked for once more, as it
    went past where it was printed; but only if constraints left something out."""
    texts = left_out(project, index)
    if not texts:
        return
    lines = [line for name in names_in(words, ask().decode(errors="replace")) for line in texts.get(name, ())]
    for line in lines[:MOST_LINES]:
        say(line)
    if len(lines) > MOST_LINES:
        say(f"and {len(lines) - MOST_LINES} more")


def names_in(words: Iterable[str], answer: str) -> dict[str, None]:
    """The normal names that words begin with, and then those that an answer may name, each once."""
    needs = filter(None, map(need_of, words))
    return dict.fromkeys([*(need.name for need in needs), *map(normal, dict.fromkeys(NAME.findall(COLOR.sub("", answer))))])


def left_out(project: Project, index: Path) -> dict[str, list[str]]:
    """What constraints left out of an index, by normal names: a line for each file."""
    made = read_made(str(index))
    plan = plan_of(made)
    bounds = Bounds(plan.constraints, Markers([environment.variables for environment in plan.environments]))
    places = dict(constraint_files(project))
    texts: dict[str, list[str]] = {}
    for left in left_of(made):
        for file, bound in bounds.of(left.name):
            if left.why == why_out(file):
                text = f"{file} leaves out {releases_text(left)} ({bound_text(left.name, bound, places[file])})"
                texts.setdefault(left.name, []).append(text)
    return texts


def releases_text(left: LeftOut) -> str:
    """Which releases are left out; or how many, where it is all of them or where they are in many ranges."""
    if left.ranges == ("all",):
        return f"all of {left.name}, {plural(left.releases, 'release')}"
    if len(left.ranges) > MOST_RANGES:
        return f"{plural(left.releases, 'release')} of {left.name}"
    return f"{left.name} {', '.join(left.ranges)}"


def bound_text(name: str, bound: Bound, path: Path) -> str:
    """What a file asks of a package: its lines, or the versions that a lock has."""
    if name in bound.versions:
        return f"it has {name} {', '.join(map(str, sorted(bound.versions[name])))} alone"
    lines = numbered_lines(read_text(str(path)))
    return " and ".join(f"line {number}: {text}" for number, text in lines if text in bound.requirements[name])
