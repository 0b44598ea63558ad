#!/usr/bin/env python3
"""Prints rows of drawn problems and histories for crates/conformance, or what a second reading of the rules answers to them:
drawn_rows.py rows|answers. The rows are a part of crates/conformance/stdin, the answers the same part of its stdout. Each choice of
versions is tried."""

import json
import random
import sys
from pathlib import Path

# run as a program it finds the other modules of the tests
sys.path.insert(0, str(Path(__file__).resolve().parents[2]))

from support.made.chance import Chance  # noqa: E402
from support.made.environments import LINUX  # noqa: E402
from support.rules.edits import History, Refused, begun, lines_on  # noqa: E402
from support.rules.locks import Problem, best_solution, needed_nodes, read_index  # noqa: E402
from support.rules.requirements import cut_lines, marker_text, read_line, read_name  # noqa: E402

from conformance_rows import headlines, print_rows, row_of  # noqa: E402  (these stand in tools/)
from support.rules.versions import canonical  # noqa: E402

TOOL = "tests/support/made/drawn_rows.py"
INDEXES, PROBLEMS_EACH = 1000, 1
HISTORIES, ROWS_EACH, COMMANDS_EACH = 22, 5, 20

NAMES = "abcde"
SETS = "", "", ">=2", ">=3", "<3", "<2", "==1", "==2", "==3", "!=2", "!=3"
EXTRAS = "", "", "", "[e]"
MARKERS = "", "", "", ";extra=='e'"
COUNTS = 0, 1, 2
KINDS = "add", "add", "add", "constrain", "constrain", "remove", "upgrade", "relock", "undo", "undo", "undo", "redo"
# what a refusal is told as behind its word
TOLD = {
    "bad-text": "the text does not read", "not-present": "no line has this name",
    "no-solution": "no versions meet all requirements", "nothing-to-undo": "there is nothing to undo",
    "nothing-to-redo": "there is nothing to redo",
}


class Draw(Chance):
    def __init__(self, seed):
        # (the rows are stored, so that no other ones are drawn)
        self.random = random.Random(seed)

    def requirement(self, names):
        return self.one(names) + self.one(EXTRAS) + self.one(SETS)

    def release(self, version, names):
        needs = [self.requirement(names) + self.one(MARKERS) for _ in range(self.one(COUNTS))]
        return "|".join([version, *needs])

    def packages(self, names):
        """An index in the short form, of three releases each."""
        return "/".join(" ".join([name, *(self.release(version, names) for version in "123")]) for name in names)

    def command(self, names):
        kind, name = self.one(KINDS), self.one(names)
        if kind == "add":
            return kind, self.requirement(names)
        if kind == "constrain":
            return kind, name, self.one(SETS)
        if kind == "remove":
            return kind, name
        return (kind, *self.random.sample(names, self.one((0, 1, 2)))) if kind == "upgrade" else (kind,)


# The short form of an index


def spelt_release(text):
    version, *needs = text.removeprefix("!").split("|")
    version, _, python = version.partition("@")
    file = {"name": "w.whl", "url": "https://files.example/w.whl", "size": 1000, "sha256": "0" * 64}
    release = {"version": version, "yanked": text.startswith("!"), "requires_dist": needs, "files": [file]}
    return {**release, "requires_python": python} if python else release


def spelt_index(packages):
    """The index that a short form tells."""
    listed = []
    for package in packages.split("/"):
        name, *releases = package.split(" ")
        listed.append({"name": name, "releases": list(map(spelt_release, releases))})
    return read_index(json.dumps({"snapshot": 1, "packages": listed}).encode())


# Answers


def solved(lines, index):
    problem = Problem(lines, LINUX, index, {})
    best = best_solution(problem)
    if best is None:
        return "none"
    versions = [f" {name}={canonical(problem.releases[name][place].version)}" for name, place in sorted(best.items())]
    return f"{len(needed_nodes(problem, best))} nodes:" + "".join(versions)


def lock_of(state):
    text = ""
    for name, entry in state.entries().items():
        python = "" if entry["requires_python"] is None else "@" + entry["requires_python"]
        text += f" {name}={entry['version']}{python}" + "".join(">" + needed for needed in entry["dependencies"])
    return text


def told(state, command, reply):
    """A reply as a row tells it: behind a refusal stands in words what it says."""
    word = reply.removeprefix("refused ")
    if word == reply:
        return reply
    if word == "already-present":
        return f"{reply} (line {lines_on(state.lines, read_line(command[1]).name)[0] + 1} has this name)"
    if word == "ambiguous":
        return f"{reply} ({len(lines_on(state.lines, read_name(command[1])))} lines have this name)"
    if word == "not-locked":
        return f"{reply} ({next(name for name in command[1:] if name not in state.entries())} is not locked)"
    return f"{reply} ({TOLD[word]})"


def replied(history, command, index):
    before = history.state()
    return told(before, command, history.reply(command, index))


# Rows, each with its answer or a call for it


def environment():
    """The environment that all lines are for."""
    return row_of("environment", json.dumps(LINUX, separators=(",", ":"))), f"{LINUX['python_full_version']}: {marker_text(LINUX)}"


def problems():
    draw = Draw(1)
    for _ in range(INDEXES):
        packages = draw.packages(NAMES)
        yield row_of("packages", packages), lambda: "whole"
        for _ in range(PROBLEMS_EACH):
            lines = [draw.requirement(NAMES) + "\n" for _ in range(2)]
            yield row_of("solve", "".join(lines)), lambda lines=lines, packages=packages: solved(lines, spelt_index(packages))


def begun_history(draw, index):
    """Lines that have a solution, and the history that begins with them."""
    while True:
        text = "".join(draw.requirement(NAMES[:4]) + draw.one(("\n", "  # why\n", "\r\n")) for _ in range(draw.one((0, 1, 2))))
        try:
            return text, History(begun(cut_lines(text), {"": LINUX}, index))
        except Refused:
            continue


def done(draw, history, index):
    """A row of commands, and the answer."""
    commands, replies = [], []
    for _ in range(COMMANDS_EACH):
        command = draw.command(NAMES[:4])
        commands.append(" ".join(command).rstrip())
        replies.append(replied(history, command, index))
    return row_of("do", "\n".join(commands)), "; ".join(replies) + ":" + lock_of(history.state())


def played(seed):
    """The rows of one history and their answers."""
    draw = Draw(seed)
    packages = draw.packages(NAMES[:4])
    text, history = begun_history(draw, spelt_index(packages))
    rows = [(row_of("packages", packages), "whole"), (row_of("begin", text), "ok 0:" + lock_of(history.state()))]
    for _ in range(ROWS_EACH):
        if draw.one((True, False)):
            packages = draw.packages(NAMES[:4])
            rows.append((row_of("packages", packages), "whole"))
        rows.append(done(draw, history, spelt_index(packages)))
    steps = len(history.states) - 1
    return [*rows, ("saved", f"{history.cursor} of {steps}, {steps + 1} lines")]


def rows_and_answers():
    first = headlines(f"Drawn problems and histories, printed by tools/{TOOL}.")
    first += [environment(), *headlines("", "Problems of two lines over five packages of three releases each.")]
    rows = [(row, answer()) for row, answer in problems()]
    between = headlines("", "Histories over four packages, whose releases are sometimes others from here on: twenty commands a row.")
    histories = [row for seed in range(HISTORIES) for row in played(seed)]
    return [*first, *rows, *between, *histories]


if __name__ == "__main__":
    print_rows(TOOL, rows_and_answers())
