#!/usr/bin/env python3
"""Runs a command and tells where its processor time went, crate by crate: proofs, tests and must-fail edits.

usage: tools/gate_times.py COMMAND..    as in tools/gate_times.py ./check

The command's output comes as it is. A table in Markdown follows, on standard error, in processor minutes; the last row counts
everything, what is no check of a crate too. Behind it stand the ten dearest edits, in processor seconds, and what one piece of work
took, that is done every half minute: by it the figures of two machines compare, or of two hours. The status is the command's. The
edits are those of the folder that it is called in.
"""

import argparse
import os
import resource
import subprocess
import sys
import threading
import time
from collections.abc import Iterator
from pathlib import Path

from wrong_bodies import Unappliable, edited_files, edits_of

# A crate and a kind of work, or an edit of it; the number of a process and its start.
Work = tuple[str, str]
Key = tuple[str, str]
KINDS = "proofs", "tests", "second proofs", "edits"
DEAREST = 10
# How often the piece of work is done that tells how fast the processors are, in seconds, and over how many keys it goes.
PACE_EVERY = 30
PACE_KEYS = 400_009


def edit_in(crate: str, folder: str) -> str | None:
    """The name of the edit that a copy of a crate in a folder has; None where it has none."""
    for edit in edits_of(Path(), crate):
        try:
            files = edited_files(edit, Path("crates", crate))
        except Unappliable:
            continue
        if all(Path(folder, path).read_text(encoding="utf-8") == text for path, text in files.items()):
            return edit.stem
    return None


def check_of(words: list[str], folder: str) -> Work | None:
    """The crate and the kind of work of a process, by its words and its folder; None where it is no check of a crate."""
    if len(words) < 2 or os.path.basename(words[0]) != "rattle" or words[1] not in ("check", "build"):
        return None
    if "--crate-name" not in words[:-1]:
        return None
    crate = words[words.index("--crate-name") + 1]
    if os.path.basename(folder).startswith("rt-edit-"):
        return crate, "edits"
    return crate, "tests" if "--test" in words else "proofs"


def processes() -> Iterator[tuple[Key, list[str], str, float]]:
    """Each process that can be read: its number and start, its words, its folder, and the processor seconds it has used."""
    tick = os.sysconf("SC_CLK_TCK")
    for number in filter(str.isdigit, os.listdir("/proc")):
        try:
            with open(f"/proc/{number}/stat", encoding="utf-8", errors="replace") as file:
                fields = file.read().rpartition(")")[2].split()
            with open(f"/proc/{number}/cmdline", encoding="utf-8", errors="replace") as file:
                words = file.read().rstrip("\0").split("\0")
            folder = os.readlink(f"/proc/{number}/cwd")
        except OSError:
            continue
        # (behind the name: user and system time are the 12th and 13th field, the start is the 20th)
        yield (number, fields[19]), words, folder, (int(fields[11]) + int(fields[12])) / tick


def pace() -> float:
    """The processor seconds that a piece of work takes which is always the same: it goes through a large table out of order."""
    start, table = time.thread_time(), dict[int, int]()
    for number in range(PACE_KEYS):
        table[number * 7919 % PACE_KEYS] = number
    return time.thread_time() - start


class Watch:
    """Samples the processes until it is stopped; `used` has the seconds of each crate and kind, `edits` those of each edit, and
    `paces` those of the piece of work, each time that it was done."""

    def __init__(self) -> None:
        self.known: dict[Key, tuple[str, str | None]] = {}
        self.seen: dict[Key, tuple[Work, float]] = {}
        self.paces: list[float] = []
        self.is_over = threading.Event()

    def name(self, key: Key, crate: str, folder: str) -> tuple[str, str | None]:
        """The crate and the name of the edit that a process tries; the name is None where it proves the crate as it is."""
        if key not in self.known:
            try:
                self.known[key] = crate, edit_in(crate, folder)
            except OSError:
                return crate, None
        return self.known[key]

    def look(self) -> None:
        for key, words, folder, seconds in processes():
            check = check_of(words, folder)
            if check and check[1] == "edits" and self.name(key, check[0], folder)[1] is None:
                check = check[0], "second proofs"
            if check:
                self.seen[key] = check, seconds

    def run(self) -> None:
        next_pace = time.monotonic()
        while not self.is_over.wait(0.3):
            self.look()
            if time.monotonic() >= next_pace:
                self.paces.append(pace())
                next_pace += PACE_EVERY

    def used(self) -> dict[Work, float]:
        used: dict[Work, float] = {}
        for check, seconds in self.seen.values():
            used[check] = used.get(check, 0) + seconds
        return used

    def edits(self) -> dict[Work, float]:
        spent: dict[Work, float] = {}
        for key, (crate, name) in self.known.items():
            if name is not None:
                spent[crate, name] = spent.get((crate, name), 0) + self.seen[key][1]
        return spent


def table(used: dict[Work, float], whole: float, wall: float) -> list[str]:
    """The lines of the table, the crates with the most time first."""
    crates = sorted({crate for crate, _ in used}, key=lambda crate: -sum(used.get((crate, kind), 0) for kind in KINDS))
    lines = ["| Crate | Proofs | Tests | Second proofs | Must-fail edits | Together |", "|---|---|---|---|---|---|"]
    for crate in crates:
        parts = [used.get((crate, kind), 0) for kind in KINDS]
        lines.append(f"| {crate} | " + " | ".join(f"{part / 60:.1f}" for part in [*parts, sum(parts)]) + " |")
    parts = [sum(seconds for (_, kind), seconds in used.items() if kind == wanted) for wanted in KINDS]
    lines.append("| all | " + " | ".join(f"{part / 60:.1f}" for part in [*parts, whole]) + " |")
    return [*lines, f"{whole / 60:.0f} processor minutes in {wall / 60:.0f} minutes"]


def dearest(spent: dict[Work, float]) -> list[str]:
    """A line for each of the edits that took the most seconds."""
    dearest = sorted(spent.items(), key=lambda item: -item[1])[:DEAREST]
    return [f"{seconds:.0f} s {crate} {name}" for (crate, name), seconds in dearest]


def told_pace(paces: list[float]) -> list[str]:
    """The line on the piece of work; none where it was never done."""
    if not paces:
        return []
    mean = sum(paces) / len(paces)
    return [f"the same piece of work took {mean:.2f} s on average, {min(paces):.2f} to {max(paces):.2f} s, {len(paces)} times"]


def main(arguments: list[str]) -> int:
    parser = argparse.ArgumentParser(
        prog="gate_times.py", description=__doc__, formatter_class=argparse.RawDescriptionHelpFormatter
    )
    parser.add_argument("command", metavar="COMMAND", nargs=argparse.REMAINDER, help="the command and its words, as ./check")
    words = parser.parse_args(arguments).command
    if not words:
        parser.error("it takes a command, as in tools/gate_times.py ./check")
    watch = Watch()
    sampling = threading.Thread(target=watch.run)
    start = time.monotonic()
    sampling.start()
    try:
        status = subprocess.run(words, check=False).returncode
    finally:
        watch.is_over.set()
        sampling.join()
    spent = resource.getrusage(resource.RUSAGE_CHILDREN)
    lines = table(watch.used(), spent.ru_utime + spent.ru_stime, time.monotonic() - start)
    print(*lines, *dearest(watch.edits()), *told_pace(watch.paces), sep="\n", file=sys.stderr)
    return status


if __name__ == "__main__":
    sys.exit(main(sys.argv[1:]))
