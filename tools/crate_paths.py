#!/usr/bin/env python3
"""Tells of each crate how many paths lead through crates.txt to the crates below it, and which names its line has in vain.

usage: tools/crate_paths.py [CRATE ..]    without names, all crates

For each crate rt makes a sum of its sources and of those of the crates that its line names, and so on below. Where each path through the
list is gone along anew, a crate counts 1 and the counts of the crates of this repository that it names. A name is in vain that no source of
the crate uses, as `NAME::` or `Rattle.NAME.`.
"""

import argparse
import re
import sys
from pathlib import Path

TOP = Path(__file__).resolve().parent.parent
USED = re.compile(r"(?<![\w:.])(\w+)::|\bRattle\.(\w+)\.")


def read_list(text: str) -> dict[str, list[str]]:
    """What each line of crates.txt names, by its crate."""
    lines = [line.partition("#")[0].partition(":") for line in text.splitlines()]
    return {head.split()[0]: names.split() for head, _, names in lines if head.strip()}


def count_sums(named: dict[str, list[str]]) -> dict[str, int]:
    """How many sums of sources are made for each crate."""
    counts = dict[str, int]()

    def count(crate: str) -> int:
        if crate not in counts:
            counts[crate] = 1 + sum(count(name) for name in named[crate] if name in named)
        return counts[crate]

    for crate in named:
        count(crate)
    return counts


def unused_names(folder: Path, names: list[str]) -> list[str]:
    """Those of the names that no source in a crate's folder uses."""
    used = set[str]()
    for path in folder.rglob("*"):
        if path.suffix in (".rt", ".antt") and path.relative_to(folder).parts[0] in ("src", "specs", "proofs"):
            used.update(*USED.findall(path.read_text(encoding="utf-8")))
    return [name for name in names if name not in used]


def main(arguments: list[str]) -> int:
    parser = argparse.ArgumentParser(
        prog="crate_paths.py", description=__doc__, formatter_class=argparse.RawDescriptionHelpFormatter
    )
    parser.add_argument("crates", metavar="CRATE", nargs="*", help="a crate of crates.txt")
    named = read_list((TOP / "crates.txt").read_text(encoding="utf-8"))
    crates = parser.parse_args(arguments).crates or list(named)
    counts = count_sums(named)
    for crate in crates:
        if crate not in named:
            parser.error(f"crates.txt has no crate {crate}")
        unused = unused_names(TOP / "crates" / crate, named[crate])
        told = f"; named and not used: {' '.join(unused)}" if unused else ""
        print(f"{crate}: sums of sources, each path anew: {counts[crate]:,}{told}")
    return 0


if __name__ == "__main__":
    sys.exit(main(sys.argv[1:]))
