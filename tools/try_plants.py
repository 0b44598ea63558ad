#!/usr/bin/env python3
"""Has the prover try the plants of crates: wrong bodies beside those that the gate tries, each of which it must refuse.

usage: tools/try_plants.py [--apply-only] [CRATE ..]    without names, all crates that have plants

The crates are copied into a folder of their own, with the edits of plants/CRATE in the place of crates/CRATE/must-fail, and `rt ci` tries
them there, over the proofs that earlier runs kept. What the prover says of a plant comes on standard output, all else that rt prints on
standard error. A plant fails that is still proved, or that can't be applied or tried. The last line is 'N passed, M failed', and the
status is 1 where one failed.
"""

import argparse
import re
import shutil
import subprocess
import sys
import tempfile
from pathlib import Path

from wrong_bodies import MUST_FAIL, PLANTS, Unappliable, edited_files, edits_of, folder_names

TOP = Path(__file__).resolve().parent.parent
# What rt says of a plant, as in `rt: must-fail lists/tab_is_no_space.edit: refused, as it must be: src/spaces.rt:5:1: ..`
SAID = re.compile(r"rt: must-fail (\w+)/(\S+)\.edit: (.*)")


def unappliable(top: Path, edits: list[Path], crate: str) -> dict[Path, str]:
    """The edits of a crate that can't be applied, with the reason."""
    reasons = dict[Path, str]()
    for edit in edits:
        try:
            edited_files(edit, top / "crates" / crate)
        except Unappliable as reason:
            reasons[edit] = str(reason)
    return reasons


def tell_unappliable(top: Path, reasons: dict[Path, str]) -> None:
    """Prints the reason why each of these can't be applied."""
    for edit, reason in reasons.items():
        print(f"{edit.relative_to(top)}: can't be applied: {reason}")


def tell_counts(passed: int, failed: int) -> int:
    """Prints the last line; the answer is the status."""
    print(f"{passed} passed, {failed} failed")
    return int(failed > 0)


def apply_only(top: Path, crates: list[str]) -> int:
    """Tests that each edit of these crates can be applied, also those that the gate tries."""
    count = failed = 0
    for crate in crates:
        edits = edits_of(top, crate)
        reasons = unappliable(top, edits, crate)
        tell_unappliable(top, reasons)
        count, failed = count + len(edits), failed + len(reasons)
    return tell_counts(count - failed, failed)


def make_copy(top: Path, folder: Path, plants: dict[str, list[Path]]) -> None:
    """Copies the crates without their edits, and puts these plants there."""
    shutil.copytree(top / "crates", folder / "crates", ignore=shutil.ignore_patterns("out", MUST_FAIL))
    for name in "crates.txt", "HANDLES":
        shutil.copy(top / name, folder)
    for crate, edits in plants.items():
        place = folder / "crates" / crate / MUST_FAIL
        place.mkdir(parents=True)
        for edit in edits:
            shutil.copy(edit, place)


def prover_says(folder: Path, crates: list[str]) -> dict[tuple[str, str], str]:
    """Has rt try the edits of these crates in this folder, and gives what it says of each, by the crate and the name."""
    said = dict[tuple[str, str], str]()
    with subprocess.Popen(["rt", "ci", *crates], cwd=folder, stdout=subprocess.PIPE, encoding="utf-8", errors="replace") as run:
        for line in run.stdout or ():
            saying = SAID.match(line)
            if saying is None:
                print(line, end="", file=sys.stderr, flush=True)
            else:
                said[saying[1], saying[2]] = saying[3]
    return said


def try_plants(top: Path, crates: list[str]) -> int:
    """Has the prover try the plants of these crates, and prints what came of each."""
    plants = {crate: sorted((top / PLANTS / crate).glob("*.edit")) for crate in crates}
    count = sum(map(len, plants.values()))
    for crate, edits in plants.items():
        reasons = unappliable(top, edits, crate)
        tell_unappliable(top, reasons)
        plants[crate] = [edit for edit in edits if edit not in reasons]
    with tempfile.TemporaryDirectory() as room:
        make_copy(top, Path(room), plants)
        said = prover_says(Path(room), crates)
    passed = 0
    for crate, edits in plants.items():
        for edit in edits:
            words = said.get((crate, edit.stem), "the prover didn't try it")
            print(f"{edit.relative_to(top)}: {words}")
            passed += words.startswith("refused")
    return tell_counts(passed, count - passed)


def main(arguments: list[str]) -> int:
    parser = argparse.ArgumentParser(
        prog="try_plants.py", description=__doc__, formatter_class=argparse.RawDescriptionHelpFormatter
    )
    parser.add_argument("--apply-only", action="store_true", help="without the prover: whether each plant and each must-fail edit can be applied")
    parser.add_argument("crates", metavar="CRATE", nargs="*", help="a crate that has plants")
    asked = parser.parse_args(arguments)
    have_plants = folder_names(TOP / PLANTS)
    for name in asked.crates:
        if name not in have_plants:
            parser.error(f"{name} has no plants")
    if asked.apply_only:
        return apply_only(TOP, asked.crates or sorted(have_plants | folder_names(TOP / "crates")))
    if shutil.which("rt") is None:
        parser.error("rt, the command of the Rattle toolchain, is not on the PATH")
    return try_plants(TOP, asked.crates or sorted(have_plants))


if __name__ == "__main__":
    sys.exit(main(sys.argv[1:]))
