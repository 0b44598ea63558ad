#!/usr/bin/env python3
"""Makes the pictures of pages anew: of what commands show that are called for it, in folders that go again. The program must be built.

  pictures.py [NAME ..]          makes these, or all of them, and names those that are new
  pictures.py --check [NAME ..]  writes nothing, names those that are another, and ends with the status 1 where there are some
"""

import argparse
import sys
import tempfile
from collections.abc import Callable
from pathlib import Path

from picture_makers import lock, merge, session, sync
from picture_makers.terminal import PROGRAM, TOP

# The file of each picture, and what makes it in an empty folder.
PICTURES: dict[str, tuple[str, Callable[[Path], str]]] = {
    "session": ("share/session.svg", session.picture), "lock": ("docs/lock.svg", lock.picture), "merge": ("docs/merge.svg", merge.picture),
    "sync": ("docs/sync.svg", sync.picture),
}


def made(name: str) -> str:
    """The picture of this name, made anew."""
    with tempfile.TemporaryDirectory() as folder:
        return PICTURES[name][1](Path(folder).resolve())


def main() -> int:
    parser = argparse.ArgumentParser(description=__doc__, formatter_class=argparse.RawDescriptionHelpFormatter)
    parser.add_argument("names", metavar="NAME", nargs="*", help=f"a picture: {', '.join(PICTURES)}")
    parser.add_argument("--check", action="store_true", help="write nothing; the status is 1 where a picture is another")
    options = parser.parse_args()
    if unknown := [name for name in options.names if name not in PICTURES]:
        parser.error(f"there is no picture {unknown[0]}")
    if not PROGRAM.is_file():
        print("pictures.py: crates/reqlock/out/reqlock isn't there: build the program first, by ./demo --proved", file=sys.stderr)
        return 1
    has_others = False
    for name in options.names or PICTURES:
        text, path = made(name), TOP / PICTURES[name][0]
        if not path.is_file() or path.read_text(encoding="utf-8") != text:
            has_others = True
            print(f"{PICTURES[name][0]}: {'it is another' if options.check else 'made'}")
            if not options.check:
                path.write_text(text, encoding="utf-8")
    return 1 if options.check and has_others else 0


if __name__ == "__main__":
    sys.exit(main())
