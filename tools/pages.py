#!/usr/bin/env python3
"""Makes the manual pages and the completions of reqlock, of rql and of each tool, and the tables of docs/REFERENCE.md, of what the help of
each says. The program is asked for its own, so it must be built.

  pages.py          writes them, and names those that are new
  pages.py --check  writes nothing, names those that are another, and ends with the status 1 where there are some
"""

import argparse
import sys
from collections.abc import Iterator
from functools import partial
from pathlib import Path

from page_makers import tables
from page_makers.bash import bash
from page_makers.command import Command
from page_makers.fish import fish
from page_makers.manual import manual
from page_makers.parser_help import rql_command, tool_command
from page_makers.program_help import needed, program_command
from page_makers.zsh import zsh
from reqlock_tools.names import COMMANDS

TOP = Path(__file__).resolve().parent.parent
PROGRAM = TOP / "crates" / "reqlock" / "out" / "reqlock"
REFERENCE = "docs/REFERENCE.md"


def files_of(command: Command, page: str) -> Iterator[tuple[str, str]]:
    """The files of a command below share/, of which the manual page is made of a template."""
    yield f"share/man/{command.name}.1", manual(command, page)
    yield f"share/bash/{command.name}", bash(command)
    yield f"share/zsh/_{command.name}", zsh(command)
    yield f"share/fish/{command.name}.fish", fish(command)


def tool_files() -> Iterator[tuple[str, str]]:
    """What is made of the parsers in Python: the path of each file, and its text."""
    for module, name in COMMANDS.items():
        if name == "rql":
            yield from files_of(rql_command(), "rql.1")
        else:
            yield from files_of(tool_command(module, name), "tool.1")


def program_files() -> Iterator[tuple[str, str]]:
    """The same of what the program prints."""
    reqlock = program_command(PROGRAM)
    yield from files_of(reqlock, "reqlock.1")
    made = {
        "options": tables.options(reqlock), "subcommands": tables.subcommands(reqlock, partial(needed, PROGRAM)),
        "options of subcommands": tables.own_options(reqlock),
    }
    yield REFERENCE, tables.put((TOP / REFERENCE).read_text(encoding="utf-8"), made)


def is_another(name: str, text: str) -> bool:
    """Whether this isn't what stands there."""
    return not (TOP / name).is_file() or (TOP / name).read_text(encoding="utf-8") != text


def main() -> int:
    parser = argparse.ArgumentParser(description=__doc__, formatter_class=argparse.RawDescriptionHelpFormatter)
    parser.add_argument("--check", action="store_true", help="write nothing; the status is 1 where a file is another")
    options = parser.parse_args()
    if not PROGRAM.is_file():
        print("pages.py: crates/reqlock/out/reqlock isn't there: build the program first, by ./demo --proved", file=sys.stderr)
        return 1
    others = [(name, text) for name, text in (*program_files(), *tool_files()) if is_another(name, text)]
    for name, text in others:
        if not options.check:
            (TOP / name).parent.mkdir(parents=True, exist_ok=True)
            (TOP / name).write_text(text, encoding="utf-8")
        print(f"{name}: {'it is another' if options.check else 'made'}")
    return 1 if options.check and others else 0


if __name__ == "__main__":
    sys.exit(main())
