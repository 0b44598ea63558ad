"""`rql fleet show NAME`: which version of a package is locked in which folder."""

import argparse
import os
from collections.abc import Iterator, Sequence
from pathlib import Path

from reqlock_tools.merge_sides import lock_name, read_journal
from reqlock_tools.refusal import Refusal, fault_text, shown, speaker
from reqlock_tools.requirements import Need, need_of
from reqlock_tools.rql.calls import typed_path
from reqlock_tools.rql.faults import FOUND, SettingsFault
from reqlock_tools.rql.history import content
from reqlock_tools.rql.project import JOURNAL
from reqlock_tools.simple.bounds import clauses_of
from reqlock_tools.simple.locked import locked_versions
from reqlock_tools.specifiers import Clause, matches

# Folders below which no project is looked for.
PASSED_OVER = "node_modules", "__pycache__"
HEAD = "folder", "target", "version"

say = speaker("rql")


def parser_of() -> argparse.ArgumentParser:
    parser = argparse.ArgumentParser(
        prog="rql fleet show", description="Print which version of a package is locked in which folder.", allow_abbrev=False
    )
    parser.add_argument("name", metavar="NAME", help="a package, or with specifiers those versions alone, as 'urllib3<2'")
    parser.add_argument("folders", metavar="FOLDER", nargs="*", help="a folder with a history; else all below this one")
    return parser


def run_table(words: Sequence[str]) -> int:
    """Prints the table. The status is 1 where a folder can't be read."""
    options = parser_of().parse_args(list(words))
    need, clauses = need_of(options.name), clauses_of(options.name)
    if need is None or clauses is None:
        raise SettingsFault(f"{options.name!a}: it is no name, and no name with specifiers")
    rows, is_whole = list[tuple[str, str, str]](), True
    for folder in map(Path, options.folders) if options.folders else folders_below(Path(".")):
        try:
            rows += rows_of(folder, need, clauses)
        except (Refusal, OSError) as fault:
            say(f"{folder}: {fault_text(fault)}")
            is_whole = False
    print_table(rows)
    return 0 if is_whole else FOUND


def folders_below(top: Path) -> Iterator[Path]:
    """The folders with a history, in order. Links and hidden folders are passed over."""
    for place, names, files in os.walk(top):
        names[:] = sorted(name for name in names if name not in PASSED_OVER and not name.startswith("."))
        if JOURNAL in files:
            yield Path(place)


def rows_of(folder: Path, need: Need, clauses: Sequence[Clause]) -> Iterator[tuple[str, str, str]]:
    """A row for each target of a folder that has the package locked in one of these versions."""
    data = content(folder / JOURNAL)
    journal = read_journal(JOURNAL, data)
    for target in sorted(journal.locks):
        versions = locked_versions([str(folder / lock_name(target))]).get(need.name, set())
        for version in sorted(version for version in versions if matches(clauses, version)):
            yield typed_path(folder), target or "-", str(version)


def print_table(rows: Sequence[tuple[str, str, str]]) -> None:
    """Prints rows below a head; nothing where there are none."""
    if not rows:
        return
    table = [HEAD, *(tuple(map(shown, row)) for row in rows)]
    widths = [max(len(row[place]) for row in table) for place in range(len(HEAD))]
    for row in table:
        print("  ".join(f"{text:<{width}}" for text, width in zip(row, widths)).rstrip())
