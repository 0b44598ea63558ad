"""The rows of crates/conformance with their answers, and the texts in them. The README.md there says how they are written."""

import re
import sys
from collections.abc import Iterable, Iterator
from pathlib import Path
from typing import Any

# A row with its answer.
Row = tuple[str, str]

CRATE = Path(__file__).resolve().parent.parent / "crates" / "conformance"

MARKS = {"\\": "\\\\", "\n": "\\n", "\r": "\\r", "\t": "\\t"}
MEANT = {"n": "\n", "r": "\r", "t": "\t", "s": " ", "e": "", "c": "}", "\\": "\\"}
MARK = re.compile(r"\\(?:([nrtsec\\])|(#)|u\{([0-9a-f]+)\})")
REPETITION = re.compile(r"\\\{(?:([0-9]+)\.\.)?([0-9]+)\*([^}]*)\}")


def written(text: str) -> str:
    """A text as a row has it, in printable ASCII."""
    letters = [MARKS.get(c) or (c if " " <= c <= "~" else f"\\u{{{ord(c):x}}}") for c in text]
    for place in {0, len(text) - 1} if text else ():
        letters[place] = "\\s" if text[place] == " " else letters[place]
    row = "".join(letters) or "\\e"
    if " | " in row or expanded(row) != text:
        sys.exit(f"conformance_rows: {text!r} can't be written")
    return row


def expanded(row: str) -> str:
    """The text that a row writes so."""
    parts = REPETITION.split(row)
    text = plain(parts[0], 0)
    for first, end, repeated, behind in zip(parts[1::4], parts[2::4], parts[3::4], parts[4::4]):
        text += "".join(plain(repeated, number) for number in range(int(first or 0), int(end))) + plain(behind, 0)
    return text


def plain(row: str, number: int) -> str:
    """A text with no repetition, in the round of this number."""
    return MARK.sub(lambda mark: str(number) if mark[2] else chr(int(mark[3], 16)) if mark[3] else MEANT[mark[1]], row)


def row_of(kind: str, *texts: str) -> str:
    return " | ".join([kind, *map(written, texts)])


def told(version: Any) -> str:
    """What one of packaging's versions is told as: its canonical text, and whether it is a pre-release and a post-release."""
    return f"{version}{' pre' * version.is_prerelease}{' post' * version.is_postrelease}"


def end_of(tool: str) -> str:
    """The line behind what a tool prints."""
    return f"# The end of what tools/{tool} prints."


def print_rows(tool: str, rows: Iterable[Row]) -> None:
    """Prints the rows, pairs of a row and its answer, or the answers, as the word of the command line asks. A headline is its own
    answer."""
    if sys.argv[1:] not in (["rows"], ["answers"]):
        sys.exit(f"{tool}: the word rows or answers is needed")
    for row, answer in [*rows, (end_of(tool), end_of(tool))]:
        print(row if sys.argv[1] == "rows" else answer)


def headlines(*lines: str) -> list[Row]:
    return [(f"# {line}" if line else "", f"# {line}" if line else "") for line in lines]


def lines_with_answers() -> tuple[list[str], list[str]]:
    """The lines of the crate's rows, and the answer at each, headlines among them."""
    rows, told = ((CRATE / name).read_text(encoding="ascii").splitlines() for name in ("stdin", "stdout"))
    return rows, told[: len(rows)]


def behind_answers() -> str:
    """What the crate's program tells behind its answers."""
    rows, told = ((CRATE / name).read_text(encoding="ascii").splitlines(keepends=True) for name in ("stdin", "stdout"))
    return "".join(told[len(rows) :])


def printed_lines(tool: str) -> tuple[list[str], list[str]]:
    """The rows and the answers that the crate's files have of a tool, headlines among them."""
    rows, answers = lines_with_answers()
    first = next(place for place, line in enumerate(rows) if line.startswith("#") and f" tools/{tool}." in line)
    behind = rows.index(end_of(tool)) + 1
    return rows[first:behind], answers[first:behind]


def printed_rows(tool: str) -> Iterator[tuple[str, list[str], str]]:
    """The kind, the texts and the answer of each row that the crate's files have of a tool."""
    for row, answer in zip(*printed_lines(tool)):
        if row and not row.startswith("#"):
            kind, *texts = row.split(" | ")
            yield kind, list(map(expanded, texts)), answer
