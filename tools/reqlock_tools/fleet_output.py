"""What a fleet prints: a table with counts and reasons, or JSON."""

import json
import re
from typing import Any

from reqlock_tools.fleet_row import KINDS, Row
from reqlock_tools.refusal import shown

HEAD = "folder", "reply", "changed, or why not"
# The number of a line, as `why --explain` tells it, and its comment.
COMMENT = re.compile(r" #.*?\)(?=[ .,;:]|$)")
NUMBER = re.compile(r"(?<=\bof )line [0-9]+\b|\bline [0-9]+(?=(?: as constrained)? (?:\(|allows ))")


def table_text(rows: list[Row]) -> str:
    cells = [HEAD, *((shown(row.folder), row.shown_reply(), shown(row.shown_change())) for row in rows)]
    first, second = (max(len(row[place]) for row in cells) for place in (0, 1))
    return "".join(f"{a:<{first}}  {b:<{second}}  {c}".rstrip() + "\n" for a, b, c in cells)


def counts_of(rows: list[Row]) -> dict[str, int]:
    return {kind: sum(row.kind == kind for row in rows) for kind in KINDS}


def counts_text(rows: list[Row]) -> str:
    counts = [f"{count} {KINDS[kind]}" for kind, count in counts_of(rows).items() if count]
    return f"{len(rows)} folder{'s' * (len(rows) != 1)}: {', '.join(counts)}\n"


def same_reason(text: str) -> str:
    """A reason without the numbers and comments of lines, and without the breaks, which these move."""
    return COMMENT.sub(")", NUMBER.sub("line", " ".join(text.split())))


def groups_of(rows: list[Row]) -> list[list[Row]]:
    """The rows without a solution, those with the same reason together: the largest group first."""
    groups: dict[str, list[Row]] = {}
    for row in rows:
        if row.reason:
            groups.setdefault(same_reason(row.reason), []).append(row)
    return sorted(groups.values(), key=lambda group: -len(group))


def group_text(group: list[Row]) -> str:
    names = ", ".join(shown(row.folder) for row in group)
    differ = len({" ".join(row.reason.split()) for row in group}) > 1
    note = f"  (lines as they stand in {shown(group[0].folder)})\n" if differ else ""
    lines = "".join(f"  {shown(line)}\n" for line in group[0].reason.splitlines())
    return f"no solution in {len(group)} folder{'s' * (len(group) > 1)}: {names}\n{note}{lines}"


def report_text(rows: list[Row]) -> str:
    parts = [table_text(rows), counts_text(rows), *map(group_text, groups_of(rows))]
    return "\n".join(parts)


def row_json(row: Row, reasons: dict[str, int]) -> dict[str, Any]:
    return {
        "folder": row.folder, "kind": row.kind, "reply": row.reply or None, "status": row.status, "lines": row.lines,
        "entries": [entry._asdict() for entry in row.entries], "index": row.index, "told": row.told,
        "reason": reasons.get(row.folder),
    } | ({"targets": row.targets} if row.targets else {})


def report_json(rows: list[Row]) -> str:
    groups = groups_of(rows)
    reasons = {row.folder: place for place, group in enumerate(groups) for row in group}
    report = {
        "counts": counts_of(rows), "folders": [row_json(row, reasons) for row in rows],
        "reasons": [{"folders": [row.folder for row in group], "text": group[0].reason} for group in groups],
    }
    return json.dumps(report, separators=(",", ":"), sort_keys=True).replace("\x7f", "\\u007f") + "\n"
