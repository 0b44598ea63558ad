"""What the answer of a folder means: its reply, what changed, and what to do next where the folder is broken."""

import re
import shlex
from dataclasses import dataclass, field
from typing import NamedTuple

from reqlock_tools.fleet_call import NO_PROGRAM, Answer, Told
from reqlock_tools.fleet_request import Task

# The kinds of rows, with what is told of their number.
OK, SAME, ABSENT, REFUSED, BROKEN, WAITING = "ok", "same", "absent", "refused", "broken", "not-begun"
KINDS = {
    OK: "ok", SAME: "the same", ABSENT: "without such a line", REFUSED: "refused", BROKEN: "broken", WAITING: "not begun",
}
# The refusals of a folder that doesn't have what is asked about, as the table tells them.
ABSENCES = {"refused not-present": "no such line", "refused not-locked": "not locked"}
REPLY = re.compile(r"ok [0-9]+|same|refused [a-z-]+|current|stale")
LINE = re.compile(r"[-+] [0-9]+: .*|\\ no line ending")
INDEX = re.compile(r"[-+] index: [0-9a-f]{64}")
MOVED = re.compile(r"(\S+) (\S+) -> (\S+)(?: \([a-z-]+(?:, [a-z-]+)*\))?")
CAME = re.compile(r"([-+]) (\S+) (\S+)")
# What became of a target, and how many entries came or went with it.
TARGET = re.compile(r"[-+] target(?: [a-z][a-z0-9-]*)?|target(?: [a-z][a-z0-9-]*)?: [a-z_]+ .* -> .*")
COUNT = re.compile(r"[-+] [0-9]+ entr(?:y|ies)")
MOST_SHOWN = 3
# The status of words that are no request, or ask for a place that a history hasn't.
NO_REQUEST = 2


class Entry(NamedTuple):
    """A locked entry that changed; a version that isn't there is None."""

    target: str
    name: str
    old: str | None
    new: str | None

    def told(self) -> str:
        name = f"{self.target}: {self.name}" if self.target else self.name
        if self.old is None:
            return f"+ {name} {self.new}"
        return f"{name} {self.old} -> {self.new}" if self.new else f"- {name} {self.old}"


@dataclass(frozen=True)
class Row:
    """What came of a folder. Of a call that wasn't made the status is None."""

    folder: str
    kind: str
    reply: str
    status: int | None
    lines: list[str] = field(default_factory=list)
    entries: list[Entry] = field(default_factory=list)
    index: bool = False
    told: str = ""
    reason: str = ""
    targets: list[str] = field(default_factory=list)

    def shown_reply(self) -> str:
        return ABSENCES.get(self.reply, self.reply) if self.kind not in (BROKEN, WAITING) else KINDS[self.kind]

    def shown_change(self) -> str:
        """What changed, in short: some targets and entries, or else the number of lines; or what is known of a refusal."""
        if self.told and self.kind in (REFUSED, BROKEN, WAITING):
            return self.told
        entries = [*self.targets, *(entry.told() for entry in self.entries)][:MOST_SHOWN]
        more = len(self.targets) + len(self.entries) - MOST_SHOWN
        if more > 0:
            entries.append(f"{more} more")
        count = max(sum(line.startswith(sign) for line in self.lines) for sign in "+-")
        lines = [f"{count} line{'s' * (count > 1)}"] if count else []
        return ", ".join(entries or lines or ["another index"] * self.index)


def read_changes(text: str) -> tuple[list[str], list[Entry], bool, list[str], list[str]]:
    """What the lines of a difference tell: lines of the file, entries, whether the index is another one; the other lines; and targets."""
    lines: list[str] = []
    targets: list[str] = []
    entries: list[Entry] = []
    others: list[str] = []
    target, is_other = "", False
    for line in text.splitlines():
        came, moved = CAME.fullmatch(line), MOVED.fullmatch(line)
        if LINE.fullmatch(line):
            lines.append(line)
        elif INDEX.fullmatch(line):
            is_other = True
        elif TARGET.fullmatch(line):
            targets.append(line)
        elif COUNT.fullmatch(line):
            continue
        elif came:
            versions = (None, came[3]) if came[1] == "+" else (came[3], None)
            entries.append(Entry(target, came[2], *versions))
        elif moved:
            entries.append(Entry(target, moved[1], moved[2], moved[3]))
        elif re.fullmatch("target [a-z][a-z0-9-]*", line):
            target = line.removeprefix("target ")
        elif line:
            others.append(line)
    return lines, entries, is_other, others, targets


def kind_of(reply: str) -> str:
    if reply in ABSENCES:
        return ABSENT
    if reply == SAME:
        return SAME
    return REFUSED if reply == "stale" or reply.startswith("refused") else OK


def row_of(task: Task, answer: Answer) -> Row:
    status, output, errors, lack, why = answer
    reply, _, rest = output.partition("\n")
    if status == NO_REQUEST:  # (of words that the program knows: this folder can't have what they ask for)
        return Row(task.folder, REFUSED, "refused", status, told=call_fault(answer[:3]))
    if status not in (0, 1, 3) or not REPLY.fullmatch(reply):
        return broken_row(task, status, fault_text(task, answer))
    lines, entries, is_other, others, targets = read_changes(rest + errors)
    told = "; ".join(others)
    reason = ""
    if why is not None:
        reason = reason_of(why)
        if not reason:
            return broken_row(task, why[0], f"{reply}, and why there is none wasn't told: {call_fault(why)}")
    return Row(task.folder, kind_of(reply), reply, status, lines, entries, is_other, told, reason, targets)


def broken_row(task: Task, status: int | None, told: str) -> Row:
    return Row(task.folder, BROKEN, "", status, told=told)


def waiting_row(task: Task, told: str) -> Row:
    return Row(task.folder, WAITING, "", None, told=told)


def reason_of(why: Told) -> str:
    """Why there is no solution, in sentences; empty where that wasn't answered."""
    return why[1].rstrip("\n") if why[0] == 3 else ""


def call_fault(told: Told) -> str:
    """The first line of what is wrong; a call in the folder itself tells what is known of it."""
    status, output, errors = told
    if status < 0:
        return f"signal {-status} ended the call"
    return errors.strip().partition("\n")[0].removeprefix("reqlock: ") or output.strip() or f"status {status}"


def folder_call(task: Task, words: str) -> str:
    """A call that a reader can type, with the folder as it was given."""
    return f"reqlock --dir {shlex.quote(task.folder)} {words}"


def fault_text(task: Task, answer: Answer) -> str:
    """What is wrong with a folder, and what to do next."""
    status, _, _, lack, _ = answer
    fault = call_fault(answer[:3])
    if lack == "folder":
        return "there is no such folder"
    if lack == "no folder":
        return "it is no folder"
    if lack == "requirements.txt":
        return "there is no requirements.txt: is it a folder of reqlock?"
    if lack and not task.begins:
        return f"there is no history: {folder_call(task, 'init')} begins one, with --index and --env"
    if status < 0:
        return f"{fault}: {folder_call(task, 'check')} tells whether the files are whole"
    if fault == "out of memory":
        return f"{fault}: give fewer --jobs; nothing has changed"
    if status == NO_PROGRAM:
        return fault
    return f"{fault}: {folder_call(task, 'check')} tells more"


def fault_row(task: Task, fault: str) -> Row:
    """The row of a call that failed at a worker."""
    return broken_row(task, None, f"{fault}: {folder_call(task, 'check')} tells whether the files are whole")
