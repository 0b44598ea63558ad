"""What a requirements file, locks and a journal stand for: the rules of journals read plainly, for tests that ask what an answer must
be. It is written from the rules alone, so that it shares no mistake with the program. Journals are of version 1, 2 or 3.

`opens` answers ("ok", cursor, steps), ("files-disagree", FILE) or ("journal-broken", LINE), and `opens_in` also ("unreadable", FILE). `tells_in`
is what is told without the lines."""

import hashlib
import json
import re
from functools import lru_cache
from typing import NamedTuple

from support.rules.lock_tables import read_lock_table
from support.rules.requirements import TEXTS, Fault, marker_text, read_environment, read_lines, want
from support.rules.states import Change, State, Target, after, inverse, is_lock_for, is_minimal, is_state
from support.rules.values import is_rising, want_digest, want_entry, want_keys, want_list, want_name, want_number, want_text

REQUIREMENTS, JOURNAL = "requirements.txt", "reqlock.journal"
HEADER_KEYS = {
    1: {"cursor", "environment", "journal", "lock", "requirements", "steps"},
    2: {"cursor", "journal", "requirements", "steps", "targets"},
    3: {"cursor", "journal", "requirements", "steps", "targets"},
}
TARGET_KEYS = {"environment", "lock", "name"}


class HeaderTarget(NamedTuple):
    """A name, the texts of an environment, and the digest of a lock."""

    name: str
    environment: dict[str, str]
    lock: str


class Header(NamedTuple):
    """The version, the cursor, the digest of the requirements file, the count of steps, and the targets."""

    version: int
    cursor: int
    requirements: str
    steps: int
    targets: list[HeaderTarget]


def number(text):
    """A whole number as the journal's reader has it: one with a sign is no such number."""
    return float(text) if text.startswith("-") else int(text)


def members(pairs):
    """The members of an object, whose texts are all of whole characters. Of one key twice the last counts."""
    want(not re.search("[\ud800-\udfff]", json.dumps(pairs, ensure_ascii=False)), "whole characters")
    return dict(pairs)


def refuse(_):
    raise Fault("a number")


def read_json(line):
    try:
        value = json.loads(line.decode("utf-8"), object_pairs_hook=members, parse_int=number, parse_constant=refuse)
    except (ValueError, RecursionError):
        raise Fault("JSON") from None
    return value


def is_target_name(name):
    """Whether a target may have this name: none, or up to 32 small letters, digits and hyphens that begin with a letter."""
    return re.fullmatch(r"(?:[a-z][a-z0-9-]{0,31})?", name) is not None


def file_name(name):
    """The file of the lock of the target of this name."""
    return f"pylock.{name}.toml" if name else "pylock.toml"


def read_target(value, name):
    """The target of this name whose environment and lock stand in an object."""
    want_text(name)
    want(is_target_name(name), "a target's name")
    want_keys(value["environment"], TEXTS)
    want_digest(value["lock"])
    return HeaderTarget(name, read_environment(value["environment"]), value["lock"])


def read_targets(header):
    """The targets of a header, of which there are some: in version 1 the one that the header itself tells, whose name is empty."""
    if header["journal"] == 1:
        return [read_target(header, "")]
    want_list(header["targets"])
    for target in header["targets"]:
        want_keys(target, TARGET_KEYS)
    return [read_target(target, target["name"]) for target in header["targets"]]


def read_header(line):
    """The header of a line. The names of its targets rise."""
    header = read_json(line)
    want(isinstance(header, dict) and "journal" in header, "an object with a version")
    want_number(header["journal"])
    want(header["journal"] in HEADER_KEYS, "a version")
    want_keys(header, HEADER_KEYS[header["journal"]])
    want_number(header["steps"])
    want_number(header["cursor"])
    want(header["cursor"] <= header["steps"], "a cursor among the steps")
    want_digest(header["requirements"])
    targets = read_targets(header)
    want(targets and is_rising([target.name for target in targets]), "targets whose names rise")
    return Header(header["journal"], header["cursor"], header["requirements"], header["steps"], targets)


def parts(value, count):
    """The members of an array that has so many."""
    want(isinstance(value, list) and len(value) == count, "an array of that length")
    return value


def read_splice(value):
    place, old, new = parts(value, 3)
    want_number(place)
    for lines in old, new:
        want_list(lines)
        for line in lines:
            want_text(line)
    return place, old, new


def read_entry(value, version, targets):
    """The entry of an array, on one of these targets. Version 1 doesn't name the target; in version 3 it may be of any."""
    target, name, old, new = ["", *parts(value, 3)] if version == 1 else parts(value, 4)
    want_text(target)
    want(is_target_name(target) if version == 3 else target in targets, "a target of the header")
    want_name(name)
    for entry in old, new:
        if entry is not None:
            want_entry(name, entry)
    return target, name, old, new


def read_target_change(value):
    """The change of a target: its name, its old environment or none, and its new one or none."""
    name, *environments = parts(value, 3)
    want_text(name)
    want(is_target_name(name), "a target's name")
    for environment in environments:
        if environment is not None:
            want_keys(environment, TEXTS)
    return name, *[environment and read_environment(environment) for environment in environments]


def read_target_changes(step, version):
    """The changes of targets of a step, and its other keys. Where version 3 has the key `targets`, there are some."""
    if version < 3 or not isinstance(step, dict) or "targets" not in step:
        return [], step
    want_list(step["targets"])
    want(step["targets"], "changes of targets")
    return list(map(read_target_change, step["targets"])), {key: value for key, value in step.items() if key != "targets"}


def read_step(line, header):
    """The change of a step's line, which is minimal, in the form of the header's version."""
    return step_for(line, header.version, tuple(target.name for target in header.targets))


@lru_cache(2**10)
def step_for(line, version, names):
    """The same in a version, with targets of these names."""
    targets, step = read_target_changes(read_json(line), version)
    want_keys(step, ("entries", "lines", "snapshot"))
    want_list(step["lines"])
    want_list(step["entries"])
    digests = step["snapshot"]
    if digests is not None:
        for digest in parts(digests, 2):
            want_digest(digest)
    entries = [read_entry(value, version, names) for value in step["entries"]]
    change = Change(list(map(read_splice, step["lines"])), entries, digests and tuple(digests), targets)
    want(is_minimal(change), "a minimal change")
    return change


def read_or_none(read, data):
    try:
        return read(data)
    except Fault:
        return None


def whole_lines(data):
    """The lines of a journal, each with whether its LF is there."""
    pieces = data.split(b"\n")
    return [(piece, True) for piece in pieces[:-1]] + [(piece, False) for piece in pieces[-1:] if piece]


def line_at(lines, place, read):
    """What the line at a place, from 0, is read as; None where it isn't there whole or doesn't read."""
    return read_or_none(read, lines[place][0]) if place < len(lines) and lines[place][1] else None


def digest_of(data):
    return hashlib.sha256(data).hexdigest()


def read_steps(lines, header):
    """The changes of a journal's lines, or the number of its first faulty line."""
    count, changes = header.steps, []
    while len(changes) < count:
        change = line_at(lines, len(changes) + 1, lambda line: read_step(line, header))
        if change is None:
            return None, len(changes) + 2
        changes.append(change)
    return (None, count + 2) if len(lines) > count + 1 else (changes, None)


def walk(state, cursor, changes):
    """The number of the first line that doesn't lead to a state, from the cursor back and then on; None where each does."""
    back = [(place, inverse(changes[place])) for place in reversed(range(cursor))]
    on = [(place, changes[place]) for place in range(cursor, len(changes))]
    for steps in back, on:
        present = state
        for place, change in steps:
            present = after(present, change)
            if present is None or not is_state(present):
                return place + 2
    return None


def odd_lock(targets, locks):
    """The first name, by bytes, that isn't both a target's and a lock's, or whose lock has another digest than its target tells."""
    digests = {target.name: target.lock for target in targets}
    lock_digests = {name: digest_of(lock) for name, lock in locks.items()}
    return min((name for name in {*digests, *lock_digests} if digests.get(name) != lock_digests.get(name)), default=None)


def first_unfit(lines, targets, digests):
    """The first name whose lock isn't one for the lines, or has another digest of the index than the first one has."""
    first = next(iter(digests.values()))
    unfit = (name for name, target in targets.items() if digests[name] != first or not is_lock_for(lines, target))
    return next(unfit, None)


def read_locks(locks, header):
    """What the lock of each target is read as, by name, and None; or None and the first fault of them."""
    read = {target.name: read_or_none(read_lock_table, locks[target.name]) for target in header.targets}
    unread = [name for name, lock in read.items() if lock is None]
    if unread:
        return None, ("files-disagree", file_name(unread[0]))
    if any(read[target.name][0] != marker_text(target.environment) for target in header.targets):
        return None, ("journal-broken", 1)
    return read, None


def present_state(requirements, locks, header):
    """The state of the files, and None; or None and the first fault of them beside the header."""
    if digest_of(requirements) != header.requirements:
        return None, ("files-disagree", REQUIREMENTS)
    odd = odd_lock(header.targets, locks)
    if odd is not None:
        return None, ("files-disagree", file_name(odd))
    lines = read_or_none(read_lines, requirements)
    if lines is None:
        return None, ("files-disagree", REQUIREMENTS)
    read, fault = read_locks(locks, header)
    if fault is not None:
        return None, fault
    targets = {target.name: Target(target.environment, read[target.name][2]) for target in header.targets}
    digests = {name: digest for name, (_, digest, _) in read.items()}
    unfit = first_unfit(lines, targets, digests)
    if unfit is not None:
        return None, ("files-disagree", file_name(unfit))
    return State(lines, digests[header.targets[0].name], targets), None


def opens(requirements, locks, journal):
    """What the bytes of a requirements file, of locks by the names of targets, and of a journal stand for: the first fault, or the
    cursor and the count of steps."""
    lines = whole_lines(journal)
    header = line_at(lines, 0, read_header)
    if header is None:
        return "journal-broken", 1
    state, fault = present_state(requirements, locks, header)
    if fault is not None:
        return fault
    changes, broken = read_steps(lines, header)
    if broken is None:
        broken = walk(state, header.cursor, changes)
    return ("ok", header.cursor, header.steps) if broken is None else ("journal-broken", broken)


def tells_in(files):
    """What the journal of a folder and the locks that it names tell, whatever the requirements file holds: the cursor and the count of steps;
    None where one of them is at fault. That the steps lead somewhere isn't asked."""
    lines = whole_lines(files[JOURNAL])
    header = line_at(lines, 0, read_header)
    if header is None:
        return None
    locks = {target.name: files[file_name(target.name)] for target in header.targets}
    if odd_lock(header.targets, locks) is not None or read_locks(locks, header)[0] is None or read_steps(lines, header)[0] is None:
        return None
    return header.cursor, header.steps


def opens_in(files):
    """What the files of a folder stand for, by their names: of the requirements file, the journal, and the locks that its header
    names the first that isn't there, or what `opens` answers. Where there is no header no lock is read."""
    unread = [name for name in (REQUIREMENTS, JOURNAL) if name not in files]
    header = None if unread else line_at(whole_lines(files[JOURNAL]), 0, read_header)
    names = [target.name for target in header.targets] if header else []
    unread += [file_name(name) for name in names if file_name(name) not in files]
    if unread:
        return "unreadable", unread[0]
    return opens(files[REQUIREMENTS], {name: files[file_name(name)] for name in names}, files[JOURNAL])
