"""What snapshot.py writes: its lines on standard error, and the snapshot."""

import json
import os
import sys
from typing import Any, NamedTuple

from reqlock_tools.files import is_own, usual_mode, write_whole
from reqlock_tools.refusal import Refusal, speaker

ENCODER = json.JSONEncoder(ensure_ascii=False, separators=(",", ":"))
Packages = dict[str, dict[str, Any]]
Made = dict[str, Any]

say = speaker("snapshot")


class Snapshot(NamedTuple):
    """The packages by normal name, and how they were made; None where nothing tells it."""

    packages: Packages
    made: Made | None


def plural(count: int, noun: str) -> str:
    return f"{count} {noun}" + ("" if count == 1 else "s")


def compact(value: object) -> str:
    return ENCODER.encode(value)


def made_text(made: Made) -> str:
    """How a snapshot was made, with a line for each key, and for each thing that was left out."""
    left = ",\n".join(map(compact, made["left"]))
    lines = [f'"{key}":{compact(value)}' for key, value in made.items() if key != "left"]
    return "{\n" + ",\n".join([*lines, f'"left":[{left}]']) + "}"


def snapshot_text(snapshot: Snapshot) -> str:
    """The snapshot, with a line for each release."""
    texts = []
    for package in snapshot.packages.values():
        releases = ",\n".join(map(compact, package["releases"]))
        texts.append(f'{{"name":{compact(package["name"])},"releases":[\n{releases}]}}')
    made = "" if snapshot.made is None else f'"made":{made_text(snapshot.made)},'
    return f'{{"snapshot":1,{made}"packages":[\n' + ",\n".join(texts) + "]}\n"


def refuse_place(output: str | None) -> None:
    """Refuses, before anything is read, a place where no file can come to stand."""
    if output is not None and os.path.isdir(output):
        raise Refusal(f"{output}: it is a folder; --output names a file")
    if output is not None and not os.path.isdir(os.path.dirname(os.path.realpath(output))):
        raise Refusal(f"{output}: the folder for it isn't there")
    if output is not None and os.path.islink(output):
        owner, folder = os.lstat(output).st_uid, os.stat(os.path.dirname(output) or ".")
        if not is_own(os.lstat(output)) and owner != folder.st_uid:
            raise Refusal(f"{output}: a link of another user stands there")


def write_snapshot(snapshot: Snapshot, output: str | None) -> None:
    """Writes the snapshot to a file, whole or not at all, or to standard output where none is named."""
    data = snapshot_text(snapshot).encode()
    if output is None:
        sys.stdout.buffer.write(data)
        sys.stdout.buffer.flush()
    elif os.path.exists(output) and not os.path.isfile(output):
        with open(output, "wb") as file:
            file.write(data)
    else:
        write_whole(os.path.realpath(output), data, usual_mode())
