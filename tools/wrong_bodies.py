"""Wrong bodies, which the prover must refuse. Each is an edit of a crate: the gate tries those in crates/NAME/must-fail, and
tools/try_plants.py those in plants/NAME.

An edit has a line `file: PATH`, a path in the crate, and then pairs of lines `old: TEXT` and `new: TEXT`. Each old text stands exactly once
in that file, as the pairs before have left it. A further `file:` line goes on in another file.
"""

from pathlib import Path

PLANTS = "plants"
MUST_FAIL = "must-fail"


class Unappliable(Exception):
    """Why an edit can't be applied to its crate."""


def folder_names(folder: Path) -> set[str]:
    """The names of the folders in a folder."""
    return {path.name for path in folder.iterdir() if path.is_dir()}


def edits_of(top: Path, crate: str) -> list[Path]:
    """The edits of a crate of this repository: those that the gate tries, then its plants."""
    folders = top / "crates" / crate / MUST_FAIL, top / PLANTS / crate
    return [edit for folder in folders for edit in sorted(folder.glob("*.edit"))]


def edited_files(edit: Path, crate: Path) -> dict[str, str]:
    """The text of each file that an edit changes, by its path in the crate's folder; raises `Unappliable`."""
    path, old, texts = "", "", dict[str, str]()
    for line in edit.read_text(encoding="utf-8").split("\n"):
        word, _, text = line.partition(":")
        text = text.removeprefix(" ")
        if word == "file":
            path = text
            texts.setdefault(path, source_of(crate, path))
        elif word == "old" and path:
            old = text
        elif word == "new" and old:
            texts[path] = replaced_once(texts[path], old, text, path)
            old = ""
        elif line:
            raise Unappliable(f"a line is out of place: {line}")
    if old or not texts or all(text == source_of(crate, path) for path, text in texts.items()):
        raise Unappliable("it changes nothing")
    return texts


def source_of(crate: Path, path: str) -> str:
    """The text of a file that an edit names."""
    if not path.startswith(("src/", "specs/", "proofs/")) or not (crate / path).is_file():
        raise Unappliable(f"the crate has no file {path}")
    return (crate / path).read_text(encoding="utf-8")


def replaced_once(text: str, old: str, new: str, path: str) -> str:
    """The text of this file with `new` in the place of `old`."""
    count = text.count(old)
    if count != 1:
        raise Unappliable(f"its old text stands {count} times in {path}: {old}")
    return text.replace(old, new)
