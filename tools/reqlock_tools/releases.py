"""A release of a snapshot, of what is told of it and of its files."""

from collections.abc import Callable
from typing import Any

from reqlock_tools.index_documents import Document, File
from reqlock_tools.refusal import Say

Release = dict[str, Any]


def without(files: list[File], is_out: Callable[[File], bool], why: str, say_of: Say) -> list[File]:
    """The files without those that are out, which are named."""
    names = [file.name for file in files if is_out(file)]
    if names:
        say_of(f"left out, {why}: {', '.join(names)}")
    return [file for file in files if not is_out(file)]


def kept_files(files: list[File], yanked: bool, say_of: Say) -> tuple[list[File], bool]:
    """The files that a lock can take, and whether the release is yanked, as it is where all its files are."""

    def is_yanked(file: File) -> bool:
        return yanked if file.yanked is None else file.yanked

    def lacks_a_part(file: File) -> bool:
        return file.size is None or file.sha256 is None

    yanked_whole = all(map(is_yanked, files)) if files else yanked
    if not yanked_whole:
        files = without(files, is_yanked, "as they are yanked and others aren't", say_of)
    return without(files, lacks_a_part, "for want of a size or sha256", say_of), yanked_whole


def common_python(told: list[str | None], say_of: Say) -> str | None:
    """What the release and all its files together ask of the Python."""
    texts = list(dict.fromkeys(text for text in told if text and text.strip(" \t")))
    if len(texts) <= 1:
        return texts[0] if texts else None
    joined = ",".join(text.strip(" \t").rstrip(",") for text in texts)
    say_of(f"its files differ in requires_python, so {joined} is taken")
    return joined


def snapshot_release(version: str, own: Document | None, files: list[File], say_of: Say) -> Release:
    """The release as the snapshot has it. Its requires_dist is None where no document tells it."""
    kept, yanked = kept_files(files, bool(own and own.yanked), say_of)
    texts = [own.requires_python if own else None, *(file.requires_python for file in kept)]
    return {
        "version": version,
        "requires_python": common_python(texts, say_of),
        "requires_dist": own.requires_dist if own else None,
        "yanked": yanked,
        "files": [{"name": file.name, "url": file.url, "size": file.size, "sha256": file.sha256} for file in kept],
    }
