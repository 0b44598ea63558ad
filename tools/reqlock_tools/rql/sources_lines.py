"""Changes of files of lines."""

import re

from reqlock_tools.rql.sources_files import COMMENT, cut
from reqlock_tools.rql.sources_splice import Splice

ENDING = re.compile(r"\r?\n\Z")


def ending_of(line: str) -> str:
    ending = ENDING.search(line)
    return ending[0] if ending else ""


def changed_lines(text: str, splice: Splice) -> str:
    """A file with one requirement put in, taken out or exchanged. Comments and endings of lines stay."""
    lines = cut(text)
    if splice.old is not None and splice.place is not None:
        line = lines[splice.place]
        lines[splice.place : splice.place + 1] = [] if splice.new is None else [exchanged(line, splice.old, splice.new)]
        return "".join(lines)
    usual = next((ending for line in lines if (ending := ending_of(line))), "\n")
    new = f"{splice.new}{usual}"
    if splice.place is not None:
        return "".join([*lines[: splice.place], new, *lines[splice.place :]])
    if lines and not ending_of(lines[-1]):
        lines[-1] += usual
    return "".join([*lines, new])


def exchanged(line: str, old: str, new: str) -> str:
    """A line with another requirement, and its comment as it was."""
    whole = line.removesuffix(ending_of(line))
    bare = COMMENT.sub("", whole)
    return bare.replace(old, new, 1) + whole[len(bare) :] + ending_of(line)
