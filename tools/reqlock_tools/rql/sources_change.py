"""Changes of sources: what an edit, an undo or a redo makes of the files in which the lines stand. Each file is the same to the byte but for
the requirements that are changed, or nothing is."""

import difflib
import re
import shlex
from collections.abc import Mapping, Sequence
from dataclasses import dataclass
from pathlib import Path

from reqlock_tools.files import write_whole
from reqlock_tools.requirements import need_of
from reqlock_tools.rql.faults import SettingsFault
from reqlock_tools.rql.sources import Gathered, gathered, told_lines
from reqlock_tools.rql.sources_lines import changed_lines
from reqlock_tools.rql.sources_read import Files, Line, Section, checked
from reqlock_tools.rql.sources_splice import Splice
from reqlock_tools.rql.sources_toml import changed_array
from reqlock_tools.rql.texts import name_in
from reqlock_tools.versions import is_name, normal, read_version

BEGINNING = re.compile(r"[A-Za-z0-9._-]+(?:[ \t]*\[[^\]]*\])?")
MODE = 0o644


@dataclass(frozen=True)
class Change:
    """What files are to hold, and the lines that are gathered of them then. Nothing is written yet."""

    files: Mapping[Path, bytes]
    data: bytes

    def write(self) -> None:
        """Writes each file whole. Those that stand there keep their rights."""
        for path, data in self.files.items():
            write_whole(str(path), data, MODE)


class Sources:
    """The sources of a project. `top` is the top of its checkout, `base` the folder of its settings."""

    def __init__(self, top: Path, base: Path, sources: Sequence[str]) -> None:
        self.top, self.base, self.sources = top, base, sources
        self.present = gathered(top, base, sources)

    # What edits make of them

    def edited(self, word: str, texts: Sequence[str]) -> Change:
        """What an edit makes of the sources: add, remove or set of several texts, or constrain of a name with specifiers."""
        change = Change({}, self.present.data)
        for one in [texts] if word == "constrain" else [[text] for text in texts]:
            now = gathered(self.top, self.base, self.sources, change.files)
            change = self.changed(change, self.splice_of(now, word, one))
        return change

    def splice_of(self, now: Gathered, word: str, texts: Sequence[str]) -> Splice:
        if word == "add":
            return self.added(now, texts[0])
        if word == "remove":
            line = only_line(now, texts[0])
            return Splice(line.section, line.place, line.text, None)
        if word == "set":
            text = checked_word(texts[0])
            line = only_line(now, name_in(text))
            return Splice(line.section, line.place, line.text, text)
        line = only_line(now, texts[0])
        return Splice(line.section, line.place, line.text, constrained(line.text, texts[1] if len(texts) > 1 else ""))

    def added(self, now: Gathered, text: str) -> Splice:
        """A line is added to the first source, behind the others."""
        text = checked_word(text)
        there = lines_of(now, name_in(text))
        if there:
            call = shlex.join(["rql", "set", text])
            raise SettingsFault(f"{text!a}: {there[0].where} has a line of this name already: {call} puts this in its place")
        return Splice(self.first_section(), None, None, text)

    def first_section(self) -> Section:
        """The list of the first source, which may be empty."""
        return self.present.sections[0]

    def changed(self, so_far: Change, *splices: Splice) -> Change:
        """The files with some changes. What then is gathered is what they must lead to."""
        files = dict(so_far.files)
        reader = Files(self.top, self.base, files)
        for splice in splices:
            data = reader.text(splice.section.path, splice.section.label)
            new = changed_array(data, splice) if splice.section.keys else changed_lines(data, splice)
            files[splice.section.path] = new.encode()
            reader.changed = files
        return Change(files, gathered(self.top, self.base, self.sources, files).data)

    # What undo and redo make of them

    def followed(self, data: bytes) -> Change:
        """What makes the sources have the lines that an undo or a redo leads to. Where nothing can, it is refused."""
        change = Change({}, self.present.data)
        wanted: dict[str, list[str]] = {}
        for text, label in told_lines(data, "requirements.txt"):
            wanted.setdefault(label, []).append(text)
        lists: dict[Section, list[Line]] = {section: [] for section in self.present.sections}
        for line in self.present.lines:
            lists[line.section].append(line)
        for section, lines in lists.items():
            change = self.changed(change, *splices_to(section, lines, wanted.get(section.label, [])))
        if change.data != data:
            raise SettingsFault("the sources as they are now can't have the lines from there, so nothing is changed: change them, and then rql lock")
        return change


def splices_to(section: Section, lines: Sequence[Line], wanted: Sequence[str]) -> list[Splice]:
    """What makes of the lines of a list those that are wanted, from the last on, so that the places of earlier ones stay as they are."""
    splices: list[Splice] = []
    matcher = difflib.SequenceMatcher(None, [line.text for line in lines], wanted, autojunk=False)
    for kind, begin, end, new_begin, new_end in reversed(matcher.get_opcodes()):
        if kind != "equal":
            behind = lines[end].place if end < len(lines) else None
            splices += splices_of(section, lines[begin:end], wanted[new_begin:new_end], behind)
    return splices


def splices_of(section: Section, old: Sequence[Line], new: Sequence[str], behind: int | None) -> list[Splice]:
    """What puts texts in the place of lines that stand together, in front of the item `behind` or at the end."""
    both = min(len(old), len(new))
    more = new[both:] if behind is None else new[both:][::-1]
    splices = [Splice(section, behind, None, text) for text in more]
    splices += [Splice(section, line.place, line.text, None) for line in reversed(old[both:])]
    return splices + [Splice(section, line.place, line.text, text) for line, text in zip(old, new)]


def lines_of(now: Gathered, name: str) -> list[Line]:
    """The lines on a name."""
    return [line for line in now.lines if (need := need_of(line.text)) is not None and need.name == normal(name)]


def only_line(now: Gathered, name: str) -> Line:
    """The one line on a name. None and several are refused with their places."""
    if not is_name(name):
        raise SettingsFault(f"{name!a}: it is no name")
    lines = lines_of(now, name)
    if not lines:
        raise SettingsFault(f"{name}: no source has a line of this name: rql show tells what needs it")
    if len(lines) > 1:
        raise SettingsFault(f"{name}: it stands in several places, of which rql doesn't choose: {', '.join(line.where for line in lines)}")
    return lines[0]


def checked_word(text: str) -> str:
    """A requirement that was typed; a comment of it stays out of the sources' lists."""
    return checked(re.sub(r"\s#.*", "", text), "a line that was typed", is_typed=True)


def constrained(text: str, specifiers: str) -> str:
    """A requirement with other specifiers; nothing else of it changes. What would become a part of its name is refused."""
    if re.match(r"\s*[^\s<>=!~(]", specifiers):
        hint = f"'=={specifiers.strip()}' takes this version alone" if read_version(specifiers.strip()) else "as '>=2,<3'"
        raise SettingsFault(f"{specifiers!a}: specifiers are wanted, each with a comparison: {hint}")
    head = BEGINNING.match(text)
    if head is None:
        raise SettingsFault(f"{text!a}: it begins with no name")
    rest, mark, marker = text[head.end() :].partition(";")
    has_some = rest.strip() != ""
    before = rest[: len(rest) - len(rest.lstrip())] if has_some else ""
    after = rest[len(rest.rstrip()) :] if has_some else rest
    return checked(f"{head[0]}{before}{specifiers.strip()}{after}{mark}{marker}", repr(specifiers))
