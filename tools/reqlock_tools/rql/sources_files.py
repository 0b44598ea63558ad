"""Requirements in files of lines, as pip reads them: `-r` and `-c` are followed, and no other option."""

import re
from collections.abc import Iterator
from dataclasses import dataclass

from reqlock_tools.conflicts import conflict_in
from reqlock_tools.rql.faults import SettingsFault
from reqlock_tools.rql.sources_read import Files, Line, Section, Taken, checked

OPTION = re.compile(r"(-r|-c|--requirement|--constraint)(?:\s*=\s*|\s+|(?<=-[rc]))(\S.*)")
COMMENT = re.compile(r"(^|\s)#.*")
# What pip takes behind a requirement, as in a compiled file.
BEHIND = re.compile(r"\s--?[a-z]")
FOLLOWED = {"-r": True, "--requirement": True, "-c": False, "--constraint": False}


@dataclass(frozen=True)
class Followed:
    """A file that a line names: one with requirements, or with constraints."""

    text: str
    place: int
    has_requirements: bool


def cut(text: str) -> list[str]:
    """The lines of a text, each with its ending."""
    return re.findall(r"[^\n]*\n|[^\n]+\Z", text)


def items_in(section: Section, text: str) -> Iterator[Line | Followed]:
    """The requirements of a file, and the files that it names, in their order."""
    conflict = conflict_in(text)
    if conflict is not None:
        raise SettingsFault(f"{section.path}: {conflict}")
    for place, raw in enumerate(cut(text)):
        where = section.where(place)
        line = COMMENT.sub("", raw.rstrip("\r\n").removeprefix("\ufeff" if place == 0 else "")).strip()
        if line.endswith("\\"):
            raise SettingsFault(f"{where}: {line!a}: it goes on in the next line: write it in one; a compiled file is no source")
        option = OPTION.fullmatch(line)
        if option:
            yield Followed(option[2].strip("\"'"), place, FOLLOWED[option[1]])
        elif line.startswith("-") or BEHIND.search(line):
            raise SettingsFault(
                f"{where}: {line!a}: of options -r and -c alone are followed: take it out: rql init --index URL, or index in the settings, names"
                " an index, and hashes are always locked"
            )
        elif line:
            yield Line(checked(line, where), section, place)


class FileReader:
    """Reads files of lines, and those that they name."""

    def __init__(self, files: Files, into: Taken) -> None:
        self.files, self.into = files, into

    def follow(self, text: str, key: str, base: Section | None) -> None:
        """Reads the file that a setting names, or a line of another file."""
        if "://" in text or "$" in text:
            raise SettingsFault(f"{key}: {text!a}: a file of the checkout is wanted")
        path = self.files.place(text, key, base.path.parent if base else None)
        section = Section(path, self.files.label(path))
        with self.into.reading(section, key) as is_new:
            for item in items_in(section, self.files.text(path, key)) if is_new else ():
                self.take_item(item, section)

    def take_item(self, item: Line | Followed, section: Section) -> None:
        if isinstance(item, Line):
            self.into.lines.append(item)
            return
        where = section.where(item.place)
        if item.has_requirements:
            self.follow(item.text, where, section)
        else:
            path = self.files.place(item.text, where, section.path.parent)
            self.files.data(path, where)
            self.into.constraints.setdefault(self.files.label(path))
