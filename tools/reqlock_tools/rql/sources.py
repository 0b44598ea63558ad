"""Where the lines of requirements.txt come from: the dependencies, extras and groups of pyproject.toml, and files of lines. They are
gathered, each with a comment from where it came; what is changed by hand is told."""

import re
from collections.abc import Mapping, Sequence
from dataclasses import dataclass
from pathlib import Path

from reqlock_tools.rql.faults import SettingsFault
from reqlock_tools.rql.sources_files import FileReader
from reqlock_tools.rql.sources_pyproject import PyprojectReader
from reqlock_tools.rql.sources_read import FROM, Files, Line, Section, Taken

SOURCE = re.compile(r"(?P<file>.*\.toml)(?:\[(?P<extra>[^\[\]]*)\]|:(?P<group>[^/:]+))?")


@dataclass(frozen=True)
class Gathered:
    """The lines of all sources, in order, the lists that they stand in, and the files of constraints that are named, told from the folder
    of the settings."""

    lines: tuple[Line, ...]
    sections: tuple[Section, ...]
    constraints: tuple[str, ...]

    @property
    def data(self) -> bytes:
        """The lines as requirements.txt has them."""
        return "".join(line.whole() for line in self.lines).encode()


def gathered(top: Path, base: Path, sources: Sequence[str], changed: Mapping[Path, bytes] | None = None) -> Gathered:
    """The lines of sources, which are told from the folder `base` of a checkout. Files that are `changed` count as they are to be."""
    files = Files(top, base, changed)
    into = Taken()
    reader = FileReader(files, into)
    pyprojects: dict[Path, PyprojectReader] = {}
    for source in sources:
        told = SOURCE.fullmatch(source)
        if told is None:
            reader.follow(source, f"sources: {source}", None)
            continue
        path = files.place(told["file"], f"sources: {source}")
        if path not in pyprojects:
            pyprojects[path] = PyprojectReader(files, path, f"sources: {source}", into)
        read_part(pyprojects[path], told["extra"], told["group"])
    return Gathered(tuple(into.lines), tuple(into.sections), tuple(into.constraints))


def read_part(reader: PyprojectReader, extra: str | None, group: str | None) -> None:
    if extra is not None:
        reader.extra(extra)
    elif group is not None:
        reader.group(group)
    else:
        reader.dependencies()


def gather(base: Path, sources: Sequence[str], top: Path | None = None) -> bytes:
    """The lines of sources as requirements.txt has them. Without the top of a checkout no source leads out of the folder."""
    return gathered(top or base, base, sources).data


def told_lines(data: bytes, file: str) -> list[tuple[str, str]]:
    """The lines of a file that was gathered, each with the label of its source. Another one is refused."""
    lines = []
    for number, line in enumerate(data.decode(errors="replace").splitlines(), 1):
        text, mark, label = line.rpartition(FROM)
        if not mark:
            raise SettingsFault(f"{file}: line {number}: {line!a}: it doesn't tell from which source it came: rql lock gathers all")
        lines.append((text, label))
    return lines


def differences(present: Gathered, data: bytes, file: str = "requirements.txt") -> list[str]:
    """Where sources and the lines that were gathered into a file tell otherwise; empty where they don't."""
    if present.data == data:
        return []
    try:
        old = told_lines(data, file)
    except SettingsFault as fault:
        return [str(fault)]
    new = [(line.text, line.section.label) for line in present.lines]
    told = [f"{line.where}: {line.text!a} isn't in {file}" for line in present.lines if (line.text, line.section.label) not in old]
    told += [f"{file}: {text!a} isn't in {label} any more" for text, label in old if (text, label) not in new]
    return told or [f"{file}: its lines have another order than those of the sources"]
