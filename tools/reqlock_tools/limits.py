"""How much a tool takes of what others made. An index or an archive that has more is refused, and the limit is named."""

import re
from dataclasses import dataclass, field, fields

from reqlock_tools.refusal import Refusal

MEGABYTE = 2**20


def limit(count: int, meaning: str) -> int:
    """A limit that stands at a count unless it is given."""
    value: int = field(default=count, metadata={"meaning": meaning})
    return value


@dataclass(frozen=True)
class Limits:
    """Each limit with what it counts. `--limit NAME=NUMBER` sets one."""

    page: int = limit(32 * MEGABYTE, "bytes of a project's page, also unpacked")
    header: int = limit(2**18, "bytes of an answer's header")
    metadata: int = limit(16 * MEGABYTE, "bytes of a METADATA or PKG-INFO")
    file: int = limit(2048 * MEGABYTE, "bytes of a wheel or sdist that is fetched or read whole")
    member: int = limit(2048 * MEGABYTE, "bytes of a file in an archive, unpacked")
    unpacked: int = limit(4096 * MEGABYTE, "bytes of all files in an archive, unpacked")
    members: int = limit(500_000, "files in an archive")
    directory: int = limit(8 * MEGABYTE, "bytes of an archive's own lists: a zip's directory, a tar's headers of one file")
    files: int = limit(100_000, "files on a page")
    names: int = limit(20_000, "packages that are followed")
    needs: int = limit(256 * MEGABYTE, "bytes of what all files depend on, with 64 more for each requirement")
    seconds: int = limit(600, "seconds that an answer takes as a whole")

    def refuse_over(self, name: str, count: int, what: str) -> None:
        """Refuses more of something than a limit says."""
        if count > getattr(self, name):
            raise self.over(name, what)

    def over(self, name: str, what: str) -> Refusal:
        """The refusal of something that is over a limit."""
        meaning = re.split("[,:]", MEANINGS[name])[0]
        return Refusal(f"{what}: over {getattr(self, name)} {meaning}; --limit {name}=NUMBER takes more")


MEANINGS: dict[str, str] = {limit_field.name: limit_field.metadata["meaning"] for limit_field in fields(Limits)}
MOST = 2**62


def limits_of(words: list[str]) -> Limits:
    """The limits that words of the form NAME=NUMBER set, the others as they are."""
    values: dict[str, int] = {}
    for word in words:
        name, _, number = word.partition("=")
        is_number = number.isascii() and number.isdigit() and len(number) < 19 and 0 < int(number) <= MOST
        if name not in MEANINGS or not is_number:
            raise Refusal(f"--limit: {word!a} isn't NAME=NUMBER, with one of the names {' '.join(MEANINGS)}")
        values[name] = int(number)
    return Limits(**values)


def limits_text() -> str:
    """The limits in lines, for help."""
    lines = [f"  {limit_field.name:<10}{limit_field.default:>11}  {limit_field.metadata['meaning']}" for limit_field in fields(Limits)]
    return "\n".join(["limits, by their names, with what is taken where --limit says nothing else:", *lines])
