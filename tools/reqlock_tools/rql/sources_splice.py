"""A change of one requirement in its list."""

from dataclasses import dataclass

from reqlock_tools.rql.sources_read import Section


@dataclass(frozen=True)
class Splice:
    """What takes the place of a requirement. Without `old` the new one is put in front of the place, or at the end where there is none;
    without `new` the old one is taken out."""

    section: Section
    place: int | None
    old: str | None
    new: str | None
