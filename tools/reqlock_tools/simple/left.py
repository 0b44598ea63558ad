"""What is left out of a snapshot: how many files, and which releases, by the causes."""

from collections import Counter
from collections.abc import Iterable, Iterator, Sequence
from itertools import groupby

from reqlock_tools.snapshot_output import plural


class Left:
    """What is left out of a project, or of several."""

    def __init__(self) -> None:
        self.files: Counter[str] = Counter()
        self.versions: dict[str, list[str]] = {}

    def count(self, why: str, files: int, versions: Iterable[str] = ()) -> None:
        """So many files more, and with them these whole releases."""
        self.files[why] += files
        self.versions.setdefault(why, []).extend(versions)

    def add(self, other: "Left") -> None:
        for why, files in other.files.items():
            self.count(why, files, other.versions[why])

    def told(self) -> Iterator[str]:
        """A line for each cause that left a file out."""
        for why, files in self.files.items():
            if files:
                whole = len(self.versions[why])
                yield f"left out {why}: {plural(files, 'file')}" + (f", with {plural(whole, 'whole release')}" if whole else "")


def ranges_of(versions: Sequence[str], all_versions: Sequence[str]) -> list[str]:
    """Versions as ranges of those that stand in a row among all, which are in order: `1 and older`, `2 to 3`, `4`, `5 and newer`."""
    out, last = set(versions), len(all_versions) - 1
    if out.issuperset(all_versions):
        return ["all"]
    ranges = []
    for is_out, run in groupby(range(len(all_versions)), lambda place: all_versions[place] in out):
        places = list(run)
        first, end = all_versions[places[0]], all_versions[places[-1]]
        if not is_out:
            continue
        if places[0] == 0:
            ranges.append(f"{end} and older" if len(places) > 1 else end)
        elif places[-1] == last:
            ranges.append(f"{first} and newer" if len(places) > 1 else first)
        else:
            ranges.append(f"{first} to {end}" if len(places) > 1 else first)
    return ranges
