"""Which names are reached from requirements through the dependencies of releases, and in which environments."""

from collections.abc import Iterable
from functools import lru_cache

from reqlock_tools.markers import NO_EXTRA, Markers, extras_of, tree_of
from reqlock_tools.requirements import Need, need_of

Needs = dict[str, list[Need]]
# Needs that are to be followed: with an extra, in some environments.
Pending = list[tuple[Needs, str, int]]


@lru_cache(maxsize=2**14)
def needs_of(texts: tuple[str, ...]) -> Needs:
    """What dependencies need, by the extras that their markers read. Each stands under no extra too. Releases often need the same."""
    needs: Needs = {NO_EXTRA: []}
    for need in map(need_of, texts):
        if need is not None:
            tree = tree_of(need.marker)
            for extra in (NO_EXTRA, *(extras_of(tree) if tree else ())):
                needs.setdefault(extra, []).append(need)
    return needs


class Walk:
    """The names that are reached, with the extras that are asked for and the environments that ask. A dependency is followed where its
    marker can hold with such an extra, or with none. With an extra that its marker doesn't read it holds as with none. Environments are
    told as `Markers` tells them."""

    def __init__(self, markers: Markers) -> None:
        self.markers = markers
        self.asked: dict[str, dict[str, int]] = {}
        self.releases: dict[str, list[tuple[Needs, int]]] = {}
        self.added: set[tuple[str, int, int]] = set()
        # Those that were reached, by their ids: to compare or hash one takes as long as it has extras.
        self.known: dict[int, tuple[Need, int]] = {}

    def ask(self, texts: Iterable[str]) -> list[str]:
        """Follows requirements. The names that weren't reached before are given, in order."""
        return self.follow([(needs_of(tuple(texts)), NO_EXTRA, self.markers.all)])

    def add(self, name: str, texts: Iterable[str], where: int | None = None) -> list[str]:
        """Takes the dependencies of a release that some environments can install, and follows them where its name is reached."""
        needs, where = needs_of(tuple(texts)), self.markers.all if where is None else where
        if (name, id(needs), where) in self.added:
            return []
        self.added.add((name, id(needs), where))
        self.releases.setdefault(name, []).append((needs, where))
        return self.follow([(needs, extra, asking & where) for extra, asking in self.asked.get(name, {}).items()])

    def follow(self, pending: Pending) -> list[str]:
        new = []
        while pending:
            needs, extra, asking = pending.pop()
            for need in needs.get(extra, ()) if asking else ():
                where = asking & self.markers.where(need.marker, extra)
                if not where:
                    continue
                if need.name not in self.asked:
                    new.append(need.name)
                pending += self.reached(need, where)
        return new

    def reached(self, need: Need, where: int) -> Pending:
        """What is to be followed since a name is asked for, with extras and in environments that nobody asked for before."""
        before = self.known.get(id(need), (need, 0))[1]
        if where | before == before:
            return []
        self.known[id(need)] = need, where | before
        asked = self.asked.setdefault(need.name, {})
        pending: Pending = []
        for extra in (NO_EXTRA, *need.extras):
            fresh = where & ~asked.get(extra, 0)
            if fresh:
                asked[extra] = asked.get(extra, 0) | fresh
                pending += [(needs, extra, fresh & able) for needs, able in self.releases.get(need.name, ())]
        return pending

    def where(self, name: str) -> int:
        """The environments that can need a name."""
        return self.asked.get(name, {}).get(NO_EXTRA, 0)

    def extras_asked(self) -> dict[str, list[str]]:
        """The extras that are asked for, by name, in order."""
        by_name = {name: sorted(set(asked) - {NO_EXTRA}) for name, asked in sorted(self.asked.items())}
        return {name: extras for name, extras in by_name.items() if extras}

    def extras_passed(self) -> dict[str, list[str]]:
        """The extras that releases of names that are reached have, and that nobody asks for, by name."""
        passed = {}
        for name, asked in sorted(self.asked.items()):
            known = {extra for needs, _ in self.releases.get(name, ()) for extra in needs}
            if extras := sorted(known - asked.keys() - {NO_EXTRA}):
                passed[name] = extras
        return passed


def extras_text(extras: dict[str, list[str]]) -> str:
    """Extras by name, as `name[one,other]`."""
    return " ".join(f"{name}[{','.join(those)}]" for name, those in extras.items())
