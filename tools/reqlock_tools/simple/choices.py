"""Which of the files that an index lists go into a snapshot."""

import datetime
import hashlib
from collections import Counter
from collections.abc import Callable, Iterator
from functools import partial
from typing import NamedTuple

from reqlock_tools.archives import LONGEST_NAME
from reqlock_tools.markers import Markers
from reqlock_tools.refusal import Refusal
from reqlock_tools.simple.bounds import Bound, Bounds, why_out
from reqlock_tools.simple.left import Left
from reqlock_tools.simple.locked import versions_of
from reqlock_tools.simple.pages import Link, PageFiles
from reqlock_tools.simple.plan import Plan
from reqlock_tools.simple.platforms import FOREIGN, Platforms
from reqlock_tools.versions import Version, version_of

DIGEST = "for want of a sha256"
YANKED = "as they are yanked, beside others of their releases that aren't"
LONG_NAMES = f"as their names have over {LONGEST_NAME} characters"

Release = list[Link]
Test = Callable[[Link], bool]


class Chosen(NamedTuple):
    """The releases that are chosen of a page, each as its files, what is left out of them, and the versions that the page has."""

    releases: list[Release]
    left: Left
    versions: list[str]


def moment_of(text: str) -> datetime.datetime:
    """The moment that a text tells: the end of a day in UTC, or a time, in UTC where it names no zone."""
    try:
        moment = datetime.datetime.combine(datetime.date.fromisoformat(text), datetime.time.max)
    except ValueError:
        moment = datetime.datetime.fromisoformat(text)
    return moment if moment.tzinfo else moment.replace(tzinfo=datetime.timezone.utc)


def is_pre(release: Release) -> bool:
    return bool(version_of(release[0].version).is_prerelease)


def is_of(release: Release, versions: set[Version]) -> bool:
    return version_of(release[0].version) in versions


def by_version(links: list[Link]) -> list[Release]:
    """The links of each release, from the oldest release to the newest. Equal versions are one release."""
    releases: dict[Version, Release] = {}
    for link in links:
        releases.setdefault(version_of(link.version), []).append(link)
    return [releases[key] for key in sorted(releases)]


def without_files(releases: list[Release], is_out: Test, why: str, left: Left) -> list[Release]:
    """The releases without some files, and without those that have no other."""
    kept = []
    for release in releases:
        rest = [link for link in release if not is_out(link)]
        left.count(why, len(release) - len(rest), [] if rest else [release[0].version])
        kept += [rest] if rest else []
    return kept


def without_yanked(releases: list[Release], left: Left) -> list[Release]:
    """The releases without yanked files that stand beside others."""
    kept = [[link for link in release if not link.file.yanked] or release for release in releases]
    left.count(YANKED, sum(map(len, releases)) - sum(map(len, kept)))
    return kept


def without_releases(releases: list[Release], is_out: Callable[[Release], bool], why: str, left: Left) -> list[Release]:
    out = [release for release in releases if is_out(release)]
    left.count(why, sum(map(len, out)), [release[0].version for release in out])
    return [release for release in releases if not is_out(release)]


def is_outside(bound: Bound, name: str, release: Release) -> bool:
    return bound.is_out(name, version_of(release[0].version))


class FileTest(NamedTuple):
    """What leaves files out, and why; and whether it may leave a locked release without any file."""

    why: str
    is_out: Test
    is_strict: bool


class Choices:
    """What a plan chooses."""

    def __init__(self, plan: Plan, markers: Markers) -> None:
        self.options = plan.options
        self.until = None if plan.options.exclude_newer is None else moment_of(plan.options.exclude_newer)
        self.platforms = Platforms(plan)
        self.locked = versions_of(plan.keep)
        self.bounds = Bounds(plan.constraints, markers)

    def told(self, name: str) -> str:
        """A digest of all that decides what is chosen of a project."""
        locked = sorted(map(str, self.locked.get(name, set())))
        bounds = [(file, bound.told(name)) for file, bound in self.bounds.of(name)]
        return hashlib.sha256(repr((self.options, locked, bounds, self.platforms.built)).encode()).hexdigest()

    def chosen(self, url: str, page: PageFiles) -> Chosen:
        """What is chosen of a page's files."""
        left = Left()
        left.count(LONG_NAMES, page.long_names)
        releases = by_version(page.links())
        versions = [release[0].version for release in releases]
        locked = self.locked.get(page.project, set())
        releases = self.within_bounds(page.project, releases, left)
        spared = self.spared(url, [release for release in releases if is_of(release, locked)])
        for why, is_out, is_strict in self.tests(url):
            exempt = set() if is_strict else spared
            releases = without_files(releases, lambda link: id(link) not in exempt and is_out(link), why, left)
        releases = without_yanked(releases, left)
        if self.options.no_pre:
            releases = without_releases(releases, lambda release: is_pre(release) and not is_of(release, locked), "by --no-pre", left)
        if self.options.newest is not None:
            kept = self.newest(releases, self.options.newest)
            why = f"by --newest {self.options.newest}"
            releases = without_releases(releases, lambda release: id(release) not in kept and not is_of(release, locked), why, left)
        return Chosen(releases, left, versions)

    def is_locked(self, name: str, release: Release) -> bool:
        """Whether a lock has a release of a package of this normal name."""
        return is_of(release, self.locked.get(name, set()))

    def within_bounds(self, name: str, releases: list[Release], left: Left) -> list[Release]:
        """The releases that no constraint leaves out."""
        for file, bound in self.bounds.of(name):
            releases = without_releases(releases, partial(is_outside, bound, name), why_out(file), left)
        return releases

    def tests(self, url: str) -> Iterator[FileTest]:
        """What leaves single files out, in turn."""
        yield FileTest(DIGEST, lambda link: link.file.sha256 is None, True)
        if self.until is not None:
            yield FileTest(f"by --exclude-newer {self.options.exclude_newer}", lambda link: self.is_newer(url, link), False)
        if self.options.only_binary:
            yield FileTest("by --only-binary", lambda link: not link.is_wheel, False)
        if not self.platforms.is_any:
            yield FileTest(FOREIGN, lambda link: self.platforms.able([link.file.name]) == 0, True)

    def spared(self, url: str, locked: list[Release]) -> set[int]:
        """The ids of the files of locked releases that would be left without any."""
        tests = list(self.tests(url))
        lost = [release for release in locked if all(any(test.is_out(link) for test in tests) for link in release)]
        return {id(link) for release in lost for link in release}

    def is_newer(self, url: str, link: Link) -> bool:
        if link.uploaded is None:
            raise Refusal(f"{url}: it doesn't tell when {link.file.name} was uploaded, which --exclude-newer asks for")
        try:
            return self.until is not None and moment_of(link.uploaded) > self.until
        except (ValueError, OverflowError):
            raise Refusal(f"{url}: {link.uploaded!a}, the upload-time of {link.file.name}, is no time") from None

    def newest(self, releases: list[Release], count: int) -> set[int]:
        """The ids of the newest releases, pre-releases counted apart. Those that are yanked, or that one of the environments can't
        install, stand among them uncounted."""
        counts: Counter[bool] = Counter()
        kept = set()
        for release in reversed(releases):
            kind = is_pre(release)
            if counts[kind] < count:
                kept.add(id(release))
                is_able = self.platforms.able([link.file.name for link in release]) == self.platforms.all
                counts[kind] += is_able and not all(link.file.yanked for link in release)
        return kept
