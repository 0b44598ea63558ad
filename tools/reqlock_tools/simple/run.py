"""From the requirements that are asked for to the packages of a snapshot, by what indexes tell."""

from collections.abc import Iterable
from functools import partial

from reqlock_tools.markers import Markers
from reqlock_tools.progress import Progress
from reqlock_tools.refusal import Refusal
from reqlock_tools.releases import Release
from reqlock_tools.simple.cache import Cache
from reqlock_tools.simple.choices import Choices
from reqlock_tools.simple.client import Client
from reqlock_tools.simple.credentials import Credentials
from reqlock_tools.simple.crew import Crew
from reqlock_tools.simple.made import made_json
from reqlock_tools.simple.plan import Asking, Plan
from reqlock_tools.simple.project import Project, ReadRelease
from reqlock_tools.simple.projects import IndexedProject, Indexes
from reqlock_tools.simple.report import Report, size_text
from reqlock_tools.simple.result import Result
from reqlock_tools.snapshot_output import Snapshot, plural, say
from reqlock_tools.walk import Walk

PAGES, RELEASES = 0, 1
# What is asked back where an index has nothing of what it is asked for.
IS_ADDRESS = "is it the address of a Simple API, as https://HOST/simple/?"


class Run:
    """The packages that are known so far, and the requests that will tell of more. All but the requests is done in one thread."""

    def __init__(self, plan: Plan, asking: Asking, credentials: Credentials) -> None:
        self.plan, self.limits = plan, asking.limits
        self.progress = Progress()
        self.cache = Cache(asking.cache, asking.is_offline, self.say)
        self.client = Client(asking, credentials, self.say)
        markers = Markers([environment.variables for environment in plan.environments])
        self.choices = Choices(plan, markers)
        self.indexes = Indexes(plan, self.client, self.cache, self.choices, asking)
        self.walk = Walk(markers)
        self.crew = Crew(asking.jobs)
        self.projects: dict[str, Project] = {}
        self.absent: set[str] = set()
        self.under_way: dict[str, int] = {}
        self.whole_packages = 0
        # What is told where no index has any file of what is asked for.
        self.none: str | None = None

    def say(self, text: str) -> None:
        self.progress.clear()
        say(text)

    def show(self) -> None:
        if self.progress.is_due():
            count = len(self.walk.asked)
            text = f"{self.whole_packages} of {plural(count, 'package')}, {size_text(self.client.bytes)}"
            self.progress.show(text, self.whole_packages, count)

    def snapshot(self, may_be_none: bool = False, untold: frozenset[str] = frozenset()) -> Snapshot:
        """The packages by normal name, and how they were made. That no index has any file of what is asked for is refused, unless the names
        may be wrong and not the address. Of some names it isn't told that no index has them."""
        try:
            self.read_pages(self.walk.ask([*self.plan.names, *self.plan.lines]))
            self.crew.run(self.show)
        finally:
            self.client.stop()
            self.cache.close()
            self.crew.end()
            self.client.close()
            self.progress.clear()
        result = Result(self.plan, self.walk, self.projects, self.absent, self.choices)
        report = Report(self.plan, result, self.choices, untold)
        self.none = report.none_text([index.base for index in self.indexes.all])
        if self.none is None:
            report.tell()
        elif not may_be_none:
            raise Refusal(f"{self.none}; {IS_ADDRESS}")
        asked = f"{plural(self.client.requests, 'request')}, {size_text(self.client.bytes)}"
        say(f"{report.counted()}, {asked}, {self.progress.seconds():.1f} s")
        return Snapshot(result.packages(), made_json(self.plan, result.findings([index.base for index in self.indexes.all])))

    def read_pages(self, names: Iterable[str]) -> None:
        self.limits.refuse_over("names", len(self.walk.asked), self.indexes.all[0].base)
        for name in names:
            if self.indexes.is_kept(name):
                self.crew.start_own(partial(self.indexes.at_hand, name), partial(self.take_at_hand, name))
            else:
                self.ask_page(name)

    def ask_page(self, name: str) -> None:
        self.crew.start(PAGES, partial(self.indexes.project_of, name), partial(self.take_project, name))

    def take_at_hand(self, name: str, indexed: IndexedProject | None) -> None:
        if indexed is None:
            self.ask_page(name)
        else:
            self.take_project(name, indexed)

    def take_project(self, name: str, indexed: IndexedProject | None) -> None:
        if indexed is None:
            self.absent.add(name)
            self.whole_packages += 1
            return
        self.projects[name] = indexed.project
        self.under_way[name] = len(indexed.releases)
        self.whole_packages += not indexed.releases
        for release in filter(None, indexed.project.releases):
            self.indexes.count_needs(name, release)
            self.follow(name, release)
        indexed.project.releases += [None] * len(indexed.releases)
        for place, links in enumerate(indexed.releases):
            self.crew.start(RELEASES, partial(indexed.index.release, name, links), partial(self.take_release, indexed, place))

    def take_release(self, indexed: IndexedProject, place: int, read: ReadRelease) -> None:
        project = indexed.project
        project.take(place, read)
        self.under_way[project.name] -= 1
        if self.under_way[project.name] == 0:
            self.whole_packages += 1
            indexed.index.keep(indexed.key, project)
        if read.release is not None:
            self.follow(project.name, read.release)

    def follow(self, name: str, release: Release) -> None:
        """Follows what a release depends on, for the environments that can install it."""
        able = self.choices.platforms.able([file["name"] for file in release["files"]])
        self.read_pages(self.walk.add(name, release["requires_dist"], able))
