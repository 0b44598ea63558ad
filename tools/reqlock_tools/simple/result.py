"""What a run keeps: the releases that each environment which can need them can install, and what these lead to."""

from typing import Any

from reqlock_tools.releases import Release
from reqlock_tools.simple.choices import Choices
from reqlock_tools.simple.left import ranges_of
from reqlock_tools.simple.made import Findings
from reqlock_tools.simple.plan import Plan
from reqlock_tools.simple.platforms import FOREIGN
from reqlock_tools.simple.project import Project
from reqlock_tools.snapshot_output import Packages
from reqlock_tools.versions import version_of
from reqlock_tools.walk import Walk


class Result:
    """The projects with their releases as the snapshot has them, and the walk over these alone."""

    def __init__(self, plan: Plan, walk: Walk, projects: dict[str, Project], absent: set[str], choices: Choices) -> None:
        self.plan, self.choices = plan, choices
        self.first, self.is_less = walk, False
        self.unable: dict[str, dict[int, list[str]]] = {}
        releases = {name: self.kept(projects[name]) for name in sorted(projects)}
        self.walk = self.walk_over(releases) if self.is_less else walk
        self.projects = {name: projects[name] for name in releases if name in self.walk.asked}
        self.releases = {name: releases[name] for name in self.projects}
        self.absent = sorted(absent & self.walk.asked.keys())

    def walk_over(self, releases: dict[str, list[Release]]) -> Walk:
        """What is reached through these releases alone."""
        walk = Walk(self.first.markers)
        walk.ask([*self.plan.names, *self.plan.lines])
        for name, kept in releases.items():
            for release in kept:
                walk.add(name, release["requires_dist"], self.able(release))
        return walk

    def able(self, release: Release) -> int:
        return self.choices.platforms.able([file["name"] for file in release["files"]])

    def labels(self, where: int) -> str:
        """The environments with these bits, and what they do."""
        names = [environment.label for place, environment in enumerate(self.plan.environments) if where >> place & 1]
        return f"as {' and '.join(names)} {'take' if len(names) > 1 else 'takes'} no file of them"

    def kept(self, project: Project) -> list[Release]:
        """The releases that each environment which can need the project can install. The others are told by these environments."""
        where, releases = self.first.where(project.name), []
        unable: dict[int, list[str]] = {}
        if lost := project.left.versions.get(FOREIGN):
            unable[where] = list(lost)
        for release in filter(None, project.releases):
            if lacking := where & ~self.able(release):
                self.is_less = True
                unable.setdefault(lacking, []).append(release["version"])
            else:
                releases.append(release)
        self.unable[project.name] = unable
        return releases

    def packages(self) -> Packages:
        return {name: {"name": name, "releases": releases} for name, releases in self.releases.items()}

    def absent_locked(self) -> list[str]:
        """The locked releases of names that are followed which the snapshot hasn't."""
        absent = []
        for name in sorted(self.choices.locked.keys() & self.walk.asked.keys()):
            kept = {version_of(release["version"]) for release in self.releases.get(name, ())}
            absent += [f"{name} {version}" for version in sorted(self.choices.locked[name] - kept)]
        return absent

    def foreign(self) -> dict[str, list[str]]:
        """The projects with the ranges of them that environments can't install, by the cause."""
        groups: dict[str, list[str]] = {}
        for name, project in self.projects.items():
            for where, versions in self.unable[name].items():
                groups.setdefault(self.labels(where), []).append(f"{name} {', '.join(ranges_of(versions, project.versions))}")
        return dict(sorted(groups.items()))

    def left_json(self) -> list[dict[str, Any]]:
        """What is left out of each project: how many releases, and which, by the causes."""
        rows = []
        for name, project in self.projects.items():
            causes = {why: versions for why, versions in project.left.versions.items() if why != FOREIGN}
            causes |= {self.labels(where): versions for where, versions in self.unable[name].items()}
            for why, versions in sorted(causes.items()):
                ranges = ranges_of(versions, project.versions)
                rows += [{"name": name, "why": why, "releases": len(versions), "ranges": ranges}] if versions else []
        return rows

    def findings(self, bases: list[str]) -> Findings:
        places = [tuple(name for name, project in self.projects.items() if project.base == base) for base in bases]
        return Findings(
            tuple(places), self.walk.extras_asked(), self.walk.extras_passed(), tuple(self.absent), tuple(self.left_json())
        )
