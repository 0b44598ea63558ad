"""What is told at the end of a run."""

from reqlock_tools.simple.choices import Choices
from reqlock_tools.simple.left import Left
from reqlock_tools.simple.plan import Plan
from reqlock_tools.simple.project import Project
from reqlock_tools.simple.result import Result
from reqlock_tools.snapshot_output import plural, say
from reqlock_tools.versions import version_of
from reqlock_tools.walk import Walk, extras_text


def size_text(count: int) -> str:
    return f"{count / 1e6:.1f} MB" if count >= 1e6 else f"{count / 1e3:.1f} kB"


class Report:
    """Lines on standard error about a result. Of the names that are left untold the caller tells that no index has them."""

    def __init__(self, plan: Plan, result: Result, choices: Choices, untold: frozenset[str] = frozenset()) -> None:
        self.plan, self.result, self.choices, self.untold = plan, result, choices, untold

    def none_text(self, bases: list[str]) -> str | None:
        """What is told where no index has any file of what is asked for; None where one has."""
        if not self.result.walk.asked or any(project.versions for project in self.result.projects.values()):
            return None
        return f"{'/, '.join(bases)}/: it has no file of {' '.join(sorted(self.result.walk.asked))}"

    def tell(self) -> None:
        self.tell_absent()
        for name in sorted(self.result.projects):
            self.tell_project(self.result.projects[name])
        self.tell_left()
        if absent := self.result.absent_locked():
            say(f"locked, but not in the snapshot: {', '.join(absent)}")
        if extras := self.result.walk.extras_asked():
            say(f"extras that are followed: {extras_text(extras)}")
        if passed := self.result.walk.extras_passed():
            count = sum(map(len, passed.values()))
            say(f"extras that nobody asks for, and that aren't followed: {count}, of {plural(len(passed), 'package')}")

    def tell_absent(self) -> None:
        direct = Walk(self.result.walk.markers)
        direct.ask([*self.plan.names, *self.plan.lines])
        for are_direct, which in (True, "are asked for"), (False, "others depend on"):
            names = [name for name in self.result.absent if (name in direct.asked) == are_direct and name not in self.untold]
            if names:
                say(f"the index has no packages of these names, which {which}: {' '.join(names)}")

    def tell_project(self, project: Project) -> None:
        for text in sorted(project.notes):
            say(f"{project.name}: {text}")
        if project.untold:
            versions = ", ".join(sorted(project.untold, key=version_of))
            say(f"{project.name}: left out, as no file tells what they depend on: {versions}; --assume-no-dependencies keeps them")
        if not self.result.releases[project.name]:
            say(f"{project.name}: the index has no release of it that can be taken")

    def tell_left(self) -> None:
        """The causes with their counts, and what it is of which environments take no file."""
        whole = Left()
        for project in self.result.projects.values():
            whole.add(project.left)
        for text in whole.told():
            say(text)
        for why, texts in self.result.foreign().items():
            say(f"left out {why}: {'; '.join(texts)}")

    def counted(self) -> str:
        releases = sum(map(len, self.result.releases.values()))
        return f"{plural(len(self.result.projects), 'package')}, {plural(releases, 'release')}"
