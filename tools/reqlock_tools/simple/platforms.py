"""Which environments can install a release, by the tags of its wheels."""

from collections.abc import Iterable
from functools import reduce
from operator import or_

from reqlock_tools.simple.plan import Plan
from reqlock_tools.tags import built_tags, takes

FOREIGN = "as no environment takes them"


class Platforms:
    """The environments, told as bits as `Markers` tells them. Each can install an sdist; one that tells nothing of wheels can install
    each of them, and so can all where the plan is for any platform, or has no environment."""

    def __init__(self, plan: Plan) -> None:
        self.all = (1 << max(1, len(plan.environments))) - 1
        self.built = [] if plan.options.any_platform else [environment.built for environment in plan.environments]
        self.tags = [None if built is None else built_tags(built) for built in self.built]
        self.known: dict[str, int] = {}
        self.is_any = all(tags is None for tags in self.tags)

    def able(self, names: Iterable[str]) -> int:
        """The environments that can install one of these files."""
        return self.all if self.is_any else reduce(or_, map(self.taking, names), 0)

    def taking(self, name: str) -> int:
        """The environments that take a file of a name."""
        if not name.endswith(".whl"):
            return self.all
        words = "-".join(name.removesuffix(".whl").split("-")[-3:])
        if words not in self.known:
            self.known[words] = sum(1 << place for place, tags in enumerate(self.tags) if tags is None or takes(tags, name))
        return self.known[words]
