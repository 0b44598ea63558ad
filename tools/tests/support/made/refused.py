"""Problems without a solution, in the shapes that people meet: the lines of each by its title, and what makes the packages of its index.
docs/EXPLANATIONS.md has what is told of them."""

import json
import sys

from support.made.releases import index_of
from support.places import TOP

sys.path.append(str(TOP / "bench"))
from shapes import boto, planted  # noqa: E402


def example(name):
    def packages():
        return json.loads((TOP / "examples" / name / "index.json").read_text(encoding="utf-8"))["packages"]

    return packages


def releases(*rows):
    return lambda: index_of(*rows)["packages"]


def plain(name, *versions):
    return [(name, version, []) for version in versions]


def chain():
    """Twelve packages of five releases, each of which needs the next from its own version on."""
    names = [f"link-{number:02}" for number in range(12)]
    return [
        (name, f"{version}", [f"{next_name}>={version}" for next_name in names[place + 1 : place + 2]])
        for place, name in enumerate(names)
        for version in range(1, 6)
    ]


def plugins():
    """Three plugins of twenty releases, each of which goes with two releases of the core."""
    rows = [(name, f"{version}", [f"core>={version},<{version + 2}"]) for name in ("auth", "cache", "forms") for version in range(1, 21)]
    return rows + plain("core", *map(str, range(1, 22)))


def planted_with(line, seed, count):
    packages, lines = planted(seed, count)
    return [*lines, line], lambda: packages


def boto_of(count):
    """So many releases of boto3 and its neighbours, as `index_of` takes them, and lines that ask for the newest tenth of boto3 and for
    the oldest urllib3."""
    packages, lines = boto(count)
    needs = [(package["name"], one["version"], one["requires_dist"]) for package in packages for one in package["releases"]]
    return needs, [f"boto3>={count * 9 // 10}" if line == "boto3" else line for line in lines]


BOTO = boto_of(60)

PROBLEMS = {
    "A line that no release matches": (["flask>=99"], example("web")),
    "A name that is mistyped": (["flask>=2", "reqests"], example("web")),
    "A dependency of one of two lines": (["flask>=2", "werkzeug<2"], example("web")),
    "A family of releases that moved on": (["app>=3", "lib<2"], example("ranges")),
    "Another Python": (
        ["tool>=2"],
        releases(("tool", "1.9", []), ("tool", "2.0", [], {"requires_python": ">=3.12"}), ("tool", "2.1", [], {"requires_python": ">=3.12"})),
    ),
    "Releases that were yanked": (
        ["lib>=2"], releases(*plain("lib", "1.0", "1.1"), ("lib", "2.0", [], {"yanked": True}), ("lib", "2.1", [], {"yanked": True})),
    ),
    "An extra": (
        ["requests[socks]>=2.31", "pysocks<1.5.6"],
        releases(
            ("requests", "2.31.0", ['pysocks>=1.5.6,!=1.5.7; extra == "socks"']),
            ("requests", "2.32.3", ['pysocks>=1.5.6,!=1.5.7; extra == "socks"']),
            *plain("pysocks", "1.5.0", "1.5.6", "1.7.1"),
        ),
    ),
    "Two packages that need a third": (
        ["api>=1", "worker>=1"],
        releases(
            ("api", "1.0", ["schema>=2,<3"]), ("api", "1.1", ["schema>=2.5,<3"]), ("worker", "1.0", ["schema>=1,<2"]),
            ("worker", "2.0", ["schema>=3"]), *plain("schema", "1.0", "2.0", "2.5", "3.0", "3.1"),
        ),
    ),
    "A chain": (["link-00>=3", "link-11<3"], releases(*chain())),
    "Plugins that cap their core": (["auth<8", "cache", "forms>=12"], releases(*plugins())),
    "Families that pin one another": (BOTO[1], releases(*BOTO[0])),
    "A hundred packages that need one another": planted_with("package-00090==0", 1, 100),
}
