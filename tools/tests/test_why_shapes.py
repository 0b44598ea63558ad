"""What `why` prints of shapes in which many releases exclude one another: packages that pin one another exactly, chains with an end
that is bounded, plugins that cap their core, two clouds over one base, releases that pin their neighbours tightly, pigeonholes. Each
list comes in time, and tools/check_refutation.py accepts it; and so do sentences. With LONG_TESTS=1 larger ones of each shape are asked
too, for which there is more time."""

import unittest

from support.made.refused import boto_of
from support.places import IS_LONG
from support.program import Program
from support.tool_calls import called

SECONDS = 120
# for the larger ones
LONG = 3600


def numbered(word, count):
    return [f"{word}{number:02}" for number in range(count)]


def packages(names, count, needs):
    """So many releases of each, numbered from 0, which need what a function tells for a name's place and a version."""
    return [(name, f"{version}", needs(place, version)) for place, name in enumerate(names) for version in range(count)]


def pins(count=12):
    """So many packages pin one another, and two lines split them."""
    names = numbered("pin", count)
    releases = packages(names, 10, lambda own, version: [f"{name}=={version}" for name in names if name != names[own]])
    return releases, [f"{names[0]}>=5", f"{names[-1]}<5"]


def ring():
    """Each package pins the next one's release, and the last one another of the first."""
    names = numbered("ring", 6)
    return packages(names, 8, lambda own, version: [f"{names[(own + 1) % 6]}=={(version + (own == 5)) % 8}"]), names[:1]


def chain(count=40):
    """So many links, each of which needs at least its own version of the next, whose last one is bounded."""
    names = numbered("link", count)
    releases = packages(names, 10, lambda own, version: [f"{name}>={version}" for name in names[own + 1 : own + 2]])
    return releases, [f"{names[0]}>=5", f"{names[-1]}<5"]


def plugins(count=40):
    """Plugins of so many releases go with the three releases of the core from their own on, and two of them are held apart."""
    names = numbered("plug", 6)
    releases = packages(names, count, lambda own, version: [f"core>={version},<{version + 3}"])
    return releases + packages(["core"], count, lambda own, version: []), [*names, f"{names[0]}<15", f"{names[5]}>=20"]


def clouds(count=4):
    """Packages that pin one another stand on the older half of a base, and others on the newer: so many on each."""
    releases = packages(["base"], 40, lambda own, version: [])
    for word, least in ("old", 0), ("new", 20):
        names = numbered(word, count)

        def needs(own, version):
            lower = [f"{name}>={version},<{version + 2}" for name in names[own + 1 : own + 2]]
            return lower or [f"base>={least + version // 2},<{least + version // 2 + 1}"]

        releases += packages(names, 40, needs)
    return releases, ["old00", "new00"]


def neighbours(count=60):
    """So many releases over time pin those of their neighbours, of which lines leave the old ones of the one and the new ones of the
    other."""
    releases = packages(["client"], count, lambda own, version: [f"core>={version},<{version + 3}"])
    releases += packages(["command"], count, lambda own, version: [f"core=={version}"])
    releases += packages(["core"], count, lambda own, version: [f"transport>={version},<{version + 12}"])
    return releases + packages(["transport"], count, lambda own, version: []), [f"client>={count - 10}", "command", "transport<10"]


def pigeons(count=6):
    """So many packages, each two of which take different ones of one place less."""
    names = numbered("pigeon", count)
    return packages(names, count - 1, lambda own, hole: [f"{name}!={hole}" for name in names[own + 1 :]]), names


# The larger ones of each shape. The index of ten pigeons has 28 kB.
LARGER = (
    (pins, 30), (chain, 80), (plugins, 120), (clouds, 8), (neighbours, 200), (neighbours, 500), (boto_of, 60), (boto_of, 200),
    (boto_of, 500), (pigeons, 8), (pigeons, 10),
)


class Shapes(Program):
    def test_shapes(self):
        for make in pins, ring, chain, plugins, clouds, neighbours, pigeons:
            with self.subTest(shape=make.__name__):
                self.check_told(*make(), SECONDS)

    @unittest.skipUnless(IS_LONG, "optional: LONG_TESTS=1 asks for it")
    def test_larger_shapes(self):
        for make, count in LARGER:
            with self.subTest(shape=make.__name__, count=count):
                self.check_told(*make(count), LONG)

    def check_told(self, releases, lines, seconds):
        """`why` tells in time that the lines have no solution, by a list that the checker accepts, and in sentences about these lines."""
        self.begin("".join(f"{line}\n" for line in lines).encode(), *releases)
        status, told = self.call("why", "--init", seconds=seconds)
        self.assertEqual((status, told.splitlines()[-1]), (3, "-"))
        self.assertEqual(self.checked(told), (0, "accepted\n", ""))
        status, told = self.call("why", "--init", "--explain", seconds=seconds)
        self.assertEqual(status, 3)
        self.assertRegex(told, r"(?s)\bline [0-9]+ \(.*\n1\. ")

    def checked(self, told):
        """What the checker answers of a list."""
        paths = self.outside / "index.json", self.outside / "environment.json", self.folder / "requirements.txt"
        done = called("check_refutation", paths, text=told)
        return done.returncode, done.stdout, done.stderr


if __name__ == "__main__":
    unittest.main()
