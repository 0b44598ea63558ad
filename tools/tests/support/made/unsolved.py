"""Indexes and lines that are drawn from a seed, and which mostly have no solution: few names, ranges that often don't meet, extras,
markers, pre-releases, yanked releases and ones that ask for another Python. For tests of what is told of them."""

from support.made.chance import Chance
from support.made.releases import file_of

NAMES = "a", "b-b", "c", "d", "e"
VERSIONS = "1", "1.5", "2a1", "2", "2.1.post1", "3", "3.1rc1", "4", "5.dev1", "5"
BOUNDS = "1", "1.5", "2", "2.1", "3", "4"
WIDE = "", "", ">=1", ">=1.5", "<5", "!=3", ">=2a1"
EXTRAS = "", "", "", "", "[x]", "[y]", "[x,y]"
ACTIVE, IDLE = 'python_version >= "3.8"', 'sys_platform == "win32"'
OWN_MARKERS = "", "", "", "", "", ' ; extra == "x"', ' ; extra == "y"', f" ; {ACTIVE}", f" ; {IDLE}"
LINE_MARKERS = "", "", "", "", f" ; {ACTIVE}", f" ; {IDLE}"
PYTHONS = ">=3.99", "<3", " >=3.8 , <3.9 ", ">=3.8", ">=3.8"
COMMENTS = "", "", "", "  # why", " # a, b and c"
OTHERS = "# web", "", "  # a (b)"


class Draw(Chance):
    def clauses(self):
        low, high = sorted(self.random.sample(BOUNDS, 2), key=BOUNDS.index)
        forms = (f">={low}", f">={low}", f"<{high}", f"<{high}", f"=={low}", f"!={low}", f">={low},<{high}", f"!={low},!={high}")
        return self.one((*forms, "==2.*", "~=2.0", f">{low}", "<=2a1", ""))

    def requirement(self, name):
        return name + self.one(EXTRAS) + self.clauses()

    def release(self, name, version):
        others = [other for other in NAMES if other != name] + [name] * self.happens(5)
        needs = [self.requirement(other) + self.one(OWN_MARKERS) for other in self.random.sample(others, self.one((0, 1, 2, 2, 3)))]
        release = {"version": version, "requires_dist": needs, "files": [file_of(name, version)]}
        release |= {"yanked": True} if self.happens(12) else {}
        release |= {"requires_python": self.one(PYTHONS)} if self.happens(25) else {}
        return release | ({"version": "one"} if self.happens(2) else {})

    def releases(self, name):
        return [self.release(name, version) for version in self.random.sample(VERSIONS, self.one((1, 1, 2, 3, 4, 5, 6, 7)))]

    def index(self):
        """An index, which sometimes lacks a package."""
        packages = [{"name": name, "releases": self.releases(name)} for name in NAMES if not self.happens(3)]
        return {"snapshot": 1, "packages": packages}

    def line(self, name):
        """A line, mostly one that admits many releases, so that dependencies decide."""
        wanted = self.requirement(name) if self.happens(30) else name + self.one(EXTRAS) + self.one(WIDE)
        return wanted + self.one(LINE_MARKERS) + self.one(COMMENTS)

    def lines(self):
        """The lines of a file, some of which ask for nothing. Mostly no two are on one name."""
        names = self.random.sample(NAMES, self.one((1, 2, 2, 3, 3, 4)))
        lines = [self.line(name) for name in names + names[:1] * self.happens(15)]
        lines += [self.one(OTHERS) for _ in range(self.one((0, 0, 1, 2)))]
        self.random.shuffle(lines)
        return lines
