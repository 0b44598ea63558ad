"""Indexes, requirements files and commands that are drawn from a seed, for tests of sessions. The names are few and the versions
near each other, so that lines, dependencies and kept versions often meet."""

from support.made.chance import Chance
from support.made.releases import file_of

NAMES = "a", "b-b", "c", "d", "e"
SPELLINGS = {"a": ("a", "A"), "b-b": ("b-b", "B_b", "b.-B")}
UNKNOWN = "z"
MOST_RELEASES = 3
EXTRA = "e-1"
VERSIONS = "0.9", "1", "1.0", "1.5", "1.post1", "2a1", "2", "2.1", "3.dev0"
SETS = (
    "", "", "", "", ">=1", ">=0.9,", ">=1", ">=1.5", "<2", "<=2", "<3", ">1", "!=2", "!=1.*", "!=2a1", "==1", "==1.*",
    "==2", "==2a1", ">=2a1", ">=1,<3", "~=1.0",
)
FAULTY_SETS = ">>1", "(>=1)", "==", "~=1", "1", ">=1 ; x"
PYTHONS = None, None, "", " ", ">=3.8", "<4, >=3.8", "==3.12.*", "<3.12"
MARKERS = (
    "os_name == 'posix'", "os_name == 'nt'", "python_version >= '3.10'", "'linux' in sys_platform and python_version < '4'",
    "(os_name == 'nt' or platform_system == 'Linux')",
)
EXTRA_MARKERS = 'extra == "E_1"', "'e.1' == extra", 'extra != "e-1"', 'extra == "f"'
FAULTY_LINES = "", " ", "# a", "a >>1", "a b", "_a", "a[", "a ;", "a @ https://x.example/a.whl", "a\n", "a # b\\", "a === 1"
FAULTY_NAMES = "a b", "_", "a ", "a==1", ""
WHEEL, OTHER_WHEEL = "-py3-none-any.whl", "-cp312-none-any.whl"
ENDINGS = [[WHEEL]] * 6 + [[WHEEL, OTHER_WHEEL], [OTHER_WHEEL, ".zip", WHEEL], [".zip", ".tar.gz"], [".egg"]]
KINDS = ["add"] * 6 + ["remove"] * 2 + ["constrain"] * 5 + ["upgrade"] * 4 + ["relock"] * 2 + ["undo"] * 4 + ["redo"]


class Draw(Chance):
    def __init__(self, seed, names=NAMES):
        super().__init__(seed)
        self.names = names
        self.packages = {}
        self.kind = None

    def name(self, names=()):
        """A name, of these where there are any, in one of its spellings."""
        name = UNKNOWN if self.happens(2) else self.one(names or self.names)
        return self.one(SPELLINGS.get(name, (name,)))

    def marker(self, markers):
        return f" ; {self.one(markers)}" if self.happens(25) else ""

    def requirement(self, markers, names=()):
        """A requirement text, on one of these names where there are any."""
        extras = self.one(("[e-1]", " [ E_1 ]", "[f,E.1]", "[]")) if self.happens(25) else ""
        clauses = "" if self.happens(35) else self.one(SETS)
        clauses = self.one((clauses, f" {clauses}", f" ({clauses})", f"({clauses} ) "))
        return self.name(names) + extras + clauses + self.marker(markers)

    def files(self, name, version):
        return [file_of(name, version, ending) for ending in self.one(ENDINGS)]

    def release(self, name, version):
        release = {"version": version, "files": self.files(name, version)}
        needs = [self.requirement(MARKERS[:2] + EXTRA_MARKERS * 2) for _ in range(self.one((0, 0, 1, 1, 1, 2)))]
        if needs or self.happens(50):
            release["requires_dist"] = needs + (["- x"] if self.happens(2) else [])
        if self.happens(50):
            release["requires_python"] = self.one(PYTHONS)
        if self.happens(12):
            release["yanked"] = True
        return release

    def releases(self, name, count):
        return [self.release(name, version) for version in self.random.sample(VERSIONS, count)]

    def index(self):
        """An index. To those that were drawn before, other releases come; some packages are other ones."""
        for name in self.names:
            releases = self.packages.get(name, [])
            if not releases or self.happens(10):
                self.packages[name] = self.releases(name, self.one((1, 2, 2, 3)))
            elif len(releases) < MOST_RELEASES and self.happens(50):
                self.packages[name] = releases + self.releases(name, 1)
        return {"snapshot": 1, "packages": [{"name": name, "releases": self.packages[name]} for name in self.names]}

    def line(self, names=()):
        comment = self.one(("", "", "  # why", " # a; b", "\t#"))
        return self.one(("", "", " ")) + self.requirement(MARKERS, names) + comment

    def requirements(self):
        """The text of a requirements file. Mostly no two lines are on one name."""
        names = self.random.sample(self.names, min(len(self.names), self.one((0, 1, 2, 3, 3, 4))))
        lines = [self.line([name]) for name in names + names[:1] * self.happens(10)]
        lines += [self.one(("# web", "", " \t", "#a")) for _ in range(self.one((0, 1, 2)))]
        self.random.shuffle(lines)
        ends = self.one((["\n"], ["\r\n"], ["\n", "\r\n"]))
        text = "".join(line + self.one(ends) for line in lines)
        return text.rstrip("\r\n") if self.happens(30) else text

    def a_name(self, names):
        """A name that is to be looked for, mostly of these."""
        if self.happens(5):
            return self.one(FAULTY_NAMES)
        return self.name(names if self.happens(85) else ())

    def command(self, present, locked):
        """A command, mostly on names that have a line, or that are locked."""
        kind = self.kind = "redo" if self.kind == "undo" and self.happens(50) else self.one(KINDS)
        if kind == "add":
            new = sorted({*self.names} - {*present}) if self.happens(85) else []
            return kind, self.one(FAULTY_LINES) if self.happens(8) else self.line(new)
        if kind == "remove":
            return kind, self.a_name(present)
        if kind == "constrain":
            text = self.one(FAULTY_SETS) if self.happens(8) else self.one((" ", "")) + self.one(SETS) + self.one(("", "\t"))
            return (kind, self.a_name(present)) if self.happens(15) else (kind, self.a_name(present), text)
        if kind == "upgrade":
            return kind, *(self.a_name(locked) for _ in range(self.one((0, 1, 1, 2))))
        return (kind,)
