"""The lock that `export --format pylock` prints, over drawn indexes and drawn environments: wherever an installer installs by it, as the
second reading of PEP 751 has it, it installs all that a new lock there has, and nothing else. Of 40 indexes, and 40 as users have them, or 400 with LONG_TESTS=1. They need
the program, which ./check builds first."""

import tomllib
import unittest
from collections import Counter

from support.drawn_files import DrawnFiles
from support.installed import compares_no_version, entries_installed, markers_of, without_environments
from support.made.environments import LINUX
from support.made.releases import file_of
from support.made.sessions import SETS, Draw
from support.places import IS_LONG, needs_program
from support.rules.edits import Refused, begun
from support.rules.lock_tables import read_lock_table
from support.rules.requirements import cut_lines

# What a variable other than those of Python has is a version in one environment and none in another.
PYTHONS = "3.8.10", "3.9.18", "3.10.0", "3.10.12", "3.11.0rc1", "3.11.5", "3.11.7", "3.12.0a1", "3.12.0", "3.12.1", "3.13.2", "4.0.0"
SYSTEMS = ("linux", "posix", "Linux"), ("win32", "nt", "Windows"), ("darwin", "posix", "Darwin")
IMPLEMENTATIONS = ("cpython", "CPython", None), ("pypy", "PyPy", "7.3.12"), ("pypy", "PyPy", "7.3.9"), ("other", "Other", "8 (main)")
MACHINES, RELEASES = ("x86_64", "amd64", "arm64", "386"), ("5.10", "6.1", "10", "10.0", "23.4.0", "6.1.0-13-amd64", "")
KERNELS = "#1 SMP", "#2 SMP", "10.0.19045", "9", "9.0"
ASKED = (
    "", ">=3.8", ">=3.10", ">=3.11,<4", ">=3.12", ">=3.12.1", "<3.12", "<=3.11.7", ">3.10", "!=3.11.*", "!=3.11.5", "==3.11.*", "~=3.9",
    "<3.12.0rc1", ">=3.8,!=3.9.*,!=3.10.0",
)
HOLDING = (
    'python_version < "3.12"', 'python_version>="3.10"', 'python_full_version >= "3.11.5"', "python_full_version < '3.12.0a2'",
    '"3.10" <= python_version', "'3.11' > python_version", 'python_version ~= "3.9"', 'python_full_version == "3.11.*"',
    'python_version in "3.10 3.11"', 'python_version not in "3.8, 3.9"', "sys_platform == 'win32'", 'sys_platform != "darwin"',
    '"linux" in sys_platform', "os_name == 'nt' or platform_machine == 'arm64'", 'platform_machine in "x86_64 amd64"',
    "platform_release >= '6'", "'5.9' < platform_release", "platform_version == '#1 SMP'", "implementation_name == 'cpython'",
    'platform_release >= "9.0"', 'platform_release >= "20.0"', 'platform_release < "22"', 'platform_release <= "=9.0"', 'platform_release == "6.*"',
    'platform_release ~= "6.1"', 'platform_version > "10"', 'platform_version != "9"', "platform_machine >= 'b'", 'platform_machine != "386.0"',
    'platform_release in "6.1.0-13-amd64, 10"', "'amd' not in platform_release", 'platform_release < platform_version',
    'platform_release > "=9.0"', '"nt" != os_name', "'win' not in sys_platform", "'10' >= platform_version", "platform_version < '#2'",
    "implementation_version < '7.3.10'", 'platform_python_implementation == "PyPy" and python_version < "3.10"',
    "(platform_system == 'Darwin' or python_full_version >= '3.10.1') and os_name == 'posix'",
)
EXTRAS = 'extra == "e-1" and python_version < "3.10"', "extra == 'e.1'", 'extra != "f" or os_name == "nt"'
COUNT = 400 if IS_LONG else 40
OTHERS = 30
# what must have come
SEEN = "no lock", "holds elsewhere", "other locks", "no lock elsewhere", "the same where nothing is said"


class DrawnIndex(Draw):
    """Indexes that ask much of an environment."""

    def requirement(self, markers, names=()):
        clauses = self.name(names) + self.one(("", "", "", "[e-1]")) + self.one(SETS)
        return f"{clauses} ; {self.one(markers)}" if self.happens(40) else clauses

    def release(self, name, version):
        needs = [self.requirement(HOLDING * 2 + EXTRAS) for _ in range(self.one((0, 0, 1, 1, 2)))]
        release = {"version": version, "files": [file_of(name, version)], "requires_dist": needs}
        if self.happens(35):
            release["requires_python"] = self.one(ASKED)
        return release

    def requirements(self):
        return "".join(f"{self.requirement(HOLDING, [name])}\n" for name in self.random.sample(self.names, self.one((1, 2, 2, 3))))

    def environment(self):
        return self.other_than({**LINUX, "platform_release": self.one(RELEASES), "platform_version": self.one(KERNELS)}, 4)

    def other_than(self, environment, count):
        """An environment in which so many things may be other ones."""
        changed = dict(environment)
        for _ in range(count):
            part = self.one(("python", "python", "system", "implementation", "platform_machine", "platform_release", "platform_version"))
            if part == "python":
                python = self.one(PYTHONS)
                changed |= {"python_full_version": python, "python_version": ".".join(python.split(".")[:2])}
                if changed["implementation_name"] == "cpython":
                    changed["implementation_version"] = python
            elif part == "system":
                changed["sys_platform"], changed["os_name"], changed["platform_system"] = self.one(SYSTEMS)
            elif part == "implementation":
                name, platform, version = self.one(IMPLEMENTATIONS)
                changed |= {
                    "implementation_name": name, "platform_python_implementation": platform,
                    "implementation_version": version or changed["python_full_version"],
                }
            else:
                texts = {"platform_machine": MACHINES, "platform_release": RELEASES, "platform_version": KERNELS}
                changed[part] = self.one(texts[part])
        return changed


# What indexes mostly ask: of the system, the machine, the implementation, an old Python or a new one.
USUAL = (
    'sys_platform == "win32"', "sys_platform != 'win32'", 'platform_system == "Windows"', 'platform_system == "Darwin"', "os_name == 'nt'",
    'platform_machine == "x86_64"', "platform_machine == 'aarch64' or platform_machine == 'x86_64'", 'platform_python_implementation == "CPython"',
    "platform_python_implementation != 'PyPy'", 'implementation_name == "cpython"', 'python_version < "3.8"', "python_version<'3.11'",
    'python_version >= "3.10"', 'python_full_version < "3.11.3"', 'python_version < "3.9" and sys_platform == "win32"',
    'sys_platform == "darwin" and platform_machine == "arm64"',
)
USUAL_EXTRAS = 'extra == "e-1"', "extra == 'e-1' and python_version < '3.11'", 'extra == "test"', "extra == 'test' and sys_platform == 'win32'"
USUAL_PYTHONS = ">=2.7, !=3.0.*, !=3.1.*", ">=3.6", ">=3.7", ">=3.8", ">=3.9", ">=3.10", ">=3.8,<4.0", ">=3.12"
PLATFORMS = (
    ("linux", "posix", "Linux", "x86_64", "6.1.0-13-amd64", "#1 SMP"), ("linux", "posix", "Linux", "aarch64", "5.15.0", "#40-Ubuntu SMP"),
    ("darwin", "posix", "Darwin", "arm64", "23.4.0", "Darwin Kernel Version 23.4.0"), ("win32", "nt", "Windows", "AMD64", "10", "10.0.19045"),
)
PLATFORM = "sys_platform", "os_name", "platform_system", "platform_machine", "platform_release", "platform_version"
MINORS = "3.8.10", "3.9.18", "3.10.12", "3.11.2", "3.11.7", "3.12.1", "3.13.2"


class UsersIndex(DrawnIndex):
    """Indexes as users have them: few markers, and releases that ask for a Python by its lower bound."""

    def requirement(self, markers, names=()):
        clauses = self.name(names) + self.one(("", "", "", "[e-1]")) + self.one(SETS)
        return f"{clauses} ; {self.one(markers)}" if self.happens(30) else clauses

    def release(self, name, version):
        needs = [self.requirement(USUAL + USUAL_EXTRAS) for _ in range(self.one((0, 0, 1, 1, 2)))]
        release = {"version": version, "files": [file_of(name, version)], "requires_dist": needs}
        if self.happens(70):
            release["requires_python"] = self.one(USUAL_PYTHONS)
        return release

    def requirements(self):
        return "".join(f"{self.requirement(USUAL, [name])}\n" for name in self.random.sample(self.names, self.one((1, 2, 2, 3))))

    def environment(self):
        return self.other_than(LINUX, 1)

    def other_than(self, environment, count):
        """One of the environments that users have."""
        python = self.one(MINORS)
        name, platform, version = self.one((("cpython", "CPython", python),) * 4 + (("pypy", "PyPy", "7.3.12"),))
        return dict(zip(PLATFORM, self.one(PLATFORMS))) | {
            "implementation_name": name, "platform_python_implementation": platform, "implementation_version": version,
            "python_full_version": python, "python_version": ".".join(python.split(".")[:2]),
        }


@needs_program
class Drawn(DrawnFiles):
    def test_a_new_lock_is_the_same_wherever_the_marker_holds(self):
        for kind in DrawnIndex, UsersIndex:
            self.seen = Counter()
            for seed in range(COUNT):
                with self.subTest(kind=kind.__name__, seed=seed):
                    draw = kind(seed)
                    self.take_index(draw.index())
                    lines = draw.requirements()
                    self.play(draw, lines, draw.environment())
            self.assertLessEqual(set(SEEN), set(+self.seen), self.seen)

    def play(self, draw, lines, environment):
        """What is exported of the lock in an environment, held against the locks in others."""
        locked = self.lock_in(lines, environment)
        if locked is None:
            self.seen["no lock"] += 1
            return
        lock = self.exported()
        self.assertEqual(entries_installed(lock, environment), locked[1])
        for marker in markers_of(tomllib.loads(lock.decode())):
            self.assertFalse(compares_no_version(marker, environment))
        for _ in range(OTHERS):
            other = draw.other_than(environment, draw.one((1, 1, 2, 3)))
            installed, wanted = entries_installed(lock, other), self.ruled(lines, other)
            is_met = installed is not None
            if is_met:
                self.assertEqual((wanted, installed), (locked, locked[1]), (lock, other))
                if draw.happens(20):
                    self.assertEqual(self.lock_in(lines, other), locked, (lock, other))
            self.seen["holds elsewhere"] += is_met and other != environment
            self.seen["other locks"] += not is_met and wanted not in (None, locked)
            self.seen["no lock elsewhere"] += not is_met and wanted is None
            self.seen["the same where nothing is said"] += not is_met and wanted == locked

    def lock_in(self, lines, environment):
        """The digest and the packages that `init` locks in an environment, None where it is refused."""
        self.lock_for({"": environment})
        self.put({"requirements.txt": lines.encode()})
        status, output, _ = self.told("init")
        self.assertIn((status, output), [(0, "ok 0\n"), (3, "refused no-solution\n")])
        return read_lock_table((self.folder / "pylock.toml").read_bytes())[1:] if status == 0 else None

    def ruled(self, lines, environment):
        """The same by the rules in Python."""
        try:
            state = begun(cut_lines(lines), {"": environment}, self.index)
        except Refused:
            return None
        return state.digest, state.targets[""].entries

    def exported(self):
        """The lock that travels, where all but the environments is that of the lock."""
        status, output, error = self.told("export", "--format", "pylock")
        self.assertEqual((status, error), (0, ""))
        own = (self.folder / "pylock.toml").read_bytes()
        self.assertEqual(without_environments(output.encode()), without_environments(own))
        return output.encode()


if __name__ == "__main__":
    unittest.main()
