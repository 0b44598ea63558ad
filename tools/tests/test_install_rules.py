"""Tests of rules/installs.py, the reading of PEP 751, by rows made by hand: each rule with a lock, and the error at which its installation
ends or what is installed. What the rows say of markers `packaging` says too."""

import hashlib
import json
import tomllib
import unittest

from support.installed import check_dependencies, check_markers, check_references
from support.made.environments import LINUX, WINDOWS
from support.rules.installs import Installing, NotForThisEnvironment, Refused, installed_by, referred, validate
from support.rules.requirements import Fault
from support.rules.wheel_names import best_wheel

HEAD = 'lock-version = "1.0"\ncreated-by = "hand"\n'
GROUPS = 'extras = ["E_x"]\ndependency-groups = ["dev"]\ndefault-groups = ["main"]\n'
SOURCES = "archive", "directory", "sdist", "vcs", "wheels"


def file_at(name):
    """A file's table in an entry."""
    return f'{{url = "https://files.example/d/{name}", hashes = {{sha256 = "0"}}}}'


def wheels(*tags):
    return "wheels = [{}]".format(", ".join(file_at(f"a-1-{tag}.whl") for tag in tags))


def marker(text):
    return f"marker = {json.dumps(text)}"


def package(*lines, name="a"):
    """An entry with these lines, and with a wheel where they tell no source."""
    lines = lines if any(line.startswith(SOURCES) for line in lines) else (*lines, ANY)
    return "\n".join(["[[packages]]", f'name = "{name}"', *lines, ""])


def lock(*packages, head=""):
    return HEAD + head + ("".join(packages) or "packages = []\n")


def environments(*texts):
    return f"environments = {json.dumps(texts)}\n"


ANY, SDIST, ARCHIVE = wheels("py3-none-any"), f"sdist = {file_at('a-1.tar.gz')}", f"archive = {file_at('a.zip')}"
VCS = 'vcs = {type = "git", url = "https://host.example/a", commit-id = "c0ffee"}'
NOWHERE = '{name = "a-1-py3-none-any.whl", hashes = {sha256 = "0"}}'
DIRECTORY = 'directory = {path = "a", editable = true}'
POSIX, NT = "os_name == 'posix'", "os_name == 'nt'"
IN_LINUX, ELSEWHERE = "sys_platform == 'linux'", "sys_platform != 'linux'"
TAGS = "cp312-cp312-linux_x86_64", "cp312-abi3-linux_x86_64", "py3-none-any"
ABI3, WIN, BOTH = "cp312-abi3-linux_x86_64", "cp312-cp312-win_amd64", "cp311.cp312-abi3-win32.linux_x86_64"
NAMED = 'wheels = [{name = "a-1-py3-none-any.whl", path = "x", hashes = {md5 = "0"}}]'

# a rule; the step at which an error is raised; a lock; what is asked beside the environment
ERRORS = (
    ("a lock is TOML", "TOML", "a = "),
    ("`lock-version` is required", "lock-version", 'created-by = "hand"\npackages = []\n'),
    ("`lock-version` is a text", "lock-version", lock().replace('"1.0"', "1.0")),
    ("`lock-version` has a major and a minor version", "lock-version", lock().replace("1.0", "1")),
    ("a major version that isn't supported is an error", "lock-version", lock().replace("1.0", "2.0")),
    ("`created-by` is required", "created-by", 'lock-version = "1.0"\npackages = []\n'),
    ("`packages` is required", "packages", HEAD),
    ("`packages` has tables", "packages.name", f"{HEAD}packages = [1]\n"),
    ("`packages.name` is required", "packages.name", f"{HEAD}[[packages]]\n{ANY}\n"),
    ("`packages.name` is normalized", "packages.name", lock(package(name="A_b"))),
    ("`requires-python` is met", "requires-python", lock(package(), head='requires-python = ">=3.13"\n')),
    ("`requires-python` has specifiers", "requires-python", lock(package(), head='requires-python = "3.12"\n')),
    ("`requires-python` is a text", "requires-python", lock(package(), head="requires-python = 3\n")),
    ("an expression of `environments` is satisfied", "environments", lock(package(), head=environments(NT))),
    ("one of several is", "environments", lock(package(), head=environments(NT, "python_version < '3.9'"))),
    ("one of none is", "environments", lock(package(), head=environments())),
    ("`environments` has texts", "environments", lock(package(), head="environments = [1]\n")),
    ("each of them is a marker", "marker", lock(package(), head=environments(POSIX, ""))),
    ("`extras` lists those that are supported", "extras", lock(package(), head=GROUPS), {"extras": ["f"]}),
    ("`extras` is empty where it is absent", "extras", lock(package()), {"extras": ["e-x"]}),
    ("`dependency-groups` lists those that are supported", "dependency-groups", lock(package(), head=GROUPS), {"groups": ["e-x"]}),
    ("`packages.marker` is a marker", "marker", lock(package(marker("os_name")))),
    ("a marker has an end", "marker", lock(package(marker(f"{POSIX} {POSIX}")))),
    ("`packages.marker` is a text", "marker", lock(package("marker = true"))),
    ("`extra` is no variable of a lock", "marker", lock(package(marker("extra == 'e-x'")))),
    ("`extras` is asked by `in` and `not in`", "marker", lock(package(marker("extras == 'e-x'")))),
    ("texts are in a set", "marker", lock(package(marker("os_name in extras")))),
    ("a set is in no text", "marker", lock(package(marker("extras in 'e-x'")))),
    ("`packages.requires-python` is met", "packages.requires-python", lock(package('requires-python = "<3.12"'))),
    ("`packages.requires-python` has specifiers", "packages.requires-python", lock(package('requires-python = "x"'))),
    ("one entry of a name remains, of two without markers", "ambiguity", lock(package(), package())),
    ("of two of which one has no marker", "ambiguity", lock(package(), package(marker(POSIX)))),
    ("of two whose markers hold together", "ambiguity", lock(package(marker(POSIX)), package(marker(IN_LINUX)))),
    ("of two with another source", "ambiguity", lock(package('version = "1"'), package('version = "1"', SDIST))),
    ("of two of which one has no wheel that runs", "ambiguity", lock(package(wheels(WIN)), package())),
    ("a package has a source", "sources", lock(package("wheels = []"))),
    ("`vcs` excludes `directory`", "sources", lock(package(VCS, DIRECTORY))),
    ("`vcs` excludes `archive`", "sources", lock(package(VCS, ARCHIVE))),
    ("`vcs` excludes `sdist`", "sources", lock(package(VCS, SDIST))),
    ("`vcs` excludes `wheels`", "sources", lock(package(VCS, ANY))),
    ("`directory` excludes `archive`", "sources", lock(package(DIRECTORY, ARCHIVE))),
    ("`directory` excludes `sdist`", "sources", lock(package(DIRECTORY, SDIST))),
    ("`directory` excludes `wheels`", "sources", lock(package(DIRECTORY, ANY))),
    ("`archive` excludes `sdist`", "sources", lock(package(ARCHIVE, SDIST))),
    ("`archive` excludes `wheels`", "sources", lock(package(ARCHIVE, ANY))),
    ("without an appropriate wheel there is an sdist", "wheels", lock(package(wheels(WIN)))),
    ("a wheel has the name of one", "wheels", lock(package(f"wheels = [{file_at('a-1.whl')}]"))),
    ("a wheel has a path or a URL", "wheels", lock(package(f"wheels = [{NOWHERE}]"))),
    ("an sdist has a path or a URL", "url", lock(package(f"sdist = {NOWHERE}"))),
    ("an archive has a path or a URL", "url", lock(package(f"archive = {NOWHERE}"))),
    ("`hashes` is required", "hashes", lock(package('sdist = {path = "a-1.zip"}'))),
    ("`hashes` has an entry", "hashes", lock(package('sdist = {path = "a-1.zip", hashes = {}}'))),
    ("of an algorithm that is known", "hashes", lock(package('sdist = {path = "a-1.zip", hashes = {crc = "0"}}'))),
    ("`vcs.commit-id` is required", "vcs", lock(package('vcs = {type = "git", path = "a"}'))),
    ("`vcs` has a path or a URL", "vcs", lock(package('vcs = {type = "git", commit-id = "c0ffee"}'))),
    ("`directory.path` is required", "directory", lock(package("directory = {editable = true}"))),
    ("of three entries of a name no two remain", "ambiguity", lock(*map(package, map(marker, (NT, POSIX, f"{NT} or {IN_LINUX}"))))),
    ("a marker that doesn't hold is read too", "marker", lock(package(), package(marker("os_name = 'nt'")))),
    ("an expression of `environments` that isn't needed is read too", "marker", lock(package(), head=environments(POSIX, "os_name"))),
)
# those at which the whole lock isn't for the environment
ELSEWHERE_TOLD = "`requires-python` is met", "an expression of `environments` is satisfied", "one of several is", "one of none is"

# a rule; what is installed, each by its name and what is taken; a lock; what is asked beside the environment
INSTALLED = (
    ("a lock may have no packages", "", lock()),
    ("a minor version that isn't supported is no error", "a wheels", lock(package()).replace("1.0", "1.1")),
    ("`requires-python` is met", "a wheels", lock(package(), head='requires-python = ">=3.8,<4"\n')),
    ("an expression of `environments` is satisfied", "a wheels", lock(package(), head=environments(NT, POSIX))),
    ("several are", "a wheels", lock(package(), head=environments(IN_LINUX, NT, POSIX))),
    ("a package whose marker is satisfied is installed", "a wheels", lock(package(marker(POSIX)))),
    ("another one is skipped", "b wheels", lock(package(marker(NT)), package(name="b"))),
    ("and nothing else is checked of it", "", lock(package(marker(NT), 'requires-python = ">4"', VCS, SDIST))),
    ("packages stand in any order", "b wheels, a sdist", lock(package(name="b"), package(SDIST))),
    ("two entries of a name exclude one another", "a wheels", lock(package(marker(IN_LINUX)), package(marker(ELSEWHERE), SDIST))),
    ("of several entries of a name none need be installed", "", lock(package(marker(NT)), package(marker(ELSEWHERE), SDIST))),
    ("one of the markers that are joined holds", "a wheels", lock(package(marker(f"{NT} and {IN_LINUX} or {POSIX} and {IN_LINUX}")))),
    ("`dependencies` that fit no entry are no error", "a wheels", lock(package('dependencies = [{name = "c"}]'))),
    ("`dependencies` must not be used", "a wheels", lock(package('dependencies = [{name = "b"}]'), package(marker(NT), name="b"))),
    ("`extras` is empty by default", "", lock(package(marker("'e-x' in extras")), head=GROUPS)),
    ("an extra is asked for", "a wheels", lock(package(marker("'e-x' in extras")), head=GROUPS), {"extras": ["e.X"]}),
    ("names are normalized before they are compared", "a wheels", lock(package(marker("'E.x' in extras")), head=GROUPS), {"extras": ["e_x"]}),
    ("an extra is not asked for", "a wheels", lock(package(marker("'e-x' not in extras")), head=GROUPS)),
    ("`default-groups` are taken by default", "a wheels", lock(package(marker("'main' in dependency_groups")), head=GROUPS)),
    ("others are not", "", lock(package(marker("'dev' in dependency_groups")), head=GROUPS)),
    ("groups are asked for", "a wheels", lock(package(marker("'dev' in dependency_groups")), head=GROUPS), {"groups": ["dev"]}),
    ("in the place of the default", "", lock(package(marker("'main' in dependency_groups")), head=GROUPS), {"groups": ["dev"]}),
    ("a set stands beside variables", "a wheels", lock(package(marker(f"{POSIX} and ('x' in extras or {IN_LINUX})")), head=GROUPS)),
    ("the best tag is taken", f"a a-1-{ABI3}.whl", lock(package(wheels("py3-none-any", ABI3)))),
    ("a wheel has several tags", f"a a-1-{BOTH}.whl", lock(package(wheels("py3-none-any", BOTH)))),
    ("one that doesn't run is passed over", "a a-1-py3-none-any.whl", lock(package(wheels(WIN, "py3-none-any")))),
    ("without one there is an sdist", "a sdist", lock(package(wheels(WIN), SDIST))),
    ("a wheel is before an sdist", "a wheels", lock(package(SDIST, ANY))),
    ("a name is told where the path doesn't tell it", "a x", lock(package(NAMED))),
    ("a repository", "a vcs", lock(package(VCS))),
    ("a folder", "a directory", lock(package(DIRECTORY))),
    ("an archive", "a archive", lock(package(ARCHIVE))),
)
# the entries of a lock beside that of `a`, the dependencies of that one, and the places of those that they tell; None where that is an error
SPAM = "\n".join(
    f'[[packages]]\nname = "{name}"\nversion = "{version}"\nmarker = "{marker}"\n{source}\n'
    for name, version, marker, source in (
        ("spam", "1", "m", VCS), ("spam", "2", "m", 'sdist = {url = "u", hashes = {sha256 = "0"}}'), ("spam", "2", "n", DIRECTORY),
        ("egg", "1", "m", ""),
    )
)
REFERRED = (
    ("none", "[]", []), ("a name", '[{name = "egg"}]', [3]), ("names", '[{name = "egg"}, {name = "spam", version = "1"}]', [3, 0]),
    ("a version", '[{name = "spam", version = "1"}]', [0]), ("a marker too", '[{name = "spam", version = "2", marker = "n"}]', [2]),
    ("each", '[{name = "spam", version = "2", marker = "m"}, {name = "spam", version = "2", marker = "n"}]', [1, 2]),
    ("a source", '[{name = "spam", vcs = {url = "https://host.example/a"}}]', [0]),
    ("a source by its key", '[{name = "spam", directory = {}}]', [2]),
    ("an ambiguous name", '[{name = "spam"}]', None), ("an ambiguous version", '[{name = "spam", version = "2"}]', None),
    ("another source", '[{name = "spam", vcs = {url = "https://host.example/b"}}]', None),
    ("another version", '[{name = "spam", version = "3"}]', None), ("a name that isn't there", '[{name = "ham"}]', None),
    ("the entry itself", '[{name = "a"}]', None), ("no name", '[{version = "1"}]', None),
    ("a name that isn't normal", '[{name = "Egg"}]', None), ("no table", '["egg"]', None), ("no array", '{name = "egg"}', None),
)
# the wheel that is taken of these, where wheels of TAGS run
WHEELS = (
    (None, []),
    (None, [f"a-1-{WIN}.whl"]),
    ("a-1-PY2.PY3-none-any.whl", ["a-1-PY2.PY3-none-any.whl", "a-1-py2-none-any.whl"]),
    ("a-1-10-py3-none-any.whl", ["a-1-9-py3-none-any.whl", "a-1-10-py3-none-any.whl", "a-1-py3-none-any.whl"]),
    ("a-1-1b-py3-none-any.whl", ["a-1-1a-py3-none-any.whl", "a-1-1b-py3-none-any.whl", "a-1-1-py3-none-any.whl"]),
    (f"a-1-{ABI3}.whl", ["a-1-9-py3-none-any.whl", f"a-1-{ABI3}.whl"]),
)


def place_of(source):
    """The last part of what a file or a tree is taken from."""
    return (source.get("path") or source["url"]).split("/")[-1]


class Rows(unittest.TestCase):
    def call(self, text, more=None, variables=LINUX):
        return installed_by(text.encode(), Installing(variables, **{"tags": TAGS, **(more or {})}))

    def test_errors(self):
        for rule, step, text, *more in ERRORS:
            with self.subTest(rule=rule):
                with self.assertRaises(Refused) as raised:
                    self.call(text, *more)
                is_of_the_lock = isinstance(raised.exception, NotForThisEnvironment)
                self.assertEqual((raised.exception.step, is_of_the_lock), (step, rule in ELSEWHERE_TOLD))

    def test_a_text_that_is_not_utf_8(self):
        with self.assertRaises(Refused):
            installed_by(b"# \xff\n" + lock().encode(), Installing(LINUX))

    def test_what_is_installed(self):
        for rule, wanted, text, *more in INSTALLED:
            with self.subTest(rule=rule):
                installed = self.call(text, *more)
                keys = ", ".join(f"{item.package['name']} {item.key}" for item in installed)
                places = ", ".join(f"{item.package['name']} {place_of(item.source)}" for item in installed)
                self.assertIn(wanted, (keys, places))

    def test_the_other_of_two_entries_elsewhere(self):
        text = lock(package(marker(IN_LINUX)), package(marker(ELSEWHERE), SDIST))
        self.assertEqual([item.key for item in self.call(text, variables=WINDOWS)], ["sdist"])

    def test_wheels(self):
        for wanted, names in WHEELS:
            for given in names, names[::-1]:
                self.assertEqual(best_wheel(given, TAGS), wanted)
        for name in "a-1-py3-none.whl", "a-1-b-py3-none-any.whl", "a-1-py3-none-any.zip", "a-1-1-1-py3-none-any.whl":
            with self.assertRaises(Fault):
                best_wheel([name], TAGS)

    def test_packaging_says_the_same_of_markers(self):
        for text in POSIX, NT, IN_LINUX, ELSEWHERE, "python_version < '3.9'", f"{POSIX} and ({NT} or {IN_LINUX})":
            for variables in LINUX, WINDOWS:
                check_markers(lock(package(marker(text)), head=environments(text)).encode(), variables)

    def test_a_file_is_validated(self):
        data = b"what a file has"
        digests = {name: hashlib.new(name, data).hexdigest() for name in ("sha256", "sha512")}
        validate({"size": len(data), "hashes": digests}, data)
        validate({"hashes": digests | {"crc": "0"}}, data)
        for step, size, hashes in (
            ("size", 1, digests), ("hashes", len(data), digests | {"sha256": "0" * 64}), ("hashes", len(data), digests | {"sha512": ""}),
        ):
            with self.assertRaises(Refused) as raised:
                validate({"size": size, "hashes": hashes}, data)
            self.assertEqual(raised.exception.step, step)

    def test_what_a_dependency_tells(self):
        for rule, told, places in REFERRED:
            with self.subTest(rule=rule):
                *others, package = tomllib.loads(f'{SPAM}[[packages]]\nname = "a"\ndependencies = {told}\n')["packages"]
                if places is None:
                    with self.assertRaises(Refused) as raised:
                        referred(package, [*others, package])
                    self.assertEqual(raised.exception.step, "packages.dependencies")
                else:
                    self.assertEqual(referred(package, [*others, package]), [others[place] for place in places])

    def test_a_dependency_is_told_by_its_name_where_that_is_enough(self):
        first, second, other = {"name": "b", "version": "1"}, {"name": "b", "version": "2"}, {"name": "c", "version": "1"}
        package = {"name": "a", "dependencies": [first, second, {"name": "c"}]}
        check_references({"packages": [package, first, second, other]})
        with self.assertRaises(AssertionError):
            check_references({"packages": [package | {"dependencies": [other]}, first, second, other]})

    def test_a_dependency_is_one_of_the_entries(self):
        first, second = {"name": "b", "version": "1"}, {"name": "b", "version": "2"}
        for tables in [{"name": "b"}], [first], [first, second]:
            entry = {"name": "a", "dependencies": tables}
            check_dependencies(entry, [entry, first])
            with self.assertRaises(AssertionError):
                check_dependencies(entry, [entry, {"name": "c"}])
        with self.assertRaises(AssertionError):
            check_dependencies({"name": "a", "dependencies": [first]}, [second])


if __name__ == "__main__":
    unittest.main()
