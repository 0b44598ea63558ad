"""Tests of `tools/snapshot.py simple`: which names are followed, and which files are chosen."""

import contextlib
import io
import json
import platform
import sys
import unittest

from support.made.served_index import sdist_of, wheel_of
from support.rules.requirements import Fault, holds, read_environment, read_requirement
from support.simple_index import LINUX, Simple, snapshot
from support.wanted_libraries import ASKING, want_libraries

from conformance_rows import printed_rows  # (these stand in tools/)
from reqlock_tools.markers import NO_EXTRA, Markers
from reqlock_tools.requirements import doubt_of, need_of
from reqlock_tools.libraries import needed

WINDOWS = {"sys_platform": "win32", "platform_system": "Windows", "os_name": "nt"}


class Following(Simple):
    def environment(self, name="windows.json", **others):
        path = self.folder / name
        path.write_text(json.dumps({**json.loads(LINUX.read_text(encoding="utf-8")), **others}), encoding="utf-8")
        self.addCleanup(path.unlink, missing_ok=True)
        return path

    def names(self, packages, *words):
        """The packages that are followed, where each has one release with these dependencies."""
        index = self.serve({name: [wheel_of(name, "1", *needs)] for name, needs in packages.items()})
        words = [*words, "--cache", self.folder / f"cache-{index.server.server_port}"]
        return "".join(sorted(self.made(index, *words)[0])), self.made(index, *words)[1]

    PLATFORMS = {
        "a": ["b ; sys_platform == 'win32'", "c ; sys_platform == 'linux'", "d ; python_version < '3'"], "b": [], "c": [], "d": [],
    }

    def test_keeps_to_the_environments(self):
        self.assertEqual(self.names(self.PLATFORMS, "a"), ("abcd", []))
        self.assertEqual(self.names(self.PLATFORMS, "a", "--env", LINUX), ("ac", []))
        path = self.environment(**WINDOWS)
        self.assertEqual(self.names(self.PLATFORMS, "a", "--env", path), ("ab", []))
        self.assertEqual(self.names(self.PLATFORMS, "a", "--env", path, "--env", LINUX), ("abc", []))

    EXTRAS = {
        "a": ["b[x]"], "b": ["c ; extra == 'x'", "d ; extra == 'y' and os_name == 'nt'", "e ; extra != 'x'"],
        "c": [], "d": ["a[Z_z]"], "e": [], "f": [],
    }

    def test_keeps_to_the_extras_that_are_asked(self):
        passed = "extras that nobody asks for, and that aren't followed: 1, of 1 package"
        self.assertEqual(self.names(self.EXTRAS, "a"), ("abce", ["extras that are followed: b[x]", passed]))
        self.assertEqual(self.names(self.EXTRAS, "b[Y]"), ("abcde", ["extras that are followed: a[z-z] b[x,y]"]))
        self.assertEqual(self.names(self.EXTRAS, "b[y]", "--env", LINUX), ("be", ["extras that are followed: b[y]", passed]))

    def test_takes_an_extra_that_is_asked_late(self):
        chain = {"a": ["b", "c"], "b": ["z ; extra == 'Late.x'"], "c": ["d"], "d": ["b[late_x]"], "z": ["y"], "y": []}
        self.assertEqual(self.names(chain, "a"), ("abcdyz", ["extras that are followed: b[late-x]"]))

    def test_reads_requirements_files(self):
        path = self.folder / "requirements.txt"
        self.addCleanup(path.unlink)
        path.write_bytes(b"# web\r\n\r\nA >=1,<2  # one\r\nc ; sys_platform == 'win32'\r\nno#name ; os_name == 'nt'")
        packages = {"a": ["b"], "b": [], "c": [], "no": [], "z": []}
        followed, lines = self.names(packages, "--for", path, "--env", LINUX)
        self.assertEqual(followed, "ab")
        self.assertRegex(lines[0], "requirements.txt: line 5: .* may be no requirement: ")
        self.assertEqual(self.names(packages, "--for", path, "--for", path, "z")[0], "abcnoz")

    def test_passes_over_what_no_release_can_need(self):
        needs = {"a": ["b @ https://files.example/b.whl", "!", "c >= ; os_name == 'posix'", "d ; odd"], "c": [], "d": []}
        self.assertEqual(self.names(needs, "a", "--env", LINUX), ("acd", []))

    def test_wants_an_environment_that_can_be_read(self):
        index = self.serve({"a": [wheel_of("a", "1")]})
        path = self.environment(os_name=None)
        status, lines = self.call(index.url, "a", "--env", path)
        self.assertEqual((status, lines), (1, [f"{path}: /os_name: a text is wanted"]))
        path.write_text("{", encoding="utf-8")
        self.assertRegex(self.call(index.url, "a", "--env", path)[1][0], f"^{path}: not JSON")
        path.unlink()
        self.assertIn("there is no such file", self.call(index.url, "a", "--env", path)[1][0])


@want_libraries(*ASKING)
class Rules(unittest.TestCase):
    """Where a marker can hold, beside the reading of the rules that the tests have."""

    def test_hold_as_a_second_reading_says(self):
        count = 0
        environment = next(texts[0] for kind, texts, _ in printed_rows("requirements_table.py") if kind == "environment")
        environment = read_environment(json.loads(environment))
        ours = Markers([environment])
        for kind, texts, _ in printed_rows("requirements_table.py"):
            if kind not in ("marker", "requirement"):
                continue
            text = texts[0] if kind == "requirement" else f"a ; {texts[0]}"
            try:
                theirs = read_requirement(text)
            except Fault:
                continue
            with self.subTest(text=text):
                need = need_of(text)
                self.assertEqual((need.name, set(need.extras)), (theirs.name, set(theirs.extras)))
                for extra in NO_EXTRA, "docs", "test":
                    wanted = theirs.marker is None or holds(theirs.marker, environment, extra or None)
                    if doubt_of(f"a ; {need.marker or 'os_name'}") is None or need.marker == "":
                        self.assertEqual(ours.can_hold(need.marker, extra), wanted)
                        count += 1
        self.assertGreater(count, 500)

    def test_hold_of_a_python_that_is_a_pre_release(self):
        others = {"python_full_version": "3.13.0rc1", "platform_release": "6.1-generic"}
        markers = Markers([json.loads(LINUX.read_text(encoding="utf-8")) | others])
        for marker, wanted in (
            ("python_full_version >= '3.8'", True), ("python_full_version >= '3.13'", False),
            ("python_full_version < '3.13'", False), ("python_full_version < '3.13.0rc2'", True),
            ("platform_release >= '6'", True), ("platform_release ~= '6.0'", False), ("'1' < '=1'", True), ("'1' == '=1'", False),
            ("'linux' in sys_platform", True), ("'linux' not in sys_platform", False),
        ):
            self.assertEqual(markers.can_hold(marker, NO_EXTRA), wanted, marker)

    def test_hold_anywhere_where_no_environment_is_given(self):
        markers = Markers([])
        for marker, with_none, with_x in (
            ("os_name == 'nt'", True, True), ("extra == 'X'", False, True), ("extra != 'x'", True, False),
            ("os_name == 'nt' and 'x' == extra", False, True), ("(os_name == 'nt' or extra == 'x') and extra == 'y'", False, False),
            ("odd", True, True), ("extra > 'x'", True, True), ("python_version < '3' and python_version > '3'", True, True),
        ):
            self.assertEqual((markers.can_hold(marker, NO_EXTRA), markers.can_hold(marker, "x")), (with_none, with_x), marker)


class Choices(Simple):
    def test_until_a_day_or_a_time(self):
        times = {"1": "2024-04-30T23:59:59.5Z", "2": "2024-05-01T23:59:59.999999Z", "3": "2024-05-02T00:00:00Z"}
        files = [wheel_of("a", version, told={"upload-time": time}) for version, time in times.items()]
        files.append(sdist_of("a", "1", told={"upload-time": "2024-06-01T00:00:00+02:00"}))
        index = self.serve({"a": files})
        made, lines = self.made(index, "a", "--exclude-newer", "2024-05-01")
        self.assertEqual({version: len(release["files"]) for version, release in made["a"].items()}, {"1": 1, "2": 1})
        self.assertEqual(lines, ["left out by --exclude-newer 2024-05-01: 2 files, with 1 whole release"])
        for text, versions in {
            "2024-05-02T00:00:00Z": "123", "20240501": "12", "2024-05-01T02:00+02:00": "1", "2024-05-02T00:00": "123",
        }.items():
            self.assertEqual(list(self.versions(index, "a", "--exclude-newer", text)[0]["a"]), list(versions))

    def test_until_a_day_want_times(self):
        index = self.serve({"a": [wheel_of("a", "1")]})
        fault = "^/simple/a/: it doesn't tell when a-1-py3-none-any.whl was uploaded, which --exclude-newer asks for$"
        self.check_refused(index, "a", "--exclude-newer", "2024-05-01", fault=fault)
        index.files["a-1-py3-none-any.whl"].told["upload-time"] = "yesterday"
        self.check_refused(index, "a", "--exclude-newer", "2024-05-01", fault="^/simple/a/: 'yesterday', the upload-time of a-1")

    VERSIONS = "1.0", "1.1", "1.9", "1.10", "2.0a1", "2.0", "2.1.dev1", "2.1rc1", "2.1rc2", "1.10.post1"

    def test_of_the_newest(self):
        index = self.serve({"a": [wheel_of("a", version) for version in self.VERSIONS]})
        for count, versions, releases in (1, "2.0 2.1rc2", 8), (2, "1.10.post1 2.0 2.1rc1 2.1rc2", 6):
            wanted = {"a": versions.split()}, [f"left out by --newest {count}: {releases} files, with {releases} whole releases"]
            self.assertEqual(self.versions(index, "a", "--newest", count), wanted)
        self.assertEqual(self.versions(index, "a", "--newest", 9)[1], [])

    def test_of_the_newest_do_not_count_yanked_ones(self):
        index = self.serve({"a": [wheel_of("a", version, told={"yanked": version in "24"}) for version in "1234"]})
        self.assertEqual(self.versions(index, "a", "--newest", 1)[0], {"a": ["3", "4"]})

    def test_without_pre_releases(self):
        index = self.serve({"a": [wheel_of("a", version) for version in self.VERSIONS]})
        versions, lines = self.versions(index, "a", "--no-pre")
        self.assertEqual(versions, {"a": ["1.0", "1.1", "1.9", "1.10", "1.10.post1", "2.0"]})
        self.assertEqual(lines, ["left out by --no-pre: 4 files, with 4 whole releases"])

    def test_without_sdists(self):
        index = self.serve({"a": [sdist_of("a", "1"), sdist_of("a", "2"), wheel_of("a", "2")]})
        made, lines = self.made(index, "a", "--only-binary")
        self.assertEqual([file["name"] for file in made["a"]["2"]["files"]], ["a-2-py3-none-any.whl"])
        self.assertEqual((list(made["a"]), lines), (["2"], ["left out by --only-binary: 2 files, with 1 whole release"]))
        self.assertEqual(index.counts()["GET", "/files/a-1.tar.gz"], 0)

    def test_for_this_machine(self):
        ours = str(next(iter(needed("packaging.tags").sys_tags())))
        files = [wheel_of("a", "1", tag=ours), wheel_of("a", "1", tag="py3-none-wasi"), sdist_of("a", "2")]
        files += [wheel_of("a", version, tag="cp311-cp311-wasi") for version in "23"]
        files += [wheel_of("a", "4", tag="py2.py3-none-any.wasi"), wheel_of("a", "5", tag="cp27-none-any")]
        index = self.serve({"a": files})
        made, lines = self.made(index, "a", "--for-this-machine")
        names = {version: [file["name"] for file in release["files"]] for version, release in made["a"].items()}
        self.assertEqual(names, {"1": [f"a-1-{ours}.whl"], "2": ["a-2.tar.gz"], "4": ["a-4-py2.py3-none-any.wasi.whl"]})
        own = f"Python {sys.version_info.major}.{sys.version_info.minor} on {sys.platform} {platform.machine()}"
        self.assertEqual(lines, [
            "left out as no environment takes them: 4 files, with 2 whole releases", f"left out as {own} takes no file of them: a 3, 5",
        ])
        self.assertEqual(len(self.versions(index, "a")[0]["a"]), 5)

    def test_are_counted_in_their_order(self):
        times = {version: f"2024-0{version[0]}-01T00:00:00Z" for version in ("1", "2", "3a1", "4")}
        files = [wheel_of("a", version, told={"upload-time": time}) for version, time in times.items()]
        words = "--newest", "1", "--no-pre", "--exclude-newer", "2024-03-02"
        self.assertEqual(self.versions(self.serve({"a": files}), "a", *words), ({"a": ["2"]}, [
            "left out by --exclude-newer 2024-03-02: 1 file, with 1 whole release",
            "left out by --no-pre: 1 file, with 1 whole release",
            "left out by --newest 1: 1 file, with 1 whole release",
        ]))


@want_libraries(*ASKING)
class Kept(Simple):
    """What stays since a lock has it."""

    def lock(self, name, *packages):
        """A lock of packages, each a name and a version."""
        path = self.folder / name
        path.write_text("".join(f"[[packages]]\nname = '{name}'\nversion = '{version}'\n" for name, version in packages), encoding="utf-8")
        return path

    def kept(self, index, versions, *words):
        """The names of the files of `a` by version, where a lock has these versions of it, and the lines of standard error."""
        locks = [word for version in versions for word in ("--keep", self.lock(f"{version}.toml", ("A", version)))]
        made, lines = self.made(index, "a", *words, *locks)
        endings = {version: [file["name"].rpartition(".")[2] for file in release["files"]] for version, release in made["a"].items()}
        return {version: "+".join(of_release) for version, of_release in endings.items()}, lines

    def test_of_the_newest(self):
        index = self.serve({"a": [wheel_of("a", version) for version in Choices.VERSIONS]})
        kept, lines = self.kept(index, ["1.1.0", "2.1.dev1"], "--newest", 1)
        self.assertEqual(list(kept), ["1.1", "2.0", "2.1.dev1", "2.1rc2"])
        self.assertEqual(lines, ["left out by --newest 1: 6 files, with 6 whole releases"])
        self.assertEqual(list(self.kept(index, ["2.0"], "--newest", 1)[0]), ["2.0", "2.1rc2"])

    def test_of_pre_releases(self):
        index = self.serve({"a": [wheel_of("a", version) for version in ("1", "2a1", "3rc1")]})
        self.assertEqual(self.kept(index, ["2a1"], "--no-pre"), (
            {"1": "whl", "2a1": "whl"}, ["left out by --no-pre: 1 file, with 1 whole release"],
        ))
        self.assertEqual(list(self.kept(index, ["2a1"], "--no-pre", "--newest", 1)[0]), ["1", "2a1"])

    def test_of_sdists(self):
        """A locked release that has a wheel is without its sdist, as any other."""
        index = self.serve({"a": [sdist_of("a", "1"), sdist_of("a", "2"), sdist_of("a", "3"), wheel_of("a", "3")]})
        self.assertEqual(self.kept(index, ["1", "3"], "--only-binary"), (
            {"1": "gz", "3": "whl"}, ["left out by --only-binary: 2 files, with 1 whole release"],
        ))

    def test_of_what_came_later(self):
        times = "2024-05-01T00:00:00Z", "2024-06-01T00:00:00Z"
        early, late = ({"upload-time": time} for time in times)
        index = self.serve({"a": [
            wheel_of("a", "1", told=early), sdist_of("a", "1", told=late), wheel_of("a", "2", told=late), sdist_of("a", "2", told=late),
            wheel_of("a", "3", told=late),
        ]})
        words = "--exclude-newer", "2024-05-01"
        self.assertEqual(self.kept(index, ["1", "2"], *words), (
            {"1": "whl", "2": "whl+gz"}, ["left out by --exclude-newer 2024-05-01: 2 files, with 1 whole release"],
        ))
        index.files["a-3-py3-none-any.whl"].told.clear()
        self.check_untold(index, *words)

    def check_untold(self, index, *words):
        status, lines = self.call(index.url, "a", *words, "--keep", self.lock("pylock.toml", ("a", "3")))
        self.assertEqual(status, 1)
        self.assertRegex(lines[0], "it doesn't tell when a-3-py3-none-any.whl was uploaded")

    def test_not_of_another_machine(self):
        """A locked release goes where this machine takes none of its files. What it takes stays, though other options leave it out."""
        foreign = {version: wheel_of("a", version, tag="cp311-cp311-wasi") for version in ("1", "2")}
        index = self.serve({"a": [foreign["1"], foreign["2"], sdist_of("a", "2"), wheel_of("a", "3")]})
        kept, lines = self.kept(index, ["1", "2"], "--for-this-machine", "--only-binary")
        self.assertEqual(kept, {"2": "gz", "3": "whl"})
        self.assertEqual([line for line in lines if "takes no file" not in line], [
            "left out as no environment takes them: 2 files, with 1 whole release", "locked, but not in the snapshot: a 1",
        ])

    def test_and_what_it_depends_on(self):
        index = self.serve({"a": [wheel_of("a", "1", "b"), wheel_of("a", "2")], "b": [wheel_of("b", version) for version in "123"]})
        lock = self.lock("pylock.toml", ("a", "1"), ("b", "2"), ("c", "1"))
        self.assertEqual(self.versions(index, "a", "--newest", 1)[0], {"a": ["2"]})
        self.assertEqual(self.versions(index, "a", "--newest", 1, "--keep", lock), (
            {"a": ["1", "2"], "b": ["2", "3"]}, ["left out by --newest 1: 1 file, with 1 whole release"],
        ))

    def test_but_not_what_the_index_has_no_more(self):
        index = self.serve({"a": [wheel_of("a", "1", "b"), wheel_of("a", "2")]})
        locks = [self.lock("one", ("a", "1"), ("b", "1"), ("c", "1")), self.lock("two", ("a", "0.9"), ("a", "0.10"))]
        lines = self.versions(index, "a", "--keep", locks[0], "--keep", locks[1])[1]
        self.assertEqual(lines, [
            "the index has no packages of these names, which others depend on: b",
            "locked, but not in the snapshot: a 0.9, a 0.10, b 1",
        ])

    def test_of_a_lock_that_can_be_read(self):
        index = self.serve({"a": [wheel_of("a", "1")]})
        path = self.folder / "pylock.toml"
        for text, fault in (
            ("", "/packages: an array is wanted"), ("packages = [1]", "/packages/0: an object is wanted"),
            ("[[packages]]\nname = '_'\nversion = '1'\n", "/packages/0/name: a name is wanted"),
            ("[[packages]]\nname = 'a'\nversion = 'x'\n", "/packages/0/version: a version is wanted"),
            ("[[packages]]\nname = 'a'\nversion = 1\n", "/packages/0/version: a text is wanted"),
            ("a = '", "it is no TOML: a text in it has no end"),
        ):
            path.write_text(text, encoding="utf-8")
            self.assertEqual(self.call(index.url, "a", "--keep", path), (1, [f"{path}: {fault}"]))
        path.write_text("[[packages]]\nname = 'a'\n[packages.directory]\npath = '.'\n", encoding="utf-8")
        self.assertEqual(self.versions(index, "a", "--keep", path), ({"a": ["1"]}, []))
        path.unlink()
        self.assertEqual(self.call(index.url, "a", "--keep", path), (1, [f"{path}: No such file or directory"]))


@want_libraries(*ASKING)
class Words(unittest.TestCase):
    """Words that are no request end with status 2, and what is wrong with them."""

    def check(self, fault, *words):
        errors = io.StringIO()
        with contextlib.redirect_stderr(errors), self.assertRaises(SystemExit) as end:
            snapshot.main(["simple", *words])
        self.assertEqual(end.exception.code, 2)
        self.assertRegex(errors.getvalue().splitlines()[-1], f"^snapshot.py simple: error: .*{fault}")

    def test_are_told(self):
        url = "https://files.example/simple/"
        self.check("URL", )
        self.check("what is it for", url)
        self.check("URL is the address of an index", "flask", "werkzeug")
        self.check("URL is the address", "ftp://files.example/", "a")
        self.check("URL is the address", "https:///simple/", "a")
        self.check("URL is the address", f"{url}?a=b", "a")
        self.check("URL: ", "http://[a", "a")
        self.check("URL: its host and port can't be read; .* in a password", "http://me:pa/ss@a/", "a")
        self.check("'flask=2': ", url, "flask=2")
        self.check("'-e': it is an option|unrecognized arguments: -e", url, "a", "-e")
        self.check("'a @ https://files.example/a.whl': reqlock takes no URL", url, "a @ https://files.example/a.whl")
        self.check("'./a': it begins with no name", url, "./a")
        self.check("--exclude-newer: 'May' is no date", url, "a", "--exclude-newer", "May")
        for option in "--newest", "--jobs":
            self.check(f"{option}: invalid number from 1 to [0-9]+ value: '0'", url, "a", option, "0")
        self.check("--jobs: invalid number from 1 to 256 value: '257'", url, "a", "--jobs", "257")
        self.check("--retries: invalid number from 0 to", url, "a", "--retries", "-1")
        for text in "nan", "0", "inf", "soon":
            self.check("--timeout: invalid number from 0.01 to", url, "a", "--timeout", text)


if __name__ == "__main__":
    unittest.main()
