"""Tests of `tools/snapshot.py simple` for environments: a release is kept where each that can need it can install it."""

import json
import subprocess
import sys
import unittest
from functools import cache

from support.made.served_index import sdist_of, wheel_of
from support.places import TOOLS
from support.simple_index import Simple

from reqlock_tools.simple.left import ranges_of

MANY = "manylinux_2_17_x86_64"


def wheels(name, *tags, requires=(), version="1"):
    return [wheel_of(name, version, *requires, tag=tag) for tag in tags]


@cache
def described(*words):
    """What the tool prints that describes an environment."""
    command = [sys.executable, "-B", TOOLS / "reqlock_tools" / "environment.py", *words]
    return subprocess.run(command, capture_output=True, check=True).stdout


class Environments(Simple):
    def target(self, name, python, platform, *words):
        path = self.folder / "cache" / f"{name}.json"
        path.parent.mkdir(exist_ok=True)
        path.write_bytes(described("--python", python, "--platform", platform, *words))
        return f"{name}={path}"

    def setUp(self):
        super().setUp()
        self.linux, self.mac = self.target("linux", "3.11", "linux-x86_64"), self.target("mac", "3.11", "macos-arm64")
        self.windows, self.old = self.target("windows", "3.11", "windows-x86_64"), self.target("old", "3.8", "linux-x86_64")

    def kept(self, index, *environments, names=("a",), words=()):
        """The releases by package, and what is told of those that environments can't install."""
        words = [*names, *(word for environment in environments for word in ("--env", environment)), *words]
        versions, lines = self.versions(index, *words)
        return versions, [line for line in lines if "no file of them" in line]

    def test_where_all_can_install_it(self):
        """What has manylinux wheels alone isn't locked for macOS."""
        index = self.serve({"a": [
            *wheels("a", "py3-none-any"), *wheels("a", f"cp311-cp311-{MANY}", version="2"),
            *wheels("a", f"cp311-cp311-{MANY}", "cp311-cp311-macosx_11_0_arm64", version="3"),
            *wheels("a", f"cp38-cp38-{MANY}", version="4"), sdist_of("a", "5"), *wheels("a", f"cp311-cp311-{MANY}", version="5"),
            *wheels("a", "cp38-abi3-macosx_10_9_universal2", f"cp37-abi3-{MANY}", version="6"),
        ]})
        self.assertEqual(self.kept(index, self.linux), (
            {"a": ["1", "2", "3", "5", "6"]}, ["left out as linux takes no file of them: a 4"],
        ))
        self.assertEqual(self.kept(index, self.linux, self.mac), (
            {"a": ["1", "3", "5", "6"]},
            ["left out as linux and mac take no file of them: a 4", "left out as mac takes no file of them: a 2"],
        ))
        self.assertEqual(self.kept(index, self.old)[0], {"a": ["1", "4", "5", "6"]})
        self.assertEqual(self.kept(index, self.linux, self.mac, words=["--any-platform"]), ({"a": list("123456")}, []))
        self.assertEqual(self.kept(index)[0], {"a": list("123456")})

    def test_stands_in_made(self):
        index = self.serve({"a": [*wheels("a", "py3-none-any"), *wheels("a", "cp311-cp311-win_amd64", version="2")]})
        self.kept(index, self.linux, self.windows)
        self.assertEqual(self.read()["made"]["left"], [
            {"name": "a", "why": "as linux takes no file of them", "releases": 1, "ranges": ["2"]},
        ])

    def test_is_asked_of_those_that_can_need_it_alone(self):
        """Windows alone needs `win`, by its marker, so nothing of it is left out for Linux; `both` is needed by each."""
        index = self.serve({
            "a": wheels("a", "py3-none-any", requires=["win ; sys_platform == 'win32'", "both"]),
            "win": wheels("win", "cp311-cp311-win_amd64", requires=["deep"]), "deep": wheels("deep", "cp311-cp311-win_amd64"),
            "both": [*wheels("both", "py3-none-any"), *wheels("both", "cp311-cp311-win_amd64", version="2")],
        })
        self.assertEqual(self.kept(index, self.linux, self.windows), (
            {"a": ["1"], "both": ["1"], "deep": ["1"], "win": ["1"]}, ["left out as linux takes no file of them: both 2"],
        ))

    def test_is_asked_of_those_that_come_late(self):
        """`deep` is first reached for Windows, and then, through a longer chain, for Linux too."""
        index = self.serve({
            "a": wheels("a", "py3-none-any", requires=["deep ; sys_platform == 'win32'", "b ; sys_platform == 'linux'"]),
            "b": wheels("b", "py3-none-any", requires=["c"]), "c": wheels("c", "py3-none-any", requires=["deep"]),
            "deep": [*wheels("deep", "cp311-cp311-win_amd64"), *wheels("deep", "py3-none-any", version="2", requires=["end"])],
            "end": [sdist_of("end", "1")],
        })
        for jobs in 1, 16:
            self.assertEqual(self.kept(index, self.linux, self.windows, words=["--jobs", jobs])[0], {
                "a": ["1"], "b": ["1"], "c": ["1"], "deep": ["2"], "end": ["1"],
            })

    def test_what_only_a_release_that_goes_leads_to_goes_too(self):
        index = self.serve({
            "a": [*wheels("a", "py3-none-any"), *wheels("a", "cp311-cp311-win_amd64", version="2", requires=["b", "gone"])],
            "b": wheels("b", "py3-none-any"),
        })
        versions, lines = self.versions(index, "a", "--env", self.linux, "--env", self.windows)
        self.assertEqual((versions, lines), ({"a": ["1"]}, ["left out as linux takes no file of them: a 2"]))

    def test_without_sdists(self):
        index = self.serve({"a": [sdist_of("a", "1"), *wheels("a", "py3-none-any", version="2"), sdist_of("a", "3"), *wheels(
            "a", f"cp311-cp311-{MANY}", version="3")]})
        self.assertEqual(self.kept(index, self.linux, self.mac)[0], {"a": ["1", "2", "3"]})
        self.assertEqual(self.kept(index, self.linux, self.mac, words=["--only-binary"]), (
            {"a": ["2"]}, ["left out as mac takes no file of them: a 3"],
        ))

    def test_the_newest_are_those_that_all_can_install(self):
        index = self.serve({"a": [*wheels("a", "py3-none-any"), *wheels("a", "py3-none-any", version="2"), *wheels(
            "a", "cp311-cp311-win_amd64", version="3")]})
        self.assertEqual(self.kept(index, self.linux, self.windows, words=["--newest", "1"])[0], {"a": ["2"]})

    def test_a_glibc_that_is_old(self):
        index = self.serve({"a": [*wheels("a", "cp311-cp311-manylinux_2_28_x86_64"), *wheels("a", f"cp311-cp311-{MANY}", version="2")]})
        self.assertEqual(self.kept(index, self.linux)[0], {"a": ["1", "2"]})
        self.assertEqual(self.kept(index, self.target("centos", "3.11", "linux-x86_64", "--glibc", "2.17"))[0], {"a": ["2"]})
        self.assertEqual(self.kept(index, self.target("alpine", "3.11", "musllinux-x86_64"))[0], {"a": []})

    def test_what_runs_makes_no_difference(self):
        """The tags are those of the environment, not of the Python that runs."""
        index = self.serve({"a": [*wheels("a", "cp38-cp38-win_amd64"), *wheels("a", f"cp311-cp311-{MANY}", version="2")]})
        self.assertEqual(self.kept(index, self.target("then", "3.8", "windows-x86_64"))[0], {"a": ["1"]})

    def test_an_environment_that_tells_nothing_of_wheels_is_told(self):
        path = self.folder / "cache" / "bare.json"
        variables = json.loads((self.folder / "cache" / "linux.json").read_text(encoding="utf-8"))
        path.write_text(json.dumps({key: value for key, value in variables.items() if isinstance(value, str)}), encoding="utf-8")
        index = self.serve({"a": wheels("a", "cp311-cp311-win_amd64")})
        versions, lines = self.versions(index, "a", "--env", path)
        self.assertEqual(versions, {"a": ["1"]})
        way = "tools/environment.py prints one that does"
        self.assertEqual(lines, [f"{path}: it doesn't tell which wheels it takes, so none is left out for it; {way}"])
        self.assertEqual(self.versions(index, "a", "--env", path, "--any-platform"), ({"a": ["1"]}, []))


class Ranges(unittest.TestCase):
    def test_are_told_in_words(self):
        versions = list("123456")
        for out, wanted in (
            ("123456", "all"), ("1", "1"), ("12", "2 and older"), ("6", "6"), ("56", "5 and newer"), ("3", "3"), ("345", "3 to 5"),
            ("1245", "2 and older, 4 to 5"), ("136", "1, 3, 6"),
        ):
            self.assertEqual(", ".join(ranges_of(list(out), versions)), wanted)


if __name__ == "__main__":
    unittest.main()
