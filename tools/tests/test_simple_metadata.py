"""Tests of `tools/snapshot.py simple`: what the files of a release tell of it, and what is fetched for that."""

import random
import unittest

from support.made.archives import headers, zipped
from support.made.served_index import Served, sdist_of, wheel_of
from support.simple_index import Simple

LARGE = 300_000


def large_wheel(name, version, is_first=False):
    """A wheel whose metadata stands behind or before much that can't be packed."""
    noise = "".join(random.Random(7).choices("0123456789abcdefghijklmnopqrstuvwxyz-", k=LARGE))
    text = headers(name, version, ["b"])
    members = {f"{name}.py": noise, f"{name}-{version}.dist-info/METADATA": text}
    return Served(f"{name}-{version}-py3-none-any.whl", zipped(dict(reversed(members.items())) if is_first else members))


class Beside(Simple):
    """The file of metadata beside a wheel."""

    def test_is_asked_for_alone(self):
        index = self.serve({"a": [wheel_of("a", "1", "b"), sdist_of("a", "1")], "b": [wheel_of("b", "1")]})
        self.made(index, "a")
        files = "a-1-py3-none-any.whl.metadata", "b-1-py3-none-any.whl.metadata"
        pages = "/simple/a/", "/simple/b/"
        self.assertEqual(index.counts(), {("GET", path): 1 for path in (*pages, *(f"/files/{name}" for name in files))})

    def test_may_have_no_digest_or_another(self):
        for told in True, {}, {"md5": "0", "blake9": "1"}, {"sha512": "x"}:
            file = wheel_of("a", "1", told={"core-metadata": told})
            index = self.serve({"a": [file]})
            if told in (True, {}):
                self.assertEqual(self.versions(index, "a"), ({"a": ["1"]}, []))
            else:
                self.check_refused(index, "a", fault=r"^/files/a-1-py3-none-any.whl.metadata: its digest is (md5|sha512)=")

    def test_is_told_by_the_older_name_too(self):
        file = wheel_of("a", "1")
        file.told = {"core-metadata": None, "dist-info-metadata": {"sha256": "0" * 64}}
        self.check_refused(self.serve({"a": [file]}), "a", fault="its digest is sha256=[0-9a-f]{64}, and the index tells sha256=00")

    def test_with_another_digest_is_refused(self):
        index = self.serve({"a": [wheel_of("a", "1"), wheel_of("a", "2")]})
        for index.is_html in False, True:
            path = "/files/a-2-py3-none-any.whl.metadata"
            index.instead[path] = [lambda to: to.give(200, b"Name: a\nVersion: 2\nRequires-Dist: evil\n")]
            self.check_refused(index, "a", fault=f"^{path}: its digest is sha256=.*, and the index tells sha256=.*: it was altered")

    def test_that_is_promised_and_absent_gives_way_to_the_wheel(self):
        index = self.serve({"a": [wheel_of("a", "1", "a[x]")]})
        index.instead["/files/a-1-py3-none-any.whl.metadata"] = [lambda to: to.give(404)]
        made, lines = self.made(index, "a")
        self.assertEqual(made["a"]["1"]["requires_dist"], ["a[x]"])
        self.assertEqual(lines, ["extras that are followed: a[x]"])
        index.counts()
        self.made(index, "a")
        self.assertEqual(index.counts(), {("GET", "/simple/a/"): 1})
        data = self.output.read_bytes()
        self.made(index, "a", "--offline")
        self.assertEqual((self.output.read_bytes(), index.counts()), (data, {}))

    def test_that_tells_of_another_release_leaves_that_out(self):
        index = self.serve({"a": [wheel_of("a", "1"), wheel_of("a", "2")]})
        index.files["a-1-py3-none-any.whl"].metadata = headers("a", "3").encode()
        self.assertEqual(self.versions(index, "a"), ({"a": ["2"]}, [
            "a: 1: left out: /files/a-1-py3-none-any.whl: the name isn't that of a 3, of which its metadata tells",
        ]))

    def test_that_is_faulty_leaves_the_release_out(self):
        index = self.serve({"a": [wheel_of("a", "1"), wheel_of("a", "2"), wheel_of("a", "3")]})
        index.files["a-1-py3-none-any.whl"].metadata = b"Name: a\nVersion: 1\nodd\n"
        index.files["a-3-py3-none-any.whl"].metadata = b"Name: \xe9\n"
        versions, lines = self.versions(index, "a")
        self.assertEqual(versions, {"a": ["2"]})
        self.assertRegex(lines[0], "^a: 1: left out: /files/a-1-py3-none-any.whl: a line among the headers")
        self.assertRegex(lines[1], "^a: 3: left out: /files/a-3-py3-none-any.whl: not UTF-8")


class Within(Simple):
    """A wheel without metadata beside it."""

    def check_parts(self, file, requests):
        index = self.serve({"a": [file], "b": [wheel_of("b", "1")]}, has_sizes=False)
        made, lines = self.made(index, "a")
        self.assertEqual((made["a"]["1"]["requires_dist"], lines), (["b"], []))
        self.assertEqual(made["a"]["1"]["files"][0]["size"], len(file.data))
        counts, path = index.counts(), "/files/a-1-py3-none-any.whl"
        self.assertEqual((counts["GET", path], counts["HEAD", path]), (requests, 0))
        self.made(index, "a")
        self.assertEqual(index.counts(), {("GET", "/simple/a/"): 1, ("GET", "/simple/b/"): 1})
        return index

    def test_is_read_at_its_end(self):
        index = self.check_parts(large_wheel("a", "1"), 1)
        self.made(index, "a", "--cache", self.folder / "other")
        self.assertEqual([sent["Range"] for sent in index.headers if "Range" in sent], ["bytes=-32768"])

    def test_is_read_where_its_metadata_stands(self):
        self.check_parts(large_wheel("a", "1", is_first=True), 2)

    def test_is_read_whole_where_the_server_gives_no_parts(self):
        file = large_wheel("a", "1")
        index = self.serve({"a": [file], "b": [wheel_of("b", "1")]}, has_ranges=False)
        self.assertEqual(self.versions(index, "a")[0], {"a": ["1"], "b": ["1"]})
        self.assertEqual(index.counts()["GET", "/files/a-1-py3-none-any.whl"], 1)

    def test_is_read_whole_where_the_server_refuses_parts(self):
        for status in 400, 416, 501:
            index = self.serve({"a": [wheel_of("a", "1", beside=False)]})
            index.instead["/files/a-1-py3-none-any.whl"] = [lambda to, status=status: to.give(status), index.usual]
            index.has_ranges = False
            self.assertEqual(self.versions(index, "a", "--cache", self.folder / f"cache-{status}"), ({"a": ["1"]}, []))

    def test_with_odd_parts_is_read_whole(self):
        for told in "bytes 0-5/10", "bytes */100", "odd":
            index = self.serve({"a": [wheel_of("a", "1", beside=False)]}, has_ranges=False)
            give = lambda to, told=told: to.give(206, b"abc", Content_Range=told)  # noqa: E731
            index.instead["/files/a-1-py3-none-any.whl"] = [give, index.usual]
            self.assertEqual(self.versions(index, "a", "--cache", self.folder / f"cache-{told[-1]}"), ({"a": ["1"]}, []))

    def test_with_another_digest_is_refused(self):
        index = self.serve({"a": [wheel_of("a", "1", beside=False, told={"hashes": {"sha256": "F" * 64}})]}, has_ranges=False)
        fault = "^/files/a-1-py3-none-any.whl: its digest is sha256=.*, and the index tells sha256=ffff"
        self.check_refused(index, "a", fault=fault)

    def test_that_is_broken_leaves_the_release_out(self):
        broken = Served("a-1-py3-none-any.whl", b"no archive")
        empty = Served("a-2-py3-none-any.whl", zipped({"a.py": "pass"}))
        for has_ranges in True, False:
            index = self.serve({"a": [broken, empty, wheel_of("a", "3")]}, has_ranges=has_ranges)
            words = "--cache", self.folder / f"cache-{has_ranges}"
            wanted = self.versions(index, "a", *words)
            self.assertEqual(wanted[0], {"a": ["3"]})
            self.assertRegex(wanted[1][0], "^a: 1: left out: /files/a-1-py3-none-any.whl: not a whole archive: ")
            self.assertRegex(wanted[1][1], "^a: 2: left out: /files/a-2-py3-none-any.whl: one NAME-VERSION.dist-info/METADATA is")
            index.counts()
            self.assertEqual(self.versions(index, "a", *words), wanted)
            self.assertEqual(index.counts(), {("GET", "/simple/a/"): 1})

    def test_that_is_absent_leaves_the_release_out(self):
        index = self.serve({"a": [wheel_of("a", "1", beside=False), wheel_of("a", "2")]})
        index.instead["/files/a-1-py3-none-any.whl"] = [lambda to: to.give(404)]
        wanted = {"a": ["2"]}, ["a: 1: left out: /files/a-1-py3-none-any.whl: the index doesn't have it"]
        for words in [], [], ["--offline"]:
            self.assertEqual(self.versions(index, "a", *words), wanted)


    def test_counts_for_its_own_address_alone(self):
        """What an index tells of a part of a wheel isn't taken for that of another index, though the digest is the same."""
        true, other = wheel_of("a", "1", "b", beside=False), wheel_of("a", "1", "evil", beside=False)
        other.told["hashes"] = {"sha256": true.sha256}
        words = "--cache", self.folder / "shared"
        self.assertEqual(self.made(self.serve({"a": [other]}), "a", *words)[0]["a"]["1"]["requires_dist"], ["evil"])
        self.assertEqual(self.made(self.serve({"a": [true]}), "a", *words)[0]["a"]["1"]["requires_dist"], ["b"])

    def test_that_is_whole_is_not_unpacked(self):
        index = self.serve({"a": [sdist_of("a", "1")]})
        data = index.files["a-1.tar.gz"].data
        index.instead["/files/a-1.tar.gz"] = [lambda to: to.give(200, data, Content_Encoding="gzip")]
        self.assertEqual(self.versions(index, "a"), ({"a": ["1"]}, []))


class Agreement(Simple):
    def test_leaves_out_a_release_whose_files_disagree(self):
        index = self.serve({"a": [
            wheel_of("a", "1", "b>=1", tag="py3-none-any"), wheel_of("a", "1", "b>=2", tag="py2-none-any"), wheel_of("a", "2"),
        ]})
        self.assertEqual(self.versions(index, "a"), ({"a": ["2"]}, [
            "a: /files/a-1-py3-none-any.whl: a 1: left out, as /files/a-1-py2-none-any.whl asks for other things: "
            "Requires-Dist b>=1 is here alone; Requires-Dist b>=2 is there alone",
        ]))

    def test_asks_once_for_metadata_of_one_digest(self):
        index = self.serve({"a": [wheel_of("a", "1", tag=f"py3-none-{name}") for name in ("win32", "any", "linux_x86_64")]})
        made, _ = self.made(index, "a")
        self.assertEqual(len(made["a"]["1"]["files"]), 3)
        self.assertEqual(sum(index.counts().values()), 2)

    def test_takes_equal_versions_for_one_release(self):
        files = wheel_of("a", "1.0", tag="py2-none-any"), wheel_of("a", "1", tag="py3-none-any"), wheel_of("a", "1.0.0a")
        index = self.serve({"a": files})
        made, _ = self.made(index, "a")
        self.assertEqual({version: len(release["files"]) for version, release in made["a"].items()}, {"1.0.0a": 1, "1": 2})


class Sdists(Simple):
    def test_that_stand_alone_are_fetched(self):
        index = self.serve({"a": [sdist_of("a", "1", "b"), sdist_of("a", "2"), wheel_of("a", "2")]}, has_sizes=False)
        made, lines = self.made(index, "a")
        self.assertEqual(made["a"]["1"]["requires_dist"], ["b"])
        self.assertEqual(lines, ["the index has no packages of these names, which others depend on: b"])
        counts = index.counts()
        self.assertEqual((counts["GET", "/files/a-1.tar.gz"], counts["HEAD", "/files/a-1.tar.gz"]), (1, 0))
        self.assertEqual((counts["GET", "/files/a-2.tar.gz"], counts["HEAD", "/files/a-2.tar.gz"]), (0, 1))
        self.made(index, "a")
        self.assertEqual(index.counts(), {("GET", "/simple/a/"): 1, ("GET", "/simple/b/"): 1})

    def test_that_do_not_tell_are_left_out(self):
        files = [sdist_of("a", version, "b", metadata="2.1", dynamic=dynamic) for version, dynamic in (("9", "x"), ("10", "x"))]
        files[0] = sdist_of("a", "9", metadata="1.0")
        files[1] = sdist_of("a", "10", "b", dynamic="Requires-Dist")
        index = self.serve({"a": files, "b": [wheel_of("b", "1")]})
        self.assertEqual(self.versions(index, "a"), ({"a": []}, [
            "a: left out, as no file tells what they depend on: 9, 10; --assume-no-dependencies keeps them",
            "a: the index has no release of it that can be taken",
        ]))
        made, lines = self.made(index, "a", "--assume-no-dependencies")
        self.assertEqual({version: release["requires_dist"] for version, release in made["a"].items()}, {"9": [], "10": ["b"]})
        self.assertEqual(lines, [])


class Sizes(Simple):
    def test_are_asked_for_where_no_page_tells_them(self):
        index = self.serve({"a": [wheel_of("a", "1")]}, has_sizes=False)
        made, _ = self.made(index, "a")
        self.assertEqual(made["a"]["1"]["files"][0]["size"], len(index.files["a-1-py3-none-any.whl"].data))
        self.assertEqual(index.counts()["HEAD", "/files/a-1-py3-none-any.whl"], 1)

    def test_are_those_of_what_is_fetched_where_the_server_does_not_tell(self):
        index = self.serve({"a": [wheel_of("a", "1")]}, has_sizes=False)

        def answer(to):
            if to.command == "HEAD":
                to.give(405)
            else:
                to.give_file(index, "a-1-py3-none-any.whl")

        index.instead["/files/a-1-py3-none-any.whl"] = [answer]
        made, _ = self.made(index, "a")
        self.assertEqual(made["a"]["1"]["files"][0]["size"], len(index.files["a-1-py3-none-any.whl"].data))

    def test_that_are_not_known_leave_the_file_out(self):
        index = self.serve({"a": [wheel_of("a", "1"), sdist_of("a", "1")]}, has_sizes=False)
        index.instead["/files/a-1.tar.gz"] = [lambda to: to.give(404)]
        for words in [], ["--offline"]:
            made, lines = self.made(index, "a", *words)
            self.assertEqual([file["name"] for file in made["a"]["1"]["files"]], ["a-1-py3-none-any.whl"])
            self.assertEqual(lines, ["a: 1: left out, for want of a size or sha256: a-1.tar.gz"])


if __name__ == "__main__":
    unittest.main()
