"""Tests of `tools/snapshot.py simple`: the pages of an index, where they stand, and who may read them."""

import base64
import gzip
import json
import unittest

from support.made.served_index import HTML_TYPE, JSON_TYPE, sdist_of, wheel_of
from support.simple_index import Simple

from reqlock_tools.limits import Limits
from reqlock_tools.simple.pages import read_page

PYTHON = ">=3.8, <4"


def packages():
    return {
        "tea-pot": [
            wheel_of("tea_pot", "1.0", "cup (>=1)", "tray ; extra == 'x'", python=PYTHON, told={"requires-python": PYTHON}),
            sdist_of("Tea.Pot", "1.0"),
            wheel_of("tea_pot", "2.0", "cup"),
        ],
        "cup": [wheel_of("cup", "1.0+b")],
    }


class Pages(Simple):
    def test_give_the_same_in_json_and_in_html(self):
        for has_ranges in True, False:
            index = self.serve(packages(), has_ranges=has_ranges)
            snapshots = []
            for index.is_html in False, True:
                made, lines = self.made(index, "Tea_Pot", "--cache", self.folder / f"cache-{index.is_html}")
                self.assertEqual(lines, ["extras that nobody asks for, and that aren't followed: 1, of 1 package"])
                snapshots.append(self.output.read_bytes())
            self.assertEqual(snapshots[0], snapshots[1])
        self.assertEqual({name: list(releases) for name, releases in made.items()}, {"cup": ["1.0+b"], "tea-pot": ["1.0", "2.0"]})
        release = made["tea-pot"]["1.0"]
        self.assertEqual(release["requires_dist"], ["cup (>=1)", "tray ; extra == 'x'"])
        self.assertEqual((release["requires_python"], release["yanked"]), (">=3.8, <4", False))
        files = [index.files[name] for name in ("Tea.Pot-1.0.tar.gz", "tea_pot-1.0-py3-none-any.whl")]
        base = index.url.removesuffix("simple/")
        wanted = [{"name": file.name, "url": f"{base}files/{file.name}", "size": len(file.data), "sha256": file.sha256} for file in files]
        self.assertEqual(release["files"], wanted)
        self.assertEqual(made["cup"]["1.0+b"]["files"][0]["url"], f"{base}files/cup-1.0%2Bb-py3-none-any.whl")

    def test_are_asked_for_in_both_forms_by_one_header(self):
        index = self.serve(packages())
        self.made(index, "cup")
        accepted = index.headers[0]["Accept"]
        self.assertEqual([text.partition(";")[0] for text in accepted.split(", ")], [
            "application/vnd.pypi.simple.v1+json", "application/vnd.pypi.simple.v1+html", "text/html",
        ])

    def test_tell_which_files_are_yanked(self):
        forms = (False, "broken", False), (False, True, False), (True, "", None), (True, "broken", None)
        for place, (is_html, yanked, other) in enumerate(forms):
            others = {} if other is None else {"yanked": other}
            index = self.serve({"a": [
                wheel_of("a", "1", told={"yanked": yanked}), wheel_of("a", "2", told=others),
                wheel_of("a", "3", told={"yanked": yanked}), sdist_of("a", "3", told=others),
            ]}, is_html=is_html)
            made, lines = self.made(index, "a", "--cache", self.folder / f"cache-{place}")
            self.assertEqual([made["a"][version]["yanked"] for version in "12"], [True, False])
            self.assertEqual([file["name"] for file in made["a"]["3"]["files"]], ["a-3.tar.gz"])
            self.assertEqual(lines, ["left out as they are yanked, beside others of their releases that aren't: 1 file"])

    def test_join_what_a_page_asks_of_python_beside_the_metadata(self):
        index = self.serve({"a": [wheel_of("a", "1", python=">=3.8", told={"requires-python": ">=3.7"})]})
        made, lines = self.made(index, "a")
        self.assertEqual(made["a"]["1"]["requires_python"], ">=3.8,>=3.7")
        self.assertEqual(lines, ["a: 1: its files differ in requires_python, so >=3.8,>=3.7 is taken"])

    def test_have_other_files_that_are_passed_over(self):
        files = [wheel_of("a", "1"), wheel_of("b", "1"), sdist_of("a", "odd")]
        for name in "a-1.exe", "a-1-py3.7.egg", "a-2.tar.bz2", "a-3-py3.whl":
            files.append(wheel_of("a", "1"))
            files[-1].name = name
        index = self.serve({"a": files})
        for index.is_html in False, True:
            self.assertEqual(self.versions(index, "a"), ({"a": ["1"]}, []))

    def test_have_files_without_sha256(self):
        index = self.serve({"a": [wheel_of("a", "1", told={"hashes": {"md5": "0"}}), wheel_of("a", "2")]})
        self.assertEqual(self.versions(index, "a"), ({"a": ["2"]}, ["left out for want of a sha256: 1 file, with 1 whole release"]))

    def test_of_later_minor_versions_are_read(self):
        index = self.serve(packages())
        for index.is_html in False, True:
            index.version = "1.99"
            self.assertEqual(list(self.versions(index, "cup")[0]), ["cup"])
            index.version = "2.0"
            self.check_refused(index, "cup", fault="^/simple/cup/: it has version '2.0' of the Simple API")

    def test_may_be_packed(self):
        index = self.serve(packages())
        body = gzip.compress(index.page("cup"))
        index.instead["/simple/cup/"] = [lambda to: to.give(200, body, JSON_TYPE, Content_Encoding="gzip")]
        self.assertEqual(self.versions(index, "cup")[0], {"cup": ["1.0+b"]})
        self.assertIn("gzip", index.headers[0]["Accept-Encoding"])
        index.instead["/simple/cup/"] = [lambda to: to.give(200, body[:-9], JSON_TYPE, Content_Encoding="gzip")]
        self.check_refused(index, "cup", "--retries", 0, fault="^/simple/cup/: its body is cut")
        index.instead["/simple/cup/"] = [lambda to: to.give(200, body, JSON_TYPE, Content_Encoding="br")]
        self.check_refused(index, "cup", fault="^/simple/cup/: its body is sent as 'br'")


class OtherPages(Simple):
    """Pages that are none of the Simple API."""

    def check_page(self, body, kind, fault):
        index = self.serve(packages())
        index.instead["/simple/cup/"] = [lambda to: to.give(200, body, kind)]
        self.check_refused(index, "cup", fault=f"^/simple/cup/: {fault}")

    def test_are_read_as_far_as_browsers_read_them(self):
        link = b"<a href='../../files/cup-1.0%2Bb-py3-none-any.whl#sha256=" + b"0" * 64 + b"'>"
        for before, count in (
            (b"<!-->", 1), (b"<!-- <b> -->", 1), (b"<!--", 0), (b"<![odd[ ", 0), (b"<?x>", 1), (b"</a x>", 1), (b"<b x='>' y=\">\" z=>>", 1),
            (b"<b '", 0), (b"<script><a></script x>", 1), (b"<title>", 0), (b"< a>", 1), (b"<b href=x href=y/>", 1), (b"<A HREF=x>", 1),
        ):
            page = read_page("https://i.example/simple/cup/", HTML_TYPE, before + link, "cup", Limits())
            self.assertEqual(len(page.by_name), count, before)

    def test_are_refused_with_the_place_of_the_fault(self):
        meta = {"meta": {"api-version": "1.0"}}
        self.check_page(b"<html>", JSON_TYPE, "not JSON, though it is sent as such: ")
        self.check_page(b"[" * 100_000, JSON_TYPE, "not JSON")
        self.check_page(b'"\xff"', JSON_TYPE, "not UTF-8")
        self.check_page(b"[]", JSON_TYPE, "the whole: an object is wanted")
        self.check_page(b"{}", JSON_TYPE, "/meta: an object is wanted")
        for files, fault in (
            (None, "/files: an array"), ([1], "/files/0: an object"), ([{"url": 1}], "/files/0/url: a text"),
            ([{"url": "u", "filename": "f", "hashes": {"sha256": "0"}}], "/files/0/hashes/sha256: a text of 64"),
            ([{"url": "u", "filename": "f", "hashes": {}, "size": -1}], "/files/0/size: a number"),
            ([{"url": "u", "filename": "f", "hashes": {}, "yanked": 1}], "/files/0/yanked: true, false or a text"),
        ):
            self.check_page(json.dumps(meta | {"files": files}).encode(), JSON_TYPE, fault)

    def test_are_refused_by_their_type(self):
        self.check_page(b"", "text/plain", "its content is text/plain, no page of the Simple API; is the address right")
        self.check_page(b"{}", "application/vnd.pypi.simple.v2+json", "it has version '2' of the Simple API")

    def test_that_list_no_file_are_told(self):
        index = self.serve(packages() | {"saucer": []})
        index.instead["/simple/saucer/"] = [lambda to: to.give(200, b"<h1>Log in</h1>", HTML_TYPE)]
        self.assertEqual(self.versions(index, "saucer", "cup")[1], ["saucer: the index has no release of it that can be taken"])

    def test_that_list_no_file_at_all_are_refused(self):
        index = self.serve(packages())
        index.instead["/simple/cup/"] = [lambda to: to.give(200, b"<h1>Log in</h1><a href='/'>home</a>", HTML_TYPE)]
        self.check_refused(index, "cup", fault="^/simple/: it has no file of cup; is it the address of a Simple API, as https")

    def test_whose_addresses_are_odd_are_passed_over(self):
        index = self.serve({"a": [wheel_of("a", str(number)) for number in range(5)]})
        for file, url in zip(index.projects["a"], ("file:///a-0-py3-none-any.whl", "http://[a", "ftp://files.example/a")):
            file.told["url"] = url
        self.assertEqual(self.versions(index, "a"), ({"a": ["3", "4"]}, []))


class Addresses(Simple):
    """Where pages and files stand."""

    def test_may_have_a_path(self):
        index = self.serve(packages(), prefix="/team/a%20b/+simple/".replace("%20", " "))
        url = index.url.replace(" ", "%20").rstrip("/")
        made, _ = self.made(index, "cup", url=url)
        self.assertEqual(list(made), ["cup"])

    def test_may_be_relative_to_where_redirects_lead(self):
        index = self.serve(packages())
        for index.is_html in False, True:
            page, kind = index.page("cup"), HTML_TYPE if index.is_html else JSON_TYPE
            index.instead["/simple/cup/"] = [lambda to: to.give(302, Location="/a/b")]
            index.instead["/a/b"] = [lambda to: to.give(308, Location="../else/where/cup/")]
            index.instead["/else/where/cup/"] = [lambda to, page=page, kind=kind: to.give(200, page, kind)]
            index.instead["/else/files/cup-1.0+b-py3-none-any.whl.metadata"] = [
                lambda to: to.give(200, index.files["cup-1.0+b-py3-none-any.whl"].metadata)
            ]
            index.instead["/else/files/cup-1.0+b-py3-none-any.whl"] = [
                lambda to: to.give(200, index.files["cup-1.0+b-py3-none-any.whl"].data)
            ]
            made, _ = self.made(index, "cup")
            self.assertIn("/else/files/", made["cup"]["1.0+b"]["files"][0]["url"])

    def test_may_be_relative_to_a_base(self):
        index = self.serve(packages(), is_html=True)
        page = index.page("cup").replace(b"<head>", b"<head><base href='/simple/x/'>").replace(b'href="../', b'href=" ../')
        index.instead["/simple/cup/"] = [lambda to: to.give(301, Location="/simple/x/y/z")]
        index.instead["/simple/x/y/z"] = [lambda to: to.give(200, page, HTML_TYPE)]
        self.assertEqual(self.versions(index, "cup")[0], {"cup": ["1.0+b"]})

    def test_that_lead_in_a_circle_are_refused(self):
        index = self.serve(packages())
        index.instead["/simple/cup/"] = [lambda to: to.give(302, Location="/simple/cup/")]
        self.check_refused(index, "cup", fault="^/simple/cup/: over 10 redirects led to it$")

    def locked(self, index):
        """Lets only those with user and password read."""
        value = "Basic " + base64.b64encode(b"me:s@crt").decode()

        def usual(to):
            if to.headers.get("Authorization") != value:
                to.give(401, WWW_Authenticate="Basic realm=index")
            elif to.path.startswith("/simple/"):
                to.give_page(index, to.path.split("/")[2])
            else:
                to.give_file(index, to.path.removeprefix("/files/"))

        for path in "/simple/a/", "/files/a-1-py3-none-any.whl", "/files/a-1-py3-none-any.whl.metadata":
            index.instead[path] = [usual]

    def test_may_have_user_and_password(self):
        index = self.serve({"a": [wheel_of("a", "1")]}, has_sizes=False)
        self.locked(index)
        self.check_refused(index, "a", fault="^/simple/a/: 401 Unauthorized; user and password stand in ~/.netrc, or in ")
        self.made(index, "a", url=index.url.replace("//", "//me:s%40crt@"))
        text = self.output.read_text(encoding="utf-8") + "".join(
            path.read_text(encoding="utf-8") for path in (self.folder / "cache").rglob("*") if path.is_file()
        )
        self.assertNotIn("me:s", text)
        self.assertNotIn("crt", text)

    def test_are_shown_without_the_password(self):
        index = self.serve({"a": [wheel_of("a", "1")]})
        index.instead["/simple/a/"] = [lambda to: to.give(403)]
        status, lines = self.call(index.url.replace("//", "//me:s%40crt@"), "a")
        self.assertEqual((status, len(lines)), (1, 2))
        self.assertRegex(lines[1], "^/simple/a/: 403 Forbidden; ")
        self.assertNotIn("crt", "".join(lines))

    def test_of_other_hosts_are_not_told_the_password(self):
        index, other = self.serve({}), self.serve({"a": [wheel_of("a", "1")]})
        index.instead["/simple/a/"] = [lambda to: to.give(302, Location=f"{other.url}a/")]
        self.made(index, "a", url=index.url.replace("//", "//me:secret@"))
        self.assertIn("Authorization", index.headers[0])
        self.assertEqual([headers for headers in other.headers if "Authorization" in headers], [])


if __name__ == "__main__":
    unittest.main()
