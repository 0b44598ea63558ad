"""Tests of `tools/snapshot.py simple` with an index that wants to do harm: that takes time, memory or disk without end, or that
sends what isn't of its form. Each call ends soon, with one sentence."""

import gzip
import json
import time
import unittest
from contextlib import suppress

from support.made.archives import headers
from support.made.served_index import HTML_TYPE, JSON_TYPE, sdist_of, wheel_of
from support.places import IS_LONG
from support.simple_index import Simple

from reqlock_tools.limits import Limits, limits_of
from reqlock_tools.refusal import Refusal
from reqlock_tools.simple.links import read_links
from reqlock_tools.simple.pages import read_page

PATH, METADATA = "/simple/a/", "/files/a-1-py3-none-any.whl.metadata"
SECONDS = 20


def raw(*pieces, pause=0.0, count=1):
    """Sends these bytes as they stand, so many times, with a pause behind each time, and closes."""

    def answer(to):
        to.close_connection = True
        with suppress(OSError):
            for _ in range(count):
                for piece in pieces:
                    to.wfile.write(piece)
                to.wfile.flush()
                time.sleep(pause)

    return answer


def page_of(*files, version="1.0"):
    return json.dumps({"meta": {"api-version": version}, "files": files}).encode()


class Hostile(Simple):
    def setUp(self):
        super().setUp()
        self.index = self.serve({"a": [wheel_of("a", "1")]})
        self.start = time.monotonic()

    def tearDown(self):
        self.assertLess(time.monotonic() - self.start, SECONDS * 10)

    def check(self, path, answer, fault, *words):
        """With this answer at a path the call ends with this fault."""
        self.index.instead[path] = [answer]
        start = time.monotonic()
        self.check_refused(self.index, "a", "--retries", "0", *words, fault=fault)
        self.assertLess(time.monotonic() - start, SECONDS)

    def check_page(self, body, fault, *words, kind=JSON_TYPE, **more):
        self.check(PATH, lambda to: to.give(200, body, kind, **more), f"^{PATH}: {fault}", *words)

    def taken(self, *words):
        """What is told where the call ends well, and how long it took."""
        start = time.monotonic()
        lines = self.made(self.index, "a", *words)[1]
        self.assertLess(time.monotonic() - start, SECONDS)
        return lines


class Amounts(Hostile):
    """What has no end, or unpacks to much."""

    def test_of_a_page(self):
        fault = "over 33554432 bytes of a project's page; --limit page=NUMBER takes more$"
        self.check_page(b" " * (2**25 + 1), fault)
        self.check_page(gzip.compress(b" " * 2**26), fault, Content_Encoding="gzip")
        self.check_page(b" " * 1001, "over 1000 bytes of a project's page; ", "--limit", "page=1000")

    def test_of_a_header(self):
        line = b"X: " + b"y" * 60_000 + b"\r\n"
        fault = f"^{PATH}: over 262144 bytes of an answer's header; --limit header=NUMBER takes more$"
        self.check(PATH, raw(b"HTTP/1.1 200 OK\r\n", line * 9, b"\r\n"), fault)

    def test_of_an_answer_that_is_put_off(self):
        fault = "over 1 seconds that an answer takes as a whole; --limit seconds=NUMBER takes more$"
        words = "--limit", "seconds=1"
        self.check(PATH, raw(b"H", pause=0.3, count=30), f"^{PATH}: {fault}", *words)
        self.check(PATH, raw(b"HTTP/1.1 100 Continue\r\n\r\n", pause=0.01, count=1000), f"^{PATH}: {fault}", *words)
        begun = b"HTTP/1.1 200 OK\r\nContent-Type: text/html\r\n\r\n"
        self.check(PATH, raw(begun, *[b" "] * 3, pause=0.3, count=30), f"^{PATH}: {fault}", *words)
        begun = begun.replace(b"\r\n\r\n", b"\r\nTransfer-Encoding: chunked\r\n\r\n")
        self.check(PATH, raw(begun, b"1\r\n \r\n", pause=0.4, count=30), f"^{PATH}: (over 1 seconds|Invalid|.*)", *words)

    def test_of_metadata(self):
        body = b"Name: a\nVersion: 1\n\n" + b" " * 2**24
        fault = "over 16777216 bytes of a METADATA or PKG-INFO; --limit metadata=NUMBER takes more$"
        self.check(METADATA, lambda to: to.give(200, body), f"^{METADATA}: {fault}")

    def test_of_metadata_that_is_packed(self):
        body = gzip.compress(b"Name: a\nVersion: 1\n\n" + b" " * 2**24)
        fault = "over 16777216 bytes of a METADATA or PKG-INFO; --limit metadata=NUMBER takes more$"
        self.check(METADATA, lambda to: to.give(200, body, Content_Encoding="gzip"), f"^{METADATA}: {fault}")

    def test_of_what_files_depend_on(self):
        self.index.projects["a"] = [wheel_of("a", str(number), *["b" * 36] * 10) for number in range(9)]
        self.index.files = {file.name: file for file in self.index.projects["a"]}
        fault = "over 8999 bytes of what all files depend on; --limit needs=NUMBER takes more$"
        self.check_refused(self.index, "a", "--limit", "needs=8999", fault=f"^/files/a-[0-9]-py3-none-any.whl: {fault}")
        self.assertEqual(len(self.made(self.index, "a", "--limit", "needs=9000")[0]["a"]), 9)

    def test_of_a_piece_below_nothing(self):
        """A size of -1 would stand for all that comes, which no limit would count before it is there."""
        begun = b"HTTP/1.1 200 OK\r\nContent-Type: text/html\r\nTransfer-Encoding: chunked\r\n\r\n-1\r\n"
        sent = []

        def answer(to):
            to.close_connection = True
            with suppress(OSError):
                for piece in [begun, *[b" " * 2**20] * 200]:
                    to.wfile.write(piece)
                    sent.append(piece)

        self.check(PATH, answer, f"^{PATH}: the connection was cut in the midst of the answer; ")
        self.assertLess(len(sent), 100)

    def test_of_values(self):
        fault = "over 100000 files on a page; --limit files=NUMBER takes more$"
        for value in b"1", b"[" * 500 + b"]" * 500, b"[{},1]":
            body = b'{"meta": {"api-version": "1.0"}, "files": [], "x": [' + b",".join([value] * (8_000_000 // len(value))) + b"]}"
            with self.assertRaisesRegex(Refusal, fault):
                read_page("u", JSON_TYPE, body, "a", Limits())

    def test_of_attributes(self):
        page = read_links("u", "<a " + " ".join(f"x{number}" for number in range(100_000)) + " href=y>", Limits())
        self.assertEqual(page.links, [{"href": "y"}])

    def test_of_a_file(self):
        self.index.projects["a"] = [sdist_of("a", "1")]
        endless = raw(b"HTTP/1.1 200 OK\r\n\r\n", *[b"x" * 2**16] * 400)
        fault = "^/files/a-1.tar.gz: over 1000000 bytes of a wheel or sdist that is fetched or read whole; "
        self.check("/files/a-1.tar.gz", endless, fault, "--limit", "file=1000000")

    def test_of_files(self):
        files = [{"filename": f"a-{number}.zip", "url": f"a-{number}.zip", "hashes": {}} for number in range(4)]
        fault = "over 3 files on a page; --limit files=NUMBER takes more$"
        self.check_page(page_of(*files), fault, "--limit", "files=3")
        self.check_page(b"<a href=x>" * 4, fault, "--limit", "files=3", kind=HTML_TYPE)
        self.check_page(b"<a href=x>" * 100_001, "over 100000 files on a page; ", kind=HTML_TYPE)

    def test_of_names(self):
        for number in range(30):
            self.index.add(f"p{number}", wheel_of(f"p{number}", "1", f"p{number + 1}"))
        status, lines = self.call(self.index.url, "p0", "--limit", "names=20")
        self.assertEqual((status, lines), (1, ["/simple: over 20 packages that are followed; --limit names=NUMBER takes more"]))
        self.assertLess(len(self.index.asked), 60)

    def test_have_limits_that_can_be_named_alone(self):
        for word in "page", "page=", "page=x", "page=0", "page=-1", "pages=1", "page=²", "page=" + "9" * 30:
            self.assertRaises(Refusal, limits_of, [word])
            self.assertEqual(self.call(self.index.url, "a", "--limit", word)[0], 2)
        self.assertEqual(limits_of(["page=7", "names=8"]), Limits(page=7, names=8))


class Slow(Hostile):
    """Texts whose reading takes long in some ways of reading."""

    def test_spaces(self):
        told = {"requires-python": " " * 5000 + "(" + " " * 5000 + "[" + " " * 5000}
        folded = headers("a", "1", ["b" + " " * 40_000 + "(", "c ;" + " " * 40_000 + "'" * 40_000])
        self.index.projects["a"] = [wheel_of("a", "1", told=told)]
        self.index.files["a-1-py3-none-any.whl"].metadata = folded.encode()
        self.index.projects["a"][0].told["core-metadata"] = True
        self.taken()

    def test_names(self):
        names = "a-" * 20_000 + "1.tar.gz", "a-1-py3-none-" + "a." * 20_000 + "b.whl", "a-1-" + ".".join("x" * 40) + "-n." * 3 + "x.whl"
        files = [{"filename": name, "url": name, "hashes": {"sha256": "0" * 64}} for name in names]
        files.append(self.index.json_item(self.index.projects["a"][0]))
        self.index.instead[PATH] = [lambda to: to.give(200, page_of(*files), JSON_TYPE)]
        told = ["left out as their names have over 255 characters: 2 files", "left out as no environment takes them: 1 file"]
        self.assertEqual([line.replace(", with 1 whole release", "") for line in self.taken("--for-this-machine")], told)

    def test_a_wheel_for_very_many_machines(self):
        many = ".".join("abcdefghij" * 2)
        name = f"a-1-{many}-{many}-{many}.whl"
        files = [{"filename": name, "url": name, "hashes": {"sha256": "0" * 64}}, self.index.json_item(self.index.projects["a"][0])]
        self.index.instead[PATH] = [lambda to: to.give(200, page_of(*files), JSON_TYPE)]
        self.assertEqual(self.taken("--for-this-machine"), ["left out as no environment takes them: 1 file"])

    def test_html(self):
        count = 2_000_000 if IS_LONG else 200_000
        link = self.index.html_line(self.index.projects["a"][0]).encode()
        for text in b"<!--", b"<a ", b"<a b='", b"<![", b"</", b"<?", b"<script>", b"<a b=", b"&#", b"<a href=\"":
            self.index.instead[PATH] = [lambda to, text=text: to.give(200, link + text * count, HTML_TYPE)]
            self.taken("--cache", self.folder / "cache" / text.hex())

    def test_markers_of_very_many_extras(self):
        extras = [f"e{number}" for number in range(400)]
        marker = " or ".join(f"extra=='{extra}'" for extra in extras)
        count = 400 if IS_LONG else 100
        needs = [f"a[{','.join(extras)}] ; {marker} or extra=='x{number}'" for number in range(count)]
        self.index.files["a-1-py3-none-any.whl"].metadata = headers("a", "1", ["a[e0]", *needs]).encode()
        self.index.projects["a"][0].told["core-metadata"] = True
        self.assertRegex(self.taken()[0], "^extras that are followed: a.e0,e1,")

    def test_extras(self):
        count = 1000 if IS_LONG else 300
        extras = ",".join(f"e{number}" for number in range(count))
        needs = [f"a[{extras}] ; os_name == 'x' or extra == 'e{number}'" for number in range(count)]
        self.index.files["a-1-py3-none-any.whl"].metadata = headers("a", "1", needs).encode()
        self.index.projects["a"][0].told["core-metadata"] = True
        self.assertRegex(self.taken()[0], "^extras that are followed: a.e0,e1,")


class Odd(Hostile):
    """What isn't of its form, and once ended in a traceback."""

    def test_headers(self):
        for text in "²", "9" * 5000, "Wed, 99 Foo 99999999999 25:61:61 GMT", "-1":
            self.index.instead[PATH] = [lambda to, text=text: self.head(to, 503, "Retry-After", text), self.index.usual]
            self.assertEqual(self.taken("--cache", self.folder / "cache" / str(len(text))), [])
        for place in "http://[", "http://a:99999999/", "http://a:0/", "//[::1", "http://\u0661\u0661.example:x/":
            self.check(PATH, lambda to, place=place: self.head(to, 302, "Location", place), f"^{PATH}: it leads to '.*', which is no URL$")
        self.check(PATH, raw(b"HTTP/1.1 200 OK\r\nContent-Length: " + b"9" * 5000 + b"\r\n\r\n"), f"^{PATH}: ")
        self.check(PATH, raw(b"HTTP/1.1 " + b"9" * 5000 + b" OK\r\n\r\n"), f"^{PATH}: ")
        folded = b"HTTP/1.1 200 OK\r\nContent-Type: text/html\r\nETag: a\r\n b\r\nConnection: close\r\n\r\n<a href=x>"
        for _ in range(2):
            self.check(PATH, raw(folded), "^/simple/: it has no file of a; ")

    def test_places_that_lead_elsewhere(self):
        for place in "file:///etc/passwd", "ftp://i.example/a/", "data:text/html,x":
            fault = f"^{place.partition(',')[0]}.*: an http or https URL with a host is wanted, "
            self.check(PATH, lambda to, place=place: self.head(to, 302, "Location", place), fault)
        self.check(PATH, lambda to: self.head(to, 302, "Location", PATH), f"^{PATH}: over 10 redirects led to it$")
        self.assertEqual(self.index.counts()["GET", PATH], 13)

    def test_lengths(self):
        begun = b"HTTP/1.1 200 OK\r\nContent-Type: text/html\r\nConnection: close\r\n"
        cut = f"^{PATH}: the connection was cut in the midst of the answer; "
        self.check(PATH, raw(begun, b"Content-Length: 9\r\n\r\n<a>"), cut)
        self.check(PATH, raw(begun, b"Transfer-Encoding: chunked\r\n\r\nffffffffff\r\n<a>"), cut)
        self.check(PATH, raw(begun, b"Transfer-Encoding: chunked\r\n\r\nx\r\n<a>"), cut)
        self.check(PATH, raw(begun, b"Content-Length: 3\r\n\r\n<a>HTTP/1.1 200 OK\r\n\r\n"), "^/simple/: it has no file of a; ")
        self.check(PATH, raw(begun, b"Content-Length: -9\r\n\r\n<a>"), "^/simple/: it has no file of a; ")

    def test_packed_twice(self):
        body = gzip.compress(gzip.compress(page_of()))
        self.check_page(body, "not UTF-8", Content_Encoding="gzip")
        self.check_page(body, "its body is sent as 'gzip, gzip', which wasn't asked for$", Content_Encoding="gzip, gzip")

    def test_names_of_files(self):
        """Of a page: those that no file has are passed over."""
        names = "../a-1.zip", "/etc/a-1.zip", "a-1.zip\x1b[31m", "\x00a-1.zip", "a\n-1.zip", "a-1.zip/..", "..", "a-\u0661.zip", "a-1\u2028.zip"
        files = [{"filename": name, "url": "x", "hashes": {"sha256": "0" * 64}} for name in names]
        files.append(self.index.json_item(self.index.projects["a"][0]))
        self.index.instead[PATH] = [lambda to: to.give(200, page_of(*files), JSON_TYPE)]
        made, lines = self.made(self.index, "a")
        self.assertEqual([file["name"] for file in made["a"]["1"]["files"]], ["a-1-py3-none-any.whl"])
        self.assertEqual(lines, [])

    def test_nested(self):
        for text in "[" * 2**20, '{"a":' * 2**20, '{"meta": {"api-version": "1.0"}, "files": ' + "[" * 2**20:
            self.check_page(text.encode(), "not JSON, though it is sent as such: ")
        self.check(PATH, lambda to: to.give(200, b"<div>" * 2**18, HTML_TYPE), "^/simple/: it has no file of a; ")

    @staticmethod
    def head(to, status, name, value):
        """Answers with one header and nothing else."""
        to.send_response(status)
        to.send_header(name, value.encode().decode("latin-1"))
        to.send_header("Content-Length", "0")
        to.end_headers()

    def test_numbers(self):
        digits = "9" * 5000
        self.check_page(page_of(version=digits), "it has version '9+' of the Simple API")
        self.check_page(b'{"meta": {"api-version": "1.0"}, "files": [' + digits.encode() + b"]}", "not JSON")
        self.check(PATH, lambda to: to.give(200, f"<a href='&#{digits};'>".encode(), HTML_TYPE), "^/simple/: it has no file of a; ")
        self.check(PATH, lambda to: to.give(200, b"<base href='http://['><a href=x>", HTML_TYPE), f"^{PATH}: it leads to 'http://\\[', which")
        kind = f"application/vnd.pypi.simple.v{digits}+json"
        self.check_page(b"", "it has version '9+' of the Simple API", kind=kind)
        item = {"filename": "a-1.zip", "url": "a-1.zip", "hashes": {"sha256": "0" * 64}, "upload-time": digits}
        self.check_page(page_of(item), "'9+', the upload-time of a-1.zip, is no time", "--exclude-newer", "2024-01-01")
        del self.index.instead[PATH]
        self.index.projects["a"] = [sdist_of("a", "1", metadata=digits)]
        self.index.add("a", sdist_of("a", "1", metadata=digits))
        self.index.projects["a"].pop()
        self.assertEqual(self.call(self.index.url, "a")[0], 0)

    def test_charsets(self):
        link = self.index.html_line(self.index.projects["a"][0]).encode()
        for place, charset in enumerate(("idna", "punycode", "undefined", "base64", "rot13", "utf-16", "\xb2", "x" * 9000)):
            self.index.instead[PATH] = [lambda to, charset=charset: to.give(200, link, f"text/html; charset={charset}")]
            self.assertEqual(self.taken("--cache", self.folder / "cache" / str(place)), [])

    def test_entries_of_the_cache(self):
        self.taken()
        paths = [path for path in (self.folder / "cache").rglob("*") if path.is_file()]
        for path in paths:
            data = path.read_bytes()
            for place in range(0, len(data), max(1, len(data) // 40)):
                path.write_bytes(data[:place])
                for other in paths:  # (what is kept of whole projects would count before their files)
                    if "project" in str(other) and other != path:
                        other.unlink(missing_ok=True)
                self.taken()
                self.assertEqual(path.read_bytes(), data)

    def test_sizes(self):
        self.index.projects["a"][0].told["size"] = None
        size, path = "9" * 60, "/files/a-1-py3-none-any.whl"

        def answer(to):
            if to.command == "HEAD":
                raw(f"HTTP/1.1 200 OK\r\nContent-Length: {size}\r\n\r\n".encode())(to)
            else:
                to.give_file(self.index, "a-1-py3-none-any.whl")

        self.index.instead[path] = [answer]
        made = self.made(self.index, "a")[0]
        self.assertEqual(made["a"]["1"]["files"][0]["size"], len(self.index.files["a-1-py3-none-any.whl"].data))


if __name__ == "__main__":
    unittest.main()
