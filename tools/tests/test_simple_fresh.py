"""Tests of `tools/snapshot.py simple` with pages that are fresh for a while (RFC 9111)."""

import json
import ssl
import threading
import time
import unittest
from unittest import mock

from support.made.served_index import JSON_TYPE, wheel_of
from support.simple_index import Simple

from reqlock_tools.simple import known
from reqlock_tools.simple.fresh import freshness, is_fresh, seconds_of

PATH = "/simple/a/"


class Fresh(Simple):
    def setUp(self):
        super().setUp()
        self.index = self.serve({"a": [wheel_of("a", "1", "b")], "b": [wheel_of("b", "1")], "c": [wheel_of("c", "1", "b")]})
        self.caching = {"Cache_Control": "max-age=600, public"}
        for name in "abc":
            self.index.instead[f"/simple/{name}/"] = [self.usual]

    def usual(self, to):
        body = self.index.page(to.path.split("/")[2])
        tag = f'"{hash(body)}"'
        if to.headers.get("If-None-Match") == tag:
            to.give(304, ETag=tag, **self.caching)
        else:
            to.give(200, body, JSON_TYPE, ETag=tag, **self.caching)

    def asked(self, *words):
        self.made(self.index, "a", *words)
        return sorted(path for _, path in self.index.counts())

    def test_pages_are_not_asked_for_again(self):
        self.assertEqual(len(self.asked()), 4)
        self.assertEqual(self.asked(), [])
        self.index.add("a", wheel_of("a", "2"))
        self.assertEqual(self.asked(), [])
        self.assertEqual(self.asked("--refresh"), ["/files/a-2-py3-none-any.whl.metadata", PATH, "/simple/b/"])
        self.assertEqual(self.asked(), [])

    def test_a_new_name_asks_for_what_is_new(self):
        self.asked()
        self.assertEqual(self.again(self.index, "c")[0], 0)
        self.assertEqual(sorted(path for _, path in self.index.counts()), ["/files/c-1-py3-none-any.whl.metadata", "/simple/c/"])

    def test_fresh_pages_are_read_while_an_answer_is_waited_for(self):
        """Over one connection a new name, which is asked for first, has its answer once the pages that are kept were read."""
        self.asked()
        read, usual = threading.Event(), known.known
        self.index.add("a-new", wheel_of("a_new", "1"))
        self.index.instead["/simple/a-new/"] = [lambda to: to.give_page(self.index, "a-new") if read.wait(5) else to.give(404)]

        def told(*words):
            if words[2] == "b":
                read.set()
            return usual(*words)

        with mock.patch("reqlock_tools.simple.known.known", told):
            self.assertEqual(self.versions(self.index, "a", "a-new", "--jobs", "1")[0], {"a": ["1"], "a-new": ["1"], "b": ["1"]})

    def test_over_plain_http_no_certificates_are_read(self):
        with mock.patch.object(ssl, "create_default_context", side_effect=AssertionError):
            self.asked()

    def test_pages_that_were_so_long_ago_are_asked_for(self):
        self.asked()
        now = time.time()
        with mock.patch("time.time", lambda: now + 700):
            self.assertEqual(self.asked(), [PATH, "/simple/b/"])
            self.assertEqual(self.asked(), [])
        self.assertEqual(self.asked(), [])
        with mock.patch("time.time", lambda: now - 90_000):
            self.assertEqual(self.asked(), [PATH, "/simple/b/"])

    def test_other_pages_are_asked_for(self):
        for told in {}, {"Cache_Control": "no-cache, max-age=600"}, {"Cache_Control": "max-age=0"}:
            self.caching = told
            self.asked()
            self.assertEqual(self.asked(), [PATH, "/simple/b/"])

    def test_names_that_were_absent_are_asked_for(self):
        self.index.instead["/simple/d/"] = [lambda to: to.give(404, Cache_Control="max-age=600")]
        for _ in range(2):
            self.made(self.index, "a", "d")
            self.assertEqual(self.index.counts()["GET", "/simple/d/"], 1)

    def test_an_entry_that_was_altered_counts_for_nothing(self):
        for until in "x", None, True, 10**30, -1, [1]:
            self.assertFalse(is_fresh({"fresh_until": until, "is_absent": False}), until)

    def test_is_what_the_answer_tells(self):
        for told, age, seconds in (
            ("max-age=600", "0", 600), ("public, Max-Age=600", "10", 590), ('max-age="5"', "0", 5), ("max-age=99999999", "0", 86_400),
            ("s-maxage=600", "0", 0), ("max-age=600, no-store", "0", 0), ("max-age=x", "0", 0), ("", "0", 0), ("max-age=9", "odd", 0),
            ("max-age=9", "10", -1), ("max-age=" + "9" * 5000, "0", 86_400), ("x-max-age=5", "0", 0),
        ):
            self.assertEqual(seconds_of({"Cache-Control": told, "Age": age}), seconds, told[:40])
        self.assertEqual(freshness({}), {})
        self.assertEqual(json.loads(json.dumps(freshness({"Cache-Control": "max-age=1"}))).keys(), {"fresh_until"})


if __name__ == "__main__":
    unittest.main()
