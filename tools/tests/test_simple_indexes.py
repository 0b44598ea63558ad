"""Tests of `tools/snapshot.py simple` with several indexes, and with constraints."""

import time
import unittest

from support.made.served_index import wheel_of
from support.simple_index import LINUX, Simple
from test_simple_hosts import free_port


class Indexes(Simple):
    def setUp(self):
        super().setUp()
        self.team = self.serve({"team-lib": [wheel_of("team-lib", "1", "requests")], "team-tool": [wheel_of("team-tool", "1")]})
        self.public = self.serve({
            "requests": [wheel_of("requests", "2", "urllib3")], "urllib3": [wheel_of("urllib3", "1")],
            "team-lib": [wheel_of("team-lib", "99", "evil")], "evil": [wheel_of("evil", "1")],
        })

    def origins(self, *words, first=None):
        """The packages with the index that each came from, the versions, and what is told."""
        versions, lines = self.versions(first or self.team, *words)
        places = {self.team.url: "team", self.public.url: "public"}
        made = self.read()["made"]["indexes"]
        return {name: places[index["url"]] for index in made for name in index["packages"]}, versions, lines

    def asked(self, index):
        return sorted({path.split("/")[2] for _, path in index.counts() if path.startswith("/simple/")})

    def test_the_first_that_has_a_name_is_asked_for_it_alone(self):
        """A public index has a newer version of a private name, and is never asked for it."""
        origins, versions, _ = self.origins("team-lib", "--index", self.public.url)
        self.assertEqual(origins, {"team-lib": "team", "requests": "public", "urllib3": "public"})
        self.assertEqual(versions["team-lib"], ["1"])
        self.assertEqual(self.asked(self.public), ["requests", "urllib3"])
        self.assertEqual(self.asked(self.team), ["requests", "team-lib", "urllib3"])

    def test_a_name_that_is_bound_is_asked_of_no_other(self):
        bound = "--only", f"Team_*={self.team.url}"
        origins, versions, _ = self.origins("team-lib", "team-new", *bound, first=self.public)
        self.assertEqual(origins, {"team-lib": "team", "requests": "public", "urllib3": "public"})
        self.assertEqual(versions["team-lib"], ["1"])
        self.assertEqual(self.asked(self.public), ["requests", "urllib3"])
        self.assertEqual(self.asked(self.team), ["team-lib", "team-new"])
        made = self.read()["made"]["indexes"]
        self.assertEqual([index.get("only") for index in made], [None, ["team-*"]])
        data = self.output.read_bytes()
        self.assertEqual(self.again(self.public)[0], 0)
        self.assertEqual(self.output.read_bytes(), data)

    def test_no_fault_of_an_index_leads_to_the_next(self):
        path = "/simple/team-lib/"
        for status in 401, 403, 500, 503:
            self.team.instead[path] = [lambda to, status=status: to.give(status)]
            self.check_refused(self.team, "team-lib", "--index", self.public.url, "--retries", "0", fault=f"^{path}: {status} ")
        self.team.instead[path] = [lambda to: setattr(to, "close_connection", True)]
        self.check_refused(self.team, "team-lib", "--index", self.public.url, "--retries", "0", fault=f"^{path}: the connection was cut")
        self.team.instead[path] = [lambda to: time.sleep(1)]
        words = "--index", self.public.url, "--retries", "0", "--timeout", "0.2"
        self.check_refused(self.team, "team-lib", *words, fault=f"^{path}: no answer in 0.2 s")
        url = f"http://127.0.0.1:{free_port()}/simple/"
        self.check_refused(self.team, "team-lib", "--index", self.public.url, url=url, fault=f"^{path}: Connection refused")
        self.assertEqual(self.asked(self.public), [])
        for status in 404, 410:
            self.team.instead[path] = [lambda to, status=status: to.give(status)]
            self.assertEqual(self.origins("team-lib", "--index", self.public.url)[1]["team-lib"], ["99"])

    def test_words_that_bind_nothing_are_told(self):
        for word in "team-*", "=https://i.example/simple/", "a b=https://i.example/simple/", "a=ftp://i.example/", "a=https://me:pa/ss@i.example/":
            status, lines = self.call(self.team.url, "a", "--only", word)
            self.assertEqual(status, 2, word)
            self.assertNotIn("ss@", lines[-1])

    def test_none_has_a_file(self):
        status, lines = self.call(self.team.url, "nothing", "--index", self.public.url)
        self.assertEqual(status, 1)
        self.assertRegex(lines[0], r"^/simple/, http://127.0.0.1:[0-9]+/simple/: it has no file of nothing; ")


class Constraints(Simple):
    def setUp(self):
        super().setUp()
        self.index = self.serve({
            "a": [wheel_of("a", "1", "b")], "b": [wheel_of("b", version) for version in ("1", "1.5", "2", "2.1", "3rc1")],
            "c": [wheel_of("c", "1")],
        })
        (self.folder / "cache").mkdir()

    def file(self, name, text):
        path = self.folder / "cache" / name
        path.write_text(text, encoding="utf-8")
        return path

    def test_leave_out_what_is_outside(self):
        path = self.file("constraints.txt", "B >= 1.5, < 2.1  # (not yet)\nc==9\n")
        versions, lines = self.versions(self.index, "a", "--constraints", path)
        self.assertEqual(versions, {"a": ["1"], "b": ["1.5", "2"]})
        self.assertEqual(lines, [f"left out by {path}: 3 files, with 3 whole releases"])
        made = self.read()["made"]
        self.assertEqual(made["constraints"], [{"file": str(path), "requirements": ["B >= 1.5, < 2.1", "c==9"], "versions": []}])
        self.assertEqual(made["left"], [{"name": "b", "why": f"by {path}", "releases": 3, "ranges": ["1", "2.1 and newer"]}])

    def test_ask_for_nothing(self):
        self.assertEqual(self.versions(self.index, "a", "--constraints", self.file("c.txt", "c\n"))[0], {
            "a": ["1"], "b": ["1", "1.5", "2", "2.1", "3rc1"],
        })

    def test_of_a_lock_are_its_versions_alone(self):
        lock = self.file("pylock.toml", "[[packages]]\nname = 'B'\nversion = '2.0'\n[[packages]]\nname = 'c'\nversion = '7'\n")
        versions, lines = self.versions(self.index, "a", "--constraints", lock)
        self.assertEqual(versions, {"a": ["1"], "b": ["2"]})
        self.assertEqual(self.read()["made"]["constraints"], [{"file": str(lock), "requirements": [], "versions": ["b==2.0", "c==7"]}])
        both = "--constraints", lock, "--constraints", self.file("c.txt", "b<2\n")
        versions, lines = self.versions(self.index, "a", *both)
        self.assertEqual(versions, {"a": ["1"], "b": []})
        self.assertIn("b: the index has no release of it that can be taken", lines)

    def test_count_where_their_markers_can_hold(self):
        path = self.file("constraints.txt", "b<2 ; sys_platform == 'win32'\nb<2.1 ; sys_platform == 'linux'\n")
        self.assertEqual(self.versions(self.index, "a", "--constraints", path, "--env", LINUX)[0]["b"], ["1", "1.5", "2"])
        self.assertEqual(self.versions(self.index, "a", "--constraints", path)[0]["b"], ["1", "1.5"])

    def test_hold_of_locked_releases_too(self):
        lock = self.file("pylock.toml", "[[packages]]\nname = 'b'\nversion = '1'\n")
        path = self.file("constraints.txt", "b>1\n")
        versions, lines = self.versions(self.index, "a", "--constraints", path, "--keep", lock)
        self.assertEqual(versions["b"], ["1.5", "2", "2.1", "3rc1"])
        self.assertIn("locked, but not in the snapshot: b 1", lines)

    def test_are_those_of_then_where_it_is_made_again(self):
        path = self.file("constraints.txt", "b<2\n")
        self.versions(self.index, "a", "--constraints", path)
        data = self.output.read_bytes()
        self.file("constraints.txt", "b<1.5\n")
        status, lines = self.again(self.index)
        self.assertEqual((status, self.output.read_bytes()), (0, data))
        self.assertEqual(lines[0], f"constraints as they were then, of {path}; --constraints FILE reads them anew")
        self.assertEqual(self.again(self.index, "--constraints", path)[0], 0)
        self.assertEqual([release["version"] for release in self.read()["packages"][1]["releases"]], ["1"])

    def test_that_cannot_be_read_are_refused(self):
        for name, text, fault in (
            ("c.txt", "-r other.txt\n", "it is an option"), ("c.txt", "b===1\n", "'b===1': its versions can't be read"),
            ("c.txt", "b @ https://i.example/b.whl\n", "takes no URL"), ("pylock.toml", "packages = 1", "/packages: an array"),
        ):
            status, lines = self.call(self.index.url, "a", "--constraints", self.file(name, text))
            self.assertEqual((status, len(lines)), (1, 1))
            self.assertIn(fault, lines[0])


if __name__ == "__main__":
    unittest.main()
