"""Tests of a snapshot that wants to do harm by what it names: a file whose name is a path, which an installer would write outside of its
folder, and a name or a URL with what acts on a terminal. Such a release is left out, and `skipped` tells why."""

import re

from support.made.releases import file_of
from support.program import Program
from support.rules.locks import read_index

# ends of lines, what turns a line's direction, other control characters, a space, what looks like ASCII, and what isn't ASCII
ODD = "\n", "\r", "\t", "\0", "\x1b[2J", "\x7f", "\x9b", "\u202e", "\u2066", "\u200f", "\u2028", " ", "\u00a0", "\u0430", "é", "😀"
PATHS = "../../x", "/etc/x", "..\\x", "\\\\host\\x", "C:x", "a/x", "x:y"
ENDINGS = "-1-py3-none-any.whl", "-1.tar.gz", "-1.zip"
PLAIN = "A.b_c", "a+b", "1!2", "~a", "a(b)", "a,b", "a%20b", "'a'", '"', "a@b", "..", "-"


class Names(Program):
    def left_out(self, file, cause, *more):
        """With this file the newest release of a package is left out, and the one before is locked."""
        with self.subTest(file=file):
            self.begin(b"a\n", ("a", "1", []), ("a", "2", [], {"files": [file, *more]}))
            self.assertEqual(self.told("skipped"), (0, f"a: release 1: {cause}\n", ""))
            self.locks("1")

    def locks(self, version):
        """This version is locked, as the rules say, and what is printed of it has no odd character."""
        index = read_index((self.outside / "index.json").read_bytes())
        self.assertEqual(str(index.releases["a"][0].version.release[0]), version)
        self.put({"requirements.txt": b"a\n"})
        self.assertEqual(self.told("init"), (0, "ok 0\n", ""))
        self.assertEqual(self.locked(), {"a": version})
        self.assertIsNone(re.search(rb"[^\n -~]", self.files()["pylock.toml"]))
        for words in [["export", "--format", "pylock"], ["export"], ["show", "a"], ["show", "--json"]]:
            status, told, errors = self.told(*words)
            self.assertEqual((status, errors), (0, ""))
            self.assertIsNone(re.search(r"[^\n -~]", told))

    def test_a_name_that_is_a_path(self):
        for name in PATHS:
            for ending in ENDINGS:
                self.left_out(file_of("a", "2") | {"name": name + ending}, "file-name")

    def test_a_name_with_an_odd_character(self):
        for letter in ODD:
            self.left_out(file_of("a", "2") | {"name": f"a{letter}{ENDINGS[0]}"}, "file-name")

    def test_a_url_with_an_odd_character(self):
        for letter in ODD:
            self.left_out(file_of("a", "2") | {"url": f"https://files.example/{letter}a.whl"}, "file-url")

    def test_one_file_of_several(self):
        fine, bad = file_of("a", "2"), {"name": "../a-2.zip"}
        self.left_out(fine, "file-name", fine | bad)
        self.left_out(fine, "file-name", fine | bad, fine | {"name": "b.whl", "url": "\n"})
        self.left_out(fine | {"url": "\n"}, "file-url", fine | {"name": "b.whl"})

    def test_a_file_that_is_not_locked(self):
        fine = file_of("a", "2")
        others = {"name": "../a-2.exe"}, {"name": fine["name"], "url": "\n"}
        self.begin(b"a\n", ("a", "2", [], {"files": [fine, *(fine | other for other in others)]}))
        self.assertEqual(self.told("skipped"), (0, "", ""))
        self.locks("2")

    def test_what_was_asked_of_a_release_before_comes_first(self):
        bad = {"files": [file_of("a", "2") | {"name": "../a.whl", "url": "\n"}]}
        self.begin(b"", ("a", "x", [], bad), ("a", "2", ["-"], bad), ("a", "2", [], bad), ("a", "2", []), ("a", "2.0", []))
        causes = "version bad-version", "requirement 0 bad-name", "file-name"
        told = [f"a: release {place}: {cause}\n" for place, cause in enumerate(causes)]
        self.assertEqual(self.told("skipped"), (0, "".join(told) + "a: release 4: duplicate\n", ""))

    def test_no_other_text_brings_an_odd_character_into_a_lock(self):
        for letter in ODD:
            if letter not in "\t ":
                self.begin(b"a\n", ("a", "1", []), ("a", "2", [], {"requires_python": f">=3{letter}"}))
                self.assertEqual(self.told("skipped"), (0, "a: release 1: requires-python bad-clause\n", ""))
                self.locks("1")
        self.begin(b"a\n", ("a", "1", [], {"requires_python": "\t>=3 "}))
        self.locks("1")
        for letter in ODD:
            if letter != " ":
                self.lock_for({"": self.environments[""] | {"platform_version": f"x{letter}y"}})
                self.assertEqual(self.told("init"), (4, "", "reqlock: environment: bad-environment platform_version\n"))

    def test_plain_names_stay(self):
        for name in PLAIN:
            with self.subTest(name=name):
                self.begin(b"a\n", ("a", "2", [], {"files": [file_of("a", "2") | {"name": name + ENDINGS[0]}]}))
                self.assertEqual(self.told("skipped"), (0, "", ""))
                self.locks("2")
