"""Tests of rules/requirements.py, by worked examples of the rules."""

import unittest

from support.made.environments import LINUX
from support.rules.requirements import (
    Fault, active_requirements, cut_lines, holds, marker_text, matches, order_key, read_environment, read_line, read_lines,
    read_marker, read_set, read_version,
)


class Versions(unittest.TestCase):
    def test_are_ordered(self):
        texts = (
            "1.dev0 1.0.dev456 1.0a1 1.0a12.dev456 1.0a12 1.0rc1 1.0 1.0+abc.5 1.0+5 1.0.post456.dev34 1.0.post456 1.0.15 "
            "1.1.dev1"
        ).split()
        keys = [order_key(read_version(text)) for text in texts]
        self.assertTrue(all(one < other for one, other in zip(keys, keys[1:])))
        self.assertEqual(order_key(read_version("1.0")), order_key(read_version("1.0.0")))

    def test_of_faulty_texts(self):
        for text in "", "1..0", "18446744073709551616", "1!2.dev99999999999999999999", "1 .0", "1.0\u0661":
            self.assertIsNone(read_version(text))

    def test_match(self):
        rows = {
            "~=2.2.post3": ("2.2.post3 2.3", "2.2 3.0"),
            ">1.7": ("1.8", "1.7.0.post1 1.7"),
            ">1.7.post2": ("1.7.0.post3", "1.7.post2"),
            "<1.0": ("0.9", "1.0rc1 1.0.0"),
            "<1.0rc2": ("1.0rc1", "1.0"),
            "==1.0.*": ("1 1.0rc1 1.0+x", "1.1"),
            "==1.0": ("1+x 1", "1.0.1"),
            "==1.0+x": ("1.0+x", "1.0"),
            ">=1,": ("1 2", "0.9"),
            "!=1.*, <2 ": ("0.1", "1.5 2"),
            "": ("1 2a1", ""),
        }
        for text, (good, bad) in rows.items():
            clauses = read_set(text)
            for version in good.split():
                self.assertTrue(matches(clauses, read_version(version)), (text, version))
            for version in bad.split():
                self.assertFalse(matches(clauses, read_version(version)), (text, version))

    def test_of_faulty_sets(self):
        for text in "~=1", "==1.0a1.*", ",>=1", ">=1,,", "===2", ">=1+x", ">=3.6.*", "== 1 .*", "1", ">=1 ; x", "==\n1", ",":
            self.assertRaises(Fault, read_set, text)


class Markers(unittest.TestCase):
    def check(self, text, extra=None):
        return holds(read_marker(text), LINUX, extra)

    def test_hold(self):
        self.assertTrue(self.check('"3.10" <= python_version'))
        self.assertTrue(self.check('platform_release >= "6"'))
        self.assertTrue(self.check('os_name == "posix" or sys_platform == "linux" and python_version < "3"'))
        self.assertFalse(self.check('(os_name == "posix" or sys_platform == "linux") and python_version < "3"'))
        self.assertTrue(self.check('python_version in "3.11 3.12"'))
        self.assertTrue(self.check("os_name not \t in 'nt'"))
        self.assertFalse(self.check('python_full_version ~= "abc"'))
        self.assertTrue(self.check('extra == "Foo_Bar"', "foo-bar"))
        self.assertFalse(self.check('extra == "Foo_Bar"'))
        self.assertTrue(self.check('extra != "-"'))
        self.assertTrue(self.check("\"1\" < '=1'"))
        self.assertFalse(self.check('"1" == "=1"'))
        self.assertFalse(self.check('os_name == "' + "(" * 65 + '"'))
        self.assertTrue(self.check(" and ".join(['os_name=="posix"'] * 10_000)))

    def test_of_many_parentheses(self):
        self.assertTrue(self.check("(" * 64 + "os_name=='posix'" + ")" * 64))
        self.assertRaises(Fault, read_marker, "(" * 65 + "os_name=='posix'" + ")" * 65)

    def test_of_faulty_texts(self):
        for text in (
            "", "os.name == 'a'", "os_name === 'a'", "os_name == 'a", "extra in 'a'", "extra == os_name", "os_name",
            "extra == extra", "'a' == 'b' 'c'", "('a' == 'b'", "'a' notin 'b'", "'\u00e9' == 'a'", "'a' AND 'b'", "os_name == 1",
        ):
            self.assertRaises(Fault, read_marker, text)

    def test_environment(self):
        self.assertEqual(read_environment({**LINUX, "python_full_version": "3.13.0+", "x": 1})["python_full_version"], "3.13.0")
        text = marker_text(LINUX)
        self.assertTrue(text.startswith('implementation_name == "cpython" and implementation_version == "3.12.3" and os_name'))
        self.assertTrue(text.endswith('python_version == "3.12" and sys_platform == "linux"'))
        self.assertTrue(self.check(text))
        for name, value in ("os_name", 'a"'), ("os_name", None), ("python_version", "x"), ("python_full_version", "3++"):
            self.assertRaises(Fault, read_environment, {**LINUX, name: value})


class Lines(unittest.TestCase):
    def test_read(self):
        self.assertEqual(read_line("x[E_1 , f]")[:2], ("x", ["e-1", "f"]))
        self.assertEqual(read_line('B.b (>=1) ; os_name=="posix" # keep\r\n').name, "b-b")
        self.assertEqual(read_line("a # c; os_name==\"x\"\n").marker, None)
        self.assertEqual(read_line("a[ ]( ) \n"), ("a", [], [], None))
        for line in "", " \t\r\n", "# a", "  # a\n":
            self.assertIsNone(read_line(line))

    def test_of_faulty_lines(self):
        for line in (
            "a # b\\", "-r more.txt\n", " -e x", "a @ https://x.example/a.whl\n", "a\rb\n", "a\r", "\ufeffa", "# \u2028", "a#b",
            "a ;", "a[b", "a[b,]", "_a", "a (>=1", "a >=1 --hash=sha256:0", "a\u00e9", "\x0b", "a;os_name=='x\\'", "a[-]",
        ):
            with self.subTest(line=line):
                self.assertRaises(Fault, read_line, line)

    def test_of_files(self):
        self.assertEqual(cut_lines("a\r\n\nb"), ["a\r\n", "\n", "b"])
        self.assertEqual(cut_lines(""), [])
        self.assertEqual(read_lines(b"# web\r\nB_b >=1 # pin\r\na"), ["# web\r\n", "B_b >=1 # pin\r\n", "a"])
        for data in b"\xff", b"a\n-r b\n", b"\xed\xa0\x80":
            self.assertRaises(Fault, read_lines, data)

    def test_active(self):
        lines = ["a\n", 'b ; os_name=="nt"\n', "# c\n", 'd ; extra=="x"\n', 'e ; extra!="x"\n']
        self.assertEqual([requirement.name for requirement in active_requirements(lines, LINUX)], ["a", "e"])


if __name__ == "__main__":
    unittest.main()
