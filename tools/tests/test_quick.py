"""Tests of the quick check: which calls it makes, and what it takes for a fault."""

import re
import unittest
from pathlib import Path

from support.places import TOP
from quick import Answers, whole
from support.quick_calls import SESSIONS, Call, session_of, shown_sessions

FOLDER = Path("/w/web")


class Calls(unittest.TestCase):
    def test_each_subcommand_and_each_status_is_among_them(self):
        calls = [call for session in (*SESSIONS, *shown_sessions()) for call in session.calls]
        words = {word for call in calls for word in call.words}
        table = (TOP / "docs" / "REFERENCE.md").read_text(encoding="utf-8").split("| Subcommand | Does | Needs |\n")[1].split("\n\n")[0]
        named = set(re.findall(r"(?m)^\| `([a-z]+)", table))
        self.assertGreater(len(named), 15)
        self.assertEqual(named - words, set())
        self.assertEqual({call.status for call in calls}, {None, 0, 1, 2, 3, 4, 5})

    def test_blocks_with_other_programs_are_left_out(self):
        first = ("cd examples/web", [])
        session = session_of([first, ("printf 'a\\nb\\n' | reqlock try '<2 | x'", ["c"])])
        self.assertEqual(session, ("web", [Call(["try", "<2 | x"], "a\nb\n", None, ["c"])], None))
        for command in "ls", "reqlock show | head", "reqlock why >file", "python3 x", "reqlock show $x", "export A=b":
            self.assertIsNone(session_of([first, (command, [])]), command)
        self.assertIsNone(session_of([("reqlock show", [])]))


class Faults(unittest.TestCase):
    """Of what `rt try` prints: three calls, of which the second prints nothing and the third breaks off."""

    OUTPUT = "== 000\nok 1\n== 001\n== 002\nok 3\n"
    ERRORS = (
        "+ 5: a\nask: reqlock --dir /w/web --index /w/web/index.json why\ncase=000 run=ended status=0 runners=1 proved=no\n"
        "reqlock: --index is needed\ncase=001 run=ended status=2 runners=1 proved=no\ncase=002 run=fault proved=no\n"
    )

    def fault(self, number, status, *lines):
        return Answers(self.OUTPUT, self.ERRORS).fault(number, Call([], "", status, list(lines)), FOLDER)

    def test_none_where_output_and_status_are_those_wanted(self):
        told = "ok 1", "+ 5: a", "ask: reqlock --index index.json why"
        self.assertIsNone(self.fault(0, 0, *told))
        self.assertIsNone(self.fault(0, None, *told))
        self.assertIsNone(self.fault(1, 2, "reqlock: --index is needed"))

    def test_each_difference_is_one(self):
        told = "ok 1", "+ 5: a", "ask: reqlock --index index.json why"
        self.assertEqual(self.fault(0, 1, *told), "it ends with status 0")
        self.assertIn("it prints 'ok 1", self.fault(0, 0, "ok 1"))
        self.assertEqual(self.fault(2, None, "ok 3"), "it has no answer")
        self.assertEqual(self.fault(3, None), "it has no answer")

    def test_files_are_given_by_whole_paths(self):
        folder = TOP / "examples" / "web"
        for word, wanted in (
            ("index.json", f"{folder}/index.json"), ("linux=environment.json", f"linux={folder}/environment.json"),
            ("../web/index.json", f"{folder}/../web/index.json"), ("none.json", "none.json"), ("flask>=2", "flask>=2"), ("-", "-"),
        ):
            self.assertEqual(whole(word, folder), wanted)


if __name__ == "__main__":
    unittest.main()
