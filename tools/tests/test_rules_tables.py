"""Tests of the rows of the crate conformance, and of rules/requirements.py, with rules/versions.py below it, by what packaging 23.0
answers to them. tools/versions_table.py and tools/requirements_table.py print these parts of the rows and answers, and say where
the rules differ by design. support/made/drawn_rows.py prints those that a second reading of the rules answers."""

import json
import subprocess
import unittest

from support.made import drawn_rows
from support.places import TOOLS
from support.rules.requirements import Fault, holds, matches, order_key, read_marker, read_requirement, read_set, read_version

from support.rules.versions import canonical

from conformance_rows import lines_with_answers, printed_lines, printed_rows  # (these stand in tools/)

VERSIONS, REQUIREMENTS = "versions_table.py", "requirements_table.py"
DEBIAN = "/usr/bin/python3"


def rows(tool, *kinds):
    """The texts and the answer of each row of these kinds."""
    return [(texts, answer) for kind, texts, answer in printed_rows(tool) if kind in kinds]


def has_packaging():
    """Whether Debian's Python has packaging 23.0."""
    words = [DEBIAN, "-c", "import packaging; print(packaging.__version__)"]
    try:
        return subprocess.run(words, capture_output=True, encoding="utf-8", check=False).stdout == "23.0\n"
    except OSError:
        return False


def is_read(read, text):
    try:
        read(text)
    except Fault:
        return False
    return True


class Rows(unittest.TestCase):
    def test_each_has_its_answer(self):
        questions, answers = lines_with_answers()
        self.assertEqual(len(questions), len(answers))
        for question, answer in zip(questions, answers):
            if question == "" or question.startswith("#"):
                self.assertEqual(question, answer)
            else:
                self.assertNotIn(answer, ("", "no answer"), question)
                self.assertEqual(" | => " in question, answer == "as said", question)

    def test_are_counted(self):
        sizes = [len(texts) for texts, _ in rows(VERSIONS, "lowest", "above")]
        accepted = rows(VERSIONS, "accept")
        pairs = [size for _, marks in accepted for size, mark in zip(sizes, marks, strict=True) if mark in "01"]
        self.assertEqual((sum(sizes), len(accepted), sum(pairs)), (184, 78, 14182))
        texts = len(rows(REQUIREMENTS, "marker", "requirement"))
        texts += sum(len(texts) for texts, _ in rows(REQUIREMENTS, "requirements"))
        self.assertEqual(texts, 432)

    @unittest.skipUnless(has_packaging(), "Debian's python3 has no packaging 23.0: apt-get install python3-packaging")
    def test_are_those_that_are_printed(self):
        for tool in VERSIONS, REQUIREMENTS:
            for word, lines in zip(("rows", "answers"), printed_lines(tool)):
                done = subprocess.run([DEBIAN, "-B", TOOLS / tool, word], capture_output=True, encoding="ascii", check=True)
                self.assertEqual(done.stdout.split("\n"), [*lines, ""])

    def test_are_those_that_are_drawn(self):
        self.assertEqual(list(zip(*printed_lines(drawn_rows.TOOL)))[:-1], drawn_rows.rows_and_answers())


class Versions(unittest.TestCase):
    def test_are_read_and_ordered(self):
        keys = []
        for texts, answer in rows(VERSIONS, "lowest", "above"):
            versions = list(map(read_version, texts))
            self.assertEqual(list(map(canonical, versions)), [told.split(" ")[0] for told in answer.split("; ")], texts)
            self.assertEqual({order_key(version) for version in versions}, {order_key(versions[0])}, texts)
            keys.append(order_key(versions[0]))
        self.assertTrue(all(one < other for one, other in zip(keys, keys[1:])))

    def test_are_refused(self):
        for [text], _ in rows(VERSIONS, "version"):
            self.assertIsNone(read_version(text), text)

    def test_match(self):
        ranks = [list(map(read_version, texts)) for texts, _ in rows(VERSIONS, "lowest", "above")]
        for (text, *_), marks in rows(VERSIONS, "accept"):
            clauses = read_set(text)
            for versions, mark in zip(ranks, marks, strict=True):
                answers = {matches(clauses, version) for version in versions}
                self.assertTrue(mark == "-" or answers == {mark == "1"}, (text, versions))


class Requirements(unittest.TestCase):
    def setUp(self):
        [([text], _)] = rows(REQUIREMENTS, "environment")
        self.environment = json.loads(text)

    def test_markers_hold(self):
        for (text, *extras), marks in rows(REQUIREMENTS, "marker"):
            if not extras:
                self.assertFalse(is_read(read_marker, text), text)
                continue
            for extra, mark in zip(extras, marks, strict=True):
                held = holds(read_marker(text), self.environment, None if extra == "none" else extra)
                self.assertEqual(held, mark == "1", (text, extra))

    def test_are_read(self):
        versions = [read_version(text) for [text], _ in rows(REQUIREMENTS, "lowest", "above")]
        for [text], answer in rows(REQUIREMENTS, "requirement"):
            name, extras, count, marks, active = answer.split(" ")
            requirement = read_requirement(text)
            extras = extras[1:-1].split(",") if extras != "[]" else []
            self.assertEqual((requirement.name, list(requirement.extras), len(requirement.clauses)), (name, extras, int(count)), text)
            matched = "".join("01"[matches(requirement.clauses, version)] for version in versions)
            held = "-" if requirement.marker is None else "01"[holds(requirement.marker, self.environment)]
            self.assertEqual((matched, held), (marks, active), text)

    def test_are_refused(self):
        for texts, _ in rows(REQUIREMENTS, "requirements"):
            for text in texts:
                self.assertFalse(is_read(read_requirement, text), text)


if __name__ == "__main__":
    unittest.main()
