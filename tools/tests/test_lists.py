"""Lists that stand in several places, of subcommands and of comparison signs, have all that the program has."""

import ast
import re
import subprocess
import unittest
from itertools import chain

import test_faults
import test_file_calls
import test_inputs
import test_program
from support.places import PROGRAM, SUPPORT, TESTS, TOOLS, TOP, needs_program
from support.rules import requirements as rules
from support.rules import sentences

from reqlock_tools import fleet_request, markers, refutation_texts, specifiers
from reqlock_tools.rql import parser

# What writes an operator in the program, and where its sign is drawn by tests and tools.
OPERATORS = TOP / "crates" / "pep440" / "src" / "specifier.rt"
DRAWN = (
    [TOOLS / "requirements_table.py"], [TOOLS / "versions_table.py"], sorted((SUPPORT / "made").glob("*.py")), [TESTS / "test_export_drawn.py"],
    [TESTS / "test_simple_locks.py"], [TESTS / "test_check_refutation.py"], [TOP / "bench" / "generate.py"],
)


@needs_program
class Subcommands(unittest.TestCase):
    """Each list is held to what `--help` of the program lists."""

    @classmethod
    def setUpClass(cls):
        told = subprocess.run([PROGRAM, "--help"], capture_output=True, encoding="utf-8", check=True).stdout
        listed = told.split("Commands:")[1].split("Options:")[0]
        cls.names = set(re.findall("(?m)^  ([a-z]+) ", listed)) - {"help"}

    def test_a_fleet_knows_each(self):
        self.assertEqual(fleet_request.WHY.keys() | fleet_request.OTHERS.keys(), self.names | {"help"})
        self.assertFalse(fleet_request.WHY.keys() & fleet_request.OTHERS.keys())

    def test_rql_knows_each(self):
        """It hands on those that aren't its own; `tree` is `show --tree`. Those that it lacks take lines by standard input, or files."""
        known = next(action.choices for action in parser.parser_of()._actions if action.dest == "word")
        self.assertEqual(self.names - known.keys(), {"batch", "replace", "try"})
        self.assertEqual(parser.PASSED.keys() - self.names, {"tree"})

    def test_tests_call_each(self):
        told = test_file_calls
        file_calls = *told.EDITS, *told.READINGS, *told.EXPORTS, *told.UNLOCKED
        for calls, others in (
            (test_faults.IN_A_FOLDER, {"skipped"}), (file_calls, {"init", "batch"}),
            ([words for words, _ in test_inputs.Order.NEEDED], set()),
        ):
            self.assertEqual({words[0] for words in calls} | others, self.names)
        self.assertEqual(test_program.Help.SUBCOMMANDS.keys(), self.names)


class Signs(unittest.TestCase):
    """Each list of comparison signs is held to the program's."""

    @classmethod
    def setUpClass(cls):
        body = OPERATORS.read_text(encoding="utf-8").split("pub fn sign(")[1].split("\n    }\n")[0]
        cls.signs = set(re.findall(r'=> "([~=!<>]+)"', body))

    def test_are_those_that_the_program_writes(self):
        self.assertGreaterEqual(self.signs, {"~=", "==", "!=", "<=", ">=", "<", ">"})

    def test_the_tools_read_each(self):
        self.assertEqual(set(specifiers.ALL_SIGNS), self.signs)
        for table in specifiers.SIGNS, refutation_texts.SIGNS:
            self.assertEqual(table.keys() | {"~="}, self.signs)
        for sign in self.signs:
            with self.subTest(sign=sign):
                self.assertEqual(specifiers.read_clause(f"{sign}1.0").sign, sign)
                self.assertEqual(refutation_texts.read_clause(f"{sign}1.0").sign, sign)
                self.assertEqual(markers.tree_of(f"python_version {sign} '3.9'").sign, sign)
                self.assertEqual(refutation_texts.ATOM.fullmatch(f"python_version {sign} '3.9'")[2], sign)

    def test_the_second_readings_read_each(self):
        self.assertEqual(set(rules.OPERATORS), self.signs)
        for sign in self.signs:
            with self.subTest(sign=sign):
                self.assertEqual(rules.TOKEN.fullmatch(sign)[1], sign)
                self.assertRegex(f"{sign}1.0", rf"^(?:{sentences.CLAUSE})$")

    def test_each_is_drawn(self):
        for paths in DRAWN:
            nodes = chain.from_iterable(ast.walk(ast.parse(path.read_text(encoding="utf-8"))) for path in paths)
            texts = " ".join(node.value for node in nodes if isinstance(node, ast.Constant) and isinstance(node.value, str))
            with self.subTest(first=paths[0].name):
                self.assertEqual(self.signs - set(re.findall("[~=!<>]+", texts)), set())


if __name__ == "__main__":
    unittest.main()
