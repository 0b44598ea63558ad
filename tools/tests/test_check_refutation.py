"""Tests of tools/check_refutation.py beside the rules of rules/locks.py: over what `why` prints of drawn problems, and over that with
a conflict dropped, a choice changed, or two conflicts exchanged. There are 100 refutations, or 1,000 with LONG_TESTS=1."""

import io
import json
import subprocess
import sys
import unittest
from collections import Counter
from contextlib import redirect_stderr, redirect_stdout
from itertools import count
from pathlib import Path

import test_why
from support.made.environments import LINUX
from support.made.releases import index_of
from support.made.sessions import VERSIONS, Draw
from support.places import IS_LONG, TOOLS
from support.program import Program
from support.rules.edits import KEEP
from support.rules.locks import Problem, is_refutation, read_index, read_refutation
from support.rules.requirements import Fault, cut_lines, holds, matches, read_line, read_marker, read_requirement, read_set, read_version
from support.tool_calls import called

from reqlock_tools import check_refutation
from reqlock_tools.libraries import library

SCRIPT = TOOLS / "check_refutation.py"
checker = check_refutation if library("packaging.version") else None

REFUTATIONS = 1000 if IS_LONG else 100
PROCESSES = 10
NAMES = tuple("abcdefgh")

VERSION_TEXTS = (
    "1", "1.0", "v1", "1!1", "1.2a1", "1.2.0", "1.2.post1", "1.2-1", "1.2.dev1", "1.2a1.post2.dev3", "1.0+local", "1.0+1.a", "1.0+2",
    "1.0.post1+x", " 1\n", "1\x1c", "1_rc-2", "1.2rev", "1a-1", "18446744073709551615", "18446744073709551616", "1+18446744073709551616",
    "1+a18446744073709551616", "", "x", "1.", "1..2", "\u0661", "1.po\u017ft1", "01.02", "2.0", "1.1.9",
)
SET_TEXTS = (
    "", " ", ",", "==1,", "==1,,", ",==1", "==1", "== 1.0", "==1.*", "==1.2.0.*", "!=1.2.*", "==1a1.*", "==1 .*", "==v1.*", "==1!1.*",
    "!=1", "==1.0+local", "!=1.0+local", "<=1.0+local", "<1.2", "<1.2a1", "<1.2.post1", ">1.0a1", ">1.2", ">1.2.post1", ">=1.2", "<=1.2",
    "~=1.2", "~=1", "~=1.2a1", "~=1.2c1", "~=1.2-1", "~=1!1.0", "~=1.2.*", "===1", "=1", "1", ">>1", "(>=1)", ">=1,<2,!=1.5", ">= 1\t,\t<2",
    ">=1\x0b", "==1.*,<1.2", "==18446744073709551616", ">1.*",
)
MARKER_TEXTS = (
    "os_name == 'posix'", "os_name=='nt'or'a'=='a'", "os_name == 'nt' or os_name == 'posix' and extra == 'e'", "(os_name == 'nt')",
    "('a'=='b' or 'a'=='a') and ('b' in 'abc')", "'a' not  in 'abc'", "'a' notin 'b'", "not 'a' == 'b'", "extra == 'E_1'", "'e.1' != extra",
    "extra == extra", "extra in 'e'", "extra == os_name", "extra", "", " ", "()", "('a'=='a'", "'a'=='a')", "'a'=='a' 'b'=='b'",
    "('a'=='a')('b'=='b')", "'a'=='a' or or 'b'=='b'", "'a'=='a' an d 'b'=='b'", "'a'=='a'and'b'=='b'", "'a'=='a' AND 'b'=='b'",
    "python_version < '3.9'", "python_version >= '3.8' and python_version < '4'", "'1' < '=1'", "'1' == '=1'", "'1' === '1'", "'1' ~= 'x'",
    "'1.2' ~= '1.0'", "'b' > 'a'", "'1' < '1,2'", "' 1 ' == '1'", "os.name == 'posix'", "python_implementation == 'CPython'",
    "'a\\' == 'a'", "'a\"' == 'a\"'", "\"it's\" == \"it's\"", "'\xe9' == 'a'", "(" * 64 + "'a'=='a'" + ")" * 64,
    "(" * 65 + "'a'=='a'" + ")" * 65, "'((' == '(('", "os_namein'posix'", "os_name in'posix'", "'x os_name == \"a\"' == 'b'",
    "'x' os_name == 'a'", "extra == '_'", "extra != 'e-1' or extra == 'e-1'", "platform_release >= '6'",
)
REQUIREMENT_TEXTS = (
    "a", "A.b", "a[e]", "a [ E_1 , f ]>=1", "a[]", "a[,]", "a[e", "a[e;]", "a (>=1)", "a(>=1", "a()", "a(", "a>=1 ; os_name == 'nt'", "a;",
    "_a", "a @ https://x.example", "a[e] @ x", "a b", "a==1 # x", "a ; 'a;b' == 'a;b'", "", "-", "a--", "a>=1;os_name=='posix'",
)
LINE_TEXTS = (
    "a\n", "a\r\n", "a\r", " a # b\n", "#\n", "a#b\n", "# a\\\n", "a\\\n", "-r x\n", " -e\n", "\ufeffa\n", "a\u2028\n", "a\x85\n", "\t\n", "",
    "a ; os_name == '# x'\n", "a\0\n", "a\x0b\n",
)


def answer(read, text, *values):
    """What is read of a text, by its parts; None where it has a fault."""
    try:
        return read(text, *values)
    except (Fault, checker.Refusal):
        return None


@unittest.skipUnless(checker, "python3 has neither packaging nor pip")
class Readings(unittest.TestCase):
    """Texts are read as the rules in Python read them."""

    def test_versions_and_sets(self):
        read = [(ours, answer(checker.read_version, ours)) for ours in VERSION_TEXTS]
        for text, version in read:
            self.assertEqual(version is None, read_version(text) is None, ascii(text))
        for text in SET_TEXTS:
            clauses, wanted = answer(checker.read_set, text), answer(read_set, text)
            self.assertEqual(clauses is None, wanted is None, ascii(text))
            for spelled, version in read:
                if version is not None and clauses is not None:
                    is_met = checker.matches(clauses, version)
                    self.assertEqual(is_met, matches(wanted, read_version(spelled)), (text, spelled))

    def test_markers(self):
        for text in MARKER_TEXTS:
            for extra in None, "e", "e-1":
                tree = answer(read_marker, text)
                wanted = None if tree is None else holds(tree, LINUX, extra)
                self.assertEqual(answer(checker.holds, text, LINUX, extra), wanted, ascii(text))

    def test_requirements_and_lines(self):
        for read, theirs, texts in (
            (checker.read_requirement, read_requirement, REQUIREMENT_TEXTS), (checker.read_line, read_line, LINE_TEXTS),
        ):
            for text in texts:
                ours, wanted = ([answer(reader, text)] if answer(reader, text) or is_blank(reader, text) else None for reader in (read, theirs))
                self.assertEqual(ours is None, wanted is None, ascii(text))
                if wanted and wanted[0]:
                    extras = [extra for _, extra in ours[0].nodes[1:]]
                    self.assertEqual((ours[0].name, extras), (wanted[0].name, wanted[0].extras), text)


def is_blank(read, text):
    """Whether a text asks for nothing and has no fault."""
    try:
        return read(text) is None
    except (Fault, checker.Refusal):
        return False


@unittest.skipUnless(checker, "python3 has neither packaging nor pip")
class Faults(Program):
    """What can't be read is told with its place, and the status is 2."""

    REFUTED = ("a", "1", ["b>1"]), ("b", "1", [])
    LINES = "a==1 b==1\na==1\n-\n"

    def run_on(self, text, *words):
        paths = self.outside / "index.json", self.outside / "environment.json", self.folder / "requirements.txt"
        done = called("check_refutation", [*paths, *words], text=text)
        return done.returncode, done.stdout, done.stderr.replace(f"{self.folder}/", "").replace(f"{self.outside}/", "")

    def check_fault(self, told, text=LINES, *words):
        self.assertEqual(self.run_on(text, *words), (2, "", f"check_refutation.py: {told}\n"))

    def test_a_worked_example(self):
        self.begin(b"# none\n", *self.REFUTED)
        self.assertEqual(self.run_on(self.LINES, "--line", "a"), (0, "accepted\n", ""))
        status, told, errors = self.run_on("a==1 b==1\n-\n", "--line", "a")
        self.assertEqual((status, errors), (1, ""))
        self.assertEqual(told, "line 2: - doesn't follow from those before\n  a line needs a, and a==1 is left\n")
        self.assertEqual(self.run_on("a==1 b==1\n", "--line", "a")[:2], (1, "line 1: the last conflict isn't the empty one, -\n"))
        self.assertEqual(self.run_on("", "--line", "a")[:2], (1, "there is no conflict at all\n"))
        (self.folder / "requirements.txt").write_bytes(b"a")
        self.assertEqual(self.run_on(self.LINES), (0, "accepted\n", ""))

    def test_faults_of_the_files(self):
        self.begin(b"# none\n", *self.REFUTED)
        form = "it isn't of the form that docs/RULES.md tells"
        odd = "no conflict, which is - or sorted choices NAME==VERSION"
        self.check_fault(f"standard input: line 1: {odd}", "solvable\n")
        self.check_fault(f"standard input: line 2: {odd}", "-\nb==1 a==1\n")
        self.check_fault(f"standard input: line 1: {odd}", "a==1 a==1\n-\n")
        self.check_fault("standard input: line 1: bad-version", "a==x\n-\n")
        self.check_fault("--line: option-line", self.LINES, "--line=-r x")
        (self.folder / "requirements.txt").write_bytes(b"a\n\na ==\n")
        self.check_fault("requirements.txt: line 3: bad-version")
        (self.folder / "requirements.txt").write_bytes(b"a\n\xff")
        self.assertIn("requirements.txt: 'utf-8' codec", self.run_on("-\n")[2])
        (self.folder / "requirements.txt").unlink()
        self.check_fault("requirements.txt: No such file or directory")
        for name, text, told in (
            ("environment.json", "[]", form), ("environment.json", "{}", form), ("index.json", '{"snapshot": 1, "packages": [1]}', form),
            ("index.json", "{}", "no index of reqlock; tools/snapshot.py makes one"),
            ("index.json", '{"snapshot": 1}', form), ("index.json", '{\n"snapshot"', "Expecting ':' delimiter: line 2 column 11 (char 12)"),
        ):
            (self.outside / name).write_text(text, encoding="utf-8")
            self.check_fault(f"{name}: {told}")

    def test_of_a_lock_that_is_kept(self):
        """`a` 1 needs another `b` than the locked one."""
        self.begin(b"a\nb\n", ("a", "1", ["b>1"]), ("b", "1", []), ("b", "2", []))
        lock = self.outside / "lock.toml"
        lock.write_text("[[packages]]\nname = 'b'\nversion = '1.0'\n", encoding="utf-8")
        lines, keep = "a==1 b==1\na==1\n-\n", ["--keep", lock]
        self.assertEqual(self.run_on(lines, *keep), (0, "accepted\n", ""))
        for words in [], [*keep, "--upgrade", "B"]:
            status, told, errors = self.run_on(lines, *words)
            self.assertEqual((status, errors), (1, ""))
            self.assertIn("line 2: a==1 doesn't follow from those before\n", told)
            self.assertIn("  a==1 needs b>1, and b==2 is left\n", told)
        self.assertEqual(self.run_on(lines, *keep, "--upgrade", "a"), (0, "accepted\n", ""))
        # a version that the index hasn't is no candidate, and neither is another one
        lock.write_text("[[packages]]\nname = 'b'\nversion = '3'\n", encoding="utf-8")
        self.assertEqual(self.run_on("-\n", *keep), (0, "accepted\n", ""))

    def test_faults_of_a_lock(self):
        self.begin(b"a\n", ("a", "1", []))
        lock = self.outside / "lock.toml"
        form, package = "it isn't of the form that docs/RULES.md tells", "[[packages]]\nname = 'b'\nversion = '1'\n"
        for text, told in (
            ("", form), ("packages = 1", form), ("packages = [1]", form), ("[[packages]]\nname = 'a'\n", form),
            ("[[packages]]\nname = 1\nversion = '1'\n", form), ("[[packages]]\nname = 'b'\nversion = 'x'\n", "bad-version"),
            ("[[packages]]\nname = '_'\nversion = '1'\n", "bad-name"), (package * 2, "a name stands twice in it"),
            ("a = '", "it is no TOML: a text in it has no end"),
        ):
            lock.write_text(text, encoding="utf-8")
            self.check_fault(f"lock.toml: {told}", "-\n", "--keep", lock)
        lock.unlink()
        self.check_fault("lock.toml: No such file or directory", "-\n", "--keep", lock)
        self.check_fault("--upgrade: bad-name", "-\n", "--upgrade", "_")

    def test_usage(self):
        done = subprocess.run([sys.executable, "-B", SCRIPT, "a", "--lines"], capture_output=True, check=False)
        self.assertEqual((done.returncode, done.stdout), (2, b""))


def changed(draw, line):
    """A conflict with one choice changed, put in or taken out."""
    choices = [] if line == "-" else line.split(" ")
    place = draw.randrange(len(choices) + 1)
    node = draw.choice(NAMES) + draw.choice(("", "", "[e-1]"))
    choices[place : place + 1] = [f"{node}=={draw.choice(VERSIONS[:5])}"] * draw.choice((0, 1, 1))
    return " ".join(sorted(set(choices))) or "-"


@unittest.skipUnless(checker, "python3 has neither packaging nor pip")
class Worked(unittest.TestCase):
    """What `why` prints of the worked examples, which test_why.py holds the program to, is accepted, and each conflict is needed."""

    def test_worked_examples(self):
        for releases, file, words, told in test_why.Why.REFUTED:
            if words[0] != "--explain":
                packages = checker.read_index(json.dumps(index_of(*releases)))
                lines = list(map(checker.read_line, [*cut_lines(file.decode()), *words]))
                problem = checker.Problem(packages, checker.read_environment(json.dumps(LINUX)), lines)
                conflicts = [checker.read_conflict(line) for line in cut_lines(told)]
                self.assertEqual(checker.check(problem, conflicts), [])
                for place in range(len(conflicts)):
                    self.assertNotEqual(checker.check(problem, conflicts[:place] + conflicts[place + 1 :]), [])


def altered(draw, lines):
    """Refutations with one conflict dropped, each in turn, and some with a choice changed or two conflicts exchanged."""
    for place in range(len(lines)):
        yield "dropped", lines[:place] + lines[place + 1 :]
    for _ in range(4):
        one, other = draw.randrange(len(lines)), draw.randrange(len(lines))
        yield "changed", [*lines[:one], changed(draw, lines[one]), *lines[one + 1 :]]
        exchanged = list(lines)
        exchanged[one], exchanged[other] = lines[other], lines[one]
        yield "exchanged", exchanged


@unittest.skipUnless(checker, "python3 has neither packaging nor pip")
class Drawn(Program):
    def test_drawn_refutations(self):
        self.seen, left = Counter(), REFUTATIONS
        for seed in count():
            left -= self.play(Draw(seed, NAMES), left)
            if left <= 0:
                break
        self.assertLess(100 * self.seen["dropped", True], self.seen["dropped", False], "hardly a conflict can be spared")
        self.assertGreater(self.seen["with the option"], 0)
        for case in ("dropped", False), ("changed", True), ("changed", False), ("exchanged", True), ("exchanged", False):
            self.assertGreater(self.seen[case], 0, self.seen)

    def play(self, draw, left):
        """How many refutations come of a drawn index and file, at most so many."""
        for path in self.folder.iterdir():
            path.unlink()
        index, text, refuted = json.dumps(draw.index()).encode(), draw.requirements(), 0
        (self.outside / "index.json").write_bytes(index)
        (self.folder / "requirements.txt").write_bytes(text.encode())
        if self.call("init")[0] != 0:
            return 0
        for _ in range(4):
            line, option = draw.line(), [KEEP] * draw.happens(50)
            status, output = self.call("why", *option, "--", line)
            if status == 3 and refuted < left:
                refuted += 1
                self.seen["with the option"] += len(option)
                with self.subTest(text=text, line=line, output=output, option=option):
                    self.check(draw.random, index, [*cut_lines(text), line], output, self.locked() if option else {})
        return refuted

    def check(self, draw, index, texts, output, held):
        """The checker and the rules in Python answer alike, of what was printed and of what was altered, where these versions are kept."""
        self.assertEqual(self.answered_of(texts[-1], output, held), (0, "accepted\n", ""))
        kept = {name: read_version(version) for name, version in held.items()}
        theirs = Problem(texts, LINUX, read_index(index), kept, only_kept=True)
        environment, packages = checker.read_environment(json.dumps(LINUX)), checker.read_index(index)
        kept = {name: checker.read_version(version) for name, version in held.items()}
        ours = checker.Problem(packages, environment, list(map(checker.read_line, texts)), kept)
        self.assertTrue(is_refutation(theirs, read_refutation(output)))
        for kind, some in altered(draw, output.splitlines()):
            wanted = is_refutation(theirs, read_refutation("".join(f"{line}\n" for line in some)))
            against = checker.check(ours, [checker.read_conflict(f"{line}\n") for line in some])
            self.assertEqual(against == [], wanted, (kind, some, against))
            self.seen[kind, wanted] += 1

    def answered_of(self, line, output, held):
        """What the checker answers: as a process for the first few, since each takes a while to begin."""
        self.seen["processes"] += 1
        paths = [str(self.outside / "index.json"), str(self.outside / "environment.json"), str(self.folder / "requirements.txt")]
        words = [*paths, f"--line={line}", *(["--keep", str(self.folder / "pylock.toml")] if held else [])]
        if self.seen["processes"] > PROCESSES:
            return self.answer(words, output)
        command = [sys.executable, "-B", SCRIPT, *words]
        done = subprocess.run(command, input=output, capture_output=True, encoding="utf-8", check=False)
        return done.returncode, done.stdout, done.stderr

    def answer(self, words, output):
        given = str(self.outside / "refutation")
        Path(given).write_text(output, encoding="utf-8")
        told, errors = io.StringIO(), io.StringIO()
        before = checker.of_file
        checker.of_file = lambda path, *rest: before(path or given, *rest)
        try:
            with redirect_stdout(told), redirect_stderr(errors):
                status = checker.main(words)
        finally:
            checker.of_file = before
        return status, told.getvalue(), errors.getvalue()


if __name__ == "__main__":
    unittest.main()
