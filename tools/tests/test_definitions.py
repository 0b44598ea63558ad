"""Tests of the definitions by themselves: translated to Python, they are held beside second readings of the rules and beside the library
`packaging`, on inputs that are drawn. The proofs say that the program does what the definitions say; these say that the definitions are
what the standards and the rules mean."""

import json
import shutil
import tempfile
import unittest
from pathlib import Path

from support.defined import defined, definitions, extra_of, rules_clause, rules_index, rules_requirement, rules_version, text, texts_of, value_of, written
from support.made.chance import Chance
from support.made.environments import LINUX, OLDER, WINDOWS
from support.made.sessions import FAULTY_LINES, FAULTY_NAMES, FAULTY_SETS, Draw
from support.places import IS_LONG, TOP
from support.rules import edits, locks, pins
from support.rules import requirements as rules
from support.rules.versions import canonical, order_key, read_version

from definitions.page import page
from definitions.values import Made, Record
from definitions.whole import Definitions

try:
    from packaging import markers, specifiers, utils, version
except ImportError:
    markers = specifiers = utils = version = None

# (LONG_TESTS draws ten times as many)
COUNT = 1_500 if IS_LONG else 150
NUMBERS = "0", "1", "2", "10", "007", "18446744073709551615", "18446744073709551616"
WORDS = "a", "alpha", "b", "beta", "c", "rc", "pre", "preview", "post", "rev", "r", "dev", "A", "RC", "Post", "DEV", "x", "v"
MARKS = ".", "-", "_", "+", "!", " ", ""
SIGNS = "~=", "==", "!=", "<=", ">=", "<", ">", "==="
RIGHTS = '"3.9"', "'linux'", '"posix"', "'3.9.2'", '"nt"', "'abc'", '"3.10 3.11"', "'win32'"
NAMES = *rules.TEXTS, "extra"
ENVIRONMENTS = LINUX, WINDOWS, OLDER
EXTRAS = None, "a", "e-1"


class Texts(Chance):
    """Texts that are near versions, sets, markers and names."""

    def version(self):
        release = ".".join(self.one(NUMBERS[:5]) for _ in range(self.one((1, 1, 2, 3))))
        epoch = self.one(("", "", "", "1!", "0!"))
        parts = [self.one(MARKS) + self.one(WORDS[:-2]) + self.one(MARKS[:3] + ("",)) + self.one(NUMBERS + ("",) * 7)
                 for _ in range(self.one((0, 0, 1, 1, 2, 3)))]
        local = self.one(("", "", "", "+a.1", "+1-x", "+001", "+A_b"))
        return self.one(("", "", "v", " ")) + epoch + release + "".join(parts) + local + self.one(("", "", " ", "\n"))

    def good_version(self):
        """A text that spells a version."""
        while True:
            drawn = self.version()
            if read_version(drawn) is not None:
                return drawn.strip()

    def clause(self):
        return self.one(SIGNS[:-1] * 3 + SIGNS) + self.one(("", "", " ")) + self.good_version() + self.one(("", "", "", ".*"))

    def set(self):
        clauses = ",".join(self.clause() + self.one(("", " ")) for _ in range(self.one((0, 1, 1, 2, 3))))
        return self.one(FAULTY_SETS) if self.happens(5) else clauses + self.one(("", "", "", ","))

    def relation(self):
        left, right = self.one(NAMES), self.one(RIGHTS)
        sign = self.one(SIGNS[:-1] + ("in", "not in"))
        if left == "extra":
            sign, right = self.one(("==", "!=")), self.one(("'a'", '"E_1"', "'-'"))
        return f"{right} {sign} {left}" if self.happens(25) else f"{left} {sign} {right}"

    def marker(self, depth=2):
        if depth == 0 or self.happens(40):
            return self.relation()
        relations = f" {self.one(('and', 'or'))} ".join(self.marker(depth - 1) for _ in range(self.one((2, 2, 3))))
        return f"({relations})" if self.happens(60) else relations

    def torn(self, whole):
        """A text with one character less, in some of the cases."""
        at = self.random.randrange(len(whole) or 1)
        return whole[:at] + whole[at + 1 :] if self.happens(20) else whole


class Drawn(unittest.TestCase):
    def draws(self, count=COUNT):
        for seed in range(count):
            with self.subTest(seed):
                yield Texts(seed)


def read_or_none(read, *given):
    """What a second reading gives; None where it refuses."""
    try:
        return read(*given)
    except rules.Fault:
        return None


class Versions(Drawn):
    def parts(self, written_version):
        return value_of(defined("pep440", "Tied.Reading", "version_of")(text(written_version)))

    def test_are_read(self):
        for draw in self.draws():
            drawn = draw.torn(draw.version())
            parts, wanted = self.parts(drawn), read_version(drawn)
            self.assertEqual(parts and rules_version(parts), wanted, drawn)
            if wanted is not None:
                self.assertEqual(written(defined("pep440", "Canonical", "canonical")(parts)), canonical(wanted))
                self.assertEqual(defined("pep440", "Version", "is_pre")(parts), rules.is_pre(wanted))
                if version:
                    self.assertEqual(canonical(wanted), str(version.Version(drawn)))

    def test_are_ordered(self):
        compare, signs = defined("pep440", "Order", "version_cmp"), {-1: "Less", 0: "Equal", 1: "Greater"}
        for draw in self.draws():
            one, other = draw.good_version(), draw.good_version()
            keys = order_key(read_version(one)), order_key(read_version(other))
            sign = compare(self.parts(one), self.parts(other)).name
            self.assertEqual(sign, signs[(keys[0] > keys[1]) - (keys[0] < keys[1])], (one, other))
            if version:
                theirs = version.Version(one), version.Version(other)
                self.assertEqual(sign, signs[(theirs[0] > theirs[1]) - (theirs[0] < theirs[1])], (one, other))

    def test_match_sets(self):
        read, matches = defined("pep440", "Tied.Sets", "set_of"), defined("pep440", "Matching", "matches")
        for draw in self.draws():
            drawn = draw.torn(draw.set())
            clauses, wanted = value_of(read(text(drawn))), read_or_none(rules.read_set, drawn)
            self.assertEqual(clauses is None, wanted is None, drawn)
            if clauses is None:
                continue
            self.assertEqual([*map(rules_clause, clauses)], wanted, drawn)
            for candidate in [draw.good_version() for _ in range(5)]:
                is_match = matches(clauses, self.parts(candidate))
                self.assertEqual(is_match, rules.matches(wanted, read_version(candidate)), (drawn, candidate))


class Names(Drawn):
    def test_are_read(self):
        is_name, normal = defined("markers", "Names", "is_name"), defined("markers", "Names", "normal_of")
        for draw in self.draws():
            drawn = "".join(draw.one("aZ0-_. \u00e9") for _ in range(draw.one((0, 1, 2, 3, 5, 9))))
            wanted = read_or_none(rules.read_name, drawn)
            self.assertEqual(is_name(text(drawn)), wanted is not None, drawn)
            if wanted is not None:
                self.assertEqual(written(normal(text(drawn))), wanted)
                self.assertEqual(wanted, utils.canonicalize_name(drawn) if utils else wanted)


class Markers(Drawn):
    def test_hold(self):
        read, holds = defined("markers", "Marker", "marker_of"), defined("markers", "MarkerHolds", "holds")
        for draw in self.draws():
            drawn = draw.torn(draw.marker())
            marker, wanted = value_of(read(text(drawn))), read_or_none(rules.read_marker, drawn)
            self.assertEqual(marker is None, wanted is None, drawn)
            for environment in ENVIRONMENTS if marker is not None else ():
                for extra in EXTRAS:
                    held = holds(marker, texts_of(environment), extra_of(extra))
                    self.assertEqual(held, rules.holds(wanted, environment, extra), (drawn, extra))


class Lines(Drawn):
    def assert_asks(self, requirement, wanted, drawn):
        """A requirement asks for the same, its marker by where it holds."""
        self.assertEqual(requirement is None, wanted is None, drawn)
        if requirement is None:
            return
        read = rules_requirement(requirement)
        self.assertEqual(read[:3], wanted[:3], drawn)
        self.assertEqual(read.marker is None, wanted.marker is None, drawn)
        for environment in ENVIRONMENTS if read.marker is not None else ():
            for extra in EXTRAS:
                held = defined("markers", "MarkerHolds", "holds")(read.marker, texts_of(environment), extra_of(extra))
                self.assertEqual(held, rules.holds(wanted.marker, environment, extra), drawn)

    def test_are_cut_and_read(self):
        cut, read = defined("pep508", "Lines", "lines_of"), defined("pep508", "Requirement", "requirement_of")
        joined, slices = defined("pep508", "Slices", "joined"), defined("pep508", "Slices", "slices_of")
        for draw in self.draws():
            drawn = draw.torn(Draw(draw.random.random()).requirements() + draw.one(("",) * 3 + FAULTY_LINES))
            lines = cut(text(drawn))
            self.assertEqual([*map(written, lines)], rules.cut_lines(drawn))
            for line in lines:
                self.assertEqual(joined(slices(line)), line)
                answer, wanted = read(line), read_or_none(lambda line: (rules.read_line(line),), written(line))
                self.assertEqual(answer.name == "Ok", wanted is not None, drawn)
                if wanted is not None:
                    self.assert_asks(value_of(answer.parts[0]), wanted[0], written(line))

    def test_with_specifiers(self):
        change = defined("pep508", "Slices", "with_version")
        joined, slices = defined("pep508", "Slices", "joined"), defined("pep508", "Slices", "slices_of")
        for draw in self.draws():
            line, given = Draw(draw.random.random()).line(), draw.set().strip()
            if read_or_none(rules.read_set, given) is None:
                continue
            self.assertEqual(written(joined(change(text(given), slices(text(line))))), edits.with_set(line, given))


class Indexes(Drawn):
    """What an index holds, and which of its releases count."""

    def read(self, draw):
        data = json.dumps(Draw(draw.random.random()).index()).encode()
        return value_of(defined("snapshot", "Packages", "snapshot_of")(tuple(data))), locks.read_index(data)

    def without_markers(self, index):
        return {
            name: [
                release._replace(dependencies=[wanted._replace(marker=wanted.marker is not None) for wanted in release.dependencies])
                for release in releases
            ]
            for name, releases in index.releases.items()
        }

    def test_are_read(self):
        for draw in self.draws(60):
            index, wanted = self.read(draw)
            self.assertEqual(self.without_markers(rules_index(index)), self.without_markers(wanted))
            self.assertEqual(bytes(index.digest).hex(), wanted.digest)

    def test_admit(self):
        admits, active = defined("problems", "Admission", "admits_release"), defined("problems", "Problem", "requirements")
        for draw in self.draws(60):
            index, wanted = self.read(draw)
            lines = rules.cut_lines(Draw(draw.random.random()).requirements())
            environment = draw.one(ENVIRONMENTS)
            asked = active(texts_of(environment), tuple(map(text, lines)))
            given = Record(active=asked, environment=texts_of(environment), index=index, kept=(), only_kept=False)
            problem = locks.Problem(lines, environment, wanted, {})
            self.assertEqual([rules_requirement(requirement)[:3] for requirement in asked], [requirement[:3] for requirement in problem.asked])
            for one, other in zip(asked, problem.asked):
                for release, its in zip(defined("problems", "Problem", "releases_on")(given, one.name), wanted.releases.get(other.name, [])):
                    self.assertEqual(admits(given, one, release), problem.admits(other, its))


class Edits(Drawn):
    """The lines that an edit leads to, or its refusal by lines alone."""

    def edit_of(self, command):
        kind, *words = command
        given = tuple(map(text, words))
        if kind == "constrain":
            return Made("Constrain", (given[0], given[1] if len(given) > 1 else ()))
        return Made(kind.capitalize(), given)

    def test_change_lines(self):
        refused, after = defined("edits", "Refused", "refused_by_lines"), defined("edits", "Edits", "lines_after")
        words = {"BadText": "bad-text", "AlreadyPresent": "already-present", "NotPresent": "not-present", "Ambiguous": "ambiguous"}
        for draw in self.draws():
            drawn = Draw(draw.random.random())
            lines = rules.cut_lines(drawn.requirements())
            command = drawn.command([rules.read_line(line).name for line in lines if rules.read_line(line)], FAULTY_NAMES)
            if command[0] not in ("add", "remove", "constrain"):
                continue
            given, edit = tuple(map(text, lines)), self.edit_of(command)
            refusal = value_of(refused(given, edit))
            try:
                wanted = edits.lines_after(lines, command)
            except edits.Refused as fault:
                self.assertEqual(refusal and words[refusal.name], fault.word, command)
                continue
            self.assertIsNone(refusal, command)
            self.assertEqual([*map(written, after(given, edit))], wanted, command)


class Pins(Drawn):
    def test_of_lines(self):
        found_in, first = defined("inputs", "Pins", "pins_of_lines"), defined("inputs", "Pins", "first_no_pin")
        for draw in self.draws():
            rows = [f"{draw.one('abc')}=={draw.good_version()}{draw.one(('', '', ' # x'))}\n" for _ in range(draw.one((0, 1, 2, 4)))]
            drawn = "".join(rows) + draw.one(("", "", "", "a>=1\n", "# x\n"))
            lines, environment = rules.cut_lines(drawn), draw.one(ENVIRONMENTS)
            given = tuple(map(text, lines))
            wanted = read_or_none(pins.pins_of_lines, drawn.encode(), environment)
            self.assertEqual(value_of(first(given)) is None, wanted is not None, drawn)
            if wanted is not None:
                rows = found_in(texts_of(environment), given)
                self.assertEqual([(written(name), rules_version(parts)) for name, parts in rows], wanted)


    def test_the_newer_of_two(self):
        """Of drawn versions of an index, and of some that it lacks. From both sides the same is kept, but for the spelling of equal ones."""
        newer = defined("edits", "Pins", "newer_of")
        of_text = defined("pep440", "Tied.Reading", "version_of")
        lacked = 0
        for draw in self.draws():
            drawn = Draw(draw.random.random()).index()
            data = json.dumps(drawn).encode()
            index, given = locks.read_index(data), value_of(defined("snapshot", "Packages", "snapshot_of")(tuple(data)))
            texts = [canonical(release.version) for releases in index.releases.values() for release in releases] + ["0", "1.0.0", "99", "99.0"]
            sides = [{name: draw.one(texts) for name in sorted(index.releases) if draw.happens(70)} for _ in range(2)]
            kept = []
            for own, others in sides, sides[::-1]:
                rows = [tuple((text(name), value_of(of_text(text(pinned)))) for name, pinned in side.items()) for side in (own, others)]
                newer_pins = {written(name): rules_version(parts) for name, parts in newer(given, *rows)}
                one, other = ({name: read_version(pinned) for name, pinned in side.items()} for side in (own, others))
                self.assertEqual(newer_pins, pins.newer_of(one, other.items(), index), (own, others))
                lacked += any(order_key(newer_pins[name]) < max(map(order_key, (one[name], other[name]))) for name in one.keys() & other.keys())
                kept.append({name: order_key(pinned) for name, pinned in newer_pins.items()})
            self.assertEqual(*kept)
        self.assertGreater(lacked, 0)


class Translation(unittest.TestCase):
    def test_has_nearly_all_functions(self):
        """What isn't translated calls what isn't among the libraries here; the script lists it."""
        left = [why for why in definitions().left.values() if why != "it states something"]
        self.assertLess(len(left), len(definitions().texts) // 8)

    def test_makes_the_page(self):
        self.assertEqual((TOP / "docs" / "DEFINITIONS.md").read_text(encoding="utf-8"), page(definitions().modules))

    def test_finds_a_wrong_definition(self):
        """The comparisons are no empty ones: a definition that lets `>1.7` match 1.7.post1 is told apart from the rules."""
        with tempfile.TemporaryDirectory() as folder:
            for crate in "lists", "pep440":
                shutil.copytree(TOP / "crates" / crate / "specs", Path(folder, crate, "specs"))
            path = Path(folder, "pep440", "specs", "Matching.antt")
            whole = path.read_text(encoding="utf-8")
            path.write_text(whole.replace("is_post w || not (is_post v && same_release v w)", "true"), encoding="utf-8")
            wrong = Definitions(Path(folder))
        [clause] = value_of(wrong["pep440", "Tied.Sets", "set_of"](text(">1.7")))
        candidate = value_of(wrong["pep440", "Tied.Reading", "version_of"](text("1.7.post1")))
        self.assertTrue(wrong["pep440", "Matching", "clause_matches"](clause, candidate))
        self.assertFalse(defined("pep440", "Matching", "clause_matches")(clause, candidate))


if __name__ == "__main__":
    unittest.main()
