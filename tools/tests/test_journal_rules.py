"""Tests of rules/journals.py, by worked examples of the rules. Where the program is built, `check` answers each of them alike."""

import unittest

from support.checked_files import checked, told
from support.made.environments import LINUX
from support.made.journals import ZEROS, altered, compact, entry, header, in_version, journal, lock_text, step
from support.places import PROGRAM
from support.program import FILES
from support.rules.journals import digest_of, opens, opens_in, read_header, read_step
from support.rules.requirements import Fault
from support.rules.states import Change, State, after, inverse, is_minimal, is_state

ONES = "1" * 64
BROKEN, DISAGREE = "journal-broken", "files-disagree"
LOCK = "pylock.toml"

# `add c` to a file whose last line has no ending, of which all endings are CRLF
ADDED_LINES = [2, ["a"], ["a\r\n", "c\r\n"]]
ADDED = step([ADDED_LINES], [["c", None, entry("c", "1")]])
BEFORE = b"# web\r\nB_b >=1 # pin\r\na"
AFTER = b"# web\r\nB_b >=1 # pin\r\na\r\nc\r\n"
ENTRIES = {"a": entry("a", "1"), "b-b": entry("b-b", "1")}


class Example(unittest.TestCase):
    """A test of the files after `add c`, which it may alter. The journal is of this version."""

    version = 2

    def setUp(self):
        self.requirements = AFTER
        self.lock = lock_text(LINUX, {**ENTRIES, "c": entry("c", "1")})
        self.steps = [ADDED]
        self.cursor = 1

    def header(self):
        return header(self.requirements, self.lock, LINUX, self.cursor, len(self.steps), self.version)

    def line(self):
        """The line of `add c`."""
        return compact(in_version(self.version, ADDED))

    def journal(self):
        return self.journal_over(self.lock)

    def journal_over(self, lock):
        return journal(self.requirements, lock, LINUX, self.cursor, *self.steps, version=self.version)

    def check(self, wanted, *, journal=None, lock=None, requirements=None):
        own = self.requirements, self.lock, self.journal()
        given = [mine if other is None else other for other, mine in zip((requirements, lock, journal), own)]
        self.check_files(wanted, dict(zip(FILES, given)))

    def check_files(self, wanted, files):
        """What files stand for, by their names, and what the program answers of them."""
        self.assertEqual(opens_in(files), wanted)
        if PROGRAM.exists():
            self.assertEqual(checked(files), told(files, *wanted))


class Opening(Example):
    def test_opens_at_each_cursor(self):
        self.check(("ok", 1, 1))
        self.requirements, self.lock, self.cursor = BEFORE, lock_text(LINUX, ENTRIES), 0
        self.check(("ok", 0, 1))

    def test_has_the_form_that_is_written_down(self):
        file = '{"name":"c-1-py3-none-any.whl","sha256":"Z","size":1000,"url":"https://files.example/c-1-py3-none-any.whl"}'
        target = {1: "", 2: '"",'}[self.version]
        text = (
            '{"entries":[[' + target + '"c",null,{"dependencies":[],"requires_python":null,"sdist":null,"version":"1","wheels":['
            + file + ']}]],"lines":[[2,["a"],["a\\r\\n","c\\r\\n"]]],"snapshot":null}\n'
        )
        self.assertEqual(self.journal().splitlines(keepends=True)[1], text.replace("Z", ZEROS).encode())

    def test_of_an_empty_file(self):
        self.requirements, self.lock, self.steps, self.cursor = b"", lock_text(LINUX, {}), [], 0
        digest = "e3b0c44298fc1c149afbf4c8996fb92427ae41e4649b934ca495991b7852b855"
        self.assertEqual(self.header()["requirements"], digest)
        self.check(("ok", 0, 0))

    def test_of_cut_journals(self):
        whole = self.journal()
        first = whole.index(b"\n") + 1
        for place in range(len(whole)):
            self.check((BROKEN, 1 if place < first else 2), journal=whole[:place])
        self.check((BROKEN, 2), journal=whole[:-5])

    def test_of_bytes_behind_the_steps(self):
        whole = self.journal()
        for more in self.line(), b"\n", b"x":
            self.check((BROKEN, 3), journal=whole + more)

    # What no header has, and what no target has: in version 1 the header itself tells its target.
    BAD_HEADERS = (
        {"cursor": 2}, {"x": 1}, {"journal": 0}, {"journal": 4}, {"journal": True}, {"journal": "2"}, {"journal": None},
        {"steps": "1"}, {"cursor": -1}, {"cursor": 1.0}, {"requirements": ZEROS.replace("0", "A")}, {"steps": 2**64},
    )
    BAD_TARGETS = (
        {"lock": "0"}, {"lock": "A" * 64}, {"environment": {**LINUX, "platform_machine": "arm64"}}, {"environment": {**LINUX, "x": ""}},
        {"environment": {**LINUX, "python_version": ""}}, {"environment": []}, {"lock": None},
    )

    def check_headers(self, *headers):
        for header in headers:
            with self.subTest(header=header):
                self.check((BROKEN, 1), journal=compact(header) + self.line())

    def test_of_headers(self):
        header = self.header()
        self.check_headers(*({**header, **change} for change in self.BAD_HEADERS))
        self.check_headers(*({name: value for name, value in header.items() if name != key} for key in header))
        self.check_headers([header], {}, None)

    def test_of_targets(self):
        self.check_headers(*({**self.header(), **change} for change in self.BAD_TARGETS))

    def test_of_the_other_version(self):
        other = header(self.requirements, self.lock, LINUX, 1, 1, 3 - self.version)
        self.check_headers({**self.header(), "journal": 3 - self.version}, {**other, "journal": self.version})
        self.check_headers({**other, **self.header()}, {**self.header(), **other})
        self.check((BROKEN, 2), journal=compact(other) + self.line())
        self.check((BROKEN, 2), journal=compact(self.header()) + compact(in_version(3 - self.version, ADDED)))

    def test_of_other_spellings_of_a_header(self):
        head, line = compact(self.header()), self.line()
        self.check(("ok", 1, 1), journal=head.replace(b":", b": ", 1) + line)
        self.check(("ok", 1, 1), journal=head.replace(b'"3.12.3","python_v', b'"3.12.3+","python_v') + line)
        self.check(("ok", 1, 1), journal=head.replace(b'{"cursor":1', b'{"cursor":7,"cursor":1') + line)
        self.check(("ok", 1, 1), journal=head.replace(b"linux", b"\\u006cinux") + line)
        self.check((BROKEN, 1), journal=head.replace(b"linux", b"\\ud800") + line)
        for value in b"NaN", b'"\\udfff"', b"01", b"1.":
            self.check((BROKEN, 1), journal=head.replace(b'{"cursor":1', b'{"cursor":%b,"cursor":1' % value) + line)
        self.check((BROKEN, 1), journal=head.replace(b'{"cursor":1', b'{"cursor":-0') + line)
        self.check((BROKEN, 1), journal=b"\xef\xbb\xbf" + head + line)
        self.check((BROKEN, 1), journal=b"[" * 100_000 + b"\n")

    def test_of_files_that_disagree(self):
        for requirements in BEFORE, AFTER + b"\n", b"\xff":
            self.check((DISAGREE, "requirements.txt"), requirements=requirements, journal=self.journal())
        self.check((DISAGREE, LOCK), lock=self.lock.replace(b"1000", b"1001", 1), journal=self.journal())
        for requirements in b"a\n-r b\n", b"\xff":
            self.requirements = requirements
            self.check((DISAGREE, "requirements.txt"))

    def test_of_locks_that_do_not_read(self):
        for old, new in (
            (b'"1.0"', b'"1.1"'), (b"reqlock]", b"reqlock.x]"), (b"reqlock\"", b"reqloc\""), (b"size", b"sizes"),
            (b'version = "1"', b'version = "01"'), (b'name = "b-b"', b'name = "b.b"'), (b".whl", b".egg"), (b"]", b""),
            (b'version = "1"', b'version = "1"\nmarker = "x"'), (b"1000", b"9223372036854775808"), (b"[tool", b"x = 1\n[tool"),
            (b'version = "1"', b'version = "1"\ndependencies = []'), (b'version = "1"', b'version = "1"\nrequires-python = " "'),
            (b'version = "1"', b'version = "1"\ndependencies = [{name = "a"}]'), (b'name = "a"', b'name = "z"'),
        ):
            lock = lock_text(LINUX, {**ENTRIES, "c": entry("c", "1")})
            self.lock = lock.replace(old, new, 1)
            with self.subTest(new=new):
                self.assertNotEqual(self.lock, lock)
                self.check((DISAGREE, LOCK))

    def test_of_a_line_break_in_an_inline_table(self):
        for old, new in (b", url", b",\nurl"), (b"{name", b"{\r\nname"), (b"}]", b"\n}]"):
            lock = self.lock.replace(old, new)
            self.assertNotEqual(lock, self.lock)
            whole = self.journal_over(lock)
            self.check(("ok", 1, 1), lock=lock, journal=whole)
        for old, new in (b"url =", b"url\n="), (b"https://", b"https:\n//"):
            lock = self.lock.replace(old, new)
            self.assertNotEqual(lock, self.lock)
            whole = self.journal_over(lock)
            self.check((DISAGREE, LOCK), lock=lock, journal=whole)

    def test_of_locks_whose_parts_are_not_in_order(self):
        one, other = entry("c", "1")["wheels"] + entry("d", "1")["wheels"]
        sdist = {**one, "name": "c-1.tar.gz"}
        for part, is_lawful in (
            ({"dependencies": ["a", "b-b"]}, True), ({"dependencies": ["b-b", "a"]}, False), ({"dependencies": ["a", "a"]}, False),
            ({"wheels": [one, other]}, True), ({"wheels": [other, one]}, False), ({"wheels": [one, one]}, False),
            ({"sdist": sdist}, True), ({"sdist": sdist, "wheels": []}, True), ({"sdist": one}, False), ({"wheels": [sdist]}, False),
        ):
            self.steps, self.cursor = [], 0
            self.lock = lock_text(LINUX, {**ENTRIES, "c": {**entry("c", "1"), **part}})
            self.check(("ok", 0, 0) if is_lawful else (DISAGREE, LOCK))
        names = {b'name = "a"': b'name = "c"', b'name = "c"': b'name = "a"'}
        lines = lock_text(LINUX, {**ENTRIES, "c": entry("c", "1")}).splitlines()
        self.lock = b"\n".join(names.get(line, line) for line in lines)
        self.check((DISAGREE, LOCK))

    def test_of_locks_that_are_not_of_the_state(self):
        entries = {**ENTRIES, "c": entry("c", "1")}
        for name, other in (
            ("a", None), ("z", entry("z", "1")), ("a", entry("a", "1", "z")), ("b-b", entry("b-b", "0.9")),
            ("a", entry("a", "1", python="<3")),
        ):
            changed = {**entries, name: other}
            self.lock = lock_text(LINUX, {key: value for key, value in changed.items() if value is not None})
            self.check((DISAGREE, LOCK))
        self.lock = lock_text({**LINUX, "os_name": "nt"}, entries)
        self.check((BROKEN, 1))

    def test_the_first_fault_is_answered(self):
        self.check((DISAGREE, "requirements.txt"), requirements=BEFORE, lock=b"", journal=compact(self.header()))
        self.check((DISAGREE, LOCK), lock=b"", journal=compact(self.header()))
        self.steps = [step(), {**ADDED, "snapshot": [ZEROS, ZEROS]}, step([[9, ["x"], []]])]
        self.cursor = 3
        self.check((BROKEN, 3))


class Steps(Example):
    def test_that_do_not_apply(self):
        for lines in ([[2, ["b"], ["b\r\n", "c\r\n"]]], [[1, ["a"], ["a\r\n", "c\r\n"]]], [[3, ["a"], ["a\r\n", "c\r\n"]]]):
            self.steps = [step(lines, ADDED["entries"])]
            self.check((BROKEN, 2))
        for entries in ([["c", None, entry("c", "2")]], [["d", None, entry("d", "1")]], []):
            self.steps = [step([ADDED_LINES], entries)]
            self.check((BROKEN, 2))
        self.steps = [{**ADDED, "snapshot": [ZEROS, ONES]}]
        self.check((BROKEN, 2))
        self.cursor = 0
        for steps in (step([[6, [], ["# x"]]]), step([], [["d", entry("d", "1"), None]])):
            self.steps = [steps]
            self.check((BROKEN, 2))
        self.cursor = 1
        self.steps = [{**ADDED, "snapshot": [ONES, ZEROS]}]
        self.check(("ok", 1, 1))

    def test_that_are_altered(self):
        whole = self.journal()
        for old, new in (
            (b'["a"]', b'["b"]'), (b'[2,["a"],["a\\r\\n","c\\r\\n"]]', b'[2,["a"],[]],[3,[],["a\\r\\n","c\\r\\n"]]'),
            (b'"snapshot":null', f'"snapshot":["{ZEROS}","{ZEROS}"]'.encode()),
        ):
            self.assertEqual(whole.count(old), 1)
            self.check((BROKEN, 2), journal=whole.replace(old, new))

    def read(self, change):
        """What a step's line is read as."""
        return read_step(compact(in_version(self.version, change)), read_header(compact(self.header())))

    def check_form(self, change, is_lawful):
        """A step has a lawful form, or not. In front of it stands one that doesn't apply, which is told where the forms of all
        steps are lawful."""
        if not is_lawful:
            self.assertRaises(Fault, self.read, change)
        self.steps = [step([[9, ["x"], []]]), change]
        self.check((BROKEN, 2 if is_lawful else 3))

    def test_that_are_no_minimal_changes(self):
        for splices in (
            [[2, ["a"], []], [3, [], ["a\r\n", "c\r\n"]]], [[2, [], []]], [[2, ["a"], ["a", "c"]]], [[2, ["c", "a"], ["a"]]],
            [[2, ["a"], ["b"]], [1, ["a"], ["b"]]], [[2**64, ["a"], ["b"]]], [[2**64 - 1, [], ["a"]], [2**64, [], ["a"]]],
            [[0, [], ["a"]], [2**64 - 1, [], ["b"]]], [["2", ["a"], ["b"]]], [[2, ["a"]]], [[2, ["a"], [1]]],
        ):
            self.check_form(step(splices), False)
        one = entry("a", "1")
        for entries in (
            [["a", one, one]], [["a", None, None]], [["b", None, entry("b", "1")], ["a", None, one]], [["A", None, one]],
            [["a", None, one], ["a", one, None]], [["a", None, {**one, "x": 1}]], [["a", None, {**one, "wheels": []}]],
        ):
            self.check_form(step([], entries), False)
        for snapshot in [ZEROS, ZEROS], [ZEROS], [ZEROS, None], "":
            self.check_form(step(snapshot=snapshot), False)

    def test_that_are_minimal_changes(self):
        one, other = entry("a", "1"), entry("a", "1.0")
        for splices, entries in ([], []), ([], [("a", one, other)]), ([(0, [], ["a"]), (2**64 - 2, [], ["b"])], []):
            change = step(splices, entries)
            self.assertEqual(self.read(change), Change(splices, [("", *entry) for entry in entries], None))
            self.check_form(change, True)

    def test_through_a_state_that_is_none(self):
        self.requirements, self.lock = b"a\n", lock_text(LINUX, {"a": entry("a", "1")})
        for lines in ["-r b\n"], ["a"], ["z\n"], ["a\n", ""], ["a\na\n"]:
            self.steps, self.cursor = [step([[0, [], lines]])], 0
            self.check((BROKEN, 2))
        self.steps, self.cursor = [step(), step([], [["a", entry("a", "2"), entry("a", "1")]]), step()], 3
        self.check(("ok", 3, 3))
        self.steps[0] = step([], [["a", entry("a", "2"), entry("a", "3")]])
        self.check((BROKEN, 2))

    def test_go_back_first_and_then_on(self):
        self.requirements, self.lock = b"a\n", lock_text(LINUX, {"a": entry("a", "1")})
        bad = step([[5, ["x"], []]])
        for steps, line in ([bad, step(), bad], 2), ([step(), bad, bad], 3), ([step(), step(), bad], 4), ([bad, bad, step()], 3):
            self.steps, self.cursor = steps, 2
            self.check((BROKEN, line))

    def test_of_removed_and_relocked_lines(self):
        first, second = b"# top\nb==1\n\n# tail\na\n", b"# top\n\n# tail\na\n"
        removed = step([[1, ["b==1\n"], []]], [["b", entry("b", "1"), None]])
        both = {"a": entry("a", "1"), "b": entry("b", "1")}
        for requirements, entries, cursor in (first, both, 0), (second, {"a": both["a"]}, 1):
            self.requirements, self.lock = requirements, lock_text(LINUX, entries)
            self.steps, self.cursor = [removed], cursor
            self.check(("ok", cursor, 1))
        relocked = step([], [["a", entry("a", "1"), entry("a", "1.0")]], [ZEROS, ONES])
        self.requirements, self.steps, self.cursor = b"a\n", [relocked], 1
        self.lock = lock_text(LINUX, {"a": entry("a", "1.0")}, ONES)
        self.check(("ok", 1, 1))
        self.lock = lock_text(LINUX, {"a": entry("a", "1")}, ONES)
        self.check((BROKEN, 2))

    def test_of_packages_that_need_each_other(self):
        both = {"p": entry("p", "1", "q"), "q": entry("q", "1", "p")}
        gone = step([[0, ["p\n"], []]], [["p", both["p"], None], ["q", both["q"], None]])
        self.requirements, self.lock, self.steps, self.cursor = b"p\n", lock_text(LINUX, both), [gone], 0
        self.check(("ok", 0, 1))
        self.requirements = b"# p\n"
        self.check((DISAGREE, LOCK))


class OpeningOfVersion1(Opening):
    version = 1


class StepsOfVersion1(Steps):
    version = 1


class Targets(Example):
    """What version 2 alone can say."""

    def one(self):
        return self.header()["targets"][0]

    def check_targets(self, *lists):
        for targets in lists:
            with self.subTest(targets=targets):
                self.check((BROKEN, 1), journal=compact({**self.header(), "targets": targets}) + self.line())

    def test_of_a_header(self):
        one = self.one()
        self.check_targets([], {}, None, "", one, {"0": one}, [[one]], [None], [one, one])
        self.check_targets([{**one, "name": "win"}, one], [{**one, "name": "b"}, {**one, "name": "a"}])
        names = " ", "-", None, 0, [], "Win", "1", "-a", "a_b", "a.b", "a ", "a\n", "\u00e9", "a" * 33
        self.check_targets(*([{**one, "name": name}] for name in names), *([one, {**one, "name": name}] for name in names))
        self.check_targets(*([{**one, **change}] for change in ({"x": 1}, *Opening.BAD_TARGETS)))
        self.check_targets(*([{name: value for name, value in one.items() if name != key}] for key in one))

    def test_of_a_lock_that_is_not_there(self):
        for name in "win", "a", "a" * 32, "z-9", "b--", "x1":
            for targets in [{**self.one(), "name": name}], [self.one(), {**self.one(), "name": name}]:
                whole = compact({**self.header(), "targets": targets}) + self.line()
                self.check(("unreadable", f"pylock.{name}.toml"), journal=whole)

    def added(self, *targets):
        """The line of `add c` with these words in front of its entry's name."""
        line = compact(step([ADDED_LINES], [[*targets, *entry] for entry in ADDED["entries"]]))
        return compact(self.header()) + line

    def test_of_an_entry(self):
        self.check(("ok", 1, 1), journal=self.added(""))
        for targets in ([], ["win"], ["c"], [None], [0], [[""]], [" "], ["", ""]):
            with self.subTest(targets=targets):
                self.check((BROKEN, 2), journal=self.added(*targets))

    def test_an_unknown_target_is_told_before_a_step_that_does_not_apply(self):
        lines = step([[9, ["x"], []]]), step([], [["win", "d", None, entry("d", "1")]])
        whole = compact({**self.header(), "steps": 2}) + b"".join(map(compact, lines))
        self.check((BROKEN, 3), journal=whole)

    def test_of_the_header_of_an_empty_file(self):
        self.requirements, self.lock, self.steps, self.cursor = b"", lock_text(LINUX, {}), [], 0
        digest = "e3b0c44298fc1c149afbf4c8996fb92427ae41e4649b934ca495991b7852b855"
        environment = compact(LINUX).decode().strip()
        text = (
            '{"cursor":0,"journal":2,"requirements":"' + digest + '","steps":0,"targets":[{"environment":' + environment
            + ',"lock":"' + digest_of(self.lock) + '","name":""}]}\n'
        )
        self.check(("ok", 0, 0), journal=text.encode())


class Laws(Example):
    def test_an_inverse_leads_back(self):
        state = State.of_one(["a\n", "b\n", "c\n", "d\n", "e"], LINUX, ZEROS, {})
        change = Change([(0, ["a\n"], ["x\n", "y\n"]), (2, ["c\n"], []), (5, [], ["z"])], [], (ZEROS, ONES))
        changed = after(state, change)
        self.assertEqual(changed.lines, ["x\n", "y\n", "b\n", "d\n", "e", "z"])
        self.assertEqual((changed.digest, is_minimal(inverse(change))), (ONES, True))
        self.assertEqual(inverse(change).splices, [(0, ["x\n", "y\n"], ["a\n"]), (3, [], ["c\n"]), (5, ["z"], [])])
        self.assertEqual(after(changed, inverse(change)), state)
        self.assertIsNone(after(state, inverse(change)))

    def test_a_state_has_no_entry_that_nothing_needs(self):
        lines, entries = ["a\n"], {"a": entry("a", "1", "b"), "b": entry("b", "1")}
        self.assertTrue(is_state(State.of_one(lines, LINUX, ZEROS, entries)))
        self.assertFalse(is_state(State.of_one(["# a\n"], LINUX, ZEROS, entries)))
        self.assertFalse(is_state(State.of_one(['a;os_name=="nt"\n'], LINUX, ZEROS, entries)))
        self.assertFalse(is_state(State.of_one(["b\n"], LINUX, ZEROS, entries)))

    def test_alterations_are_others_than_the_journal_and_answered(self):
        self.steps.append(step([[4, [], ["d\r\n"]]], [["d", None, entry("d", "1")]]))
        whole, alterations, answers = self.journal(), list(altered(self.journal())), set()
        self.assertEqual(len({text for text, _ in alterations}), len(alterations))
        self.assertNotIn(whole, {data for _, data in alterations})
        self.assertIn(("cut at byte 0", b""), alterations)
        self.assertEqual(alterations[-1][0], "lines 2 and 3 exchanged")
        for _, data in alterations[::9]:
            answers.add(opens(self.requirements, {"": self.lock}, data)[0])
        self.assertEqual(answers, {"ok", BROKEN, DISAGREE})


if __name__ == "__main__":
    unittest.main()
