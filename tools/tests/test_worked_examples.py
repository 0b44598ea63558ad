"""The worked examples, over the built program: what `try` answers to commands, and what single calls answer over saved files. Each
wanted value comes from the rules."""

import hashlib
import os
import re
import stat
import unittest

from support.made.releases import SHARED, UNMET_EXTRA, file_of
from support.program import HEAD, Program

# Indexes: releases of a name and a version, what they need, and what else their objects have.
A_C = ("a", "1", []), ("c", "1", []), ("c", "2", [])
A_B_C = ("a", "1", []), ("b", "1", []), ("b-b", "1", []), ("c", "1", [])
A_B = ("a", "1", []), ("b", "1", []), ("b", "2", [])
HYPHENED = ("b-b", "1", []), ("b-b", "2", [])
YANKED = ("a", "1", []), ("a", "2", [], {"yanked": True})
PRE_RELEASE = ("foo", "1.0", []), ("foo", "2.0rc1", [])
CYCLE = ("p", "1", ["q"]), ("q", "1", ["p"])
# a dependency that asks for a pre-release, and one that doesn't
PRE_ASKED_ONCE = ("a", "1", ["foo>=2.0rc1"]), ("b", "1", ["foo"]), *PRE_RELEASE
PRE_UNASKED = ("a", "1", ["foo"]), *PRE_RELEASE

COMMENTS = "# z\nb\n# a\na\n"
WINDOWS = "# web\r\nB_b >=1 # pin\r\na"
KEPT = 'B.b (>=1) ; os_name=="posix" # keep'
TOP = "# top\nb==1\n\n# tail\na\n"
# an index, a requirements file, commands, and what is printed: the replies, and then the file
TRIED = (
    (A_C, "a\n", "add c<2", "ok 1\na\nc<2\n"),
    (
        A_C, "a\n", "add A\nadd z\nadd c>>1\n\nbogus\nundo\n",
        "refused already-present\nrefused no-solution\nrefused bad-text\nrefused bad-command\nrefused nothing-to-undo\na\n",
    ),
    (A_C, "", "", ""),
    (A_C, "", "undo", "refused nothing-to-undo\n"),
    (A_B_C, COMMENTS, "add c\nundo\nredo\nundo\n", f"ok 1\nok 0\nok 1\nok 0\n{COMMENTS}"),
    (A_B_C, WINDOWS, "add c\n", "ok 1\n# web\r\nB_b >=1 # pin\r\na\r\nc\r\n"),
    (A_B_C, WINDOWS, "add c\r\nundo\r\n", f"ok 1\nok 0\n{WINDOWS}"),
    (
        A_B_C, 'a ; os_name=="nt"\n', 'add a\nadd b ; os_name=="nt"\nundo\n',
        'refused already-present\nok 1\nok 0\na ; os_name=="nt"\n',
    ),
    (A_B_C, "a\n", "add c\nundo\nadd b\nredo\n", "ok 1\nok 0\nok 1\nrefused nothing-to-redo\na\nb\n"),
    (
        A_B_C, "a\n", "add c\nadd C\nbogus\n\nundo\nundo\n",
        "ok 1\nrefused already-present\nrefused bad-command\nok 0\nrefused nothing-to-undo\na\n",
    ),
    (SHARED, "a\n", "add c\nundo\n", "ok 1\nok 0\na\n"),
    (UNMET_EXTRA, "x\n", "add x[e]\n", "refused already-present\nx\n"),
    (UNMET_EXTRA, "", "add x[e]\nadd x\n", "refused no-solution\nok 1\nx\n"),
    (YANKED, "", "add a>=2\nadd a==2\n", "refused no-solution\nok 1\na==2\n"),
    (PRE_RELEASE, "", "add foo>1\n", "ok 1\nfoo>1\n"),
    (CYCLE, "p\n", "", "p\n"),
    (PRE_ASKED_ONCE, "a\n", "add b\n", "refused no-solution\na\n"),
    (PRE_UNASKED, "a\n", "add foo>=2.0rc1\n", "ok 1\na\nfoo>=2.0rc1\n"),
    (CYCLE, "p\n", "remove p\n", "ok 1\n"),
    (CYCLE, "p\n", "remove p\nundo\n", "ok 1\nok 0\np\n"),
    (A_B, TOP, "remove b\nundo\nredo\n", "ok 1\nok 0\nok 1\n# top\n\n# tail\na\n"),
    (HYPHENED, KEPT, "constrain b_B >=2\n", 'ok 1\nB.b >=2 ; os_name=="posix" # keep'),
    (A_B, 'a ; os_name=="nt"\n', "constrain a >=2\n", 'ok 1\na>=2 ; os_name=="nt"\n'),
    (
        A_B, "b==1\n", "constrain b\nupgrade b\nupgrade b\nupgrade z\n",
        "ok 1\nok 2\nsame\nrefused not-locked\nb\n",
    ),
    (
        A_B, "a\nA >=1\n", "remove a\nremove b\nremove -\n",
        "refused ambiguous\nrefused not-present\nrefused bad-text\na\nA >=1\n",
    ),
    (A_B, "a\nb", "remove b\nundo\nremove a\n", "ok 1\nok 0\nok 1\nb"),
    (
        A_B, "a\n", "constrain a >=9\nconstrain a (>=1)\nconstrain a >=1,\nconstrain a >=1,\nupgrade  \n",
        "refused no-solution\nrefused bad-text\nok 1\nsame\nsame\na>=1,\n",
    ),
    (A_B, "", "relock\n", "same\n"),
)

# an index with two packages whose names are one
TWICE = b'{"snapshot":1,"packages":[{"name":"A.b","releases":[]},{"name":"a-b","releases":[]}]}'
# A requirements file, an index where it isn't that of `A_C`, and the fault.
REFUSED = (
    (b"a\n-r more.txt\n", None, "requirements.txt: line 2: option-line"),
    (b"a @ https://x.example/a.whl\n", None, "requirements.txt: line 1: url-requirement"),
    (b"a>>1\n", None, "requirements.txt: line 1: bad-clause"),
    (b"\xff\n", None, "requirements.txt: not-utf8"),
    (b"a\n", b"{", "index: not-json"),
    (b"a\n", b"[]", "index: shape"),
    (b"a\n", b'{"snapshot":2}', "index: shape /snapshot"),
    (b"a\n", TWICE, "index: duplicate-package a-b"),
    (b"-e .\n", b"{", "requirements.txt: line 1: option-line"),
)


class Tried(Program):
    """What `try` answers."""

    def test_commands_are_answered(self):
        for releases, file, commands, told in TRIED:
            with self.subTest(file=file, commands=commands):
                self.begin(file.encode(), *releases)
                self.assertEqual(self.told("try", text=commands), (0, told, ""))

    def test_a_file_without_a_solution_has_status_3(self):
        for releases, file in (A_C, b"z\n"), (SHARED, b"a==2\nc\n"):
            with self.subTest(file=file):
                self.begin(file, *releases)
                self.assertEqual(self.told("try", text="add c\n"), (3, "refused no-solution\n", ""))

    def test_refused_inputs_are_named(self):
        for file, index, told in REFUSED:
            with self.subTest(told=told):
                self.begin(file, *A_C)
                if index is not None:
                    (self.outside / "index.json").write_bytes(index)
                self.assertEqual(self.told("try", text="add c\n"), (4, "", f"reqlock: {told}\n"))


class Learning(Program):
    """Problems in which only a search that learns from its conflicts comes to an end."""

    NAMES = [f"p{number:02}" for number in range(1, 41)]
    PAIRS = tuple((name, version, []) for name in NAMES for version in ("1", "2"))
    SECONDS = 60

    def begin_lines(self, names, *releases):
        self.begin("".join(f"{name}\n" for name in names).encode(), *releases)

    def test_no_solution_where_the_last_line_has_none(self):
        self.begin_lines([*self.NAMES, "z>=2"], *self.PAIRS, ("z", "1", []))
        self.assertEqual(self.call("init", seconds=self.SECONDS), (3, "refused no-solution\n"))

    def test_no_solution_where_a_dependency_of_the_last_line_has_none(self):
        self.begin_lines([*self.NAMES, "y"], *self.PAIRS, ("y", "1", ["z>=2"]), ("z", "1", []))
        self.assertEqual(self.call("init", seconds=self.SECONDS), (3, "refused no-solution\n"))

    def test_the_first_name_gives_way(self):
        first, second, *others = self.PAIRS
        releases = first, (*second[:2], ["y"]), *others, ("y", "1", ["z>=2"]), ("z", "1", [])
        self.begin_lines(self.NAMES, *releases)
        self.assertEqual(self.call("init", seconds=self.SECONDS), (0, "ok 0\n"))
        self.assertEqual(self.locked(), {name: "1" if name == "p01" else "2" for name in self.NAMES})


class Saved(Program):
    """What is saved, and comes back."""

    def test_an_added_line_is_saved_and_taken_back(self):
        after = "# web\r\nB_b >=1 # pin\r\na\r\nc\r\n"
        self.begin(WINDOWS.encode(), *A_B_C)
        self.plays((["init"], 0, "ok 0\n"), (["add", "c"], 0, "ok 1\n"))
        self.holds(after)
        self.plays((["undo"], 0, "ok 0\n"))
        self.holds(WINDOWS)
        self.plays((["undo"], 1, "refused nothing-to-undo\n"), (["redo"], 0, "ok 1\n"))
        self.holds(after)

    # The journal of that example. LOCK and REQUIREMENTS stand for the digests of these files, and Z for 64 zeros.
    HEADER = (
        '{"cursor":CURSOR,"journal":2,"requirements":"REQUIREMENTS","steps":STEPS,"targets":[{"environment":{'
        '"implementation_name":"cpython","implementation_version":"3.12.3","os_name":"posix","platform_machine":"x86_64",'
        '"platform_python_implementation":"CPython","platform_release":"6.1.0-13-amd64","platform_system":"Linux",'
        '"platform_version":"#1 SMP Debian 6.1.55-1","python_full_version":"3.12.3","python_version":"3.12",'
        '"sys_platform":"linux"},"lock":"LOCK","name":""}]}\n'
    )
    STEP = (
        '{"entries":[["","c",null,{"dependencies":[],"requires_python":null,"sdist":null,"version":"1","wheels":[{"name":'
        '"c-1-py3-none-any.whl","sha256":"Z","size":1000,"url":"https://files.example/c-1-py3-none-any.whl"}]}]],'
        '"lines":[[2,["a"],["a\\r\\n","c\\r\\n"]]],"snapshot":null}\n'
    )

    def header(self, cursor, steps):
        """The header over the two files as they stand."""
        words = {"CURSOR": str(cursor), "STEPS": str(steps)}
        for word, name in ("LOCK", "pylock.toml"), ("REQUIREMENTS", "requirements.txt"):
            words[word] = hashlib.sha256((self.folder / name).read_bytes()).hexdigest()
        return re.sub("|".join(words), lambda match: words[match[0]], self.HEADER)

    def test_a_journal_has_the_form_that_is_written_down(self):
        self.begin(WINDOWS.encode(), *A_B_C)
        self.plays((["init"], 0, "ok 0\n"), (["add", "c"], 0, "ok 1\n"))
        self.holds(self.header(1, 1) + self.STEP.replace("Z", "0" * 64), "reqlock.journal")

    def test_the_journal_of_an_empty_file_is_a_header(self):
        self.begin(b"", *A_B_C)
        self.plays((["init"], 0, "ok 0\n"))
        header = self.header(0, 0)
        self.assertIn("e3b0c44298fc1c149afbf4c8996fb92427ae41e4649b934ca495991b7852b855", header)
        self.holds(header, "reqlock.journal")

    def test_a_removed_line_comes_back(self):
        after = "# top\n\n# tail\na\n"
        self.begin(TOP.encode(), *A_B_C)
        self.plays((["init"], 0, "ok 0\n"), (["remove", "b"], 0, "ok 1\n"))
        self.holds(after)
        self.plays((["show"], 0, f"{HEAD}a     1        4\n"), (["undo"], 0, "ok 0\n"))
        self.holds(TOP)
        self.plays((["show"], 0, f"{HEAD}a     1        5\nb     1        2\n"), (["redo"], 0, "ok 1\n"))
        self.holds(after)

    def test_an_upgrade_is_saved(self):
        self.begin(b"a==1\n", ("a", "1", []), ("a", "2", []))
        self.plays(
            (["init"], 0, "ok 0\n"),
            (["constrain", "a"], 0, "ok 1\n"),
            (["upgrade", "a"], 0, "ok 2\n"),
            (["upgrade", "a"], 0, "same\n"),
            (["upgrade", "z"], 1, "refused not-locked\n"),
            (["log"], 0, "  0 init\n  1 constrain a\n* 2 upgrade a\n"),
            (["undo"], 0, "ok 1\n"),
            (["log"], 0, "  0 init\n* 1 constrain a\n  2 upgrade a\n"),
            (["constrain", "a", "~=1.0"], 0, "ok 2\n"),
            (["redo"], 1, "refused nothing-to-redo\n"),
            (["add", "--", "-r x"], 1, "refused bad-text\n"),
            (["remove", "a "], 1, "refused bad-text\n"),
            (["constrain", "a", ">=9"], 3, "refused no-solution\n"),
            (["add", "A"], 1, "refused already-present\n"),
        )
        self.holds("a~=1.0\n")

    def test_an_empty_file_has_a_history(self):
        self.begin(b"", *A_B_C)
        self.plays((["init"], 0, "ok 0\n"), (["relock"], 0, "same\n"), (["show"], 0, HEAD))
        told = f'"requirements":"{hashlib.sha256(b"").hexdigest()}"'
        self.assertIn(told, (self.folder / "reqlock.journal").read_text(encoding="utf-8"))

    def test_files_that_were_changed_are_refused(self):
        self.begin(b"a\n", *A_B_C)
        self.plays((["init"], 0, "ok 0\n"), (["add", "c"], 0, "ok 1\n"))
        journal = self.folder / "reqlock.journal"
        whole = journal.read_bytes()
        journal.write_bytes(whole.removesuffix(b"\n"))
        broken = "reqlock: reqlock.journal: line 2: journal-broken\n"
        self.plays((["undo"], 4, broken), (["show"], 4, broken))
        journal.write_bytes(whole)
        lock = self.folder / "pylock.toml"
        lock.write_bytes(lock.read_bytes().replace(b"1000", b"1001"))
        self.plays((["undo"], 4, "reqlock: pylock.toml: files-disagree\n"))
        (self.folder / "requirements.txt").write_bytes(b"a\nb\n")
        self.plays((["undo"], 4, "reqlock: requirements.txt: files-disagree\n"))
        self.plays((["init"], 0, "ok 0\n"), (["log"], 0, "* 0 init\n"))

    def test_refused_lines_are_told_by_init(self):
        for file, status, told in (
            (b"a\n-r more.txt\n", 4, "reqlock: requirements.txt: line 2: option-line\n"),
            (b"a @ https://x.example/a.whl\n", 4, "reqlock: requirements.txt: line 1: url-requirement\n"),
            (b"z\n", 3, "refused no-solution\n"),
        ):
            self.begin(file, *A_B_C)
            self.plays((["init"], status, told), (["undo"], 4, "reqlock: reqlock.journal: unreadable\n"))

    def test_a_version_may_change_its_text(self):
        self.begin(b"a\n", ("a", "1", []))
        self.plays((["init"], 0, "ok 0\n"))
        self.begin(b"a\n", ("a", "1.0", [], {"files": [file_of("a", "1")]}))
        self.plays(
            (["relock"], 0, "ok 1\n"),
            (["log"], 0, "  0 init\n* 1 relock: 1 entry, another index\n"),
            (["log", "--long"], 0, "  0 init\n* 1 relock: 1 entry, another index\n      a 1 -> 1.0\n"),
            (["show"], 0, f"{HEAD}a     1.0      1\n"),
            (["undo"], 0, "ok 0\n"),
            (["show"], 0, f"{HEAD}a     1        1\n"),
        )

    def test_a_log_claims_no_command_over_another_index(self):
        """An upgrade and a relock that has to move a version look alike."""
        self.begin(b"a\nc\n", ("a", "1", ["b<2"]), ("b", "1", []), ("c", "1", []))
        self.plays((["init"], 0, "ok 0\n"))
        lines = b"a\nc\n"
        later = ("a", "2", ["b"]), ("b", "1", []), ("b", "2", []), ("c", "1", [])
        for words, releases in (["relock"], later), (["upgrade", "a"], (("a", "1", ["b<2"]), *later)):
            self.begin(lines, *releases)
            self.plays(
                (words, 0, "ok 1\n"), (["log"], 0, "  0 init\n* 1 another index: a 1 -> 2\n"), (["undo"], 0, "ok 0\n"),
            )
        self.begin(lines, ("a", "1", ["b<2"]), ("a", "2", ["b>=2"]), ("b", "1", []), ("b", "2", []), ("c", "1", []), ("c", "2", []))
        self.plays(
            (["upgrade", "a"], 0, "ok 1\n"), (["log"], 0, "  0 init\n* 1 another index: a 1 -> 2, 1 more entry\n"), (["undo"], 0, "ok 0\n"),
            (["upgrade"], 0, "ok 1\n"), (["log"], 0, "  0 init\n* 1 another index: a 1 -> 2, 2 more entries\n"), (["undo"], 0, "ok 0\n"),
            (["upgrade", "c"], 0, "ok 1\n"), (["log"], 0, "  0 init\n* 1 another index: c 1 -> 2\n"),
        )

    def test_packages_that_need_each_other_come_back(self):
        both = f"{HEAD}p     1        1     q\nq     1              p\n"
        self.begin(b"p\n", *CYCLE)
        self.plays(
            (["init"], 0, "ok 0\n"),
            (["show"], 0, both),
            (["remove", "p"], 0, "ok 1\n"),
            (["show"], 0, HEAD),
            (["undo"], 0, "ok 0\n"),
            (["show"], 0, both),
        )

    def test_a_batch_is_saved_once(self):
        self.begin(b"a\n", *A_B_C)
        self.plays((["init"], 0, "ok 0\n"))
        told = self.call("batch", text="add c\nbogus\nadd b\nundo\n")
        self.assertEqual(told, (0, "ok 1\nrefused bad-command\nok 2\nok 1\n"))
        self.holds("a\nc\n")
        self.plays((["redo"], 0, "ok 2\n"), (["undo"], 0, "ok 1\n"))
        # a journal in another form is kept where nothing is accepted, and else written anew
        journal = (self.folder / "reqlock.journal").read_text(encoding="utf-8")
        spaced = journal.replace(":", ": ", 1)
        (self.folder / "reqlock.journal").write_text(spaced, encoding="utf-8")
        self.call("batch", text="bogus\nadd C\nrelock\n")
        self.holds(spaced, "reqlock.journal")
        self.call("batch", text="undo\nredo\n")
        self.holds(journal, "reqlock.journal")

    def test_tells_what_asks_for_what(self):
        self.begin(
            b'long_name\nb ; os_name == "nt"\nc\nb<2\n',
            ("long-name", "1.10", ["b"]), ("b", "1", []), ("b", "zero", []),
            ("c", "1", ["b", "c @ https://x.example/c.whl"]), ("c", "2", [], {"requires_python": ">=3.6.*"}),
            ("c", "0.5", ["b"]), ("c", "0.5.0", []),
        )
        table = (
            "name       version  line  needed by\n"
            "b          1        4     c, long-name\n"
            "c          0.5      3\n"
            "long-name  1.10     1\n"
        )
        left_out = (
            "b: release 1: version bad-version\n"
            "c: release 0: requirement 1 url-requirement\n"
            "c: release 1: requires-python bad-clause\n"
            "c: release 3: duplicate\n"
        )
        self.plays((["init"], 0, "ok 0\n"), (["show"], 0, table), (["skipped"], 0, left_out))


class Replaced(Program):
    """How the three files are replaced."""

    def test_a_file_that_cannot_be_written_replaces_none(self):
        for name in "pylock.toml", "reqlock.journal":
            self.begin(b"a\n", *A_B_C)
            (self.folder / name).mkdir()
            self.plays((["init"], 5, f"reqlock: {name}: write failed\n"))
            self.assertEqual(sorted(os.listdir(self.folder)), sorted(["requirements.txt", name]))
            (self.folder / name).rmdir()

    def test_links_and_modes_stay(self):
        self.begin(b"", *A_B_C)
        requirements, real = self.folder / "requirements.txt", self.folder / "real.txt"
        requirements.unlink()
        real.write_bytes(b"a\n")
        real.chmod(0o640)
        requirements.symlink_to("real.txt")
        self.plays((["init"], 0, "ok 0\n"), (["add", "c"], 0, "ok 1\n"))
        self.assertTrue(requirements.is_symlink())
        self.holds("a\nc\n", "real.txt")
        self.assertEqual(stat.S_IMODE(real.stat().st_mode), 0o640)


if __name__ == "__main__":
    unittest.main()
