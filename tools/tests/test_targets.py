"""The program with several environments: one edit locks for each of them or for none. They need the program, which ./check builds
first."""

import json
import unittest

from support.made.environments import LINUX, WINDOWS
from support.program import HEAD, Program
from support.rules.journals import file_name, opens_in
from support.rules.locks import Problem, is_refutation, read_index, read_refutation

TWO = {"linux": LINUX, "win": WINDOWS}
# what `a` and `c` need on Windows alone; of `z` there is no release
RELEASES = (
    ("a", "1", ['w; os_name=="nt"']), ("w", "1", []), ("b", "1", []), ("c", "1", ['z; os_name=="nt"']), ("d", "1", []),
)
# 2 of `a` doesn't go with `e` on Windows
KEPT = ("a", "1", []), ("a", "2", []), ("e", "1", ['a<2; os_name=="nt"'])


class Targets(Program):
    environments = TWO

    def locks(self, *words):
        """The locks have these names, one word a target."""
        self.assertEqual([" ".join(self.locked(name)) for name in sorted(self.environments)], [word.replace(",", "") for word in words])

    def versions(self, *words):
        """The locks have these entries, one word a target."""
        pins = [", ".join(f"{name} {version}" for name, version in self.locked(target).items()) for target in sorted(self.environments)]
        self.assertEqual(pins, list(words))

    def opens(self, cursor, steps):
        self.assertEqual(sorted(self.files()), sorted(self.names()))
        self.assertEqual(opens_in(self.files()), ("ok", cursor, steps))
        self.assertEqual(self.call("check"), (0, f"ok {cursor}\n"))

    def journal(self):
        """The header and the steps."""
        return [json.loads(line) for line in self.files()["reqlock.journal"].splitlines()]


class Table(Targets):
    """The worked example of `linux` and `win`, each command a call of its own."""

    COMMANDS = (
        (["init"], 0, "ok 0", "a", "a, w"),
        (["add", "b"], 0, "ok 1", "a, b", "a, b, w"),
        (["add", "c"], 3, "refused no-solution", "a, b", "a, b, w"),
        (["upgrade", "w"], 0, "same", "a, b", "a, b, w"),
        (["upgrade", "z"], 1, "refused not-locked", "a, b", "a, b, w"),
        (["add", 'd; os_name=="nt"'], 0, "ok 2", "a, b", "a, b, d, w"),
        (["undo"], 0, "ok 1", "a, b", "a, b, w"),
        (["undo"], 0, "ok 0", "a", "a, w"),
    )

    def test_is_played(self):
        self.begin(b"a\n", *RELEASES)
        for words, status, reply, *locks in self.COMMANDS:
            before = self.files()
            self.plays((words, status, f"{reply}\n"))
            self.locks(*locks)
            if not reply.startswith("ok"):
                self.assertEqual(self.files(), before)
        self.opens(0, 2)
        self.plays((["redo"], 0, "ok 1\n"), (["redo"], 0, "ok 2\n"), (["redo"], 1, "refused nothing-to-redo\n"))
        self.locks("a, b", "a, b, d, w")
        self.holds('a\nb\nd; os_name=="nt"\n')

    def test_is_saved(self):
        self.begin(b"a\n", *RELEASES)
        self.plays((["init"], 0, "ok 0\n"), (["add", "b"], 0, "ok 1\n"), (["add", 'd; os_name=="nt"'], 0, "ok 2\n"))
        self.opens(2, 2)
        header, both, one = self.journal()
        self.assertEqual([list(target) for target in header["targets"]], [["environment", "lock", "name"]] * 2)
        self.assertEqual([(target["name"], target["environment"]) for target in header["targets"]], list(TWO.items()))
        self.assertEqual([entry[:3] for entry in both["entries"]], [["linux", "b", None], ["win", "b", None]])
        self.assertEqual([entry[:3] for entry in one["entries"]], [["win", "d", None]])
        self.assertIn('{"entries":[["win","d",null,', (self.folder / "reqlock.journal").read_text(encoding="utf-8"))

    def test_a_batch_answers_alike(self):
        self.begin(b"a\n", *RELEASES)
        commands = [(" ".join(words), reply) for words, _, reply, *_ in self.COMMANDS[1:]]
        text, told = ("".join(f"{line}\n" for line in lines) for lines in zip(*commands))
        self.assertEqual(self.call("try", text=text), (0, f"{told}a\n"))
        self.plays((["init"], 0, "ok 0\n"))
        self.assertEqual(self.call("batch", text=text), (0, told))
        self.opens(0, 2)

    def test_no_target_is_locked_where_one_has_no_solution(self):
        for file in b"c\n", b'c\nz; os_name=="posix"\n':
            self.begin(file, *RELEASES)
            self.plays((["init"], 3, "refused no-solution\n"))
            self.assertEqual(list(self.files()), ["requirements.txt"])
        self.begin(b'c; os_name=="posix"\n', *RELEASES)
        self.plays((["init"], 0, "ok 0\n"), (["constrain", "c", "==1"], 0, "ok 1\n"))
        self.locks("c", "")

    def test_what_only_prints(self):
        self.begin(b"a\n", *RELEASES)
        self.plays((["init"], 0, "ok 0\n"), (["add", "b"], 0, "ok 1\n"), (["add", 'd; os_name=="nt"'], 0, "ok 2\n"))
        linux = f"target linux\n{HEAD}a     1        1\nb     1        2\n"
        win = f"target win\n{HEAD}a     1        1\nb     1        2\nd     1        3\nw     1              a\n"
        self.plays((["show"], 0, f"{linux}\n{win}"))
        log = '  0 init\n  1 add b\n{}* 2 add d; os_name=="nt"\n{}'
        both, one = "      linux: + b 1\n      win: + b 1\n", "      win: + d 1\n"
        self.plays((["log"], 0, log.format("", "")), (["log", "--long"], 0, log.format(both, one)))
        self.plays((["check"], 0, "ok 2\n"), (["skipped"], 0, ""))


class Why(Targets):
    def problem(self, name, text):
        index = read_index((self.outside / "index.json").read_bytes())
        return Problem([line + "\n" for line in text.split("\n")], self.environments[name], index, {})

    def test_the_first_target_without_a_solution_is_told(self):
        self.begin(b"a\n", *RELEASES)
        self.plays((["init"], 0, "ok 0\n"), (["why"], 0, "solvable\n"), (["why", "b"], 0, "solvable\n"))
        before = self.files()
        for words, name in (["why", "c"], "win"), (["why", "z"], "linux"), (["why", 'z; os_name=="nt"'], "win"):
            status, told = self.call(*words)
            head, refutation = told.split("\n", 1)
            self.assertEqual((status, head), (3, f"target {name}"))
            self.assertTrue(is_refutation(self.problem(name, f"a\n{words[1]}"), read_refutation(refutation)), told)
            status, sentences = self.call("why", "--explain", words[1])
            self.assertEqual((status, sentences.split("\n")[0]), (3, f"target {name}"))
            self.assertIn(f"the new line ({words[1]})", sentences.split("\n")[1])
        self.plays((["why", "a b"], 1, "refused bad-text\n"))
        self.assertEqual(self.files(), before)

    def test_a_target_without_a_name_has_no_head(self):
        self.lock_for({"win": WINDOWS, "": WINDOWS})
        self.begin(b"a\n", *RELEASES)
        self.plays((["init"], 0, "ok 0\n"), (["why", "c"], 3, "c==1\n-\n"), (["show"], 0, self.shown()))

    def shown(self):
        table = f"{HEAD}a     1        1\nw     1              a\n"
        return f"{table}\ntarget win\n{table}"


class Kept(Targets):
    """Each target keeps the versions of its own lock."""

    def test_versions_stay_where_they_were(self):
        self.begin(b"a\ne\n", *KEPT)
        self.plays((["init"], 0, "ok 0\n"))
        self.versions("a 2, e 1", "a 1, e 1")
        self.plays((["remove", "e"], 0, "ok 1\n"))
        self.versions("a 2", "a 1")
        self.plays((["relock"], 0, "same\n"), (["add", 'e; os_name=="posix"'], 0, "ok 2\n"))
        self.versions("a 2, e 1", "a 1")
        self.plays((["upgrade", "e"], 0, "same\n"), (["upgrade", "a"], 0, "ok 3\n"))
        self.versions("a 2, e 1", "a 2")
        self.assertEqual([entry[:2] for entry in self.journal()[-1]["entries"]], [["win", "a"]])
        self.plays((["log", "--long"], 0, "\n".join([
            "  0 init", "  1 remove e", "      linux: - e 1", "      win: - e 1", '  2 add e; os_name=="posix"', "      linux: + e 1",
            "* 3 upgrade a", "      win: a 1 -> 2", "",
        ])))
        self.plays((["undo"], 0, "ok 2\n"))
        self.versions("a 2, e 1", "a 1")
        self.opens(2, 3)

    def test_a_name_may_be_locked_in_one_alone(self):
        self.begin(b'a; os_name=="nt"\nb; os_name=="posix"\n', ("a", "1", []), ("b", "1", []))
        self.plays((["init"], 0, "ok 0\n"))
        newer = ("a", "1", []), ("a", "2", []), ("b", "1", []), ("b", "2", [])
        self.begin((self.folder / "requirements.txt").read_bytes(), *newer)
        self.plays((["relock"], 0, "ok 1\n"), (["upgrade", "a"], 0, "ok 2\n"))
        self.versions("b 1", "a 2")
        self.plays((["upgrade", "a", "c"], 1, "refused not-locked\n"), (["upgrade", "a", "_"], 1, "refused bad-text\n"))
        self.plays((["upgrade"], 0, "ok 3\n"))
        self.versions("b 2", "a 2")


class Files(Targets):
    def begin_two(self):
        self.begin(b"a\n", *RELEASES)
        self.plays((["init"], 0, "ok 0\n"), (["add", "b"], 0, "ok 1\n"))

    def test_a_digit_that_was_changed(self):
        self.begin_two()
        for name in TWO:
            path = self.folder / file_name(name)
            whole = path.read_bytes()
            path.write_bytes(whole.replace(b"1000", b"1001", 1))
            told = 4, f"reqlock: {file_name(name)}: files-disagree\n"
            self.plays(*((words, *told) for words in (["check"], ["show"], ["log"], ["undo"], ["add", "d"], ["why"])))
            path.write_bytes(whole)
        self.opens(1, 1)

    def test_a_lock_that_is_not_there(self):
        self.begin_two()
        for name in TWO:
            path = self.folder / file_name(name)
            whole = path.read_bytes()
            path.unlink()
            told = 4, f"reqlock: {file_name(name)}: unreadable\n"
            self.plays(*((words, *told) for words in (["check"], ["show"], ["undo"], ["add", "d"])))
            path.write_bytes(whole)

    def test_which_fault_is_told_first(self):
        self.begin_two()
        whole = self.files()
        requirements, linux, win, journal = self.names()
        for changes, told in (
            ({linux: None, win: None}, f"{linux}: unreadable"), ({journal: None, linux: None}, f"{journal}: unreadable"),
            ({journal: b"[", linux: None, win: b""}, f"{journal}: line 1: journal-broken"),
            ({requirements: b"b\n", win: None}, f"{win}: unreadable"), ({requirements: b"b\n", win: b""}, f"{requirements}: files-disagree"),
            ({linux: b"", win: b""}, f"{linux}: files-disagree"), ({win: whole[linux]}, f"{win}: files-disagree"),
        ):
            with self.subTest(told=told):
                self.put({name: content for name, content in (whole | changes).items() if content is not None})
                self.assertEqual(self.call("undo"), (4, f"reqlock: {told}\n"))

    def test_a_file_that_cannot_be_written(self):
        self.begin_two()
        whole = self.files()
        for name in TWO:
            beside = self.folder / f"{file_name(name)}.new"
            beside.mkdir()
            self.assertEqual(self.call("add", "d"), (5, f"reqlock: {file_name(name)}: write failed\n"))
            beside.rmdir()
            self.assertEqual(self.files(), whole)

    def test_a_lock_that_does_not_change_is_not_touched(self):
        self.begin_two()
        first = (self.folder / "pylock.linux.toml").stat()
        self.assertEqual(self.call("add", 'd; os_name=="nt"'), (0, "ok 2\n"))
        last = (self.folder / "pylock.linux.toml").stat()
        self.assertEqual((first.st_ino, first.st_mtime_ns), (last.st_ino, last.st_mtime_ns))

    def test_locks_of_targets_that_a_new_history_leaves_out_stay(self):
        self.begin_two()
        old = self.files()
        self.lock_for({"": LINUX, "win": WINDOWS})
        self.plays((["init"], 0, "ok 0\n"), (["check", "-q"], 0, "ok 0\n"))
        self.assertEqual(sorted(self.files()), sorted([*self.names(), "pylock.linux.toml"]))
        self.assertEqual(self.files()["pylock.linux.toml"], old["pylock.linux.toml"])
        (self.folder / "pylock.linux.toml").write_bytes(b"x")
        self.plays((["add", "d"], 0, "ok 1\n"), (["undo"], 0, "ok 0\n"))
        self.assertEqual(self.files()["pylock.linux.toml"], b"x")
        self.assertEqual([target["name"] for target in self.journal()[0]["targets"]], ["", "win"])

    def test_equal_environments_lock_alike(self):
        self.lock_for({"": LINUX, "one": LINUX, "two": LINUX})
        self.begin(b"a\n", *RELEASES)
        self.plays((["init"], 0, "ok 0\n"), (["add", "b"], 0, "ok 1\n"), (["remove", "a"], 0, "ok 2\n"))
        self.opens(2, 2)
        self.assertEqual(len({self.files()[file_name(name)] for name in self.environments}), 1)

    def test_a_target_with_a_name_alone(self):
        self.lock_for({"win": WINDOWS})
        self.begin(b"a\n", *RELEASES)
        self.plays((["init"], 0, "ok 0\n"), (["add", "b"], 0, "ok 1\n"))
        self.assertEqual(sorted(self.files()), ["pylock.win.toml", "reqlock.journal", "requirements.txt"])
        self.plays((["log", "--long"], 0, "  0 init\n* 1 add b\n      win: + b 1\n"), (["undo"], 0, "ok 0\n"))
        self.plays((["show"], 0, f"target win\n{HEAD}a     1        1\nw     1              a\n"))


class Options(Targets):
    """The values of `--env`: a path, or a name, `=` and a path."""

    def given(self, *values, words=("init",), index=True):
        """What a call with these values answers. A path is `P`."""
        options = ["--dir", self.folder, *(["--index", self.outside / "index.json"] if index else [])]
        for value in values:
            path = value.replace("P", str(self.environment_file("linux")))
            options += [f"--env={path}"] if path.startswith("-") else ["--env", path]
        return self.answered(*options, *words)

    def setUp(self):
        super().setUp()
        self.begin(b"a\n", *RELEASES)

    def test_name_a_target(self):
        for values, files in (
            (["P"], ["pylock.toml"]), (["=P"], ["pylock.toml"]), (["a=P"], ["pylock.a.toml"]),
            (["b=P", "a=P"], ["pylock.a.toml", "pylock.b.toml"]), (["x=P", "P"], ["pylock.toml", "pylock.x.toml"]),
            (["a" * 32 + "=P"], [f"pylock.{'a' * 32}.toml"]), (["a--9-=P"], ["pylock.a--9-.toml"]),
        ):
            self.put({"requirements.txt": b"a\n"})
            with self.subTest(values=values):
                self.assertEqual(self.given(*values), (0, "ok 0\n", ""))
                self.assertEqual(sorted(self.files()), sorted(["requirements.txt", *files, "reqlock.journal"]))
                self.assertEqual(self.call("check"), (0, "ok 0\n"))

    def test_divide_at_the_first_sign(self):
        path = self.outside / "a=b.json"
        path.write_text(json.dumps(LINUX), encoding="utf-8")
        self.assertEqual(self.given(f"={path}"), (0, "ok 0\n", ""))
        self.assertEqual(self.given(f"x={path}"), (0, "ok 0\n", ""))
        self.assertEqual(self.given(str(path))[0], 2)

    def test_bad_names(self):
        told = 2, "", "reqlock: --env has a bad name\n"
        for name in "a" * 33, "A", "Linux", "1", "-", "-a", "a_b", "a.b", " ", "a ", " a", "\u00e9", "a/b", "pylock.toml":
            for values in [f"{name}=P"], ["P", f"{name}=P"], ["x=P", "x=P", f"{name}=P"], [f"{name}=P", "x=P", "x=P"], [f"{name}="]:
                with self.subTest(values=values):
                    self.assertEqual(self.given(*values), told)
        self.assertEqual(list(self.files()), ["requirements.txt"])

    def test_names_that_stand_twice(self):
        for values, name in (
            (["x=P", "x=P"], "x "), (["P", "P"], ""), (["P", "=P"], ""), (["x=P", "P", "y=P", "P", "x=P"], ""),
            (["y=P", "x=P", "x=P", "y=P"], "x "), (["x=none", "x=none"], "x "),
        ):
            with self.subTest(values=values):
                self.assertEqual(self.given(*values), (2, "", f"reqlock: --env {name}twice\n"))
        self.assertEqual(list(self.files()), ["requirements.txt"])

    def test_faults_are_told_before_any_file_is_read(self):
        (self.folder / "requirements.txt").unlink()
        for values in ["A=P"], ["P", "P"]:
            for word in "init", "try":
                self.assertEqual(self.given(*values, words=[word])[0], 2)
        self.assertEqual(self.given("P"), (4, "", "reqlock: requirements.txt: unreadable\n"))

    def test_missing_options_are_told_before_names(self):
        self.assertEqual(self.given("A=P", index=False), (2, "", "reqlock: --index is needed\n"))
        self.assertEqual(self.given(), (2, "", "reqlock: --env is needed\n"))

    def test_what_needs_no_environment_does_not_look_at_them(self):
        self.assertEqual(self.given("P"), (0, "ok 0\n", ""))
        for words, told in ((["add", "b"], "ok 1\n"), (["undo"], "ok 0\n"), (["check"], "ok 0\n"), (["why"], "solvable\n")):
            self.assertEqual(self.given("A=none", "x=none", "x=none", words=words), (0, told, ""))

    def test_faults_of_environments(self):
        """They are read in the order in which they are given, and all are read before a fault in one is told."""
        bad = self.outside / "bad.json"
        bad.write_bytes(json.dumps(LINUX | {"os_name": 1}).encode())
        named = "bad-environment os_name"
        for values, told in (
            (["x=none"], "environment x: unreadable"), (["none"], "environment: unreadable"), (["=none"], "environment: unreadable"),
            ([f"x={bad}"], f"environment x: {named}"), ([f"{bad}"], f"environment: {named}"),
            (["z=none", "a=none"], "environment z: unreadable"), ([f"z={bad}", f"a={bad}"], f"environment z: {named}"),
            ([f"z={bad}", "a=none"], "environment a: unreadable"), (["P", f"z={bad}", f"a={bad}"], f"environment z: {named}"),
        ):
            with self.subTest(values=values):
                self.assertEqual(self.given(*values), (4, "", f"reqlock: {told}\n"))
        (self.outside / "index.json").write_bytes(b"{")
        self.assertEqual(self.given(f"x={bad}"), (4, "", "reqlock: index: not-json\n"))
        self.assertEqual(self.given("x=none"), (4, "", "reqlock: environment x: unreadable\n"))
        self.assertEqual(list(self.files()), ["requirements.txt"])


if __name__ == "__main__":
    unittest.main()
