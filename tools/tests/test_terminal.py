"""The program at a terminal: what a person is told without asking, in colours and in lines of the terminal's width; and that a pipe, a file and
a CI job are told none of it."""

import os
import re
import resource
import signal
import subprocess
import time
import unittest
from pathlib import Path

from support.made.environments import LINUX, WINDOWS
from support.places import PROGRAM
from support.program import Program
from support.terminals import shown_on_terminal

CODE = re.compile("\x1b\\[[0-9]*m")
TICKS = os.sysconf("SC_CLK_TCK")
BOLD, RED, GREEN, END = "\x1b[1m", "\x1b[31m", "\x1b[32m", "\x1b[0m"


def used_by(process):
    """The seconds that a process used a processor so far."""
    told = Path(f"/proc/{process}/stat").read_text(encoding="ascii").rpartition(")")[2].split()
    return (int(told[11]) + int(told[12])) / TICKS


class Terminal(Program):
    def at_terminal(self, *words, variables=(), before=None, begun=None):
        """The status of a call whose standard error is a terminal, its standard output, and what the terminal shows. `begun` is given the
        process."""
        told = []

        def start(terminal):
            call = subprocess.Popen(
                [PROGRAM, *self.needed(words), *words], stdin=subprocess.DEVNULL, stdout=subprocess.PIPE, stderr=terminal,
                env={"PATH": os.environ["PATH"], "TERM": "xterm", **dict(variables)}, preexec_fn=before,
            )
            if begun is not None:
                begun(call.pid)
            told.append(call.communicate(timeout=60)[0].decode())
            return call

        status, shown = shown_on_terminal(start)
        return status, told[0], shown.replace("\r\n", "\n")

    def needed(self, words):
        """The options of a call; only what is about a first lock reads environments."""
        return self.options() if {"init", "--init"}.intersection(words) else self.options()[:4]

    def plainly(self, *words, **rest):
        """The same without colours."""
        status, output, shown = self.at_terminal(*words, **rest)
        return status, output, CODE.sub("", shown)

    def output_at_terminal(self, *words, variables=()):
        """What a terminal shows that is the standard output of a call."""
        _, shown = shown_on_terminal(
            lambda terminal: subprocess.Popen(
                [PROGRAM, *self.options(), *words], stdin=subprocess.DEVNULL, stdout=terminal, stderr=subprocess.DEVNULL,
                env={"PATH": os.environ["PATH"], "TERM": "xterm", **dict(variables)},
            )
        )
        return shown.replace("\r\n", "\n")

    def begin_plugins(self):
        releases = ("aa", "1", ["mid"]), ("aa", "2", ["mid<2"]), ("mid", "1", []), ("mid", "2", [])
        self.begin(b"mid\n", *releases)
        self.assertEqual(self.call("init"), (0, "ok 0\n"))


class Told(Terminal):
    def test_what_an_edit_changed_without_asking(self):
        self.begin_plugins()
        moved = "moved: mid 2 -> 1 (--keep-locked keeps it, with aa 1)\n"
        self.assertEqual(self.plainly("add", "aa"), (0, "ok 1\n", f"+ 2: aa\n+ aa 2\nmid 2 -> 1\n{moved}"))
        self.assertEqual(self.plainly("undo"), (0, "ok 0\n", "- 2: aa\n- aa 2\nmid 1 -> 2\n"))

    def test_in_colours(self):
        self.begin_plugins()
        shown = self.at_terminal("add", "aa")[2].splitlines()
        self.assertEqual(shown[:3], [f"{GREEN}+ 2: aa{END}", f"{GREEN}+ aa 2{END}", f"{BOLD}mid{END} {RED}2{END} -> {GREEN}1{END}"])
        self.assertTrue(shown[3].startswith(f"moved: {BOLD}mid{END} {RED}2{END} -> {GREEN}1{END} ("), shown[3])

    def test_no_colours_where_none_are_wanted(self):
        self.begin_plugins()
        for variables in {"NO_COLOR": "1"}, {"TERM": "dumb"}:
            with self.subTest(variables=variables):
                shown = self.at_terminal("add", "aa", "--dry-run", variables=variables)[2]
                self.assertEqual(shown, "moved: mid 2 -> 1 (--keep-locked keeps it, with aa 1)\n")
        self.assertIn(BOLD, self.at_terminal("add", "aa", "--dry-run", variables={"NO_COLOR": ""})[2])

    def test_nothing_in_a_job(self):
        self.begin_plugins()
        self.assertEqual(self.at_terminal("add", "aa", variables={"CI": "true"}), (0, "ok 1\n", ""))
        self.assertEqual(self.output_at_terminal("diff", variables={"CI": "true"}), "+ 2: aa\n+ aa 2\nmid 2 -> 1\n")

    def test_nothing_in_a_pipe(self):
        self.begin_plugins()
        self.assertEqual(self.told("add", "aa"), (0, "ok 1\n", ""))
        self.assertEqual(self.told("add", "none"), (3, "refused no-solution\n", ""))
        self.assertEqual(self.told("init")[1:], ("ok 0\n", ""))

    def test_why_there_is_no_solution_at_once(self):
        self.begin_plugins()
        status, output, shown = self.plainly("add", "aa>2")
        self.assertEqual((status, output), (3, "refused no-solution\n"))
        reasons = self.told("why", "--explain", "aa>2")[1]
        self.assertTrue(reasons.startswith("No choice of versions meets "))
        self.assertEqual(shown, f"{reasons}The newest aa of the snapshot is 2.\n")

    def test_more_than_forty_lines_are_left_to_why(self):
        for count, is_told in (40, True), (60, False):
            with self.subTest(count=count):
                self.begin(b"", *(("aa", str(version), [f"z{version}"]) for version in range(1, count // 2 + 10)))
                self.assertEqual(self.call("init"), (0, "ok 0\n"))
                reasons = self.told("why", "--explain", "aa")[1]
                self.assertEqual(len(reasons.splitlines()) <= 40, is_told)
                options = f"--dir {self.folder} --index {self.outside / 'index.json'}"
                question = f"no versions meet all requirements\nask: reqlock {options} why --explain aa\n"
                status, output, shown = self.plainly("add", "aa")
                self.assertEqual((status, output), (3, "refused no-solution\n"))
                self.assertTrue(shown.startswith(f"{reasons if is_told else question}aa 1 to "), shown)

    def test_how_a_history_is_begun(self):
        self.begin(b"aa\n", ("aa", "1", []))
        folder, index = f"--dir {self.folder}", self.outside / "index.json"
        for words, given in (["show"], "index.json"), (["relock"], index), (["check", "--current"], index):
            with self.subTest(words=words):
                shown = self.plainly(*words)[2]
                begun = f"\n`reqlock init` begins a history here\n    reqlock {folder} --index {given} --env environment.json init\n"
                self.assertTrue(shown.endswith(begun), shown)

    def test_how_an_index_is_made_again(self):
        self.begin_plugins()
        _, _, shown = self.plainly("add", "aaa")
        index, file = self.outside / "index.json", self.folder / "requirements.txt"
        command = f"    reqlock-snapshot simple https://index.example/simple/ aaa --for {file} --output {index}\n"
        self.assertTrue(shown.endswith(f"this makes the snapshot with it:\n{command}"), shown)

    def test_why_a_first_lock_has_no_solution(self):
        self.begin(b"aa>2\n", ("aa", "1", []))
        status, output, shown = self.plainly("init")
        self.assertEqual((status, output), (3, "refused no-solution\n"))
        self.assertIn("No choice of versions meets line 1 (aa>2).\n", shown)
        self.assertTrue(shown.endswith("The newest aa of the snapshot is 1.\n"), shown)

    def test_a_file_of_pins_that_is_not_there(self):
        self.begin_plugins()
        none, lines = self.outside / "none", self.outside / "pins.txt"
        lines.write_text("flask==2\n", encoding="utf-8")
        for words, path in (
            (["--pins", none], none), (["--pins", lines, "--pins", none], none), (["--pins", f"a={lines}", "--pins", f"b={none}"], none),
            (["--pins", self.outside], self.outside),
        ):
            with self.subTest(words=words):
                cause = "this is no regular file" if path == self.outside else "No such file or directory (os error 2)"
                told = "pins" if words[1] != f"a={lines}" else "pins b"
                self.assertEqual(self.plainly("init", *words)[2], f"reqlock: {told}: unreadable\n{path}: {cause}\n")
        shown = self.plainly("init", "--pins", lines, "--pins", "-", "--pins", "-")[2]
        self.assertEqual(shown, "reqlock: pins: unreadable\nA file that --pins names can't be read.\n")

    def test_how_many_packages_are_locked(self):
        self.begin(b"aa\n", ("aa", "1", ["mid"]), ("mid", "1", []))
        self.assertEqual(self.plainly("init"), (0, "ok 0\n", "2 packages locked in pylock.toml\n"))

    def test_how_many_packages_are_locked_for_each_target(self):
        self.lock_for({"one": LINUX, "two": WINDOWS})
        self.begin(b"aa\nbb ; os_name == 'nt'\n", ("aa", "1", []), ("bb", "1", []))
        locked = "ok 0\ntarget one\n+ aa 1\ntarget two\n+ aa 1\n+ bb 1\n"
        told = "1 package would be locked in pylock.one.toml\n2 packages would be locked in pylock.two.toml\n"
        self.assertEqual(self.plainly("init", "--dry-run"), (0, locked, told))
        self.assertEqual(self.plainly("init"), (0, "ok 0\n", told.replace("would be ", "")))
        self.assertEqual(self.call("constrain", "bb", ">=1"), (0, "ok 1\n"))
        told += "The history that stands here would be replaced, with its 1 step.\n"
        self.assertEqual(self.plainly("init", "--dry-run"), (0, locked, told))

    def test_that_nothing_changes(self):
        self.begin_plugins()
        same = "Nothing changes, and nothing is saved.\n"
        options = f"--dir {self.folder} --index {self.outside / 'index.json'}"
        newest = f"Nothing newer fits. What holds newer releases back is told by:\n    reqlock {options} outdated\n"
        for words, told in (["relock"], same), (["constrain", "mid"], same), (["upgrade"], newest), (["upgrade", "mid"], newest):
            for more in [], ["--dry-run"]:
                with self.subTest(words=[*words, *more]):
                    self.assertEqual(self.plainly(*words, *more), (0, "same\n", told))

    def test_that_the_index_alone_would_change(self):
        self.begin_plugins()
        index = self.outside / "index.json"
        index.write_bytes(index.read_bytes() + b"\n")
        told = "The index is another one. Nothing else would change, and nothing is saved.\n"
        for more in [], ["--dry-run"]:
            self.assertEqual(self.plainly("relock", "--if-needed", *more), (0, "same\n", told))

    def test_of_a_save_that_fails_the_fault_alone(self):
        self.begin_plugins()
        (self.folder / "pylock.toml.new").mkdir()
        told = (
            "reqlock: pylock.toml: write failed\n"
            "Nothing was saved. Look whether you may write in the folder, and whether the disk has room.\n"
        )
        for words in ["add", "aa"], ["init"]:
            with self.subTest(words=words):
                self.assertEqual(self.plainly(*words), (5, "", told))

    def test_what_an_init_replaces(self):
        self.begin_plugins()
        self.assertEqual(self.call("add", "aa"), (0, "ok 1\n"))
        shown = self.plainly("init")[2]
        self.assertIn("The history that stood here is replaced, with its 1 step.", shown)
        self.assertIn(f"\n    git -C {self.folder} checkout HEAD -- requirements.txt 'pylock*.toml' reqlock.journal\n", shown)
        self.assertNotIn("replaced", self.plainly("init")[2])
        # a step that was undone counts too
        for words in ["remove", "aa"], ["undo"]:
            self.call(*words)
        self.assertIn("is replaced, with its 1 step.", self.plainly("init")[2])

    def test_what_an_edit_behind_an_undo_drops(self):
        self.begin_plugins()
        for words in ["add", "aa"], ["remove", "mid"], ["undo"], ["undo"]:
            self.call(*words)
        words = "add", "aa<2"
        for more, told in (["--dry-run"], "would be gone from the history: redo would have"), ([], "are gone from the history: redo has"):
            shown = self.plainly(*words, *more)[2]
            self.assertTrue(shown.endswith(f"2 steps that were undone {told} nothing left to go on to.\n"), shown)

    def test_what_a_history_forgets(self):
        self.begin_plugins()
        for words in ["add", "aa"], ["remove", "aa"], ["add", "aa<2"]:
            self.call(*words)
        back = (
            " Where git has them, this brings the files back as they were committed last:\n"
            f"    git -C {self.folder} checkout HEAD -- requirements.txt 'pylock*.toml' reqlock.journal\n"
        )
        for words, reply, told in (
            (["--keep", "1", "--dry-run"], "ok 1\n", "The first 2 steps would be gone from the history.\n"),
            (["--before", "1", "--dry-run"], "ok 2\n", "The first step would be gone from the history.\n"),
            (["--before", "0"], "same\n", "Nothing changes, and nothing is saved.\n"),
            (["--before", "1"], "ok 2\n", f"The first step is gone from the history.{back}"),
            (["--keep", "0"], "ok 0\n", f"The first 2 steps are gone from the history.{back}"),
        ):
            with self.subTest(words=words):
                self.assertEqual(self.plainly("forget", *words, variables={"COLUMNS": ""}), (0, reply, told))
        told = "reqlock: the history stands at place 0, and can't begin 1 before it\nThe places of the history are told by:\n    reqlock log\n"
        self.assertEqual(self.plainly("forget", "--keep", "1"), (2, "", told))
        self.assertEqual(self.plainly("forget", "--keep", "0", "-q"), (0, "same\n", ""))
        self.call("add", "mid>1")
        self.assertEqual(self.plainly("forget", "--keep", "0", variables={"CI": "1"})[2], "")

    def test_what_pip_would_warn_of(self):
        self.begin(
            b"late\n", ("late", "1rc1", []), ("aa", "1", []), ("aa", "2", [], {"yanked": True}), ("bb", "1", ["aa ; extra == 'x'"])
        )
        self.assertIn("late 1rc1 is a pre-release, and no line on late names one.\n", self.plainly("init")[2])
        self.assertIn("aa 2 is yanked: ", self.plainly("add", "aa==2")[2])
        self.assertIn("by the extra nope here; bb 1 is locked without it.\n", self.plainly("add", "bb[nope,x]")[2])
        self.assertNotIn("the extra x", self.plainly("undo")[2])

    def test_a_command_is_what_is_told_as_one(self):
        """It is bold and whole, and a path that begins with a space is none."""
        self.begin_plugins()
        command = f"reqlock --dir {self.folder} --index {self.outside / 'index.json'} outdated"
        for columns in "40", "":
            with self.subTest(columns=columns):
                shown = self.at_terminal("upgrade", variables={"COLUMNS": columns})[2]
                self.assertTrue(shown.endswith(f"\n    {BOLD}{command}{END}\n"), shown)
        fault = "reqlock: pins: unreadable\n"
        for columns, shown in ("40", " none: No such file or directory (os\nerror 2)\n"), ("", " none: No such file or directory (os error 2)\n"):
            with self.subTest(columns=columns):
                self.assertEqual(self.at_terminal("init", "--pins", " none", variables={"COLUMNS": columns})[2], f"{fault}{shown}")

    def test_lines_of_the_width(self):
        self.begin_plugins()
        shown = self.plainly("add", "aa>2", variables={"COLUMNS": "40"})[2]
        self.assertLessEqual(max(map(len, shown.splitlines())), 40)
        whole = self.plainly("add", "aa>2")[2]
        self.assertEqual(shown.split(), whole.split())
        told = self.output_at_terminal("why", "--explain", "aa>2", variables={"COLUMNS": "40"})
        self.assertLessEqual(max(map(len, told.splitlines())), 40)
        self.assertEqual(told.split(), self.told("why", "--explain", "aa>2")[1].split())

    def test_an_option_that_counts_for_nothing(self):
        self.begin_plugins()
        shown = self.plainly("relock", "--env", self.environment_file(""))[2]
        self.assertEqual(
            shown,
            "Nothing changes, and nothing is saved.\n"
            "--env counts for nothing here: the history has its own environments. `reqlock retarget` gives it others.\n",
        )

    def test_what_to_type_where_an_edit_is_refused(self):
        self.begin(b"aa\nbb\n", ("aa", "1", ["mid"]), ("mid", "1", []), ("bb", "1", []))
        self.assertEqual(self.call("init"), (0, "ok 0\n"))
        options = f"--dir {self.folder} --index {self.outside / 'index.json'}"
        for words, steps in (
            (["add", "aa>1"], f"    reqlock {options} constrain aa '>1'\n"), (["add", "aa"], f"    reqlock {options} upgrade aa\n"),
            (["add", "aa[x]"], f"    reqlock {options} replace --line aa 'aa[x]'\n"),
            (["remove", "mid"], "    reqlock show mid\n"), (["constrain", "mid", "<2"], f"    reqlock {options} add 'mid<2'\n"),
            (["remove", "none"], "    reqlock show --tree\n"), (["upgrade", "none"], "    reqlock show\n"),
            (["add", "cc=2"], "A single = compares nothing: write cc==2\n"), (["diff", "7"], "    reqlock log\n"),
        ):
            with self.subTest(words=words):
                shown = self.plainly(*words)[2]
                self.assertTrue(shown.endswith(steps), shown)


class Waiting(Terminal):
    """A reason that takes longer to find than anybody waits: of twelve packages each two take different ones of eleven places. The call may use
    a processor for a second, and is stopped once meanwhile, for longer than a person isn't told."""

    PATIENCE = 2
    WORDS = ["why", "--init"], ["why", "--init", "--explain"]

    def begin_pigeons(self):
        names = [f"p{number:02}" for number in range(12)]
        releases = [(name, f"{hole}", [f"{other}!={hole}" for other in names[own + 1 :]]) for own, name in enumerate(names) for hole in range(11)]
        self.begin("".join(f"{name}\n" for name in names).encode(), *releases)

    @staticmethod
    def end_soon():
        resource.setrlimit(resource.RLIMIT_CPU, (1, 1))

    def rest(self, call):
        """Stops a process that is at work, and has it go on later."""
        while used_by(call) < 0.4:
            time.sleep(0.02)
        os.kill(call, signal.SIGSTOP)
        time.sleep(self.PATIENCE + 0.2)
        os.kill(call, signal.SIGCONT)

    def in_a_pipe(self, *words):
        """What a call writes that no person reads."""
        call = subprocess.Popen(
            [PROGRAM, *self.options(), *words], stdin=subprocess.DEVNULL, stdout=subprocess.PIPE, stderr=subprocess.STDOUT, preexec_fn=self.end_soon,
        )
        self.rest(call.pid)
        written = call.communicate(timeout=60)[0]
        self.assertLess(call.returncode, 0)
        return written.decode()

    def test_a_call_that_takes_long_says_so_once(self):
        self.begin_pigeons()
        for words in self.WORDS:
            with self.subTest(words=words):
                status, output, shown = self.plainly(*words, before=self.end_soon, begun=self.rest)
                self.assertLess(status, 0)
                self.assertEqual((output, shown), ("", "reqlock: still at it; Ctrl-C ends the call, and changes no file\n"))

    def test_it_says_so_to_nobody_else(self):
        self.begin_pigeons()
        for words in self.WORDS:
            with self.subTest(words=words):
                status, output, shown = self.plainly("-q", *words, before=self.end_soon, begun=self.rest)
                self.assertLess(status, 0)
                self.assertEqual((output, shown), ("", ""))
                self.assertEqual(self.in_a_pipe(*words), "")


class Output(Terminal):
    """What a terminal shows that is standard output."""

    def test_differences_and_names(self):
        self.begin_plugins()
        self.assertEqual(self.call("add", "aa"), (0, "ok 1\n"))
        wanted = f"{GREEN}+ 2: aa{END}\n{GREEN}+ aa 2{END}\n{BOLD}mid{END} {RED}2{END} -> {GREEN}1{END}\n"
        self.assertEqual(self.output_at_terminal("diff"), wanted)
        self.assertIn(f"{BOLD}aa{END}    2", self.output_at_terminal("show"))
        self.assertEqual(self.output_at_terminal("log"), f"  0 init\n{BOLD}* 1 add aa{END}\n")
        self.assertNotIn("\x1b", self.output_at_terminal("diff", "--json"))
        self.assertEqual(self.output_at_terminal("diff", variables={"NO_COLOR": "1"}), CODE.sub("", wanted))

    def test_a_package_that_is_named_as_a_head(self):
        """What a row is says who makes the table, and not its name."""
        self.begin(b"name<2\ntarget\n", ("name", "1", []), ("name", "2", []), ("target", "1", []))
        self.assertEqual(self.call("init"), (0, "ok 0\n"))
        rows = f"{BOLD}name{END}    1        1\n{BOLD}target{END}  1        2\n"
        self.assertEqual(self.output_at_terminal("show"), f"name    version  line  needed by\n{rows}")
        head, row = self.output_at_terminal("outdated").splitlines()
        self.assertTrue(head.startswith("name  locked  "), head)
        self.assertTrue(row.startswith(f"{BOLD}name{END}  1       "), row)

    def test_sentences_are_broken_once(self):
        """Where one ends and where a line stands by itself is as in a pipe, whatever the width."""
        self.begin(b"", ("aa", "1", ["bb>=2"]), ("bb", "1", []), ("bb", "2.x", []))
        self.assertEqual(self.call("init"), (0, "ok 0\n"))
        words = "why", "--explain", "aa"
        piped = self.told(*words)[1]
        self.assertTrue(piped.endswith("\nbb 2.x: release 1: version bad-version\n"), piped)
        self.assertEqual(self.output_at_terminal(*words, variables={"COLUMNS": "100"}), piped)
        shown = self.output_at_terminal(*words, variables={"COLUMNS": "60"})
        self.assertNotEqual(shown, piped)
        self.assertEqual(shown.replace("\n   ", " "), piped)
        self.assertTrue(self.plainly("add", "aa", variables={"COLUMNS": "60"})[2].startswith(shown))

    def test_why_a_release_is_not_locked_in_lines_of_the_width(self):
        self.begin_plugins()
        words = "why", "--not", "mid==1"
        shown = self.output_at_terminal(*words, variables={"COLUMNS": "40"})
        self.assertLessEqual(max(map(len, shown.splitlines())), 40)
        self.assertEqual(shown.split(), self.told(*words)[1].split())

    def test_what_a_new_lock_would_move(self):
        self.begin_plugins()
        self.begin(b"mid\n", ("mid", "1", []))
        words = "check", "--current"
        self.assertTrue(self.output_at_terminal(*words).startswith(f"stale\n{BOLD}mid{END} {RED}2{END} -> {GREEN}1{END}\n"))
        self.assertEqual(self.output_at_terminal(*words, "--json"), self.told(*words, "--json")[1])

    def test_variables_whose_texts_have_spaces(self):
        self.begin_plugins()
        self.lock_for({"": LINUX | {"platform_version": "#2 SMP a -> b"}})
        self.assertEqual(self.call("retarget"), (0, "ok 1\n"))
        before = LINUX["platform_version"]
        self.assertIn(" ", before)
        moved = f"target: {BOLD}platform_version{END} {RED}{before}{END} -> {GREEN}#2 SMP a -> b{END}\n"
        self.assertEqual(self.output_at_terminal("diff"), moved)
        step = f"{BOLD}* 1 retarget: {CODE.sub('', moved)[:-1]}{END}\n"
        self.assertEqual(self.output_at_terminal("log", "--long"), f"  0 init\n{step}      {moved}")

    def test_entries_of_several_targets(self):
        self.lock_for({"one": LINUX, "two": WINDOWS})
        self.begin(b"", ("aa", "1", []))
        self.assertEqual(self.call("init"), (0, "ok 0\n"))
        self.assertEqual(self.call("add", "aa"), (0, "ok 1\n"))
        entry = f"{GREEN}+ aa 1{END}\n"
        self.assertEqual(self.output_at_terminal("log", "--long"), f"  0 init\n{BOLD}* 1 add aa{END}\n      one: {entry}      two: {entry}")
        self.assertEqual(self.output_at_terminal("diff"), f"{GREEN}+ 1: aa{END}\ntarget one\n{entry}target two\n{entry}")

    def test_a_text_paints_nothing(self):
        """A control character of a file stays a text, also where the program writes its own."""
        self.begin_plugins()
        self.call("add", "aa  # \x9b31m")
        self.assertEqual(self.output_at_terminal("diff").splitlines()[0], f"{GREEN}+ 2: aa  # \\u{{9b}}31m{END}")


if __name__ == "__main__":
    unittest.main()
