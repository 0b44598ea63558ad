"""Tests of tools/fleet.py over a stand-in for the program: the words, the table, JSON, folders that are broken, and Ctrl-C."""

import json
import os
import shutil
import signal
import subprocess
import time
import unittest
from pathlib import Path

from support.fleets import ASKED, Fleet, table
from support.terminals import shown_on_terminal

from reqlock_tools.fleet_output import same_reason
from reqlock_tools.fleet_row import Entry, read_changes


class Parts(unittest.TestCase):
    def test_what_a_difference_tells(self):
        text = (
            "- 2: a<2\n+ 2: a -> b\n\\ no line ending\ntarget linux\na 1 -> 2\n+ b 1.0\ntarget windows\n- c 3\n"
            f"- index: {'0' * 64}\n+ index: {'1' * 64}\nmoved: a 1 -> 2 (no solution keeps all that is locked)\n"
        )
        lines = ["- 2: a<2", "+ 2: a -> b", "\\ no line ending"]
        entries = [Entry("linux", "a", "1", "2"), Entry("linux", "b", None, "1.0"), Entry("windows", "c", "3", None)]
        moved = ["moved: a 1 -> 2 (no solution keeps all that is locked)"]
        self.assertEqual(read_changes(text), (lines, entries, True, moved, []))

    def test_what_one_of_targets_tells(self):
        targets = ["+ target", "+ target mac", "target linux: platform_version #1 SMP  -> #2 -> x"]
        text = "\n".join([*targets, "target linux", "- old 1", "target mac", "+ 12 entries", "target win", "- 1 entry", ""])
        self.assertEqual(read_changes(text), ([], [Entry("linux", "old", "1", None)], False, [], targets))

    def test_which_reasons_are_the_same(self):
        one = "No choice meets line 3 (a<2) and line 12 as constrained (b>=2).\n1. x doesn't match >=2 of\n   line 12, and line 3 allows 1."
        other = "No choice meets line 30 (a<2  # old (as 1)) and\nline 1 as constrained (b>=2).\n1. x doesn't match >=2 of line 1, "
        other += "and line 30 allows 1."
        self.assertEqual(same_reason(one), same_reason(other))
        for text in one.replace("a<2", "a<3"), one.replace("x doesn't", "y doesn't"), one.replace("1. x", "1. line 2.0"):
            self.assertNotEqual(same_reason(one), same_reason(text))


class Words(Fleet):
    """What is told before any folder is touched."""

    def setUp(self):
        super().setUp()
        self.answers(a="echo same")

    def check_usage(self, told, *words):
        status, output, errors = self.fleet(*words)
        self.assertEqual((status, output), (2, ""))
        self.assertIn(told, errors)
        self.assertEqual(self.calls("a"), [])

    def test_words_that_are_no_request(self):
        for told, words in (
            ("batch: it reads standard input, which folders can't share", ["a", "--", "batch"]),
            ("show: it has no reply: type reqlock --dir FOLDER show for each folder", ["a", "--", "show"]),
            ("export: it has no reply: type reqlock --dir FOLDER export for each folder", ["a", "--", "export"]),
            ("replace: its lines are those of one folder: type reqlock --dir FOLDER replace for each folder", ["a", "--", "replace", "new.txt"]),
            ("constrian: reqlock has no such subcommand; did you mean constrain?", ["a", "--", "constrian", "a"]),
            ("skipped: it reads the index and no folder", ["a", "--", "skipped"]),
            ("why: with --explain before --", ["a", "--", "why", "a"]),
            ("a subcommand is missing", ["a", "--"]), ("a subcommand is missing", ["a", "relock"]),
            ("--dir isn't given to a fleet", ["a", "--", "--dir=b", "relock"]),
            ("--index stands before --", ["a", "--", "relock", "--index", "i"]),
            ("--json stands before --", ["a", "--", "check", "--json"]), ("the following arguments are required", ["--", "check"]),
            ("an empty text is no folder", ["a", "", "--", "check"]), ("a number from 1 is wanted", ["a", "--jobs", "0", "--", "check"]),
            ("unexpected argument", ["a", "--", "add", "nonsense"]),
        ):
            with self.subTest(words=words):
                self.check_usage(told, *words)

    def test_a_program_that_is_not_there(self):
        self.program = self.folder / "none"
        told = f"{self.program}: No such file or directory; give the program by --program, or put reqlock on the PATH\n"
        self.assertEqual(self.fleet("a", "--", "check"), (4, "", told))

    def test_help(self):
        status, output, errors = self.fleet("--help")
        self.assertEqual((status, errors), (0, ""))
        for option in "--index", "--env", "--jobs", "--explain", "--json", "--dask", "--program":
            self.assertIn(option, output)


class Tables(Fleet):
    def test_rows_come_in_the_order_of_the_folders(self):
        self.answers(
            a="sleep 0.5; printf 'ok 4\\n- 2: urllib3\\n+ 2: urllib3>=2\\nurllib3 1.26 -> 2.2\\n'", b="echo same",
            c="echo refused not-present; exit 1", d="echo refused ambiguous; exit 1", e="echo ok 1; echo '+ 9: urllib3'",
        )
        words = ["e", "a", "--jobs", "3", "b", "c", "d", "./a", *ASKED]
        rows = (
            ("e", "ok 1", "1 line"), ("a", "ok 4", "urllib3 1.26 -> 2.2"), ("b", "same", ""), ("c", "no such line", ""),
            ("d", "refused ambiguous", ""),
        )
        counts = "5 folders: 2 ok, 1 the same, 1 without such a line, 1 refused"
        self.check(words, 1, rows, counts, said="./a: this folder is named twice; it is asked once\n")
        self.assertEqual(self.calls("a"), ["--dir=a constrain --dry-run -- urllib3 >=2"])

    def test_the_status_is_0_where_none_refuses(self):
        self.answers(a="echo ok 1", b="echo refused not-locked; exit 1", c="echo same")
        rows = ("a", "ok 1", ""), ("b", "not locked", ""), ("c", "same", "")
        self.check(["a", "b", "c", *ASKED], 0, rows, "3 folders: 1 ok, 1 the same, 1 without such a line")

    def test_a_call_that_saves_tells_what_changed_on_standard_error(self):
        told = "".join(f"+ p{number} 1\\n" for number in range(5))
        self.answers(a=f"echo ok 1; printf '{told}' >&2", b="echo refused bad-text; echo 'column 3: what' >&2; exit 1")
        rows = ("a", "ok 1", "+ p0 1, + p1 1, + p2 1, 2 more"), ("b", "refused bad-text", "column 3: what")
        self.check(["a", "b", "--", "add", "x"], 1, rows, "2 folders: 1 ok, 1 refused")
        self.assertEqual(self.calls("a"), ["--dir=a add --verbose -- x"])

    def test_reasons_are_grouped(self):
        refuses = (
            "case \"$*\" in *' why '*) printf 'No choice meets line {} (x<2).\\n1. x.\\n'; exit 3 ;; esac; echo refused no-solution; exit 3"
        )
        self.answers(a=refuses.format(3), b=refuses.replace("x<2", "x<1").format(3), c=refuses.format(14), d="echo ok 1")
        rows = [(name, "refused no-solution", "") for name in "abc"] + [("d", "ok 1", "")]
        more = (
            "\nno solution in 2 folders: a, c\n  (lines as they stand in a)\n  No choice meets line 3 (x<2).\n  1. x.\n"
            "\nno solution in 1 folder: b\n  No choice meets line 3 (x<1).\n  1. x.\n"
        )
        self.check(["--explain", "a", "b", "c", "d", *ASKED], 1, rows, "4 folders: 1 ok, 3 refused", more)
        self.assertEqual(self.calls("a")[1:], ["--dir=a why --explain --constrain urllib3 >=2"])

    def test_the_why_that_is_asked(self):
        for words, why in (
            (["add", "x>1"], "-- x>1"), (["remove", "x"], "--remove x"), (["constrain", "x"], "--constrain x"),
            (["upgrade"], "--upgrade"), (["upgrade", "x", "y"], "--upgrade x y"), (["relock"], ""), (["init"], "--init"),
            (["check", "--current"], ""), (["add", "--keep-locked", "x"], "--keep-locked -- x"),
        ):
            with self.subTest(words=words):
                shutil.rmtree(self.folder / "a", ignore_errors=True)
                self.answers(a="case \"$*\" in *' why '*) echo because; exit 3 ;; esac; echo refused no-solution; exit 3")
                status, output, _ = self.fleet("--explain", "a", "--", *words)
                self.assertEqual(status, 1)
                self.assertIn("  because\n", output)
                self.assertEqual(self.calls("a")[1], f"--dir=a why --explain {why}".rstrip())

    def test_json(self):
        self.answers(
            a="printf 'ok 4\\n+ 2: x\\ntarget linux\\nx 1 -> 2\\n'",
            b="case \"$*\" in *' why '*) echo no; exit 3 ;; esac; echo refused no-solution; exit 3",
        )
        status, output, _ = self.fleet("--json", "--explain", "a", "b", "n\x7f", *ASKED)
        self.assertNotIn("\x7f", output)
        empty = {"lines": [], "entries": [], "index": False, "told": ""}
        rows = [
            empty | {
                "folder": "a", "kind": "ok", "reply": "ok 4", "status": 0, "lines": ["+ 2: x"], "reason": None,
                "entries": [{"target": "linux", "name": "x", "old": "1", "new": "2"}],
            },
            empty | {"folder": "b", "kind": "refused", "reply": "refused no-solution", "status": 3, "reason": 0},
            empty | {
                "folder": "n\x7f", "kind": "broken", "reply": None, "status": 4, "reason": None, "told": "there is no such folder",
            },
        ]
        counts = {"ok": 1, "same": 0, "absent": 0, "refused": 1, "broken": 1, "not-begun": 0}
        self.assertEqual(status, 4)
        self.assertEqual(json.loads(output), {"folders": rows, "counts": counts, "reasons": [{"folders": ["b"], "text": "no"}]})

    def test_a_link_out_is_told(self):
        """Of a folder that comes from others: what is asked may be another project."""
        self.answers(a="echo ok 1", b="echo ok 2")
        (self.folder / "checkout" / "inner").mkdir(parents=True)
        os.rename(self.folder / "a", self.folder / "checkout" / "a")
        for name, place in ("out", "../b"), ("within", "a"), ("way", ".."):
            (self.folder / "checkout" / name).symlink_to(place)
        there = self.folder / "checkout"
        for words, said in (
            (["out", "within"], f"out: a link leads out to {self.folder}/b, which is asked\n"),
            (["way/b", "a"], f"way/b: a link leads out to {self.folder}/b, which is asked\n"),
            ([f"{there}/a/", "../b", "."][:2], ""),
            (["../checkout/out", "a"], f"../checkout/out: a link leads out to {self.folder}/b, which is asked\n"),
        ):
            with self.subTest(words=words):
                status, output, errors = self.end_of(self.start(*words, *ASKED, cwd=there))
                self.assertEqual((status, errors), (0, said))
                self.assertIn("2 folders: 2 ok", output)
        status, _, errors = self.end_of(self.start("../out", "../../b", *ASKED, cwd=there / "inner"))
        self.assertIn("out: a link leads out to ", errors)

    def test_nothing_acts_on_a_terminal(self):
        name = "x\x1b[2J\n\u202ey"
        self.answers(**{name: "printf 'refused \\033[2J\\n'; printf '\\033[2J' >&2; exit 1"})
        call = self.start(name, name, *ASKED, encoding=None)
        output, errors = call.communicate(timeout=60)
        for text in output, errors:
            self.assertNotIn(b"\x1b", text)
            self.assertIn(b"x\\x1b[2J\\n\\u202ey", text)

    def test_progress_is_shown_on_a_terminal_alone(self):
        self.answers(a="sleep 0.5; echo ok 1", b="sleep 0.5; echo ok 1")
        self.check(["a", "b", "--jobs", "1", *ASKED], 0, [("a", "ok 1", ""), ("b", "ok 1", "")], "2 folders: 2 ok")
        words = ["a", "b", "--jobs", "1", *ASKED]
        status, told = shown_on_terminal(lambda terminal: self.start(*words, stdout=subprocess.DEVNULL, stderr=terminal))
        self.assertEqual(status, 0)
        self.assertIn("1 of 2 folders, 0 refused, 0 broken", told)

    def test_an_output_that_is_closed_early(self):
        self.answers(a="echo ok 1")
        readings, writings = os.pipe()
        os.close(readings)
        call = self.start("a", *ASKED, stdout=writings)
        os.close(writings)
        self.assertEqual((call.communicate(timeout=60)[1], call.returncode), ("", 0))


class Broken(Fleet):
    def test_what_is_told_of_a_broken_folder(self):
        self.answers(
            memory="echo 'reqlock: out of memory' >&2; exit 5", fault="echo 'reqlock: pylock.toml: files-disagree' >&2; exit 4",
            killed="kill -9 $$", odd="echo what; exit 0", begun="echo 'reqlock: reqlock.journal: unreadable' >&2; exit 4",
        )
        for name in "memory", "fault", "killed", "odd", "begun":
            (self.folder / name / "requirements.txt").write_bytes(b"")
            if name != "begun":
                (self.folder / name / "reqlock.journal").write_bytes(b"")
        (self.folder / "empty").mkdir()
        (self.folder / "file").write_bytes(b"")
        rows = (
            ("memory", "broken", "out of memory: give fewer --jobs; nothing has changed"),
            ("fault", "broken", "pylock.toml: files-disagree: reqlock --dir fault check tells more"),
            ("killed", "broken", "signal 9 ended the call: reqlock --dir killed check tells whether the files are whole"),
            ("odd", "broken", "what: reqlock --dir odd check tells more"),
            ("begun", "broken", "there is no history: reqlock --dir begun init begins one, with --index and --env"),
            ("empty", "broken", "there is no requirements.txt: is it a folder of reqlock?"), ("file", "broken", "it is no folder"),
            ("a b", "broken", "there is no such folder"),
        )
        self.check([row[0] for row in rows] + ASKED, 4, rows, "8 folders: 8 broken")

    def test_folders_that_vanish(self):
        self.answers(
            a="rm -r ../b; echo ok 1", b="echo ok 1",
            c="cd ..; rm -r c; echo 'reqlock: requirements.txt: write failed' >&2; exit 5", d="echo ok 2",
        )
        gone = "there is no such folder"
        rows = ("a", "ok 1", ""), ("b", "broken", gone), ("c", "broken", gone), ("d", "ok 2", "")
        self.check(["--jobs", "1", "a", "b", "c", "d", "--", "relock"], 4, rows, "4 folders: 2 ok, 2 broken")

    def test_a_why_that_is_not_answered(self):
        self.answers(a="case \"$*\" in *' why '*) kill -9 $$ ;; esac; echo refused no-solution; exit 3")
        told = "refused no-solution, and why there is none wasn't told: signal 9 ended the call"
        self.check(["--explain", "a", *ASKED], 4, [("a", "broken", told)], "1 folder: 1 broken")


class Stopped(Fleet):
    """Ctrl-C, once and twice."""

    TOLD = "stopping: no new call begins, and 2 running are let end; Ctrl-C once more waits for none\n"

    def setUp(self):
        super().setUp()
        self.answers(**{name: "while [ ! -e ../go -a -e ../stand-in ]; do sleep 0.05; done; : >done; echo ok 1" for name in "abcd"})

    def stop(self, *words, number=signal.SIGINT):
        """A call that was stopped once, with calls running in a and b."""
        call = self.start("--jobs", "2", "a", "b", "c", "d", "--", *words)
        self.wait_for_calls("a", "b")
        call.send_signal(number)
        self.assertEqual(call.stderr.readline(), f"fleet.py: {self.TOLD}")
        return call

    def test_once_running_calls_are_let_end(self):
        for number, status in (signal.SIGINT, 130), (signal.SIGTERM, 143):
            with self.subTest(number=number):
                for path in (self.folder / "go", *self.folder.glob("?/calls")):
                    path.unlink(missing_ok=True)
                call = self.stop("relock", number=number)
                (self.folder / "go").write_bytes(b"")
                rows = ("a", "ok 1", ""), ("b", "ok 1", ""), ("c", "not begun", ""), ("d", "not begun", "")
                self.assertEqual(self.end_of(call), (status, f"{table(*rows)}\n4 folders: 2 ok, 2 not begun\n", ""))
                self.assertEqual([len(self.calls(name)) for name in "abcd"], [1, 1, 0, 0])

    def test_twice_nothing_is_waited_for(self):
        call = self.stop("relock")
        call.send_signal(signal.SIGINT)
        told = "the call wasn't waited for: reqlock --dir {} check tells whether the files are whole"
        rows = [(name, "broken", told.format(name)) for name in "ab"] + [(name, "not begun", "") for name in "cd"]
        self.assertEqual(self.end_of(call), (130, f"{table(*rows)}\n4 folders: 2 broken, 2 not begun\n", ""))
        (self.folder / "go").write_bytes(b"")
        end = time.monotonic() + 30
        while not all((self.folder / name / "done").exists() for name in "ab"):
            self.assertLess(time.monotonic(), end, "a call that saves wasn't let go on")
            time.sleep(0.05)

    def test_twice_calls_that_save_nothing_are_ended(self):
        self.answers(e="echo $$ >pid; exec sleep 100")
        call = self.start("e", "--", "relock", "--dry-run")
        self.wait_for_calls("e")
        call.send_signal(signal.SIGINT)
        call.stderr.readline()
        call.send_signal(signal.SIGINT)
        self.assertEqual(self.end_of(call)[0], 130)
        pid = int((self.folder / "e" / "pid").read_text(encoding="utf-8"))
        end = time.monotonic() + 30
        while Path(f"/proc/{pid}").exists() and time.monotonic() < end:
            time.sleep(0.05)
        self.assertFalse(Path(f"/proc/{pid}").exists())


if __name__ == "__main__":
    unittest.main()
