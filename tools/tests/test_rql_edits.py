"""Tests of the edits of rql over an index on this machine: the index is brought up to date for what is asked, several texts are taken all or
none, and a new index takes the old one's place only with an accepted reply."""

import json
import os
import shutil
import signal
import subprocess
import sys
import threading
import time
import tomllib
import unittest
from contextlib import redirect_stderr
from io import StringIO
from pathlib import Path
from types import SimpleNamespace

from support.made.served_index import wheel_of
from support.rql_projects import ENVIRONMENT, SCRIPT, Projects, Served
from support.terminals import shown_on_terminal

from reqlock_tools.rql.calls import Answer
from reqlock_tools.rql.exports import stale_exports, write_exports
from reqlock_tools.rql.settings import ExportSetting

FLASK = (
    wheel_of("flask", "2.0", "werkzeug"),
    wheel_of("flask", "3.0", "werkzeug", "asgiref ; extra == 'async'"),
)


class Edits(Served):
    def setUp(self):
        super().setUp()
        self.serve(
            flask=FLASK, werkzeug=[wheel_of("werkzeug", "1"), wheel_of("werkzeug", "2")], asgiref=[wheel_of("asgiref", "1")],
            rich=[wheel_of("rich", "1"), wheel_of("rich", "2")],
        )

    def kept(self, name="index.json"):
        path = self.folder / ".reqlock" / name
        return path.read_bytes() if path.exists() else None

    def named(self):
        """The packages that the kept index has."""
        return [package["name"] for package in json.loads(self.kept())["packages"]]

    def test_each_word(self):
        self.begin("")
        self.accepts("add", "rich<2  # terminals", answer="ok 1\n")
        self.accepts("add", "flask", answer="ok 2\n")
        self.accepts("constrain", "rich", ">=1", answer="ok 3\n")
        self.accepts("set", "flask[async]>=3", answer="ok 4\n")
        self.assertEqual(self.lines(), "rich>=1  # terminals\nflask[async]>=3\n")
        self.accepts("upgrade", "rich", answer="ok 5\n")
        self.index.add("rich", wheel_of("rich", "3"))
        self.accepts("relock", answer="ok 6\n")
        self.accepts("upgrade", answer="ok 7\n")
        self.assertIn("rich      3  ", self.rql("show")[1])
        self.accepts("remove", "flask", answer="ok 8\n")
        self.accepts("constrain", "rich", answer="ok 9\n")
        self.assertEqual(self.lines(), "rich  # terminals\n")
        self.accepts("check", answer="ok 9\n")

    def test_an_extra_that_is_asked_for_is_followed_before_it_is_locked(self):
        self.begin("flask\n")
        self.assertNotIn("asgiref", self.named())
        self.accepts("set", "flask[async]>=2", answer="ok 1\n")
        self.assertIn("flask     3.0  ", self.rql("show")[1])
        self.assertIn("asgiref   1  ", self.rql("show")[1])

    def test_several_texts_all_or_none(self):
        self.begin("")
        before = self.files()
        status, output, errors = self.rql("add", "rich", "flask>=9", "werkzeug")
        self.assertEqual((status, output), (3, "refused no-solution\n"))
        self.assertIn("nothing is changed: 'flask>=9' is refused: rql why --explain 'flask>=9' tells why\n", errors)
        self.assertEqual(self.files(), before)
        self.accepts("add", "rich", "flask", answer="ok 1\nok 2\n")
        self.assertEqual(self.rql("remove", "rich", "none")[:2], (1, "refused not-present\n"))
        self.assertEqual(self.lines(), "rich\nflask\n")
        # a text that is no one line is no two commands
        self.assertEqual(self.rql("add", "werkzeug\nremove rich", "asgiref")[:2], (1, "refused bad-text\n"))
        self.assertEqual(self.rql("remove", "rich\nadd werkzeug", "flask")[:2], (1, "refused bad-text\n"))
        self.assertEqual(self.lines(), "rich\nflask\n")
        self.accepts("set", "rich<2", "flask<3", answer="ok 3\n")
        self.assertEqual(self.lines(), "rich<2\nflask<3\n")
        self.accepts("remove", "rich", "flask", answer="ok 4\nok 5\n")
        self.assertEqual(self.lines(), "")

    def test_a_dry_run_saves_nothing(self):
        self.begin("")
        before, kept = self.files(), self.kept()
        self.accepts("add", "--dry-run", "rich", "flask")
        self.assertIn("+ flask 3.0\n", self.rql("add", "--dry-run", "flask")[1])
        self.assertEqual((self.files(), self.kept()), (before, kept))

    def test_a_mistyped_name_is_not_remembered(self):
        self.begin("rich\n")
        before = self.kept()
        self.assertEqual(self.rql("add", "flaks")[:2], (3, "refused no-solution\n"))
        self.assertEqual(self.kept(), before)
        self.accepts("add", "flask")
        self.assertEqual(json.loads(self.kept())["made"]["lines"], ["flask", "rich"])
        self.assertEqual(self.kept("index.1.json"), before)

    def test_two_indexes_before_the_present_one_are_kept(self):
        self.begin("")
        indexes = [self.kept()]
        for name in "rich", "flask", "werkzeug", "asgiref":
            self.accepts("add", name)
            indexes.append(self.kept())
        self.assertEqual([self.kept(name) for name in ("index.json", "index.1.json", "index.2.json")], indexes[-1:-4:-1][:3])
        self.assertIsNone(self.kept("index.3.json"))

    def test_a_name_that_is_asked_for_stays_in_the_index(self):
        self.begin("")
        self.accepts("index", "asgiref", answer="")
        self.accepts("add", "rich")
        self.assertEqual(self.named(), ["asgiref", "rich"])

    def test_the_same_answers_give_the_same_index(self):
        self.begin("rich\n")
        before = self.kept()
        self.accepts("index")
        self.assertEqual((self.kept(), self.kept("index.1.json")), (before, None))

    def test_what_is_kept_may_be_removed(self):
        self.begin("rich\n")
        for path in sorted((self.folder / ".reqlock").iterdir()):
            path.unlink()
        (self.folder / ".reqlock").rmdir()
        self.assertEqual(self.rql("check")[:2], (0, "ok 0\n"))
        self.assertIn("rich  2  ", self.rql("show")[1])
        self.accepts("remove", "rich", answer="ok 1\n")
        self.assertEqual((self.folder / ".reqlock" / ".gitignore").read_text(encoding="utf-8").splitlines()[-1], "*")

    def test_a_removal_asks_nobody(self):
        self.begin("rich\nflask\n")
        self.index.close()
        self.accepts("remove", "rich", answer="ok 1\n")

    def test_an_index_that_fails_changes_nothing(self):
        self.begin("rich\n")
        before, kept = self.files(), self.kept()
        self.index.instead[f"{self.index.prefix}flask/"] = [lambda answer: answer.give(403)]
        status, output, errors = self.rql("add", "flask")
        self.assertEqual((status, output), (6, ""), errors)
        self.assertIn("403", errors)
        self.assertEqual((self.files(), self.kept()), (before, kept))

    def test_a_person_is_told_what_several_texts_changed(self):
        self.begin("")
        self.assertEqual(self.accepts("-q", "add", "rich<2", "flask", answer="ok 1\nok 2\n"), "")
        self.accepts("undo", answer="ok 1\n")
        self.accepts("undo", answer="ok 0\n")
        words = [sys.executable, "-B", SCRIPT, "add", "rich<2", "flask"]
        options = {"cwd": self.folder, "env": self.variables, "stdout": subprocess.DEVNULL}
        status, shown = shown_on_terminal(lambda terminal: subprocess.Popen(words, stderr=terminal, **options))
        self.assertEqual(status, 0, shown)
        self.assertIn("\r\n+ 1: rich<2\r\n+ 2: flask\r\n+ flask 3.0\r\n+ rich 1\r\n+ werkzeug 2\r\n", shown)

    def start_waiting(self, *words):
        """A call that waits for an index which doesn't answer yet, and what has it answer."""
        is_over = threading.Event()
        self.addCleanup(is_over.set)
        self.index.instead[f"{self.index.prefix}flask/"] = [lambda answer: is_over.wait(60)]
        asked = len(self.index.asked)
        done = subprocess.Popen(
            [sys.executable, "-B", SCRIPT, *words], cwd=self.folder, env=self.variables, stdout=subprocess.DEVNULL, stderr=subprocess.PIPE,
            encoding="utf-8",
        )
        self.addCleanup(done.stderr.close)
        while (f"{self.index.prefix}flask/") not in [path for _, path in self.index.asked[asked:]]:
            self.assertIsNone(done.poll())
            time.sleep(0.05)
        return done

    def test_a_call_that_is_stopped_changes_nothing(self):
        self.begin("rich<2\n")
        before, kept = self.files(), self.kept()
        for number, status in (signal.SIGINT, 130), (signal.SIGKILL, -signal.SIGKILL):
            with self.subTest(number=number):
                done = self.start_waiting("add", "flask")
                done.send_signal(number)
                self.assertEqual(done.wait(60), status)
                self.assertNotIn("Traceback", done.stderr.read())
                self.assertEqual((self.files(), self.kept()), (before, kept))
        del self.index.instead[f"{self.index.prefix}flask/"]
        self.accepts("add", "flask", answer="ok 1\n")

    def test_calls_in_one_project_wait_for_each_other(self):
        self.begin("")
        names = "rich", "flask", "asgiref"
        calls = [
            subprocess.Popen(
                [sys.executable, "-B", SCRIPT, "add", name], cwd=self.folder, env=self.variables, stdout=subprocess.PIPE, encoding="utf-8",
            )
            for name in names
        ]
        self.assertEqual(sorted(call.communicate(timeout=120)[0] for call in calls), ["ok 1\n", "ok 2\n", "ok 3\n"])
        self.assertEqual(sorted(self.lines().split()), sorted(names))
        self.accepts("check", answer="ok 3\n")
        self.assertEqual(self.named(), ["asgiref", "flask", "rich", "werkzeug"])

    def test_offline_asks_nobody(self):
        self.begin("rich\n")
        asked = len(self.index.asked)
        self.accepts("--offline", "relock", answer="same\n")
        self.assertEqual(self.rql("--offline", "add", "flask")[0], 6)
        self.assertEqual(len(self.index.asked), asked)

    def test_questions_are_asked_over_a_fresh_index(self):
        self.begin("rich\n")
        self.assertEqual(self.rql("check", "--current")[:2], (0, "current\n"))
        self.index.add("rich", wheel_of("rich", "3"))
        self.assertEqual(self.rql("outdated")[1].splitlines()[1].split(), ["rich", "2", "3", "3"])
        # a relock would keep rich 2, so no entry would change
        self.assertEqual(self.rql("check", "--current")[:2], (0, "current\n"))
        self.assertEqual(self.rql("why", "flask>=9")[0], 3)
        self.assertEqual(self.named(), ["rich"])

    def test_it_is_told_what_is_asked_where_that_is_wanted(self):
        self.begin("")
        counts = r"(?m)^1 package, 2 releases, [0-9]+ requests?, [0-9.]+ kB, [0-9.]+ s$"
        self.assertNotRegex(self.accepts("add", "--dry-run", "rich"), counts)
        self.assertRegex(self.accepts("-v", "add", "--dry-run", "rich"), counts)
        self.assertRegex(self.accepts("add", "--dry-run", "rich", "-v"), counts)
        self.assertRegex(self.rql("add", "--dry-run", "rich", CI="1")[2], counts)
        self.assertNotIn("package", self.rql("-q", "add", "--dry-run", "rich", CI="1")[2])

    def test_constraints_bind_without_installing(self):
        self.begin("")
        self.put("bounds.txt", "rich<2\nflask<3\n")
        path = self.folder / "reqlock.toml"
        self.put("reqlock.toml", 'constraints = ["bounds.txt"]\n' + path.read_text(encoding="utf-8"))
        self.accepts("add", "rich", answer="ok 1\n")
        self.assertIn("rich  1  ", self.rql("show")[1])
        self.assertEqual(json.loads(self.kept())["made"]["constraints"][0]["file"], "bounds.txt")
        for data, fault in (None, "No such file or directory"), ("rich<<2\n", "'rich<<2': its versions can't be read"):
            (self.folder / "bounds.txt").unlink() if data is None else self.put("bounds.txt", data)
            fault = f"bounds.txt: {fault}"
            self.assertIn(fault, self.refuses("add", "flask"))
            status, output, errors = self.rql("check")
            self.assertEqual((status, output), (1, "ok 1\n"))
            self.assertIn(f"{fault}: without it no edit is made: write it, or take bounds.txt out of the constraints\n", errors)

    def test_the_call_that_is_told_can_be_typed(self):
        self.begin("")
        errors = self.accepts("-v", "add", "--dry-run", "rich")
        call = next(line for line in errors.splitlines() if line.startswith("+ reqlock"))
        self.assertEqual(call, "+ reqlock -v --dir . --index .reqlock/index.asked.json --dry-run add rich")


class Words(Served):
    """The words that the program gets, which a stand-in prints."""

    def setUp(self):
        super().setUp()
        self.serve(rich=[wheel_of("rich", "1")])
        self.put("requirements.txt", "rich\n")
        self.put("reqlock.toml", f'index = ["{self.index.url}"]\n{ENVIRONMENT}')
        self.stand_in()

    def given(self, *words, status=0):
        """The words of the call, without those that tell of the folder; the index is an asked one, or the kept one."""
        exit_status, output, errors = self.rql(*words, STATUS=str(status))
        self.assertEqual(exit_status, status, errors)
        self.assertIn("told\n", errors)
        words = output.splitlines()
        self.assertEqual(words[:3], ["--dir", ".", "--index"])
        self.assertIn(words[3], (".reqlock/index.asked.json", ".reqlock/index.json"))
        return words[4:]

    def test_of_each_edit(self):
        rows = (
            (["add", "rich>=1  # a b"], ["add", "rich>=1  # a b"]), (["add", "--", "-x"], ["add", "--", "-x"]),
            (["add", "--keep-locked", "--dry-run", "rich"], ["--keep-locked", "--dry-run", "add", "rich"]), (["remove", "rich"], ["remove", "rich"]),
            (["constrain", "rich", ">=1,<2"], ["constrain", "rich", ">=1,<2"]), (["constrain", "rich"], ["constrain", "rich"]),
            (["set", "Rich[a]<2"], ["replace", "--line", "rich", "Rich[a]<2"]), (["upgrade", "a", "b"], ["upgrade", "a", "b"]),
            (["upgrade"], ["upgrade"]), (["relock"], ["relock"]), (["check", "--current", "--json"], ["check", "--json", "--current"]),
            (["outdated", "--json"], ["outdated", "--json"]), (["why", "--explain", "rich<1"], ["why", "--explain", "rich<1"]),
        )
        for words, wanted in rows:
            with self.subTest(words=words):
                self.assertEqual(self.given(*words), wanted)

    def test_of_init(self):
        words = self.given("init")
        self.assertEqual(words, ["--env", ".reqlock/environment.json", "init"])

    def test_a_status_is_handed_on_and_accepts_nothing(self):
        for status in 1, 3, 4, 5:
            self.given("add", "rich", status=status)
        self.assertIsNone(self.kept("index.json"))
        self.given("add", "--dry-run", "rich")
        self.assertIsNone(self.kept("index.json"))
        self.given("add", "rich")
        self.assertIsNotNone(self.kept("index.json"))

    def kept(self, name):
        path = self.folder / ".reqlock" / name
        return path.read_bytes() if path.exists() else None


class Exports(Served):
    def setUp(self):
        super().setUp()
        self.serve(rich=[wheel_of("rich", "1"), wheel_of("rich", "2")], click=[wheel_of("click", "1")])
        self.begin("rich<2\n")
        self.settings = (self.folder / "reqlock.toml").read_text(encoding="utf-8")
        self.put("reqlock.toml", 'exports = [{ file = "deploy/linux.txt" }]\n' + self.settings)
        self.export = self.folder / "deploy" / "linux.txt"

    def exported(self):
        return [line for line in self.export.read_text(encoding="utf-8").splitlines() if "==" in line]

    def test_are_written_anew_after_each_accepted_call(self):
        self.accepts("relock")
        self.assertIn("rich==1 \\", self.exported())
        self.assertTrue(self.export.read_text(encoding="utf-8").startswith("# Exported by rql"))
        self.accepts("constrain", "rich")
        self.accepts("upgrade")
        self.assertIn("rich==2 \\", self.exported())
        self.accepts("undo")
        self.assertIn("rich==1 \\", self.exported())
        self.assertEqual(self.rql("add", "rich")[0], 1)
        self.assertIn("rich==1 \\", self.exported())

    def test_take_the_place_of_no_file_that_was_not_exported(self):
        self.put("deploy/linux.txt", "import this\n")
        errors = self.accepts("constrain", "rich", "<3")
        self.assertIn("deploy/linux.txt: it isn't exported anew, since rql didn't write it", errors)
        self.assertEqual(self.export.read_text(encoding="utf-8"), "import this\n")

    def test_that_cannot_be_made_are_left_as_they_are_and_told(self):
        self.put("reqlock.toml", 'exports = [{ file = "lock.toml", format = "pylock" }]\n' + self.settings)
        self.accepts("relock")
        self.accepts("constrain", "rich")
        self.accepts("upgrade")
        before = (self.folder / "lock.toml").read_bytes()
        for path in (self.folder / ".reqlock").glob("index*.json"):
            path.unlink()
        self.assertIn("lock.toml: it is as it was, since the index of this lock is gone: rql relock makes it anew", self.accepts("undo"))
        self.assertEqual((self.folder / "lock.toml").read_bytes(), before)
        self.accepts("check")
        self.accepts("relock")
        self.assertNotEqual((self.folder / "lock.toml").read_bytes(), before)

    def test_a_lock_without_a_target_is_of_all(self):
        environments = "".join(f'{system} = {{ python = "3.11", platform = "{system}-x86_64" }}\n' for system in ("linux", "windows"))
        exports = 'exports = [{ file = "deploy/lock.toml", format = "pylock" }]\n'
        self.put("reqlock.toml", f'index = ["{self.index.url}"]\n{exports}[environments]\n{environments}')
        self.accepts("retarget")
        self.accepts("add", "click ; sys_platform == 'win32'")
        lock = tomllib.loads((self.folder / "deploy" / "lock.toml").read_text(encoding="utf-8"))
        self.assertEqual([(package["name"], "marker" in package) for package in lock["packages"]], [("click", True), ("rich", False)])
        self.assertEqual(len(lock["environments"]), 2)
        own = self.folder / ".reqlock" / "environment.windows.json"
        self.assertEqual(self.rql("export", "--format", "pylock", "--covers", own)[:2], (0, f"{own}: windows\n"))
        self.accepts("undo")
        self.assertNotIn("click", (self.folder / "deploy" / "lock.toml").read_text(encoding="utf-8"))
        self.accepts("check")

    def test_of_hashes_need_no_index(self):
        self.accepts("relock")
        self.accepts("constrain", "rich")
        self.accepts("upgrade")
        for path in (self.folder / ".reqlock").glob("index*.json"):
            path.unlink()
        self.accepts("undo")
        self.assertIn("rich==1 \\", self.exported())

    def test_that_are_stale_are_told_and_mended(self):
        self.accepts("relock")
        text = self.export.read_text(encoding="utf-8")
        shutil.rmtree(self.folder / ".reqlock")
        self.accepts("check", answer="ok 0\n")
        rows = (
            (text.replace("rich==1", "rich==2"), "deploy/linux.txt: it isn't what is locked: rql lock exports it anew\n"),
            (None, "deploy/linux.txt: this export isn't there: rql lock writes it\n"),
        )
        for changed, told in rows:
            with self.subTest(told=told):
                self.export.unlink()
                if changed is not None:
                    self.export.write_text(changed, encoding="utf-8")
                for words in ["check"], ["lock", "--check"]:
                    self.assertEqual(self.rql(*words), (1, "ok 0\n", told))
                self.accepts("lock", answer="ok 0\n")
                self.assertEqual(self.export.read_text(encoding="utf-8"), text)
                self.accepts("check", answer="ok 0\n")
        self.export.write_text("import this\n", encoding="utf-8")
        told = "deploy/linux.txt: rql didn't write it, so it isn't exported: move it away, and then: rql lock\n"
        self.assertEqual(self.rql("check"), (1, "ok 0\n", told))

    def test_where_lines_were_changed_no_export_is_called_stale(self):
        self.put("reqlock.toml", 'exports = [{ file = "graph.txt", format = "dot" }]\n' + self.settings)
        self.accepts("relock")
        self.put("requirements.txt", "# by hand\nrich\n")
        status, output, errors = self.rql("check")
        self.assertEqual((status, output), (4, ""))
        self.assertIn("requirements.txt: files-disagree", errors)
        self.assertNotIn("graph.txt", errors)

    def test_a_pipe_in_the_place_is_not_waited_for(self):
        self.export.parent.mkdir()
        os.mkfifo(self.export)
        self.assertIn("deploy/linux.txt: it is no file", self.refuses("check"))

    def test_a_link_in_the_place_is_not_followed(self):
        self.export.parent.mkdir()
        other = self.outside / "other.txt"
        other.write_bytes(b"# Exported by rql. What is changed here is lost with its next call.\n")
        self.export.symlink_to(other)
        self.assertIn("is a link, which isn't followed", self.refuses("relock"))
        self.assertEqual(len(other.read_bytes().splitlines()), 1)


class ApartExports(unittest.TestCase):
    """A lock for all targets that the program refuses, where some program stands in its place."""

    TOLD = "the targets 'linux' and 'mac' can't stand in one file: nothing that is asked tells them apart, and a differs; relock"

    def called(self, write):
        place, settings = Path("no-such.toml"), SimpleNamespace(exports=[ExportSetting("no-such.toml", "pylock", None)])
        project = SimpleNamespace(folder=Path("."), settings=settings, place=lambda *words: place)
        caller = SimpleNamespace(ask=lambda *words: Answer(2, b"", f"error: {self.TOLD}\n\nmore\n".encode()))
        errors = StringIO()
        with redirect_stderr(errors):
            result = write(project, SimpleNamespace(earlier=lambda: [Path("index.json")]), caller)
        self.assertFalse(place.exists())
        return result, errors.getvalue()

    def test_are_told_with_what_the_program_says(self):
        self.assertEqual(self.called(stale_exports), ([f"no-such.toml: it can't be made: {self.TOLD}"], ""))
        self.assertIn(f"no-such.toml: it is as it was, since {self.TOLD}\n", self.called(write_exports)[1])


class Stranger(Projects):
    """Settings that ask nobody."""

    def test_lines_of_another_file_are_told_to_no_index(self):
        other = self.put("other.txt", "secret-token\n", self.outside)
        (self.folder / "requirements.txt").symlink_to(other)
        self.put("reqlock.toml", f'index = ["http://127.0.0.1:9/simple/"]\n{ENVIRONMENT}')
        for words in ["add", "a"], ["relock"], ["init"], ["lock"]:
            self.assertRegex(self.refuses(*words), "it is a link, which isn't followed|so there is no history")

    def test_a_pipe_is_not_waited_for(self):
        os.mkfifo(self.folder / "requirements.txt")
        self.put("reqlock.toml", f'index = ["http://127.0.0.1:9/simple/"]\n{ENVIRONMENT}')
        self.assertIn("requirements.txt: it is no file", self.refuses("relock"))
        (self.folder / "reqlock.toml").unlink()
        os.mkfifo(self.folder / "reqlock.toml")
        self.assertIn("reqlock.toml: it is no file", self.refuses("relock"))

    def test_no_index_is_known(self):
        self.stand_in()
        self.put("reqlock.toml", ENVIRONMENT)
        self.assertIn('index: the address of an index is wanted, as ["https://HOST/simple/"]', self.refuses("add", "a"))
        self.assertEqual(sorted(os.listdir(self.folder / ".reqlock")), [".gitignore"])

    def test_an_environment_that_cannot_be_described(self):
        self.put("reqlock.toml", f'index = ["http://127.0.0.1:9/"]\n{ENVIRONMENT.replace("3.11", "2.7")}')
        self.assertIn("environment.python: '2.7' is no version of Python 3", self.refuses("add", "a"))



if __name__ == "__main__":
    unittest.main()
