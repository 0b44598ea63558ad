"""The program with one growth of its memory refused: each in turn with LONG_TESTS=1 in the environment, without it each 50th and the
last ones, which save or tell sentences. A run shows what a run with ample memory does, or that memory was refused, and then nothing has
changed."""

import functools
import os
import shutil
import subprocess
import sys
import tempfile
import unittest
from pathlib import Path
from unittest import mock

from support.made.environments import LINUX, WINDOWS
from support.once import made_once
from support.places import IS_LONG, MEMORY, PROGRAM, needs_program, new_folder
from support.terminals import shown_on_terminal

import growths  # (these stand in tools/)
from reqlock_tools.snapshot_output import compact

PACE = 1 if IS_LONG else 50
LAST = 40
TOLD = 300
AMPLE = 10**12
NEVER = b"refused nothing-to-undo", b"refused nothing-to-redo"
OUT_OF_MEMORY = b"reqlock: out of memory\n"

# Packages with their releases, each with what it depends on.
INDEX = {
    "a": {"1": ["b-b"], "2": ["b-b<2"]}, "b-b": {"1": [], "2": []}, "c": {"1": ["b-b>=2"]}, "d": {"1": []},
    "x": {"1": ["d>=2; extra == 'e'"], "zero": []},
}
# The same packages, of which none goes with `a`.
UNSOLVABLE = INDEX | {"a": {"1": ["b-b>=3"], "2": ["b-b>=3"]}}
REQUIREMENTS = b"# web\r\nB.b (>=1) ; os_name=='posix' # keep\r\na"
COMMANDS = [
    b"add d", b"bogus", b"undo", b"undo", b"redo", b"constrain a >=1", b"add c", b"redo", b"upgrade a", b"remove d", b"undo",
    b"add D", b"relock",
]


def index_text(index):
    packages = []
    for name, releases in index.items():
        package = {"name": name, "releases": []}
        for version, requires in releases.items():
            file = f"{name.replace('-', '_')}-{version}-py3-none-any.whl"
            files = [{"name": file, "url": f"https://files.example/{file}", "size": 1000, "sha256": "0" * 64}]
            package["releases"].append({"version": version, "requires_dist": requires, "files": files})
        packages.append(package)
    return compact({"snapshot": 1, "packages": packages})


def numbers(ample, last=LAST):
    """The growths that are refused, of those that a run with ample memory has: each that PACE meets, and the last ones."""
    return sorted({*range(1, ample.growths + 1, PACE), *range(max(1, ample.growths - last + 1), ample.growths + 1)})


def is_refused_whole(run, before):
    """Whether a run told that memory was refused, and changed no file."""
    return run.status == 5 and run.errors == OUT_OF_MEMORY and run.files == before


def is_lawful(run, ample, before):
    """Whether a run of a single subcommand is one with ample memory, or gave up without a reply and changed nothing."""
    return run == ample or is_refused_whole(run, before) and run.output == b""


def are_lawful(run, ample, before, without):
    """Whether a run of several commands is one with ample memory; or one where a single command met the refusal, and all else is
    as if it hadn't been given; or gave up as a whole. `without(place)` is the run with ample memory of the others."""
    if run == ample:
        return True
    if is_refused_whole(run, before):
        return ample.output.startswith(run.output)
    wanted, replies = ample.output.splitlines(), run.output.splitlines()
    if replies.count(b"refused out-of-memory") != 1:
        return False
    place = replies.index(b"refused out-of-memory")
    other = without(place)
    rest = replies[:place] + replies[place + 1 :]
    if place >= len(COMMANDS) or wanted[place] in NEVER or rest != other.output.splitlines():
        return False
    return (run.status, run.errors, run.files) == (other.status, other.errors, other.files)


def made_run(status, output, errors=b"", files=()):
    return growths.Run(1, "malloc 1", None, status, output, errors, dict(files))


class Law(unittest.TestCase):
    """Which runs are as they have to be, on runs that are made up."""

    def test_of_single_subcommands(self):
        before, after = {"a": b"1"}, {"a": b"2"}
        ample = made_run(0, b"ok 1\n", files=after)
        self.assertTrue(is_lawful(made_run(0, b"ok 1\n", files=after), ample, before))
        self.assertTrue(is_lawful(made_run(5, b"", OUT_OF_MEMORY, before), ample, before))
        for run in (
            made_run(0, b"ok 1\n", files=before), made_run(5, b"ok 1\n", OUT_OF_MEMORY, before),
            made_run(5, b"", OUT_OF_MEMORY, after), made_run(1, b"", OUT_OF_MEMORY, before), made_run(5, b"", b"", before),
            made_run(1, b"refused no-solution\n", files=before), made_run(-6, b"", b"", before),
        ):
            self.assertFalse(is_lawful(run, ample, before))

    def test_of_several_commands(self):
        before, after = {"a": b"1"}, {"a": b"2"}
        ample = made_run(0, b"ok 1\nok 2\nrefused nothing-to-redo\n", files=after)
        others = {0: made_run(0, b"ok 1\nrefused nothing-to-redo\n", files={"a": b"3"})}

        def lawful(*parts, files=after):
            return are_lawful(made_run(*parts, files=files), ample, before, lambda place: others.get(place, ample))

        self.assertTrue(lawful(0, ample.output))
        self.assertTrue(lawful(0, b"refused out-of-memory\nok 1\nrefused nothing-to-redo\n", files={"a": b"3"}))
        self.assertTrue(lawful(5, b"ok 1\n", OUT_OF_MEMORY, files=before))
        self.assertFalse(lawful(0, b"refused out-of-memory\nok 1\nrefused nothing-to-redo\n"))
        self.assertFalse(lawful(0, b"refused out-of-memory\nok 2\nrefused nothing-to-redo\n", files={"a": b"3"}))
        self.assertFalse(lawful(0, b"refused out-of-memory\nrefused out-of-memory\nrefused nothing-to-redo\n"))
        self.assertFalse(lawful(0, b"ok 1\nok 2\nrefused out-of-memory\n"))
        self.assertFalse(lawful(5, b"ok 2\n", OUT_OF_MEMORY, files=before))
        self.assertFalse(lawful(5, b"ok 1\n", OUT_OF_MEMORY))


@needs_program
@unittest.skipUnless(sys.platform == "linux" and growths.compiler(), "there is no C compiler, or no glibc")
class Growths(unittest.TestCase):
    """A test with a folder of files, in which it refuses growths of the program. It locks for these environments."""

    environments = {"": LINUX}

    def setUp(self):
        self.enterContext(mock.patch.object(tempfile, "tempdir", MEMORY))
        outside = new_folder(self.addCleanup)
        self.folder = outside / "files"
        self.folder.mkdir()
        self.library = made_once("growths", growths.compiled) / growths.LIBRARY
        (self.folder / "requirements.txt").write_bytes(REQUIREMENTS)
        self.put_index(INDEX)
        for name, environment in self.environments.items():
            (self.folder / self.environment_file(name)).write_text(compact(environment), encoding="utf-8")

    def put_index(self, index):
        (self.folder / "index.json").write_text(index_text(index), encoding="utf-8")

    @staticmethod
    def environment_file(name):
        return f"{name}.json" if name else "environment.json"

    def words(self, *words):
        command = [PROGRAM, "--index", "index.json"]
        for name in self.environments:
            command += ["--env", f"{name}={self.environment_file(name)}" if name else self.environment_file(name)]
        return [*command, *words]

    def prepare(self, *words, reply="ok"):
        """Does a subcommand with ample memory, in the folder itself."""
        done = subprocess.run(self.words(*words), cwd=self.folder, capture_output=True, check=False)
        self.assertTrue(done.stdout.startswith(reply.encode()), done)

    def ample_run(self, command, data=b""):
        """A run that meets no refused growth, which tells of no want of memory."""
        ample = growths.run_once(command, self.library, AMPLE, data=data, folder=self.folder)
        self.assertIsNone(ample.refused)
        self.assertGreater(ample.growths, 0)
        self.assertNotIn(b"memory", ample.output + ample.errors)
        return ample

    def check_growths(self, command, last=LAST):
        """Each growth of a command is refused in turn. It gives the run with ample memory."""
        before, ample = growths.files_in(self.folder), self.ample_run(command)
        for number in numbers(ample, last):
            run = growths.run_once(command, self.library, number, folder=self.folder)
            self.assertTrue(is_lawful(run, ample, before), (command, run))
        return ample

    def check_single(self, *words, starts, last=LAST):
        """Each growth of a subcommand is refused in turn; with ample memory its reply starts so."""
        ample = self.check_growths(self.words(*words), last)
        self.assertTrue(ample.output.startswith(starts.encode()), ample)

    def check_fault(self, command, status, errors):
        """Each growth is refused in turn of a command that has this status and tells this fault with ample memory."""
        ample = self.check_growths(command)
        self.assertEqual((ample.status, ample.output), (status, b""))
        self.assertTrue(ample.errors.startswith(errors), ample)

    def check_several(self, subcommand):
        command = self.words(subcommand)

        def ample_run(commands):
            return self.ample_run(command, b"".join(line + b"\n" for line in commands))

        @functools.cache
        def without(place):
            return ample_run(COMMANDS[:place] + COMMANDS[place + 1 :])

        before, ample = growths.files_in(self.folder), ample_run(COMMANDS)
        data = b"".join(line + b"\n" for line in COMMANDS)
        for number in numbers(ample):
            run = growths.run_once(command, self.library, number, data=data, folder=self.folder)
            self.assertTrue(are_lawful(run, ample, before, without), run)


class Program(Growths):
    def test_init(self):
        self.check_single("init", starts="ok 0")
        self.check_single("init", "--dry-run", starts="ok 0\n+ ")

    def test_edits(self):
        self.prepare("init")
        for words, starts in (
            (["add", "d"], "ok 1"), (["add", "x[e]"], "refused no-solution"), (["remove", "a"], "ok 1"),
            (["constrain", "B_b", ">=1"], "ok 1"), (["upgrade"], "same"), (["upgrade", "z"], "refused not-locked"),
            (["relock"], "same"), (["undo"], "refused nothing-to-undo"), (["add", "d", "--dry-run"], "ok 1\n- 3: a\n"),
            (["add", "d", "-v"], "ok 1"), (["add", "x[e]", "-v"], "refused no-solution"), (["remove", "b b", "-v"], "refused bad-text"),
        ):
            self.check_single(*words, starts=starts)

    def test_what_only_prints(self):
        self.prepare("init")
        self.prepare("add", "d")
        for words, starts in (
            (["check"], "ok 1"), (["show"], "name  version"), (["log"], "  0 init"), (["skipped"], "x: release 1"),
            (["--help"], ""), (["--version"], "reqlock "), (["diff"], "- 3: a\n"), (["diff", "1", "0", "--json"], '{"entries":'),
            (["log", "--json"], '{"current":'),
        ):
            self.check_single(*words, starts=starts)

    def test_what_is_told_of_lines_that_were_changed(self):
        """It is said first that they were, and then that memory was refused."""
        self.prepare("init")
        self.prepare("add", "d")
        (self.folder / "requirements.txt").write_bytes(b"a\n")
        for words in ["show"], ["log"], ["diff"], ["diff", "1", "0", "--json"], ["export", "--format", "dot"]:
            before, ample = growths.files_in(self.folder), self.ample_run(self.words(*words))
            self.assertTrue(ample.errors.startswith(b"reqlock: requirements.txt was changed since reqlock saved it. "), ample)
            for number in numbers(ample, LAST):
                run = growths.run_once(self.words(*words), self.library, number, folder=self.folder)
                is_said = run.errors in (OUT_OF_MEMORY, ample.errors + OUT_OF_MEMORY)
                is_refused = (run.status, run.output, run.files, is_said) == (5, b"", before, True)
                self.assertTrue(run == ample or is_refused, (words, run))

    def test_inputs_that_are_refused(self):
        self.prepare("init")
        (self.folder / "requirements.txt").write_bytes(b"a\nb ; os_name\n")
        self.check_refused("check", word=b"requirements.txt: files-disagree")
        self.check_refused("init", word=b"requirements.txt: line 2: bad-marker")
        (self.folder / "requirements.txt").write_bytes(REQUIREMENTS)
        (self.folder / "reqlock.journal").write_bytes((self.folder / "reqlock.journal").read_bytes() + b"x")
        self.check_refused("show", word=b"reqlock.journal: line 2: journal-broken")
        (self.folder / "environment.json").write_bytes(b"{}")
        self.check_refused("init", word=b"environment: bad-environment implementation_name")
        (self.folder / "index.json").write_bytes(b'{"snapshot":1,"packages":[{"name":"a","releases":[7]}]}')
        self.check_refused("skipped", word=b"index: shape /packages/0/releases/0")

    def check_refused(self, *words, word):
        """Each growth is refused in turn of a subcommand that refuses an input with this word."""
        self.check_fault(self.words(*words), 4, b"reqlock: " + word + b"\n")

    def test_words_that_are_no_request(self):
        self.prepare("init")
        self.check_fault(self.words("add"), 2, b"error: the following required arguments were not provided")
        self.check_fault([PROGRAM, "--env", "environment.json", "relock"], 2, b"reqlock: --index is needed\n")
        self.check_fault([PROGRAM, "--index", "index.json", "init"], 2, b"reqlock: --env is needed\n")

    def test_why(self):
        self.prepare("init")
        for words, starts in (
            (["why"], "solvable"), (["why", "x[e]"], "d==1 x[e]==1"), (["why", "A"], "refused already-present"),
            (["why", "--explain", "x[e]"], "No choice of versions meets the new line (x[e]).\n1. "),
            (["why", "--not", "b-b==2"], "With b-b 2 "),
        ):
            self.check_single(*words, starts=starts)
        self.put_index(UNSOLVABLE)
        for words in ["--remove", "b-b"], ["--constrain", "a", ">=3"], ["--upgrade", "a"], ["--init"]:
            self.check_single("why", *words, starts="a==")

    def test_why_in_sentences(self):
        """Each growth behind the search is refused: a line that is forgotten there shows in the numbers of the others."""
        self.prepare("init")
        self.put_index(UNSOLVABLE)
        for words, cited in (
            (["--remove", "b-b"], "line 3 (a)"), (["--constrain", "a", "==1"], "line 3 as constrained (a==1)"),
            (["--upgrade", "a"], "line 3 (a)"), (["--init"], "line 3 (a)"),
        ):
            ample = self.check_growths(self.words("why", "--explain", *words), TOLD)
            told = " ".join(ample.output.decode().split())
            self.assertTrue(told.startswith("No choice of versions meets "), ample)
            self.assertIn(cited, told)
        self.check_single("why", "--not", "a==1", starts="No choice of versions meets ", last=TOLD)

    def test_undo_and_redo(self):
        self.prepare("init")
        self.prepare("add", "d")
        self.prepare("remove", "a")
        self.check_single("undo", starts="ok 1")
        self.prepare("undo")
        self.check_single("redo", starts="ok 2")
        self.check_single("add", "c", starts="ok 2")

    def test_forget(self):
        self.prepare("init")
        self.prepare("add", "d")
        self.prepare("remove", "a")
        for words, starts in (["--keep", "0"], "ok 0"), (["--before", "1", "--dry-run"], "ok 1"), (["--before", "0"], "same"):
            self.check_single("forget", *words, starts=starts)
        self.check_fault(self.words("forget", "--keep", "3"), 2, b"reqlock: the history stands at place 2, and can't begin 3 before it\n")

    def test_a_save_that_was_stopped(self):
        self.prepare("init")
        before = growths.files_in(self.folder)
        self.prepare("add", "d")
        after = growths.files_in(self.folder)
        for left in ("pylock.toml", "reqlock.journal"), ("requirements.txt",):
            stopped = after | {name: before[name] for name in left} | {f"{name}.new": after[name] for name in left}
            for path in self.folder.iterdir():
                path.unlink()
            for name, data in stopped.items():
                (self.folder / name).write_bytes(data)
            for words, starts in (["relock"], "same"), (["init"], "ok 0"):
                self.check_ended(stopped, after, words, starts)

    def check_ended(self, stopped, after, words, starts):
        """Each growth is refused in turn of a call that ends a save: then it is as it was, or ended."""
        command = self.words(*words)
        ample = self.ample_run(command)
        self.assertTrue(ample.output.startswith(starts.encode()), ample)
        for number in numbers(ample):
            run = growths.run_once(command, self.library, number, folder=self.folder)
            self.assertTrue(any(is_lawful(run, ample, files) for files in (stopped, after)), (words, run))

    def test_a_person_whose_history_is_replaced(self):
        """At a terminal `init` opens the old history too, to tell how many steps are gone with it: want of memory isn't passed over there."""
        self.prepare("init")
        self.prepare("add", "d")
        before, ample = growths.files_in(self.folder), self.run_before_person("init", AMPLE)
        self.assertIn(b"is replaced, with its 1 step.", ample.errors)
        for number in numbers(ample, TOLD):
            run = self.run_before_person("init", number)
            self.assertTrue(is_lawful(run, ample, before), run)

    def run_before_person(self, subcommand, number):
        """A run with one growth refused, whose standard error is a terminal."""
        with tempfile.TemporaryDirectory() as scratch, tempfile.TemporaryFile() as report, tempfile.TemporaryFile() as output:
            place = Path(scratch) / "run"
            shutil.copytree(self.folder, place)
            variables = {
                "PATH": os.environ["PATH"], "TERM": "dumb", "LD_PRELOAD": str(self.library), "REFUSE_GROWTH": str(number),
                "REFUSE_GROWTH_REPORT": str(report.fileno()),
            }
            status, shown = shown_on_terminal(
                lambda terminal: subprocess.Popen(
                    self.words(subcommand), cwd=place, env=variables, stdin=subprocess.DEVNULL, stdout=output, stderr=terminal,
                    pass_fds=[report.fileno()],
                )
            )
            for file in report, output:
                file.seek(0)
            errors = shown.replace("\r\n", "\n").encode()
            told = growths.read_report(report.read().decode())
            return growths.Run(number, *told, status, output.read(), errors, growths.files_in(place))

    def test_several_commands(self):
        self.prepare("init")
        for subcommand in "batch", "try":
            self.check_several(subcommand)


class Targets(Growths):
    """With two targets all locks change, or none does."""

    environments = {"linux": LINUX, "win": WINDOWS}

    def setUp(self):
        super().setUp()
        (self.folder / "requirements.txt").write_bytes(b"a\n")

    def test_init(self):
        self.check_single("init", starts="ok 0")
        self.check_single("init", "--dry-run", starts="ok 0\ntarget linux\n+ ")
        (self.folder / "requirements.txt").write_bytes(b"a\nx[e] ; os_name == 'nt'\n")
        self.check_single("init", starts="refused no-solution")

    def test_edits(self):
        self.prepare("init")
        for words, starts in (
            (["add", "d"], "ok 1"), (["add", "d ; os_name == 'nt'"], "ok 1"), (["add", "x[e] ; os_name == 'nt'"], "refused no-solution"),
            (["upgrade", "b-b"], "same"), (["upgrade", "z"], "refused not-locked"), (["why", "x[e] ; os_name == 'nt'"], "target win\n"),
        ):
            self.check_single(*words, starts=starts)
        self.prepare("add", "d ; os_name == 'nt'")
        for words, starts in (
            (["undo"], "ok 0"), (["show"], "target linux\n"), (["check"], "ok 1"),
            (["log", "--long"], "  0 init\n* 1 add d ; os_name == 'nt'\n      win: + d 1\n"),
        ):
            self.check_single(*words, starts=starts)
        self.prepare("undo")
        self.check_single("redo", starts="ok 1")

    def test_words_that_are_no_request(self):
        for value, text in ("Win=win.json", "has a bad name"), ("win=linux.json", "win twice"):
            fault = f"reqlock: --env {text}\n".encode()
            self.check_fault(self.words("--env", value, "init"), 2, fault)
        (self.folder / "win.json").write_bytes(b"{}")
        self.check_fault(self.words("init"), 4, b"reqlock: environment win: bad-environment implementation_name\n")


if __name__ == "__main__":
    unittest.main()
