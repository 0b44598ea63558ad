"""The calls by which the program changes files: what an edit makes and in which order it makes it last, a stop at each of them, that what
only reads makes none, and locks that fail. file_calls.c is preloaded, which needs a C compiler."""

import errno
import os
import shutil
import subprocess
import sys
import unittest

from support.made.environments import LINUX, MACOS, OLDER, WINDOWS
from support.once import made_once
from support.places import SUPPORT
from support.program import NOBODY, Fifty

import growths  # (it stands in tools/)

SOURCE = SUPPORT / "file_calls.c"
LIBRARY = "file_calls.so"
EDITS = (
    ["add", "p02"], ["remove", "p00"], ["constrain", "p00", "<2"], ["upgrade"], ["upgrade", "p00"], ["relock"], ["undo"], ["redo"],
    ["replace", "-"], ["retarget"], ["relock", "--if-needed"], ["forget", "--before", "1"], ["forget", "--keep", "1"],
)
READINGS = (
    ["show"], ["show", "p00"], ["show", "--tree"], ["show", "--json"], ["log"], ["log", "--long"], ["log", "--json"], ["diff"],
    ["diff", "0", "1"], ["diff", "--json"], ["check"], ["check", "--json"], ["check", "--current"], ["outdated"], ["outdated", "--json"],
    ["why"], ["why", "p02"], ["why", "--constrain", "p00", "<2"], ["why", "--upgrade"], ["why", "--remove", "p00"],
    ["why", "--not", "p00==1"], ["why", "--replace", "-"], ["why", "--retarget"],
)
# what is told of one target, where there are several
EXPORTS = ["export"], ["export", "--format", "pylock"]
# what reads no journal, and takes no lock
UNLOCKED = ["skipped"], ["why", "--init"], ["try"], ["init", "--dry-run"]
UNMET = ["why", "p02>2"], ["why", "--explain", "p02>2"]
# the C library's calls that can change files, `write` and its like apart, which need a file that is open
CHANGING = set(
    "chmod chown copy_file_range creat creat64 fallocate fallocate64 fchmod fchmodat fchown fchownat fdatasync fdopen fopen fopen64 fsync "
    "ftruncate ftruncate64 futimens futimes lchown link linkat lutimes mkdir mkdirat mkfifo mkfifoat mknod mknodat mkostemp mkstemp "
    "mkstemp64 open open64 openat openat64 posix_fallocate remove rename renameat renameat2 rmdir sendfile splice symlink symlinkat "
    "syscall tmpfile truncate truncate64 unlink unlinkat utime utimensat utimes".split()
)


def compile_into(folder):
    """Makes the library that tells the calls."""
    subprocess.run([*growths.compiler(), "-shared", "-fPIC", "-O2", "-o", folder / LIBRARY, SOURCE], check=True)


@unittest.skipUnless(sys.platform == "linux" and growths.compiler(), "there is no C compiler, or no Linux")
class FileCalls(Fifty):
    def setUp(self):
        super().setUp()
        self.library = made_once("file-calls", compile_into) / LIBRARY
        self.report = self.outside / "report"

    def watched(self, *words, name=".", **variables):
        """The status of a call with its file calls told, what it writes, and those calls. It is made in the folder, with this name
        for it."""
        self.report.unlink(missing_ok=True)
        variables = {"LD_PRELOAD": str(self.library), "FILE_CALLS_REPORT": str(self.report), **variables}
        done = subprocess.run(
            [self.program, *self.options(name), *words], stdin=subprocess.DEVNULL, stdout=subprocess.PIPE, stderr=subprocess.STDOUT,
            encoding="utf-8", check=False, env={**os.environ, **variables}, cwd=self.folder,
        )
        calls = self.report.read_text(encoding="utf-8").splitlines() if self.report.exists() else []
        return done.returncode, done.stdout, calls

    @staticmethod
    def lasting(calls):
        """The calls that make what was changed last, and the lock."""
        return [call for call in calls if call.startswith(("flock ", "fsync ", "rename "))]

    @unittest.skipUnless(shutil.which("nm"), "there is no nm")
    def test_no_call_is_left_unwatched(self):
        taken = self.symbols("--undefined-only", self.program) & CHANGING
        self.assertLessEqual(taken, self.symbols("--defined-only", self.library))

    @staticmethod
    def symbols(kind, path):
        told = subprocess.run(["nm", "-D", kind, path], capture_output=True, encoding="utf-8", check=True).stdout
        return {line.split()[-1].partition("@")[0] for line in told.splitlines()}

    def test_an_edit_writes_each_file_beside_its_place(self):
        self.begin_all()
        told = self.watched("add", "p01")
        calls = ["flock folder", *(f"unlink {name}.new" for name in self.names())]
        for name in self.names():
            beside = f"{name}.new"
            owner = [f"fchown {beside}"] * 2
            calls += [f"open {name}", f"unlink {beside}", f"create {beside}", *owner, f"fchmod {beside}", f"fsync {beside}", "fsync folder"]
        for name in self.names():
            calls += [f"rename {name}", "fsync folder"]
        self.assertEqual(told, (0, "ok 1\n", calls))

    def test_the_first_lock_makes_its_files(self):
        self.begin(b"# fifty\n", *self.RELEASES)
        status, output, calls = self.watched("init")
        self.assertEqual((status, output), (0, "ok 0\n"))
        for name in self.names()[1:]:
            told = [call for call in calls if call.split(" ")[1] in (name, f"{name}.new")]
            self.assertEqual(told[-3:], [f"create {name}.new", f"fsync {name}.new", f"rename {name}"])
            self.assertNotIn(f"open {name}", told)

    def test_all_is_made_last_in_its_order(self):
        self.begin_all()
        written = [[f"fsync {name}.new", "fsync folder"] for name in self.names()]
        put = [[f"rename {name}", "fsync folder"] for name in self.names()]
        for place, name in enumerate((".", self.folder, f"{self.folder}/"), 1):
            with self.subTest(name=name):
                status, output, calls = self.watched("add", f"p{place:02}", name=name)
                self.assertEqual((status, output), (0, f"ok {place}\n"))
                self.assertEqual(self.lasting(calls), ["flock folder", *sum(written + put, [])])

    def test_the_folder_that_a_link_leads_to_is_synced_too(self):
        self.begin_all()
        other, lock = self.outside / "other", self.names()[1]
        other.mkdir()
        (self.folder / lock).rename(other / lock)
        (self.folder / lock).symlink_to(f"../other/{lock}")
        status, output, calls = self.watched("add", "p01")
        self.assertEqual((status, output), (0, "ok 1\n"))
        place = calls.index(f"rename {lock}")
        self.assertEqual(calls[place : place + 2], [f"rename {lock}", "fsync other"])

    @unittest.skipUnless(os.geteuid() == 0, "optional: only root may give files away")
    def test_what_is_moved_to_the_name_of_a_new_file_does_not_change_hands(self):
        """Root saves in the folder of another user, who moves a file of root's there meanwhile."""
        self.begin_all()
        for path in [self.folder, *self.folder.iterdir()]:
            os.chown(path, NOBODY, NOBODY)
        secret, place = self.folder / "secret", self.folder / "requirements.txt"
        secret.write_bytes(b"root's own\n")
        self.watched("add", "p01", FILE_CALLS_SWAP=str(secret))
        # it went the way of the file that it was put in the place of
        self.assertEqual((secret.exists(), place.read_bytes()), (False, b"root's own\n"))
        self.assertEqual((place.stat().st_uid, place.stat().st_gid), (0, 0))

    def test_a_signal_interrupts_no_reply(self):
        self.begin_all()
        before = self.files()
        for words, told in (["add", "p01"], "ok 1\n"), (["show", "p00"], None), (["batch"], ""), (["why", "p02>2"], None), (["--help"], None):
            with self.subTest(words=words):
                self.put(before)
                whole = self.watched(*words)[:2]
                self.put(before)
                self.assertEqual(self.watched(*words, FILE_CALLS_BREAK="3")[:2], whole)
                self.assertIn(told, (None, whole[1]))

    def test_a_stop_at_each_call(self):
        self.begin_all()
        before = self.files()
        _, _, calls = self.watched("add", "p01")
        after = self.files()
        for number, call in enumerate(calls, 1):
            with self.subTest(number=number, call=call):
                self.put(before)
                status, output, _ = self.watched("add", "p01", FILE_CALLS_STOP=str(number))
                self.assertEqual((status, output), (-9, ""))
                self.assertEqual(self.call("relock"), (0, "same\n"))
                is_put = "rename requirements.txt" in calls[: number - 1]
                self.assertEqual(self.files(), after if is_put else before)

    def test_a_stop_at_each_call_of_a_replacement(self):
        self.begin_all()
        before, new = self.files(), self.outside / "new"
        new.write_bytes(b"# fifty\r\np02\np01\n")
        _, _, calls = self.watched("replace", new)
        after = self.files()
        for number, call in enumerate(calls, 1):
            with self.subTest(number=number, call=call):
                self.put(before)
                self.assertEqual(self.watched("replace", new, FILE_CALLS_STOP=str(number))[:2], (-9, ""))
                is_put = "rename requirements.txt" in calls[: number - 1]
                self.assertEqual(self.call("replace", new), (0, "same\n" if is_put else "ok 1\n"))
                self.assertEqual(self.files(), after)

    def test_a_stop_at_each_call_of_a_replacement_of_what_was_changed(self):
        """The requirements file is never written. Once a lock has changed, the next call that saves ends the save."""
        self.begin_all()
        old = self.outside / "old"
        old.write_bytes(self.files()["requirements.txt"])
        (self.folder / "requirements.txt").write_bytes(b"# fifty\r\np02\np01\n")
        before = self.files()
        _, _, calls = self.watched("replace", "--was", old)
        after = self.files()
        self.assertNotIn("rename requirements.txt", calls)
        for number, call in enumerate(calls, 1):
            with self.subTest(number=number, call=call):
                self.put(before)
                self.assertEqual(self.watched("replace", "--was", old, FILE_CALLS_STOP=str(number))[:2], (-9, ""))
                is_put = f"rename {self.names()[1]}" in calls[: number - 1]
                told = (4, "reqlock: requirements.txt: files-disagree\n") if is_put else (0, "ok 1\n")
                self.assertEqual(self.call("replace", "--was", old), told)
                self.assertEqual(self.call("relock"), (0, "same\n"))
                self.assertEqual(self.files(), after)

    def test_a_stop_at_each_call_of_the_one_that_ends_a_save(self):
        self.begin_all()
        before = self.files()
        self.assertEqual(self.call("add", "p01"), (0, "ok 1\n"))
        after = self.files()
        left = self.names()[1:]
        stopped = before | {"requirements.txt": after["requirements.txt"]} | {f"{name}.new": after[name] for name in left}
        for words in ["relock"], ["init"]:
            self.put(stopped)
            calls = self.watched(*words)[2]
            ending = sum(([f"rename {name}", "fsync folder"] for name in left), [])
            self.assertEqual(calls[1 : len(ending) + 1], ending)
            ended = self.files()
            for number, call in enumerate(calls, 1):
                with self.subTest(words=words, number=number, call=call):
                    self.put(stopped)
                    self.assertEqual(self.watched(*words, FILE_CALLS_STOP=str(number))[:2], (-9, ""))
                    self.assertEqual(self.call("relock"), (0, "same\n"))
                    self.assertIn(self.files(), (after, ended))

    def test_a_stop_at_each_call_of_one_that_shortens_the_history(self):
        self.begin_history()
        before = self.files()
        _, _, calls = self.watched("forget", "--before", "1")
        after = self.files()
        self.assertEqual([call for call in calls if call.startswith("rename ")], ["rename reqlock.journal"])
        for number, call in enumerate(calls, 1):
            with self.subTest(number=number, call=call):
                self.put(before)
                self.assertEqual(self.watched("forget", "--before", "1", FILE_CALLS_STOP=str(number))[:2], (-9, ""))
                self.assertEqual(self.call("relock"), (0, "same\n"))
                self.assertEqual(self.files(), after if "rename reqlock.journal" in calls[: number - 1] else before)

    def check_stops(self, before, words, changing):
        """A call that is stopped before it changes a file in its place saved nothing; one that is stopped behind that is ended by the
        next one that saves. Either way nothing is left beside."""
        self.put(before)
        status, output, calls = self.watched(*words)
        self.assertEqual(status, 0, output)
        after = self.files()
        self.assertEqual([call for call in calls if call in changing], changing)
        for number, call in enumerate(calls, 1):
            with self.subTest(words=words, number=number, call=call):
                self.put(before)
                self.assertEqual(self.watched(*words, FILE_CALLS_STOP=str(number))[:2], (-9, ""))
                self.assertEqual(self.call("relock"), (0, "same\n"))
                self.assertEqual(self.files(), after if changing[0] in calls[: number - 1] else before)
        return after

    def test_a_stop_at_each_call_that_changes_targets(self):
        """What was stopped is ended or taken back, whether locks come, go or change."""
        one, other, third = {"linux": LINUX}, {"win": WINDOWS}, {"linux": OLDER, "mac": MACOS, "win": WINDOWS}
        journal = "rename reqlock.journal"
        for old, new, there, back in (
            (one, one | other, [journal, "rename pylock.win.toml"], ["unlink pylock.win.toml", journal]),
            (one, other, ["unlink pylock.linux.toml", journal, "rename pylock.win.toml"], ["unlink pylock.win.toml", journal, "rename pylock.linux.toml"]),
            (one | other, third, ["rename pylock.linux.toml", journal, "rename pylock.mac.toml"], ["unlink pylock.mac.toml", "rename pylock.linux.toml", journal]),
            (third, one, ["unlink pylock.mac.toml", "unlink pylock.win.toml", "rename pylock.linux.toml", journal], ["rename pylock.linux.toml", journal, "rename pylock.mac.toml", "rename pylock.win.toml"]),
        ):
            for path in self.folder.iterdir():
                path.unlink()
            self.lock_for(old)
            self.begin_all()
            self.lock_for(new)
            after = self.check_stops(self.files(), ["retarget"], there)
            before = self.check_stops(after, ["undo"], back)
            self.assertEqual(self.check_stops(before, ["redo"], there), after)

    def test_a_file_system_without_locks(self):
        self.begin_all()
        for place, name in enumerate(["ENOLCK", "EOPNOTSUPP", "ENOSYS", "EINVAL"], 1):
            with self.subTest(name=name):
                error = str(getattr(errno, name))
                self.assertEqual(self.watched("add", f"p{place:02}", FILE_CALLS_LOCK=error)[:2], (0, f"ok {place}\n"))
                self.assertEqual(self.watched("check", FILE_CALLS_LOCK=error)[:2], (0, f"ok {place}\n"))

    def test_a_lock_that_fails(self):
        self.begin_all()
        files = self.files()
        for name in "EIO", "EBADF", "EACCES", "EDEADLK":
            with self.subTest(name=name):
                error = str(getattr(errno, name))
                for words in ["init"], ["add", "p01"], ["undo"], ["batch"]:
                    told = 5, "reqlock: requirements.txt: write failed\n", ["flock folder"]
                    self.assertEqual(self.watched(*words, FILE_CALLS_LOCK=error), told)
                self.assertEqual(self.watched("check", FILE_CALLS_LOCK=error)[:2], (0, "ok 0\n"))
        for words in ["add", "p01"], ["check"]:
            told = 5, "reqlock: out of memory\n", ["flock folder"]
            self.assertEqual(self.watched(*words, FILE_CALLS_LOCK=str(errno.ENOMEM)), told)
        self.assertEqual(self.files(), files)

    def begin_history(self):
        """A history with a step before the present place and one behind it."""
        self.begin_all()
        self.plays((["add", "p00<2"], 0, "ok 1\n"), (["add", "p01"], 0, "ok 2\n"), (["undo"], 0, "ok 1\n"))

    def only_reads(self, *words, locks=True):
        """The status of a call that makes none of the watched calls, or none but the lock, and what it writes."""
        before = self.files()
        status, output, calls = self.watched(*words)
        self.assertEqual((self.files(), calls), (before, ["flock folder"] * locks))
        return status, output

    def test_a_dry_run_only_reads(self):
        self.begin_history()
        for words in EDITS:
            with self.subTest(words=words):
                status, output = self.only_reads(*words, "--dry-run")
                self.assertEqual((status, output.split()[0] in ("ok", "same")), (0, True), output)

    def test_what_is_no_edit_only_reads(self):
        self.begin_history()
        target = [f"--target={name}" for name in list(self.environments)[:1] if name]
        exports = [[*words, *target] for words in EXPORTS]
        for listed, status, locks in (READINGS, 0, True), (exports, 0, True), (UNMET, 3, True), (UNLOCKED, 0, False):
            for words in listed:
                with self.subTest(words=words):
                    self.assertEqual(self.only_reads(*words, locks=locks)[0], status)

    def test_a_folder_without_a_name_is_not_locked(self):
        self.begin_all()
        for words in ["init"], ["add", "p01"], ["check"]:
            told = 4, "reqlock: requirements.txt: unreadable\n", []
            self.assertEqual(self.watched(*words, name=""), told)


class FileCallsWithTargets(FileCalls):
    """The same of saves of four files."""

    environments = {"linux": LINUX, "win": WINDOWS}

    def test_a_lock_of_all_targets_only_reads(self):
        self.begin_history()
        for words in [], ["--covers", self.environment_file("win")]:
            with self.subTest(words=words):
                self.assertEqual(self.only_reads("export", "--format", "pylock", *words, locks=True)[0], 0)


if __name__ == "__main__":
    unittest.main()
