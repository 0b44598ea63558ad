"""Tests of the built program: its help, a day of work, the lock as Python's TOML reader finds it, and how files are replaced."""

import hashlib
import json
import os
import re
import stat
import subprocess
import sys
import unittest

from support.made.environments import LINUX
from support.made.releases import file_of, index_of
from support.places import PROGRAM
from support.program import FILES, NOBODY, Program, limited
from support.rules.requirements import marker_text


class Help(Program):
    """What the program tells of its own words: each with a text, whatever that says."""

    COMMON = {"-v, --verbose", "-q, --quiet", "--color <WHEN>", "-h, --help"}
    DIR, INDEX, ENV = "--dir <DIR>", "--index <FILE>", "--env <FILE>"
    OPTIONS = {DIR, INDEX, ENV, "--keep-locked", "--dry-run", "--json", "-V, --version"} | COMMON
    # What a subcommand takes beside those.
    LOCKING = {DIR, INDEX, "--keep-locked", "--if-needed", "--dry-run"}
    READING = {DIR, INDEX, "--json"}
    NEW = {"--was <OLD>", "--line <NAME> <TEXT>", "--pins <FILE>"}
    SUBCOMMANDS = {
        "init": {DIR, INDEX, ENV, "--pins <FILE>", "--dry-run"},
        "add": {"<TEXT>"} | LOCKING, "remove": {"<NAME>"} | LOCKING, "constrain": {"<NAME>", "[SPEC]"} | LOCKING,
        "upgrade": {"[NAME]..."} | LOCKING, "relock": LOCKING, "replace": {"[NEW]"} | NEW | LOCKING,
        "retarget": {ENV, "--pins <FILE>"} | LOCKING,
        "undo": {DIR, "--dry-run"}, "redo": {DIR, "--dry-run"}, "forget": {DIR, "--before <N>", "--keep <N>", "--dry-run"},
        "batch": {DIR, INDEX, "--keep-locked", "--all-or-none"}, "try": {DIR, INDEX, ENV},
        "show": {"[NAME]", "--tree"} | READING, "log": {DIR, "--long", "--json"}, "diff": {"[FROM]", "[TO]", DIR, "--json"},
        "check": {"--current"} | READING, "outdated": READING, "skipped": {INDEX},
        "export": {"--format <FORMAT>", "--target <NAME>", "--covers <FILE>...", DIR, INDEX},
        "why": {
            "[TEXT]", DIR, INDEX, ENV, "--keep-locked", "--explain", "--init", "--constrain <NAME> [SPEC]", "--upgrade [<NAME>...]",
            "--remove <NAME>", "--not <NAME[==VERSION]>", "--long", "--replace [<NEW>]", "--retarget",
        } | NEW,
    }

    def told_of(self, *words):
        """The lines of a help, and its words with the text beside each."""
        status, told = self.call(*words, "--help")
        self.assertEqual(status, 0)
        return told.splitlines(), dict(re.findall(r"(?m)^  +(\S.*?)  +(\S.*)$", told))

    def test_each_subcommand_and_each_option_is_named(self):
        _, texts = self.told_of()
        self.assertEqual(texts.keys() - {"help"}, self.SUBCOMMANDS.keys() | self.OPTIONS)

    def test_a_subcommand_tells_what_it_does_and_takes(self):
        _, texts = self.told_of()
        for name, own in self.SUBCOMMANDS.items():
            with self.subTest(name=name):
                lines, words = self.told_of(name)
                self.assertEqual(lines[0], texts[name])
                self.assertTrue(any(line.startswith(f"Usage: reqlock {name}") for line in lines))
                self.assertEqual(words.keys(), own | self.COMMON)

    def test_the_usage_line_names_an_environment_where_one_is_needed(self):
        for name in self.SUBCOMMANDS:
            with self.subTest(name=name):
                lines, _ = self.told_of(name)
                usage = f"Usage: reqlock {name} [OPTIONS] --env <FILE>"
                self.assertEqual(usage in lines, name in {"init", "try", "retarget"})
        self.assertIn("\nUsage: reqlock retarget [OPTIONS] --env <FILE>\n", self.answered("retarget", "--bogus")[2])

    def test_each_example_can_be_typed(self):
        self.begin(b"flask\n", ("flask", "1", []))
        for name, text in ("commands.txt", "log\n"), ("new.txt", "flask\n"), ("requirements.txt", "flask\n"):
            (self.outside / name).write_text(text, encoding="utf-8")
        for name in self.SUBCOMMANDS:
            lines, _ = self.told_of(name)
            head, _, example = lines[-1].partition(": ")
            self.assertEqual((head, example.split()[:2]), ("Example", ["reqlock", name]))
            command = ["bash", "-c", example.replace("reqlock", str(PROGRAM), 1)]
            done = subprocess.run(command, cwd=self.outside, capture_output=True, encoding="utf-8", check=False)
            self.assertNotRegex(done.stderr, "(?m)^error: |^Usage: | is needed$", example)

    def test_the_version_stands_behind_the_name(self):
        status, told = self.call("--version")
        self.assertEqual(status, 0)
        self.assertRegex(told, r"\Areqlock [0-9]+\.[0-9]+\.[0-9]+\n\Z")


class Day(Program):
    """A day of work: thirty commands, then back to the start and on to the end."""

    RELEASES = (
        ("flask", "2.0", ["werkzeug<2.1", "click"]), ("flask", "3.0", ["werkzeug>=3", "click>=8"]),
        ("werkzeug", "2.0", []), ("werkzeug", "3.0", []), ("werkzeug", "3.1", []),
        ("click", "7.1", []), ("click", "8.0", []), ("click", "8.1", ["colorama ; sys_platform == 'win32'"]),
        ("colorama", "0.4", []), ("requests", "2.30", ["urllib3<2"]), ("requests", "2.32", ["urllib3<3"]),
        ("urllib3", "1.26", []), ("urllib3", "2.2", []), ("pytest", "7.4", ["pluggy"]), ("pytest", "8.0", ["pluggy>=1.3"]),
        ("pluggy", "1.0", []), ("pluggy", "1.4", []),
    )
    START = b"# web\r\nFlask >=2 ; os_name == 'posix'\r\n\r\n  requests<2.32  # the client\r\ncolorama ; sys_platform == 'win32'"
    # each command, and its reply
    COMMANDS = (
        (["add", "pytest>=7  # tests"], "ok 1"),
        (["add", "PyTest"], "refused already-present"),
        (["constrain", "pytest", ">=7,<8"], "ok 2"),
        (["undo"], "ok 1"),
        (["redo"], "ok 2"),
        (["add", "django"], "refused no-solution"),
        (["constrain", "flask", "<3"], "ok 3"),
        (["constrain", "flask"], "ok 4"),
        (["upgrade", "flask"], "ok 5"),
        (["upgrade", "flask"], "same"),
        (["upgrade", "django"], "refused not-locked"),
        (["remove", "requests"], "ok 6"),
        (["remove", "requests"], "refused not-present"),
        (["add", "werkzeug<3.1"], "ok 7"),
        (["undo"], "ok 6"),
        (["undo"], "ok 5"),
        (["add", "urllib3<2"], "ok 6"),
        (["redo"], "refused nothing-to-redo"),
        (["constrain", "requests", "(>=2)"], "refused bad-text"),
        (["constrain", "requests", ">=2.30"], "ok 7"),
        (["upgrade"], "ok 8"),
        (["remove", "urllib3"], "ok 9"),
        (["upgrade", "requests", "urllib3"], "ok 10"),
        (["add", "click<8 ; python_version < '3'"], "ok 11"),
        (["relock"], "same"),
        (["constrain", "click", "<8.1"], "ok 12"),
        (["remove", "colorama"], "ok 13"),
        (["add", "colorama"], "ok 14"),
        (["constrain", "colorama", "==0.4"], "ok 15"),
        (["remove", "pytest"], "ok 16"),
    )

    def test_goes_back_to_the_start_and_on_to_the_end(self):
        self.begin(self.START, *self.RELEASES)
        self.assertEqual(self.call("init"), (0, "ok 0\n"))
        self.assertEqual(len(self.COMMANDS), 30)
        states = [self.state()]
        for words, reply in self.COMMANDS:
            with self.subTest(words=words):
                before = self.files()
                status, output = self.call(*words)
                self.assertEqual(output, f"{reply}\n")
                self.assertEqual(status, {"ok": 0, "same": 0, "refused": 3 if "solution" in reply else 1}[reply.split()[0]])
                if reply.startswith("ok"):
                    cursor = int(reply.split()[1])
                    if words[0] not in ("undo", "redo"):
                        del states[cursor:]
                        states.append(self.state())
                    self.assertEqual(self.state(), states[cursor])
                else:
                    self.assertEqual(self.files(), before)
        self.assertEqual(sorted(self.files()), sorted(FILES))
        self.check_way_back_and_on(states)

    def check_way_back_and_on(self, states):
        """Each undo leads to the state before. Each redo leads to the files that stood there on the way back, to the byte."""
        stood = [self.files()]
        for cursor in reversed(range(len(states) - 1)):
            self.assertEqual(self.call("undo"), (0, f"ok {cursor}\n"))
            self.assertEqual(self.state(), states[cursor])
            stood.insert(0, self.files())
        self.assertEqual(stood[0]["requirements.txt"], self.START)
        self.assertEqual(len({files["reqlock.journal"].partition(b"\n")[2] for files in stood}), 1)
        self.assertEqual(self.call("undo"), (1, "refused nothing-to-undo\n"))
        for cursor in range(1, len(states)):
            self.assertEqual(self.call("redo"), (0, f"ok {cursor}\n"))
            self.assertEqual(self.files(), stood[cursor])
        self.assertEqual(self.call("redo"), (1, "refused nothing-to-redo\n"))
        self.assertEqual(self.files(), stood[-1])

    def state(self):
        """The requirements file and the lock, and the journal's header says that they are its own."""
        files = self.files()
        header = json.loads(files["reqlock.journal"].split(b"\n")[0])
        [target] = header["targets"]
        for digest, name in (header["requirements"], "requirements.txt"), (target["lock"], "pylock.toml"):
            self.assertEqual(digest, hashlib.sha256(files[name]).hexdigest())
        return files["requirements.txt"], files["pylock.toml"]


@unittest.skipIf(sys.version_info < (3, 11), "tomllib came with 3.11")
class Lock(Program):
    def test_another_reader_finds_the_table(self):
        import tomllib

        sdist = {"files": [file_of("a", "2.0", ".tar.gz")]}
        self.begin(
            b"a[x]>=1\nb-b  # kept\nzz ; os_name == 'nt'\n",
            ("a", "2.0", ["c ; extra == 'x'", "B_b", "z ; os_name == 'nt'"], sdist | {"requires_python": ">=3.8"}),
            ("b-b", "1.0", []), ("c", "1", ["a"]), ("zz", "1", []),
        )
        self.assertEqual(self.call("init"), (0, "ok 0\n"))
        index = (self.outside / "index.json").read_bytes()

        def file_table(file):
            return {"name": file["name"], "url": file["url"], "size": 1000, "hashes": {"sha256": "0" * 64}}

        self.assertEqual(
            tomllib.loads((self.folder / "pylock.toml").read_text(encoding="utf-8")),
            {
                "lock-version": "1.0", "environments": [marker_text(LINUX)], "created-by": "reqlock",
                "packages": [
                    {
                        "name": "a", "version": "2.0", "requires-python": ">=3.8",
                        "dependencies": [{"name": "b-b"}, {"name": "c"}], "sdist": file_table(file_of("a", "2.0", ".tar.gz")),
                    },
                    {"name": "b-b", "version": "1.0", "wheels": [file_table(file_of("b-b", "1.0"))]},
                    {"name": "c", "version": "1", "dependencies": [{"name": "a"}], "wheels": [file_table(file_of("c", "1"))]},
                ],
                "tool": {"reqlock": {"snapshot": hashlib.sha256(index).hexdigest()}},
            },
        )

    def test_an_empty_lock_has_an_empty_array(self):
        import tomllib

        self.begin(b"")
        self.assertEqual(self.call("init"), (0, "ok 0\n"))
        self.assertEqual(tomllib.loads((self.folder / "pylock.toml").read_text(encoding="utf-8"))["packages"], [])


class Writing(Program):
    """All three files are replaced, or none."""

    RELEASES = ("a", "1", []), ("c", "1", [])

    def begin_at_one(self):
        self.begin(b"a\n", *self.RELEASES)
        self.assertEqual(self.call("init"), (0, "ok 0\n"))

    def test_a_full_disk_replaces_nothing(self):
        # a limit on the size of files stands for a full disk; after some steps the journal is the longest of the three
        self.begin_at_one()
        for _ in range(4):
            self.call("add", "c")
            self.call("remove", "c")
        self.assertEqual(self.call("add", "c"), (0, "ok 9\n"))
        after = self.files()
        self.assertEqual(self.call("undo"), (0, "ok 8\n"))
        before = self.files()
        sizes = [len(after[name]) for name in FILES]
        self.assertEqual(sizes, sorted(sizes))
        for name, size in zip(FILES, sizes):
            with self.subTest(name=name):
                told = 5, f"reqlock: {name}: write failed\n"
                self.assertEqual(self.call("redo", before=limited(size - 1)), told)
                self.assertEqual(self.files(), before)
        self.assertEqual(self.call("redo"), (0, "ok 9\n"))
        self.assertEqual(self.files(), after)

    def test_a_file_that_does_not_change_is_not_touched(self):
        self.begin_at_one()
        index = index_of(("a", "1", []), ("a", "2", []))
        (self.outside / "index.json").write_text(json.dumps(index), encoding="utf-8")
        path = self.folder / "requirements.txt"
        first = path.stat()
        self.assertEqual(self.call("upgrade"), (0, "ok 1\n"))
        self.assertEqual((path.stat().st_ino, path.stat().st_mtime_ns), (first.st_ino, first.st_mtime_ns))
        self.assertEqual(self.call("init"), (0, "ok 0\n"))
        self.assertEqual((path.stat().st_ino, path.stat().st_mtime_ns), (first.st_ino, first.st_mtime_ns))

    def test_a_left_over_file_is_no_hindrance(self):
        self.begin_at_one()
        for name in FILES:
            (self.folder / f"{name}.new").write_text("left over", encoding="utf-8")
        self.assertEqual(self.call("add", "c"), (0, "ok 1\n"))
        self.assertEqual(sorted(self.files()), sorted(FILES))

    def test_a_lost_write_right_replaces_nothing(self):
        self.begin_at_one()
        self.leave_root()
        before = self.files()
        for path, name in (self.folder / "pylock.toml", "pylock.toml"), (self.folder, "requirements.txt"):
            mode = path.stat().st_mode
            path.chmod(mode & ~0o222)
            self.assertEqual(self.call("add", "c"), (5, f"reqlock: {name}: write failed\n"))
            path.chmod(mode)
            self.assertEqual(self.files(), before)

    @unittest.skipUnless(os.geteuid() == 0, "optional: only root may give files away")
    def test_mode_owner_and_group_stay(self):
        self.begin_at_one()
        given = {name: (0o640 + place, NOBODY - place, 100 + place) for place, name in enumerate(FILES)}
        for name, (mode, owner, group) in given.items():
            os.chown(self.folder / name, owner, group)
            (self.folder / name).chmod(mode)
        self.assertEqual(self.call("add", "c"), (0, "ok 1\n"))
        self.assertEqual(self.owners(), given)
        # who may not give files away saves all the same
        self.leave_root()
        for name in FILES:
            os.chown(self.folder / name, 0, 0)
            (self.folder / name).chmod(0o666)
        self.assertEqual(self.call("undo"), (0, "ok 0\n"))
        self.assertEqual(self.owners(), {name: (0o666, NOBODY, NOBODY) for name in FILES})

    def owners(self):
        """Mode, owner and group of each file."""
        stats = {path.name: path.stat() for path in self.folder.iterdir()}
        return {name: (stat.S_IMODE(file_stat.st_mode), file_stat.st_uid, file_stat.st_gid) for name, file_stat in stats.items()}

    def test_a_folder_whose_name_is_no_text(self):
        # the words of the program are texts, so it is called from inside
        folder = self.outside / os.fsdecode(b"\xff")
        folder.mkdir()
        (folder / "requirements.txt").write_bytes(b"a\n")
        (self.outside / "index.json").write_text(json.dumps(index_of(*self.RELEASES)), encoding="utf-8")
        options = "--index", self.outside / "index.json", "--env", self.outside / "environment.json"
        for words, reply in (["init"], b"ok 0\n"), (["add", "c"], b"ok 1\n"), (["undo"], b"ok 0\n"), (["check"], b"ok 0\n"):
            done = subprocess.run([PROGRAM, *options, *words], cwd=folder, capture_output=True, check=False)
            self.assertEqual((done.returncode, done.stdout, done.stderr), (0, reply, b""))
        self.assertEqual(sorted(os.listdir(folder)), sorted(FILES))

    def test_files_that_are_not_needed_are_not_read(self):
        self.begin_at_one()
        self.assertEqual(self.call("add", "c"), (0, "ok 1\n"))
        for name in "index.json", "environment.json":
            (self.outside / name).unlink()
        self.assertEqual(self.call("undo"), (0, "ok 0\n"))
        self.assertEqual(self.call("redo"), (0, "ok 1\n"))
        self.assertEqual(self.call("log"), (0, "  0 init\n* 1 add c\n"))
        self.assertEqual(self.call("add", "a"), (4, "reqlock: index: unreadable\n"))


if __name__ == "__main__":
    unittest.main()
