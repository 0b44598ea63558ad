"""Tests of archives, locks and links in folders that want to do harm: each is refused soon, with one sentence, and takes little memory
and disk."""

import bz2
import errno
import gzip
import io
import json
import os
import subprocess
import sys
import tarfile
import time
import tracemalloc
import unittest
import zipfile
from pathlib import Path
from unittest import mock

from support.made.archives import headers, tarred, zipped
from support.made.environments import LINUX
from support.places import IS_LONG, TOOLS, new_folder
from support.tool_calls import Limits as CallLimits
from support.tool_calls import called
from support.wanted_libraries import want_libraries

from reqlock_tools import adopt
from reqlock_tools.archive_members import at_end_of_zip, in_tar, in_zip
from reqlock_tools.archives import METADATA, PKG_INFO, metadata_of
from reqlock_tools.files import OWN, usual_mode, write_whole
from reqlock_tools.index_documents import header_values
from reqlock_tools.limits import Limits
from reqlock_tools.refusal import Refusal, fault_text
from reqlock_tools.snapshot_output import refuse_place

SECONDS = 20
MEMORY = 2**30
GIGABYTE = 2**30


def tar_header(kind, size, name="a-1/PKG-INFO"):
    """The header of a member of a tar, which may tell any size."""
    info = tarfile.TarInfo(name)
    info.type, info.size = kind, size
    return info.tobuf(tarfile.GNU_FORMAT)


@want_libraries("packaging.version")
class Hostile(unittest.TestCase):
    def setUp(self):
        self.folder = new_folder(self.addCleanup)

    def run_tool(self, name, *words, text=""):
        """The status and standard error of a call that may have this memory and time. Its standard input may be given."""
        done = called(name, words, self.folder, text=text, limits=CallLimits(SECONDS * 3, MEMORY))
        self.assertNotIn("Traceback", done.stderr)
        return done.returncode, done.stderr


class Archives(Hostile):
    def check(self, find, data, fault, limits=Limits()):
        start = time.monotonic()
        with self.assertRaisesRegex(Refusal, f"^a: {fault}"):
            metadata_of("a", io.BytesIO(data), find is not in_tar, find, limits)
        self.assertLess(time.monotonic() - start, SECONDS)

    def test_a_wheel_of_many_metadata_is_not_unpacked(self):
        data = io.BytesIO()
        with zipfile.ZipFile(data, "w", zipfile.ZIP_DEFLATED) as archive:
            for number in range(300):
                archive.writestr(f"a-{number}.dist-info/METADATA", b" " * 1000)
        with mock.patch.object(zipfile.ZipFile, "open", side_effect=AssertionError):
            self.check(at_end_of_zip, data.getvalue(), "one NAME-VERSION.dist-info/METADATA is wanted in it, and it has 300$")

    def test_a_zip_that_unpacks_to_much(self):
        data = zipped({"a": "x" * 100, "b": "x" * 200, "a-1.dist-info/METADATA": "Name: a"})
        self.check(in_zip, data, "over 199 bytes of a file in an archive; --limit member=NUMBER", Limits(member=199))
        self.check(in_zip, data, "over 306 bytes of all files in an archive; --limit unpacked=NUMBER", Limits(unpacked=306))
        self.check(in_zip, data, "over 2 files in an archive; --limit members=NUMBER", Limits(members=2))
        self.check(in_zip, data, "over 6 bytes of a METADATA or PKG-INFO; ", Limits(metadata=6))
        self.check(at_end_of_zip, data, "over 6 bytes of a METADATA or PKG-INFO; ", Limits(metadata=6))
        self.check(in_zip, data, "over 100 bytes of an archive's own lists; ", Limits(directory=100))
        metadata = metadata_of("a", io.BytesIO(data), True, in_zip, Limits(member=200, unpacked=307, members=3, metadata=7))
        self.assertEqual(metadata, ("a-1.dist-info", b"Name: a"))

    def test_a_zip_whose_members_are_one(self):
        """A small one that tells a hundred gigabytes, as the same bytes are those of each member."""
        data = io.BytesIO()
        with zipfile.ZipFile(data, "w", zipfile.ZIP_DEFLATED) as archive:
            archive.writestr("a", b"\0" * 2**20)
            first = archive.infolist()[0]
            first.file_size = GIGABYTE
            archive.filelist += [first] * 99
        self.check(in_zip, data.getvalue(), "over 4294967296 bytes of all files in an archive; ")

    def test_a_zip_that_is_packed_twice_over(self):
        """bzip2 makes a megabyte of forty bytes, and Python unpacks all that it has read at once."""
        count = 64 if IS_LONG else 8
        packed = bz2.compress(b"\0" * (count * 2**20))
        self.assertLess(len(packed), 2**12)
        data = io.BytesIO()
        with zipfile.ZipFile(data, "w", zipfile.ZIP_BZIP2) as archive:
            archive.writestr("a-1.dist-info/METADATA", headers("a", "1"))
            archive.writestr("b", b"\0" * (count * 2**20))
        self.assertEqual(metadata_of("a", data, True, in_zip, Limits())[0], "a-1.dist-info")

    def test_a_tar_with_huge_headers(self):
        lists = "over 8388608 bytes of an archive's own lists; --limit directory=NUMBER takes more$"
        for kind in tarfile.GNUTYPE_LONGNAME, tarfile.GNUTYPE_LONGLINK, tarfile.XHDTYPE, tarfile.XGLTYPE:
            self.check(in_tar, gzip.compress(tar_header(kind, 9 * GIGABYTE) + b"\0" * 2**20), lists)
        many = tar_header(tarfile.GNUTYPE_LONGNAME, 2**20) + b"x" * 2**20
        self.check(in_tar, gzip.compress(many * 9), lists)

    def test_a_tar_with_a_number_that_is_long(self):
        digits = b"1" * 2**20
        for kind in tarfile.XHDTYPE, tarfile.XGLTYPE:
            data = gzip.compress(tar_header(kind, len(digits)) + digits + tar_header(tarfile.REGTYPE, 0))
            self.check(in_tar, data, "not a whole archive: a number in its headers has over 63 digits$")
        self.assertEqual(metadata_of("a", io.BytesIO(tarred({"a-1/PKG-INFO": "1" * 99})), False, in_tar, Limits())[1], b"1" * 99)

    def test_members_of_odd_places(self):
        """What leads out of the archive, or to another member, is no metadata."""
        for name in "/a-1/PKG-INFO", "../a-1/PKG-INFO", "a-1/../PKG-INFO", "a-1//PKG-INFO":
            self.check(in_tar, tarred({name: "x"}), "one NAME-VERSION/PKG-INFO is wanted in it, and it has 0$")
        for kind in tarfile.SYMTYPE, tarfile.LNKTYPE, tarfile.FIFOTYPE, tarfile.CHRTYPE:
            self.check(in_tar, gzip.compress(tar_header(kind, 0)), "one NAME-VERSION/PKG-INFO is wanted in it, and it has 0$")
        for name in "/a-1.dist-info/METADATA", "../a-1.dist-info/METADATA":
            self.check(in_zip, zipped({name: "x"}), "one NAME-VERSION.dist-info/METADATA is wanted in it, and it has 0$")

    def test_a_tar_that_leads_back(self):
        for size in -512, -1024, -(2**40):
            info = tarfile.TarInfo("a-1/x")
            info.size = size
            data = gzip.compress(info.tobuf(tarfile.GNU_FORMAT) + b"\0" * 2048)
            self.check(in_tar, data, "(not a whole archive: |one NAME-VERSION/PKG-INFO is wanted in it, and it has 0)")

    def test_headers_that_are_not_read_take_no_memory(self):
        for text in "a:\n" * 2**16, "Name: a\n" + " \n" * 2**17, "b: c\n" + " x\n" * 2**16:
            tracemalloc.start()
            header_values("a", text)
            self.assertLess(tracemalloc.get_traced_memory()[1], 2**20)
            tracemalloc.stop()

    def test_a_tar_that_unpacks_to_much(self):
        zeros = tar_header(tarfile.REGTYPE, 2**21, "b") + b"\0" * 2**21
        data = gzip.compress(zeros * 3)
        self.check(in_tar, data, "over 2097151 bytes of a file in an archive; ", Limits(member=2**21 - 1))
        self.check(in_tar, data, "over 5000000 bytes of all files in an archive; ", Limits(unpacked=5_000_000))
        self.check(in_tar, data, "over 2 files in an archive; ", Limits(members=2))
        self.check(in_tar, gzip.compress(tar_header(tarfile.REGTYPE, 2**25)), "over 16777216 bytes of a METADATA or PKG-INFO; ")
        end = gzip.compress(tarred({"a-1/PKG-INFO": "x"})) + gzip.compress(b"\0" * 10**7)
        self.check(in_tar, end, "(over 5000000 bytes of all files|not a whole archive)", Limits(unpacked=5_000_000))
        whole = tarred({"a-1/PKG-INFO": "x"})
        self.assertEqual(metadata_of("a", io.BytesIO(whole), False, in_tar, Limits()), ("a-1", b"x"))

    @unittest.skipUnless(IS_LONG, "optional: LONG_TESTS=1 asks for it")
    def test_what_unpacks_to_much_takes_little_memory(self):
        piece = tar_header(tarfile.REGTYPE, GIGABYTE, "b")
        with gzip.open(self.folder / "a-1.tar.gz", "wb", compresslevel=1) as file:
            for _ in range(5):
                file.write(piece)
                for _ in range(GIGABYTE // 2**24):
                    file.write(b"\0" * 2**24)
        status, errors = self.run_tool("snapshot", ".")
        self.assertEqual(status, 1)
        self.assertIn("over 4294967296 bytes of all files in an archive", errors)

    def test_patterns_are_those_of_metadata_alone(self):
        self.assertIsNone(METADATA.fullmatch("a/a-1.dist-info/METADATA"))
        self.assertIsNone(PKG_INFO.fullmatch("a/b/PKG-INFO"))


class Folders(Hostile):
    """Folders with what is no file, or has no end."""

    def check(self, name, fault, *words):
        start = time.monotonic()
        status, errors = self.run_tool("snapshot", ".", *words)
        self.assertLess(time.monotonic() - start, SECONDS)
        self.assertEqual((status, errors), (1, f"snapshot.py: ./{name}: {fault}\n"))
        (self.folder / name).unlink()

    def test_with_pipes_and_devices(self):
        for name in "a.json", "METADATA", "a-1-py3-none-any.whl", "a-1.tar.gz":
            os.mkfifo(self.folder / name)
            self.check(name, "it is no file")
            (self.folder / name).symlink_to("/dev/zero")
            self.check(name, "it is no file")
        (self.folder / "METADATA").write_text(headers("a", "1"), encoding="utf-8")
        os.mkfifo(self.folder / "files.json")
        self.check("files.json", "it is no file")

    def test_with_documents_that_are_large(self):
        for name, kind, meaning in ("a.json", "page", "a project's page"), ("METADATA", "metadata", "a METADATA or PKG-INFO"):
            (self.folder / name).write_bytes(b" " * 9)
            self.check(name, f"over 8 bytes of {meaning}; --limit {kind}=NUMBER takes more", "--limit", f"{kind}=8")

    def test_with_names_that_are_no_texts(self):
        place = os.fsencode(self.folder) + b"/\xff"
        os.mkdir(place)
        with open(place + b"/a-1-py3-none-any.whl", "wb") as file:
            file.write(zipped({"a-1.dist-info/METADATA": headers("a", "1")}))
        status, _ = self.run_tool("snapshot", ".", "--base-url", "https://files.example", "--output", "index.json")
        self.assertEqual(status, 0)
        self.assertIn('"https://files.example/%FF/a-1-py3-none-any.whl"', (self.folder / "index.json").read_text(encoding="utf-8"))


class Locks(Hostile):
    def check(self, text, fault):
        (self.folder / "pylock.toml").write_text(text, encoding="utf-8")
        start = time.monotonic()
        status, errors = self.run_tool("hashed_requirements", "pylock.toml")
        self.assertLess(time.monotonic() - start, SECONDS)
        self.assertEqual(status, 1)
        self.assertRegex(errors, f"^hashed_requirements.py: pylock.toml: {fault}")

    def test_with_keys_of_many_parts(self):
        for key in "a." * 20_000 + "a", '"a" . ' * 20_000 + "a", "'a'." * 20_000 + "a":
            for text in f"{key} = 1\n", f"[{key}]\n", f"[[{key}]]\n", f"x = {{{key} = 1}}\n":
                self.check(text, "it has a key of over 32 parts")

    def test_with_numbers_of_many_digits(self):
        self.check("x = " + "9" * 5000, "it has a number or a key of over 64 digits")

    def test_with_texts_that_have_no_end(self):
        for text in '"' + '\\"' * 30_000, '"""' + '\\"' * 30_000, "'" * 60_001, '"' * 60_001:
            self.check(f"x = {text}", "it is no TOML: ")

    def test_nested(self):
        for text in "[" * 60_000, "{a = " * 60_000:
            self.check(f"x = {text}", "it is no TOML: ")

    def test_no_tool_shows_an_escape(self):
        name = "\x1b[31m"
        for words in (
            ["hashed_requirements", name], ["check_refutation", name, name, name],
            ["snapshot", name], ["snapshot", "simple", "http://127.0.0.1:9/", "--for", name, "--cache", "c"],
            ["adopt", name, name, "--index", name, "--env", name],
        ):
            status, errors = self.run_tool(*words)
            self.assertNotEqual(status, 0)
            self.assertNotIn("\x1b", errors)
            self.assertIn("\\x1b[31m: No such file or directory", errors)

    def test_with_environments_of_other_forms(self):
        """Of a file in the place of an environment."""
        for text in "[]", "1", '"x"', '{"os_name": 1}', "[" * 60_000, "{}", "9" * 5000, '{"os_name": "\\ud800"}', "\xff":
            (self.folder / "environment.json").write_text(text, encoding="latin-1")
            (self.folder / "in").write_bytes(b"")
            for words in ["snapshot", ".", "--for", "in"], ["snapshot", "simple", "http://127.0.0.1:9/", "a", "--cache", "c"]:
                status, errors = self.run_tool(*words, "--env", "environment.json")
                self.assertEqual((status, errors.count("\n")), (1, 1))
                self.assertRegex(errors, "^snapshot.py: environment.json: ")
            status, errors = self.run_tool("check_refutation", "in", "environment.json", "in")
            self.assertEqual((status, errors.count("\n")), (2, 1))


class Pipes(Hostile):
    """A named pipe, or a link to a device without an end, in the place of a file that is read. Nobody writes to the pipe."""

    def check(self, name, status, *words):
        for make in os.mkfifo, lambda path: path.symlink_to("/dev/zero"):
            (self.folder / name).unlink(missing_ok=True)
            make(self.folder / name)
            with self.subTest(name=name, words=words):
                self.assertEqual(self.run_tool(*words), (status, f"{words[0]}.py: {name}: it is no file\n"))
        (self.folder / name).unlink()

    def test_are_not_waited_for(self):
        (self.folder / "index.json").write_text('{"snapshot": 1, "packages": []}', encoding="utf-8")
        (self.folder / "in").write_bytes(b"a\n")
        begun = "--index", "index.json", "--env", "environment.json"
        self.check("pylock.toml", 1, "hashed_requirements", "pylock.toml")
        self.check("source", 1, "adopt", "source", "in", *begun)
        self.check("compiled", 1, "adopt", "in", "compiled", *begun)
        self.check("index", 2, "check_refutation", "index", "in", "in")
        simple = "snapshot", "simple", "http://127.0.0.1:9/", "--cache", "c"
        self.check("lines", 1, *simple, "--for", "lines")
        self.check("pylock.toml", 1, *simple, "a", "--keep", "pylock.toml")
        self.check("environment.json", 1, *simple, "a", "--env", "environment.json")

    def test_what_the_shell_hands_over_is_read(self):
        lock = self.folder / "pylock.toml"
        lock.write_text('lock-version = "1.0"\npackages = []\n', encoding="utf-8")
        for words in '<(cat "$1")', '/dev/stdin <"$1"':
            script = f'"{sys.executable}" -B "{TOOLS}/hashed_requirements.py" {words}'
            done = subprocess.run(["bash", "-c", script, "bash", lock], capture_output=True, check=False, timeout=SECONDS)
            self.assertEqual((done.returncode, done.stdout, done.stderr), (0, b"", b""))


class Refutations(Hostile):
    """What a refutation, an index and lines of others take is bounded."""

    def check(self, count, conflicts, *words):
        """The status and standard error of a check with so many lines on a name and so many releases of it."""
        releases = [{"version": f"{number}", "files": [{"name": "a.zip"}]} for number in range(count)]
        index = {"snapshot": 1, "packages": [{"name": "a", "releases": releases}]}
        (self.folder / "index.json").write_text(json.dumps(index), encoding="utf-8")
        (self.folder / "environment.json").write_text(json.dumps(LINUX), encoding="utf-8")
        (self.folder / "lines").write_text("".join(f"a!={number}\n" for number in reversed(range(count))), encoding="utf-8")
        told = "".join(f"{conflict}\n" for conflict in conflicts)
        return self.run_tool("check_refutation", "index.json", "environment.json", "lines", *words, text=told)

    def test_with_many_lines_and_releases(self):
        self.assertEqual(self.check(3000, ["a==0"]), (1, ""))

    def test_with_more_than_can_be_compared_soon(self):
        many = [f"a=={number}" for number in range(200)] + ["-"]
        self.assertEqual(self.check(200, many), (0, ""))
        told = "check_refutation.py: standard input: it takes over 100000 steps to check; --steps NUMBER takes more\n"
        self.assertEqual(self.check(200, many, "--steps", "100000"), (2, told))


class Links(Hostile):
    """Nothing is written through a link, or by a name that others can guess."""

    def test_a_snapshot_is_written_beside_its_place(self):
        seen, place = [], self.folder / "index.json"
        replace = os.replace
        with mock.patch("os.replace", side_effect=lambda one, other: (seen.append(Path(one)), replace(one, other))):
            for _ in range(2):
                write_whole(str(place), b"x", usual_mode())
        self.assertEqual([path.parent for path in seen], [self.folder] * 2)
        self.assertNotEqual(seen[0], seen[1])
        self.assertNotIn(str(os.getpid()), seen[0].name)
        mask = os.umask(0)
        os.umask(mask)
        self.assertEqual(place.stat().st_mode & 0o777, 0o666 & ~mask)
        place.chmod(0o640)
        write_whole(str(place), b"y", usual_mode())
        self.assertEqual((place.read_bytes(), place.stat().st_mode & 0o777), (b"y", 0o640))
        write_whole(str(place), b"z", OWN)
        self.assertEqual(place.stat().st_mode & 0o777, OWN)
        self.assertEqual([path.name for path in self.folder.iterdir()], ["index.json"])

    def test_a_file_that_cannot_be_written_is_told_by_its_own_name(self):
        place = self.folder / "none" / "index.json"
        with self.assertRaises(FileNotFoundError) as raised:
            write_whole(str(place), b"x", usual_mode())
        self.assertEqual(fault_text(raised.exception), f"{place}: {os.strerror(errno.ENOENT)}")

    @unittest.skipUnless(os.geteuid() == 0, "optional: only root can give a link to another user")
    def test_a_snapshot_is_written_through_no_link_of_another_user(self):
        place = self.folder / "index.json"
        place.symlink_to(self.folder / "else")
        refuse_place(str(place))
        os.chown(place, 65534, 65534, follow_symlinks=False)
        with self.assertRaisesRegex(Refusal, f"^{place}: a link of another user stands there$"):
            refuse_place(str(place))

    def test_adopt_writes_through_none(self):
        for name in adopt.FILES:
            place = self.folder / name
            place.symlink_to(self.folder / "else")
            with self.assertRaisesRegex(Refusal, f"^{place}: it stands there already"):
                adopt.check_place(str(self.folder), "a\n")
            place.unlink()
        self.assertEqual(list(self.folder.iterdir()), [])


if __name__ == "__main__":
    unittest.main()
