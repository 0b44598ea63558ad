"""Tests of tools/snapshot.py, over the documents beside them and over small ones that a test writes."""

import json
import os
import signal
import subprocess
import sys
import tempfile
import time
import unittest
from pathlib import Path

from support.places import SUPPORT, TOOLS, TOP, new_folder
from support.tool_calls import called
from support.wanted_libraries import want_libraries

SCRIPT = TOOLS / "snapshot.py"
ZEROS = "0" * 64


def interrupted(call):
    """What a call told on standard error that was stopped by the keyboard. A signal that comes just before a read begins is
    heeded only at the next one, so it is sent again."""
    for _ in range(12):
        call.send_signal(signal.SIGINT)
        try:
            return call.communicate(timeout=5)[1]
        except subprocess.TimeoutExpired:
            continue
    return None


def heed_keyboard():
    """Lets a process be stopped by the keyboard, also where what started it may not be."""
    signal.signal(signal.SIGINT, signal.SIG_DFL)


def open_beside_a_reader(path):
    """Opens a named pipe for writing once somebody reads it."""
    for _ in range(600):
        try:
            return os.open(path, os.O_WRONLY | os.O_NONBLOCK)
        except OSError:
            time.sleep(0.1)
    raise TimeoutError(path)


def run(*words):
    done = called("snapshot", words)
    return done.returncode, done.stdout, done.stderr


def file(name="a-1.tar.gz", **others):
    return {"filename": name, "url": f"https://files.example/{name}", "size": 1, "digests": {"sha256": ZEROS}, **others}


def listed(name="a-1.tar.gz", **others):
    return {"name": name, "url": f"https://files.example/{name}", "size": 1, "sha256": ZEROS, **others}


def body(version="1", urls=(), name="a", releases=None, **info):
    """A body of the JSON API, with `releases` only where they are given."""
    others = {} if releases is None else {"releases": releases}
    return {"info": {"name": name, "version": version, **info}, "urls": list(urls), **others}


@want_libraries("packaging.version")
class Folder(unittest.TestCase):
    """A test with a folder of documents."""

    def setUp(self):
        self.folder = new_folder(self.addCleanup)

    def write(self, documents):
        for name, content in documents.items():
            path = self.folder / name
            path.parent.mkdir(parents=True, exist_ok=True)
            if isinstance(content, bytes):
                path.write_bytes(content)
            else:
                path.write_text(content if isinstance(content, str) else json.dumps(content), encoding="utf-8")

    def run_here(self, *words):
        """The status, the standard output, and the lines of standard error without the script's name and the folder."""
        status, output, errors = run(self.folder, *words)
        lines = errors.replace(f"{self.folder}{os.sep}", "").splitlines()
        return status, output, [line.removeprefix("snapshot.py: ") for line in lines]

    def made(self, documents, *words):
        """The packages of the snapshot that is made of the documents, and the lines of standard error."""
        self.write(documents)
        status, output, lines = self.run_here(*words)
        self.assertEqual(status, 0, lines)
        return json.loads(output)["packages"], lines

    def release(self, documents, *words):
        """The one release of the snapshot, and the lines of standard error."""
        packages, lines = self.made(documents, *words)
        [release] = packages[0]["releases"]
        return release, lines

    def check_refused(self, documents, fault):
        self.write(documents)
        status, output, lines = self.run_here()
        self.assertEqual((status, output, len(lines)), (1, "", 1), lines)
        self.assertRegex(lines[0], f"^{fault}")


@want_libraries("packaging.version")
class Shipped(unittest.TestCase):
    """The documents that are shipped give the snapshot beside them."""

    def test_gives_the_snapshot(self):
        status, output, errors = run(SUPPORT / "documents")
        self.assertEqual(output, (SUPPORT / "expected.json").read_text(encoding="utf-8"))
        self.assertEqual(status, 0)
        wanted = "tea-pot.json: Tea.Pot: left out, as no document tells their requires_dist: 1.9\n"
        self.assertIn(wanted, errors)
        self.assertIn("which others depend on: cosy-cover water\n", errors)

    def test_writes_it_to_a_file(self):
        with tempfile.TemporaryDirectory() as folder:
            path = Path(folder) / "index.json"
            status, output, _ = run(SUPPORT / "documents", "--output", path)
            self.assertEqual((status, output), (0, ""))
            self.assertEqual(path.read_bytes(), (SUPPORT / "expected.json").read_bytes())

    def test_keeps_a_release_of_unknown_dependencies_where_asked(self):
        _, output, errors = run(SUPPORT / "documents", "--assume-no-dependencies")
        versions = [release["version"] for release in json.loads(output)["packages"][2]["releases"]]
        self.assertEqual(versions, ["1.10", "2.0", "1.9", "0.1"])
        self.assertNotIn("left out", errors)


class Releases(Folder):
    """How the documents of a release are put together."""

    def test_joins_the_requires_python_of_files_that_differ(self):
        files = [file("a-1.tar.gz", requires_python=">=3.6"), file("b", requires_python=">=3.7, "), file("c")]
        release, lines = self.release({"a.json": body(urls=files, requires_python=">=3.6")})
        self.assertEqual(release["requires_python"], ">=3.6,>=3.7")
        self.assertEqual(lines, ["a.json: a 1: its files differ in requires_python, so >=3.6,>=3.7 is taken"])

    def test_takes_the_requires_python_of_the_files_where_the_release_has_none(self):
        release, lines = self.release({"a.json": body(urls=[file(requires_python=">=3.6")], requires_python="")})
        self.assertEqual((release["requires_python"], lines), (">=3.6", []))

    def test_is_yanked_where_all_files_are(self):
        release, lines = self.release({"a.json": body(urls=[file("a", yanked=True), file("b", yanked=True)])})
        self.assertEqual((release["yanked"], len(release["files"]), lines), (True, 2, []))

    def test_leaves_out_yanked_files_beside_others(self):
        release, lines = self.release({"a.json": body(urls=[file("a", yanked=True), file("b", yanked=False)])})
        self.assertEqual((release["yanked"], [archive["name"] for archive in release["files"]]), (False, ["b"]))
        self.assertEqual(lines, ["a.json: a 1: left out, as they are yanked and others aren't: a"])

    def test_asks_the_release_where_a_file_does_not_tell_whether_it_is_yanked(self):
        release, _ = self.release({"a.json": body(urls=[file()], yanked=True)})
        self.assertTrue(release["yanked"])

    def test_leaves_out_files_without_sha256_or_size(self):
        files = [file("a", digests={"md5": "0"}), file("b", size=None), file("c"), file("d", digests=None)]
        release, lines = self.release({"a.json": body(urls=files)})
        self.assertEqual([archive["name"] for archive in release["files"]], ["c"])
        self.assertEqual(lines, ["a.json: a 1: left out, for want of a size or sha256: a, b, d"])

    def test_takes_dependencies_of_the_body_of_the_release(self):
        package = body(releases={"1": [file()]}, requires_dist=["b"])
        release, _ = self.release({"a.json": package, "a/1.json": body(requires_dist=["c"])})
        self.assertEqual((release["requires_dist"], len(release["files"])), (["c"], 1))

    def test_takes_bodies_that_all_list_the_releases(self):
        releases = {"2": [file("a-2.zip")], "1": [file()]}
        one, two = (body(version, releases=releases, requires_dist=[f"b=={version}"]) for version in "12")
        packages, lines = self.made({"a/json": two, "a/1/json": one, "a/2/json": two})
        needs = [(release["version"], release["requires_dist"]) for release in packages[0]["releases"]]
        self.assertEqual(needs, [("2", ["b==2"]), ("1", ["b==1"])])
        self.assertEqual(lines, ["no document tells of these packages, which others depend on: b"])

    def test_puts_packages_together_by_normal_name(self):
        documents = {"1.json": body(name="B_b"), "2.json": body("2", name="b.B"), "3.json": body(name="a")}
        packages, _ = self.made(documents)
        self.assertEqual([(package["name"], len(package["releases"])) for package in packages], [("a", 1), ("B_b", 2)])

    def test_puts_releases_of_their_own_documents_in_the_order_of_paths(self):
        versions = list("123456789")
        packages, _ = self.made({f"{version}.json": body(version) for version in reversed(versions)})
        self.assertEqual([release["version"] for release in packages[0]["releases"]], versions)

    def test_reads_a_document_behind_a_byte_order_mark(self):
        release, _ = self.release({"a.json": b"\xef\xbb\xbf" + json.dumps(body("7")).encode()})
        self.assertEqual(release["version"], "7")

    def test_writes_texts_as_utf_8(self):
        release, _ = self.release({"a.json": body(urls=[file("\u00e9\U0001f375")])})
        self.assertEqual(release["files"][0]["name"], "\u00e9\U0001f375")
        self.assertIn("\u00e9\U0001f375", self.run_here()[1])


class Metadata(Folder):
    """METADATA and PKG-INFO."""

    def told(self, headers, name="PKG-INFO"):
        """Whether the dependencies are told, so that the release is there."""
        for document in ("METADATA", "PKG-INFO"):
            (self.folder / document).unlink(missing_ok=True)
        packages, _ = self.made({name: f"Name: a\nVersion: 1\n{headers}", "files.json": [listed()]})
        return packages[0]["releases"] != []

    def test_knows_which_headers_tell_all_dependencies(self):
        self.assertTrue(self.told("Metadata-Version: 2.2\n"))
        self.assertTrue(self.told("Metadata-Version: 2.10\nDynamic: License\n"))
        self.assertTrue(self.told("Metadata-Version: 2.1\nRequires-Dist: b\n"))
        self.assertTrue(self.told("Metadata-Version: 2.1\n", "METADATA"))
        self.assertFalse(self.told("Metadata-Version: 2.1\n"))
        self.assertFalse(self.told("Metadata-Version: 2.2\nDynamic: Requires-Dist\n"))

    def test_counts_metadata_before_pkg_info(self):
        headers = "Name: a\nVersion: 1\nRequires-Dist: "
        documents = {"METADATA": f"{headers}b\r\n", "PKG-INFO": f"{headers}c\n", "files.json": [listed()]}
        release, _ = self.release(documents)
        self.assertEqual(release["requires_dist"], ["b"])

    def test_refuses_faulty_headers(self):
        files = {"files.json": [listed()]}
        self.check_refused({**files, "METADATA": "Name: a\nVersion: 1\nodd\nRequires-Dist: b\n"}, "METADATA: a line")
        self.check_refused({**files, "METADATA": "Name: a\n"}, "METADATA: Version stands 0 times")
        self.check_refused({**files, "METADATA": "Name: a\nname: b\nVersion: 1\n"}, "METADATA: Name stands 2 times")
        self.check_refused({**files, "METADATA": "Name: -\nVersion: 1\n"}, "METADATA: Name: a name is wanted")
        self.check_refused({**files, "METADATA": b"Name: \xe9\n"}, "METADATA: not UTF-8")

    def test_wants_the_list_of_files(self):
        self.check_refused({"a/METADATA": "Name: a\nVersion: 1\n"}, "a/METADATA: no files.json is beside it")
        self.check_refused({"0/files.json": []}, "0/files.json: the whole: an object is wanted")

    def test_reads_a_files_json_without_metadata_as_a_body(self):
        packages, _ = self.made({"files.json": body(name="files")})
        self.assertEqual(packages[0]["name"], "files")

    def test_names_the_faulty_place_of_the_list(self):
        headers = "Name: a\nVersion: 1\n"
        files = [listed(), {"name": "b"}]
        self.check_refused({"METADATA": headers, "files.json": files}, "files.json: /1/url: a text is wanted")


class Faults(Folder):
    """A faulty document is named with the place in it."""

    def check_file(self, fault, **parts):
        self.check_refused({"a.json": body(urls=[file(), file(**parts)])}, f"a.json: /urls/1/{fault} is wanted")

    def test_of_files(self):
        self.check_file("filename: a text that isn't empty", name="")
        self.check_file("url: a text", url=None)
        self.check_file("url: a text", url="\ud800")
        for size in 2**63, -1, True, 1.0, "1":
            self.check_file("size: a number from 0 to 9223372036854775807", size=size)
        self.check_file("digests/sha256: a text of 64 hexadecimal digits", digests={"sha256": "0" * 63})
        self.check_file("yanked: true or false", yanked="no")
        self.check_file("requires_python: a text", requires_python=3)

    def check_body(self, fault, document):
        self.check_refused({"a.json": document}, f"a.json: {fault}")

    def test_of_bodies(self):
        self.check_body("the whole: an object is wanted", [])
        self.check_body("not JSON: ", "{")
        self.check_body("not JSON: ", "[" * 100_000)
        self.check_body("not UTF-8: ", b'"\xff"')
        self.check_body("/info: an object is wanted", {"message": "Not Found"})
        self.check_body("/info/name: a name is wanted", body(name="a!"))
        self.check_body("/info/name: a name is wanted", body(name="a\n"))
        self.check_body("/info/version: a text is wanted", body(version=1))
        self.check_body("/info/requires_dist/1: a text is wanted", body(requires_dist=["b", None]))
        self.check_body("/urls: an array is wanted", {"info": {"name": "a", "version": "1"}})
        self.check_body("/releases/1~1~02/0/filename: a text is wanted", body(releases={"1/~2": [{}]}))

    def test_of_documents_that_disagree(self):
        one, other = body(requires_dist=["b"]), body(requires_dist=["c"])
        self.check_refused({"a.json": one, "b.json": other}, "b.json: .*a.json tells otherwise of a 1$")
        one, other = body(releases={"1": [file()], "2": []}), body("2", releases={"1": [], "2": []})
        self.check_refused({"a.json": one, "b.json": other}, "b.json: .*a.json lists other files of a 1$")

    def test_of_folders(self):
        self.assertIn("no archive and no document is in it", run(self.folder)[2])
        status, output, errors = run(self.folder / "absent")
        self.assertEqual((status, output), (1, ""))
        self.assertIn("absent", errors)
        self.assertNotIn("no document", errors)


class Needed(Folder):
    """Which packages are named as absent."""

    DOCUMENTS = {
        "a.json": body(name="a", requires_dist=["b", "c; extra == 'x'", "d; sys_platform == 'win32'", "e[y]"]),
        "e.json": body(name="e", requires_dist=["f; extra == 'Y'", "g; extra == 'z'"]),
    }

    def absent(self, *words):
        _, lines = self.made(self.DOCUMENTS, *words)
        return lines

    def written(self, name, text):
        path = self.folder.parent / f"{self.folder.name}-{name}"
        path.write_text(text, encoding="utf-8")
        self.addCleanup(path.unlink, missing_ok=True)
        return path

    def test_are_those_of_extras_that_others_ask_for(self):
        self.assertEqual(self.absent(), ["no document tells of these packages, which others depend on: b d f"])

    def test_are_those_that_the_requirements_lead_to(self):
        path = self.written("requirements.txt", "# web\r\na[x]  # one\r\n\r\nh ; os_name == 'nt'\r\n")
        wanted = ["no document tells of these packages, which are needed: b c d f h", "extras that are followed: a[x] e[y]"]
        self.assertEqual(self.absent("--for", path), wanted)
        wanted[0] = "no document tells of these packages, which are needed: b c f"
        environment = TOP / "examples" / "web" / "environment.json"
        self.assertEqual(self.absent("--for", path, "--env", environment), wanted)
        path.write_text("e\n", encoding="utf-8")
        self.assertEqual(self.absent("--for", path), [])

    def test_wants_requirements_that_can_be_read(self):
        for line, fault in {
            "-r base.txt": "it is an option", "a @ https://files.example/a.whl": "reqlock takes no URL",
            "a==1 \\": "it goes on in the next line", "./a": "it begins with no name", "=1": "it begins with no name",
        }.items():
            path = self.written("requirements.txt", f"a\n{line}\n")
            status, output, lines = run(self.folder, "--for", path)
            self.assertEqual((status, output), (1, ""))
            self.assertIn(f"{path}: line 2: ", lines)
            self.assertIn(fault, lines)

    def test_says_what_may_be_no_requirement(self):
        path = self.written("requirements.txt", "e => 2\n")
        lines = self.absent("--for", path)
        self.assertRegex(lines[0], "requirements.txt: line 1: 'e => 2' may be no requirement: ")


class Around(Folder):
    def test_an_index_in_place_of_a_folder_is_told(self):
        for words in ["https://files.example/simple/"], ["--output", "x", "simple", "https://files.example/simple/", "a"]:
            status, output, errors = run(*words)
            self.assertEqual((status, output), (2, ""))
            self.assertIn("an index is asked by `snapshot.py simple URL ..`, with `simple` before all options", errors)

    def test_passes_a_snapshot_over(self):
        self.write({"a.json": body()})
        for _ in range(2):
            status, output, lines = self.run_here("--output", self.folder / "index.json")
            self.assertEqual((status, output), (0, ""))
        self.assertEqual(lines, ["index.json: passed over, as it is a snapshot"])
        self.assertEqual(sorted(path.name for path in self.folder.iterdir()), ["a.json", "index.json"])

    def test_keeps_the_mode_and_the_link_of_its_output(self):
        self.write({"a.json": body(), "place/old": "old"})
        (self.folder / "place" / "old").chmod(0o640)
        (self.folder / "link").symlink_to(self.folder / "place" / "old")
        self.assertEqual(self.run_here("--output", self.folder / "link")[0], 0)
        self.assertTrue((self.folder / "link").is_symlink())
        self.assertEqual((self.folder / "place" / "old").stat().st_mode & 0o777, 0o640)
        self.assertEqual(json.loads((self.folder / "link").read_text())["snapshot"], 1)

    def test_writes_to_what_is_no_file(self):
        self.write({"a.json": body()})
        self.assertEqual(self.run_here("--output", "/dev/null")[0], 0)
        self.assertTrue(Path("/dev/null").is_char_device())

    def test_is_stopped_by_the_keyboard(self):
        # (what stands below /dev is read as it is, where any other pipe is refused)
        place = tempfile.TemporaryDirectory(dir="/dev/shm")
        self.addCleanup(place.cleanup)
        pipe_path, output = Path(place.name) / "in", self.folder / "index"
        os.mkfifo(pipe_path)
        command = [sys.executable, "-B", SCRIPT, self.folder, "--for", pipe_path, "--output", output]
        streams = {"stdout": subprocess.PIPE, "stderr": subprocess.PIPE, "encoding": "utf-8"}
        call = subprocess.Popen(command, preexec_fn=heed_keyboard, **streams)
        self.addCleanup(call.kill)
        pipe = open_beside_a_reader(pipe_path)
        errors = interrupted(call)
        os.close(pipe)
        self.assertEqual((call.returncode, errors), (130, "snapshot.py: stopped; no snapshot is written\n"))
        self.assertFalse(output.exists())


if __name__ == "__main__":
    unittest.main()
