"""Tests of tools/snapshot.py over wheels and sdists, which the tests make."""

import hashlib
import os
import subprocess
import sys
import unittest

from support.made.archives import headers, sdist, tarred, wheel, zipped
from support.terminals import shown_on_terminal
from test_snapshot import SCRIPT, Folder, body, file

from reqlock_tools.libraries import library


class Archives(Folder):
    """A test with a folder of archives. `made` and `release` of the class above make a snapshot of it."""

    def versions(self, *words):
        """The versions by package, and the lines of standard error."""
        packages, lines = self.made({}, *words)
        return {package["name"]: [release["version"] for release in package["releases"]] for package in packages}, lines

    def check_refused_here(self, fault):
        self.check_refused({}, fault)


class Reading(Archives):
    def test_reads_a_wheel(self):
        path = wheel(self.folder, "Tea-Pot", "1.0", "cup (>=1)", "tray ; extra == 'x'", python=">=3.8, <4")
        packages, lines = self.made({})
        data = path.read_bytes()
        self.assertEqual(packages, [{
            "name": "Tea-Pot",
            "releases": [{
                "version": "1.0",
                "requires_python": ">=3.8, <4",
                "requires_dist": ["cup (>=1)", "tray ; extra == 'x'"],
                "yanked": False,
                "files": [{
                    "name": "Tea_Pot-1.0-py3-none-any.whl",
                    "url": path.resolve().as_uri(),
                    "size": len(data),
                    "sha256": hashlib.sha256(data).hexdigest(),
                }],
            }],
        }])
        self.assertEqual(lines, ["no document tells of these packages, which others depend on: cup"])

    def test_reads_sdists_of_both_kinds(self):
        for end in ".tar.gz", ".zip":
            sdist(self.folder / end[1:], "a", "1", "b>=1", end=end)
            wheel(self.folder, "b", "1")
        packages, lines = self.made({})
        [release] = packages[0]["releases"]
        self.assertEqual((release["requires_dist"], lines), (["b>=1"], []))
        self.assertEqual([archive["name"] for archive in release["files"]], ["a-1.tar.gz", "a-1.zip"])

    def test_reads_the_folder_and_those_below_beside_documents(self):
        wheel(self.folder / "x" / "y", "a", "1")
        wheel(self.folder, "a", "2")
        self.write({"b.json": body(name="b", urls=[file("b-1.zip")]), "notes.txt": "no archive"})
        self.assertEqual(self.versions(), ({"a": ["2", "1"], "b": ["1"]}, []))

    def test_takes_the_base_url_for_the_folder(self):
        wheel(self.folder / "x y", "a", "1+b")
        for base in "https://files.example/w", "https://files.example/w/":
            release, _ = self.release({}, "--base-url", base)
            url = "https://files.example/w/x%20y/a-1%2Bb-py3-none-any.whl"
            self.assertEqual(release["files"][0]["url"], url)

    def test_takes_names_and_versions_as_files_write_them(self):
        wheel(self.folder, "a", "1.0").rename(self.folder / "A-1-7-py2.py3-none-any.whl")
        sdist(self.folder, "a-b.c", "1.0-1").rename(self.folder / "a_b_c-1.0.post1.tar.gz")
        sdist(self.folder, "d", "odd version").rename(self.folder / "d-odd_version.tar.gz")
        self.assertEqual(self.versions()[0], {"a": ["1.0"], "a-b.c": ["1.0-1"], "d": ["odd version"]})

    def test_gives_the_same_bytes_again(self):
        for version in "3", "1", "2":
            wheel(self.folder, "a", version)
        self.assertEqual(self.run_here()[1], self.run_here()[1])
        self.assertEqual(self.versions()[0], {"a": ["1", "2", "3"]})


class Agreement(Archives):
    def test_puts_the_files_of_a_release_together(self):
        sdist(self.folder, "a", "1.0.0", "c", "b (>=1, <2) ; os_name == 'nt'", python=">=3.8")
        wheel(self.folder, "a", "1.0", "B<2,>=1;os_name==\"nt\"", "c", python=" >=3.8 ")
        release, lines = self.release({})
        self.assertEqual((release["version"], release["requires_python"]), ("1.0", ">=3.8"))
        self.assertEqual(release["requires_dist"], ["B<2,>=1;os_name==\"nt\"", "c"])
        self.assertEqual([archive["name"] for archive in release["files"]], ["a-1.0-py3-none-any.whl", "a-1.0.0.tar.gz"])
        self.assertEqual(lines, ["no document tells of these packages, which others depend on: b c"])

    def check_left_out(self, difference):
        packages, lines = self.made({})
        self.assertEqual(packages[0]["releases"], [])
        first = "a-1-py3-none-any.whl asks for other things"
        self.assertEqual(lines, [f"a-1.tar.gz: a 1: left out, as {first}: {difference}"])

    def test_leaves_out_a_release_whose_files_disagree(self):
        wheel(self.folder, "a", "1", "b>=1")
        sdist(self.folder, "a", "1", "b>=2", "c")
        self.check_left_out("Requires-Dist b>=2 is here alone; Requires-Dist c is here alone; "
                            "Requires-Dist b>=1 is there alone")
        sdist(self.folder, "a", "1", "b>=1", python=">=3")
        self.check_left_out("Requires-Python is >=3, and there absent")
        sdist(self.folder, "a", "1", "b>=1", "c; extra == 'x'")
        self.check_left_out("Requires-Dist c; extra == 'x' is here alone")

    def test_counts_an_sdist_that_does_not_tell_beside_a_wheel(self):
        wheel(self.folder, "a", "1", "b")
        for told in {"metadata": "2.1"}, {"dynamic": "requires-dist"}, {"dynamic": "Requires-Dist"}:
            sdist(self.folder, "a", "1", **told)
            release, _ = self.release({})
            self.assertEqual((release["requires_dist"], len(release["files"])), (["b"], 2))

    def test_compares_no_python_that_an_sdist_leaves_to_its_build(self):
        wheel(self.folder, "a", "1", python=">=3.8")
        sdist(self.folder, "a", "1", dynamic="Requires-Python", python=">=3")
        release, lines = self.release({})
        self.assertEqual((release["requires_python"], len(release["files"]), lines), (">=3.8", 2, []))

    def test_leaves_out_an_sdist_alone_that_does_not_tell(self):
        sdist(self.folder, "a", "1", "b", metadata="2.1")
        sdist(self.folder, "a", "2", dynamic="Requires-Dist")
        sdist(self.folder, "a", "3", dynamic="License")
        wanted = [f"a-{version}.tar.gz: a: left out, as no document tells their requires_dist: {version}" for version in "12"]
        self.assertEqual(self.versions(), ({"a": ["3"]}, wanted))
        packages, _ = self.made({}, "--assume-no-dependencies")
        self.assertEqual([release["requires_dist"] for release in packages[0]["releases"]], [["b"], [], []])

    def test_asks_a_document_for_dependencies_that_no_archive_tells(self):
        sdist(self.folder, "a", "1", "b", metadata="2.1", python=">=2")
        self.write({"a.json": body("1", urls=[file("x")], requires_dist=["c"], requires_python=">=3")})
        for words in [], ["--assume-no-dependencies"]:
            release, _ = self.release({}, *words)
            self.assertEqual((release["requires_dist"], release["requires_python"]), (["c"], ">=3"))
            self.assertEqual([archive["name"] for archive in release["files"]], ["a-1.tar.gz"])

    def test_takes_a_release_that_has_archives_from_these_alone(self):
        wheel(self.folder, "a", "1", "b")
        listed = {"1": [file("a-1.zip")], "2": [file("a-2.zip")]}
        self.write({"a.json": body("2", name="A", releases=listed), "1.json": body("1", requires_dist=["c"])})
        packages, _ = self.made({})
        releases = {release["version"]: (release["requires_dist"], len(release["files"])) for release in packages[0]["releases"]}
        self.assertEqual(releases, {"1": (["b"], 1), "2": ([], 1)})

    def test_asks_documents_whether_a_release_is_yanked(self):
        for version in "12345":
            wheel(self.folder, "a", version)
        listed = {
            "1": [file("a-1.zip", yanked=True)], "2": [file("x", yanked=True), file("y")], "3": [], "4": [file(yanked=False)],
        }
        self.write({"a.json": body("4", releases=listed), "5.json": body("5", yanked=True), "3.json": body("3", [file()])})
        packages, _ = self.made({})
        yanked = {release["version"] for release in packages[0]["releases"] if release["yanked"]}
        self.assertEqual(yanked, {"1", "5"})

    def test_refuses_a_document_with_another_digest(self):
        wheel(self.folder, "a", "1")
        documents = {"a.json": body(urls=[file("a-1-py3-none-any.whl")])}
        self.check_refused(documents, "a.json: it tells another sha256 of a-1-py3-none-any.whl than a-1-")


class Refusals(Archives):
    def test_of_broken_archives(self):
        for path in wheel(self.folder, "a", "1"), sdist(self.folder, "a", "1"), sdist(self.folder, "a", "1", end=".zip"):
            data = path.read_bytes()
            altered = bytes([*data[:40], data[40] ^ 1, *data[41:]])
            for broken in b"", b"no archive", data[: len(data) // 2], data[:-5], altered:
                path.write_bytes(broken)
                with self.subTest(path=path.name, size=len(broken)):
                    self.check_refused_here(f"{path.name}: not a whole archive: ")
            path.unlink()

    def test_of_other_names(self):
        path = wheel(self.folder, "a", "1")
        for name in "b-1-py3-none-any.whl", "a-2-py3-none-any.whl", "a-1.whl", "a-1--none-any.whl", "a-1-py3-\u00e9-any.whl":
            path = path.rename(self.folder / name)
            self.check_refused_here(f"{name}: the name isn't that of a")
        path.unlink()
        path = sdist(self.folder, "a", "1")
        for name in "b-1.tar.gz", "a-1.1.tar.gz", "a.tar.gz":
            path = path.rename(self.folder / name)
            self.check_refused_here(f"{name}: the name isn't that of a 1, of which its metadata tells")

    def test_of_metadata_in_a_folder_of_another_name(self):
        path = self.folder / "a-1-py3-none-any.whl"
        path.write_bytes(zipped({"b-1.dist-info/METADATA": headers("a", "1")}))
        self.check_refused_here("a-1-py3-none-any.whl: its metadata is in b-1.dist-info, and tells of a 1$")

    def test_of_archives_without_one_metadata(self):
        one, other = "a-1.dist-info/METADATA", "a-1.0.dist-info/METADATA"
        text = headers("a", "1")
        for members in {}, {"a/" + one: text}, {one: text, other: text}:
            (self.folder / "a-1-py3-none-any.whl").write_bytes(zipped(members))
            count = 2 * (len(members) == 2)
            fault = f"one NAME-VERSION.dist-info/METADATA is wanted in it, and it has {count}$"
            self.check_refused_here(f"a-1-py3-none-any.whl: {fault}")
        (self.folder / "a-1-py3-none-any.whl").unlink()
        (self.folder / "a-1.tar.gz").write_bytes(tarred({"PKG-INFO": text, "a-1/b/PKG-INFO": text}))
        self.check_refused_here("a-1.tar.gz: one NAME-VERSION/PKG-INFO is wanted in it, and it has 0$")

    def test_of_faulty_headers(self):
        wheel(self.folder, "a", "1", requires_python=">=3", python=">=3")
        self.check_refused_here("a-1-py3-none-any.whl: a-1.dist-info: Requires-Python stands 2 times$")

    def test_of_metadata_that_is_too_large(self):
        wheel(self.folder, "a", "1", summary="x" * 2**24)
        self.check_refused_here("a-1-py3-none-any.whl: over 16777216 bytes of a METADATA or PKG-INFO; --limit metadata=NUMBER takes more$")

    def test_of_two_files_of_one_name(self):
        one, other = wheel(self.folder / "x", "a", "1"), wheel(self.folder / "y", "a", "1")
        self.check_refused_here(f"y/{other.name}: x/{one.name} has the same name$")


@unittest.skipUnless(library("rich.progress"), "python3 has neither rich nor pip")
class Progress(Archives):
    def on_terminal(self):
        """What a terminal shows that is standard error, as lines are told on it."""
        command, variables = [sys.executable, "-B", SCRIPT, self.folder], {**os.environ, "TERM": "xterm"}
        status, shown = shown_on_terminal(
            lambda terminal: subprocess.Popen(command, stdout=subprocess.DEVNULL, stderr=terminal, env=variables)
        )
        self.assertEqual(status, 0)
        return shown

    def test_is_shown_on_a_terminal_alone(self):
        for version in range(30):
            wheel(self.folder, "a", str(version))
        shown = self.on_terminal()
        self.assertIn("0 of 30 archives read ", shown)
        self.assertTrue(shown.endswith("\033[2K"))
        self.assertEqual(self.run_here()[2], [])


if __name__ == "__main__":
    unittest.main()
