"""What is told beside a reply of packages that the index lacks: the releases that this rules out, the extras that it costs, and the call
that makes the index with them. With -v and in a CI job; in a pipe and with -q nothing."""

import json
import os
import subprocess
import unittest

from support.made.environments import LINUX, WINDOWS
from support.made.releases import index_of
from support.made.served_index import wheel_of
from support.places import PROGRAM, needs_program
from support.program import Program
from support.simple_index import Simple

ASYNC = "asgiref ; extra == 'async'"
FLASK = ("flask", "2.0.3", []), ("flask", "2.1", [ASYNC]), ("flask", "3.0", [ASYNC]), ("flask", "3.1.0", [ASYNC])
RULED_OUT = "flask 2.1 to 3.1.0 were ruled out for lines with [async]: the snapshot has no package asgiref\n"
LOST = "flask 2.0.3 was locked without the extra async: it asks for nothing by it, unlike flask 3.1.0\n"
WITH = "Where the package index has {}, this makes the snapshot with {}:\n"


class Lacking(Program):
    def notes(self, *words, status=0):
        """What a CI job is told beside a reply. With -v it is the end of what is told; in a pipe and with -q it isn't told."""
        self.assertEqual(self.asked("", *words), (status, ""))
        self.assertEqual(self.asked("1", "-q", *words), (status, ""))
        noted = self.asked("1", *words)
        told = self.asked("", "-v", *words)
        self.assertEqual((noted[0], told[0]), (status, status))
        self.assertTrue(told[1].endswith(noted[1]), told[1])
        return noted[1]

    def asked(self, job, *words):
        """The status of a call and its standard error. What it saves is taken back."""
        files = self.files()
        done = subprocess.run(
            [PROGRAM, *self.options()[:4], *words], capture_output=True, check=False, env={"PATH": os.environ["PATH"], "CI": job},
        )
        self.put(files)
        return done.returncode, done.stderr.decode()

    def call_with(self, *packages):
        """What tells how the snapshot is made, which doesn't say how it was made."""
        them = "it" if len(packages) == 1 else "them"
        words = " ".join(f"'{package}'" if "[" in package else package for package in packages)
        file, index = self.folder / "requirements.txt", self.outside / "index.json"
        call = f"    reqlock-snapshot simple https://index.example/simple/ {words} --for {file} --output {index}\n"
        return WITH.format(them, them) + call

    def begins(self, lines, *releases):
        self.begin(lines, *releases)
        self.assertEqual(self.told("init"), (0, "ok 0\n", ""))

    def tells_how_it_was_made(self, *releases):
        text = json.dumps(index_of(*releases), separators=(",", ":"))
        made = text.replace('{"snapshot":1,', '{"snapshot":1,"made":{"extras":{}},', 1)
        (self.outside / "index.json").write_text(made, encoding="utf-8")


class Extras(Lacking):
    """The snapshot has never followed an extra: the newest release without it is locked, which counts as met."""

    REPLACED = "replace", "--line", "flask", "Flask[async]>=2"

    def test_that_a_line_asks_for(self):
        self.begins(b"flask\n", *FLASK)
        self.assertEqual(self.notes(*self.REPLACED), RULED_OUT + LOST + self.call_with("flask[async]"))
        self.assertEqual(self.notes(*self.REPLACED, "--dry-run"), RULED_OUT + LOST + self.call_with("flask[async]"))
        self.assertEqual(self.told(*self.REPLACED), (0, "ok 1\n", ""))
        self.assertEqual(self.locked(), {"flask": "2.0.3"})
        for words in ["relock"], ["upgrade", "flask"], ["outdated"]:
            self.assertEqual(self.notes(*words), RULED_OUT + self.call_with("flask[async]"), words)

    def test_of_a_first_lock(self):
        self.begin(b"flask[async]\n", *FLASK)
        done = subprocess.run([PROGRAM, *self.options(), "init"], capture_output=True, check=False, env={"CI": "1"})
        told = RULED_OUT + self.call_with("flask[async]").replace(" --output", f" --env {self.environment_file('')} --output")
        self.assertEqual((done.stdout, done.stderr.decode()), (b"ok 0\n", told))

    def test_that_no_release_is_left_for(self):
        self.begins(b"flask\n", *FLASK)
        words = "replace", "--line", "flask", "flask[async]>=2.1"
        self.assertEqual(self.notes(*words, status=3), RULED_OUT + self.call_with("flask[async]"))
        self.assertEqual(self.notes("why", *(f"--{words[0]}", *words[1:]), status=3), RULED_OUT + self.call_with("flask[async]"))

    def test_of_a_release_that_is_asked_about(self):
        self.begins(b"flask[async]\n", *FLASK)
        told = RULED_OUT.replace("2.1 to 3.1.0 were", "3.0 was")
        self.assertEqual(self.notes("why", "--not", "flask==3.0", status=3), told + self.call_with("flask[async]"))

    def test_that_a_package_asks_for(self):
        self.begins(b"web\n", *FLASK, ("web", "1", ["flask[async]>=2"]))
        told = RULED_OUT.replace("for lines with [async]", "where [async] is asked for")
        self.assertEqual(self.notes("relock"), told + self.call_with("flask[async]"))

    def test_that_older_releases_alone_lack(self):
        self.begins(b"flask[async]\n", *FLASK, ("flask", "4", []))
        self.assertEqual(self.notes("relock"), "")

    def test_that_is_followed(self):
        self.begins(b"flask\n", *FLASK, ("asgiref", "1", []))
        self.assertEqual(self.notes(*self.REPLACED), "")

    def test_that_a_downgrade_loses(self):
        self.begins(b"flask[async]\n", *FLASK, ("asgiref", "1", []))
        self.assertEqual(self.notes("constrain", "flask", "<2.1"), LOST)
        self.assertEqual(self.notes("constrain", "flask", "<3"), "")


class Calls(Lacking):
    """What makes the index with what it lacks."""

    def test_again(self):
        self.begins(b"flask[async]\n", *FLASK)
        self.tells_how_it_was_made(*FLASK)
        call = f"    reqlock-snapshot again 'flask[async]' --output {self.outside / 'index.json'}\n"
        told = RULED_OUT + WITH.format("it", "it") + call
        self.assertEqual(self.notes("relock"), told)
        self.assertEqual(self.asked("", "relock", "-v")[1][-len(told):], told)

    def test_of_a_project(self):
        self.begins(b"flask[async]\n", *FLASK)
        (self.folder / ".reqlock").mkdir()
        with_rql = "Where the package index has it, this takes it in:\n    rql upgrade flask\n"
        self.assertEqual(self.noted_in_project("relock"), (0, RULED_OUT + with_rql))
        told = "the snapshot has no package none, which a line asks for\nWhere the package index has it, the same edit by rql takes it in.\n"
        self.assertEqual(self.noted_in_project("add", "none"), (3, RULED_OUT + told.replace("has it", "has them").replace("takes it", "takes them")))

    def noted_in_project(self, *words):
        done = subprocess.run([PROGRAM, *self.options()[:4], *words], capture_output=True, check=False, env={"CI": "1"})
        return done.returncode, done.stderr.decode()


class Packages(Lacking):
    def test_that_the_newest_release_needs(self):
        self.begins(b"app\n", ("app", "1", []), ("app", "2", ["gone"]))
        told = "app 2 was ruled out: the snapshot has no package gone\n"
        for words in ["relock"], ["upgrade"], ["outdated"]:
            self.assertEqual(self.notes(*words), told + self.call_with("gone"), words)
        self.assertEqual(self.notes("undo", status=1), "")

    def test_that_a_line_asks_for(self):
        self.begins(b"app\n", ("app", "1", []))
        told = "the snapshot has no package gone, which a line asks for\n"
        self.assertEqual(self.asked("1", "add", "gone")[1], told + self.call_with("gone"))
        self.assertIn("the index has no release of gone\nask: ", self.asked("", "add", "gone", "-v")[1])
        self.assertTrue(self.asked("", "add", "gone", "-v")[1].endswith(f" gone\n{self.call_with('gone')}"))

    def test_that_is_there_without_a_release(self):
        self.begins(b"app\n", ("app", "1", []), ("app", "2", ["none"]), ("none", "1", [], {"files": []}))
        self.assertEqual(self.notes("relock"), "")

    def test_of_releases_that_count_for_nothing(self):
        """They are out of a line's bounds, or of those of what is locked, pre-releases, yanked, for another Python or another system."""
        for more in (
            ("app", "2", ["gone"]), ("low", "2", ["gone"]), ("lib", "2rc1", ["gone"]), ("lib", "2", ["gone"], {"yanked": True}),
            ("lib", "2", ["gone"], {"requires_python": "<3"}), ("lib", "2", ["gone ; os_name == 'nt'"]),
        ):
            with self.subTest(more=more):
                self.begins(b"app<2\nlib\n", ("app", "1", ["low<2"]), ("lib", "1", []), ("low", "1", []), more)
                self.assertEqual(self.notes("relock"), "")

    def test_of_runs(self):
        """Release 4 doesn't go with what is there, and 1 is locked."""
        needs = {"4": ["low>=2"], "1": []}
        releases = [("app", version, needs.get(version, ["gone"])) for version in "12345"]
        self.begins(b"app\n", *releases, ("low", "1", []))
        self.assertEqual(self.notes("relock"), "app 2 to 3, 5 were ruled out: the snapshot has no package gone\n" + self.call_with("gone"))
        many = [("app", str(version), ["gone"] if version % 2 else ["low>=2"]) for version in range(3, 10)]
        self.begin(b"app\n", ("app", "1", []), *many, ("low", "1", []))
        told = "app: 4 releases from 3 to 9 were ruled out: the snapshot has no package gone\n"
        self.assertEqual(self.notes("relock"), told + self.call_with("gone"))

    def test_of_many(self):
        needs = [f"gone{number}" for number in range(5)]
        self.begins(b"app\n", ("app", "1", []), ("app", "2", needs))
        told = "app 2 was ruled out: the snapshot has no packages gone0, gone1, gone2 and 2 more\n"
        self.assertEqual(self.notes("relock"), told + self.call_with(*needs))
        many = [(f"p{number:02}", version, ["gone"] * (version == "2")) for number in range(30) for version in "12"]
        self.begins("".join(f"p{number:02}\n" for number in range(30)).encode(), *many)
        told = self.notes("relock")
        self.assertEqual(told.count("was ruled out"), 20)
        self.assertIn("\nand 10 more of such packages\n", told)

    def test_of_targets(self):
        self.lock_for({"linux": LINUX, "win": WINDOWS})
        self.begins(b"app\nlib\n", ("app", "1", []), ("app", "2", ["gone"]), ("lib", "1", []), ("lib", "2", ["gone ; os_name == 'nt'"]))
        told = "linux, win: app 2 was ruled out: the snapshot has no package gone\nwin: lib 2 was ruled out: the snapshot has no package gone\n"
        self.assertEqual(self.notes("relock"), told + self.call_with("gone"))


@needs_program
class Mended(Simple):
    """The call that is told, done over an index that has what is lacking."""

    def test_by_the_call(self):
        needs = "asgiref>=3 ; extra == 'async'"
        index = self.serve({
            "flask": [wheel_of("flask", "2.0.3"), wheel_of("flask", "3.1.0", needs)], "asgiref": [wheel_of("asgiref", "3.8")],
        })
        folder = self.folder / "cache"
        folder.mkdir()
        (folder / "requirements.txt").write_text("flask\n", encoding="utf-8")
        self.assertEqual(self.call(index.url, "--for", folder / "requirements.txt")[0], 0)
        environment = self.folder / "environment.json"
        environment.write_text(json.dumps(LINUX), encoding="utf-8")

        def reqlock(*words):
            options = ["--dir", folder, "--index", self.output]
            done = subprocess.run([PROGRAM, *options, *words], capture_output=True, check=True, env={"CI": "1"}, encoding="utf-8")
            return done.stdout, done.stderr

        self.assertEqual(reqlock("--env", environment, "init"), ("ok 0\n", ""))
        output, told = reqlock("replace", "--line", "flask", "Flask[async]>=2")
        self.assertEqual(output, "ok 1\n")
        lock = (folder / "pylock.toml").read_text(encoding="utf-8")
        self.assertNotIn("asgiref", lock)
        self.assertTrue(told.endswith(f"\n    reqlock-snapshot again 'flask[async]' --output {self.output}\n"), told)
        self.assertEqual(self.again(index, "flask[async]")[0], 0)
        self.assertEqual(reqlock("upgrade", "flask"), ("ok 2\n", ""))
        lock = (folder / "pylock.toml").read_text(encoding="utf-8")
        self.assertIn('version = "3.1.0"', lock)
        self.assertIn('name = "asgiref"', lock)


if __name__ == "__main__":
    unittest.main()
