"""Tests of tools/fleet.py over the built program. The session of docs/FLEET.md is typed."""

import json
import os
import re
import shutil
import subprocess
import tempfile
import unittest
from pathlib import Path

from support.fleets import ASKED, SCRIPT, table
from support.places import PROGRAM, TOP, needs_program
from support.program import Program
from support.shown import printed_by, typed_blocks
from support.tool_calls import called


class OverProgram(Program):
    """Five services over the built program. Of requests, 2.28 needs urllib3<1.27, and 2.32 urllib3<3."""

    SERVICES = {
        "docs": b"flask\n", "mail": b"requests\nurllib3<2  # old\n", "news": b"# news\r\nrequests<2.30  # the feed\r\nurllib3\r\n",
        "pay": b"requests<2.30\nurllib3\n", "site": b"flask\nurllib3>=2\n",
    }
    RELEASES = (
        ("flask", "3.0", []), ("requests", "2.28", ["urllib3<1.27"]), ("requests", "2.32", ["urllib3<3"]), ("urllib3", "1.26", []),
        ("urllib3", "2.2", []),
    )

    def setUp(self):
        super().setUp()
        self.begin(b"", *self.RELEASES)
        for name, requirements in self.SERVICES.items():
            (self.outside / name).mkdir()
            (self.outside / name / "requirements.txt").write_bytes(requirements)
        rows = [(name, "ok 0", "") for name in self.SERVICES]
        words = "--env", "environment.json", *self.SERVICES, "--", "init"
        self.assertEqual(self.fleet(*words), (0, f"{table(*rows)}\n5 folders: 5 ok\n", ""))

    def fleet(self, *words):
        done = called("fleet", ["--program", PROGRAM, "--index", "index.json", *words], self.outside)
        return done.returncode, done.stdout, done.stderr.replace("fleet.py: ", "")

    def bytes_of(self, name):
        return {path.name: path.read_bytes() for path in (self.outside / name).iterdir()}

    def asked(self, name, *words):
        command = [PROGRAM, "--dir", name, "--index", "index.json", *words]
        return subprocess.run(command, cwd=self.outside, capture_output=True, encoding="utf-8", check=False).stdout

    def test_who_can_take_a_version(self):
        before = {name: self.bytes_of(name) for name in self.SERVICES}
        rows = (
            ("docs", "no such line", ""), ("mail", "ok 1", "urllib3 1.26 -> 2.2"), ("news", "refused no-solution", ""),
            ("pay", "refused no-solution", ""), ("site", "same", ""),
        )
        reason = "".join(f"  {line}\n" for line in self.asked("news", "why", "--explain", "--constrain", "urllib3", ">=2").splitlines())
        self.assertIn("line 2 (requests<2.30  # the feed)", reason)
        told = (
            f"{table(*rows)}\n5 folders: 1 ok, 1 the same, 1 without such a line, 2 refused\n"
            f"\nno solution in 2 folders: news, pay\n  (lines as they stand in news)\n{reason}"
        )
        self.assertEqual(self.fleet("--explain", *self.SERVICES, *ASKED), (1, told, ""))
        self.assertEqual({name: self.bytes_of(name) for name in self.SERVICES}, before)

    def test_an_edit_and_the_way_back(self):
        before = self.bytes_of("mail")
        words = "--json", "mail", "site", "--", "constrain", "urllib3", ">=2"
        status, output, errors = self.fleet(*words)
        self.assertEqual((status, errors), (0, ""))
        mail, site = json.loads(output)["folders"]
        self.assertEqual((mail["reply"], mail["lines"]), ("ok 1", ["- 2: urllib3<2  # old", "+ 2: urllib3>=2  # old"]))
        self.assertEqual(mail["entries"], [{"target": "", "name": "urllib3", "old": "1.26", "new": "2.2"}])
        self.assertEqual(site["reply"], "same")
        self.assertEqual((self.outside / "mail" / "requirements.txt").read_bytes(), b"requests\nurllib3>=2  # old\n")
        rows = ("mail", "ok 0", "urllib3 2.2 -> 1.26"), ("site", "refused nothing-to-undo", "")
        self.assertEqual(self.fleet("mail", "site", "--", "undo", "--dry-run")[1].split("\n\n")[0] + "\n", table(*rows))
        self.assertEqual(self.fleet("mail", "--", "undo")[0], 0)
        self.assertEqual({name: text for name, text in self.bytes_of("mail").items() if "journal" not in name},
                         {name: text for name, text in before.items() if "journal" not in name})

    def test_histories_without_their_first_steps(self):
        for words in ["add", "flask"], ["remove", "flask"]:
            self.asked("mail", *words)
        late = "the history stands at place 0, and can't begin 1 before it"
        rows = ("mail", "ok 1", ""), ("site", "refused", late)
        for more in ["--dry-run"], []:
            told = f"{table(*rows)}\n2 folders: 1 ok, 1 refused\n"
            self.assertEqual(self.fleet("mail", "site", "--", "forget", "--keep", "1", *more), (1, told, ""))
        self.assertEqual(self.asked("mail", "log"), "  0 init\n* 1 remove flask\n")
        report = json.loads(self.fleet("--json", "site", "--", "forget", "--keep=1")[1])["folders"][0]
        self.assertEqual((report["kind"], report["reply"], report["status"], report["told"]), ("refused", "refused", 2, late))
        self.assertEqual(self.fleet("mail", "site", "--", "forget", "--before", "0")[0], 0)
        self.assertIn("--before or --keep is needed", self.fleet("mail", "--", "forget")[2])

    def test_other_targets(self):
        (self.outside / "pins.txt").write_bytes(b"requests==2.28\n")
        (self.outside / "bad.txt").write_bytes(b"urllib3>=1.26\n")
        new = "--env", "new=environment.json"
        for words, status, told in (
            (["docs", "--", "retarget"], 2, "error: --env is needed\n"), ([*new, *new, "docs", "--", "retarget"], 2, "error: --env new twice\n"),
            ([*new, "docs", "--", "retarget", "--pins", "old=pins.txt"], 2, "error: --pins has no target old\n"),
            ([*new, "docs", "--", "retarget", "--pins", "-"], 2, "error: --pins wants a file, which each folder is given; "),
            ([*new, "docs", "--", "retarget", "--pins", "new=bad.txt"], 4, "bad.txt: line 1: no-pin\n"),
            ([*new, "docs", "--", "retarget", "--pins=absent.txt"], 4, "absent.txt: unreadable\n"),
        ):
            with self.subTest(words=words):
                exit_status, output, errors = self.fleet(*words)
                self.assertEqual((exit_status, output), (status, ""))
                self.assertIn(told, errors)
                self.assertNotIn("/tmp", errors)
        (self.outside / "news" / "requirements.txt").write_bytes(b"urllib3\n")
        broken = "requirements.txt: files-disagree: reqlock --dir news check tells more"
        rows = ("mail", "ok 1", "- target, + target new"), ("news", "broken", broken), ("site", "ok 1", "- target, + target new")
        words = *new, "mail", "news", "site", "--", "retarget", "--pins", "new=pins.txt"
        self.assertEqual(self.fleet(*words), (4, f"{table(*rows)}\n3 folders: 2 ok, 1 broken\n", ""))
        self.assertRegex(self.asked("mail", "show"), "requests +2.28 ")

    def test_a_folder_without_a_history(self):
        (self.outside / "bare").mkdir()
        (self.outside / "bare" / "requirements.txt").write_bytes(b"urllib3\n")
        told = "there is no history: reqlock --dir bare init begins one, with --index and --env"
        rows = ("bare", "broken", told), ("docs", "ok 0", "")
        self.assertEqual(self.fleet("bare", "docs", "--", "check"), (4, f"{table(*rows)}\n2 folders: 1 ok, 1 broken\n", ""))

    def test_a_newer_index(self):
        self.begin(b"", ("flask", "3.1", []), *self.RELEASES[1:])
        rows = ("docs", "stale", "flask 3.0 -> 3.1"), ("mail", "current", "")
        self.assertEqual(self.fleet("docs", "mail", "--", "check", "--current"), (1, f"{table(*rows)}\n2 folders: 1 ok, 1 refused\n", ""))

    def test_inputs_that_are_refused_before_any_folder_is_touched(self):
        before = self.bytes_of("docs")
        (self.outside / "environment.json").write_bytes(b"[]")
        told = "environment.json: bad-environment; reqlock-environment makes such a file\n"
        self.assertEqual(self.fleet("--env", "environment.json", "docs", "--", "init"), (4, "", told))
        (self.outside / "index.json").write_bytes(b"{")
        self.assertEqual(self.fleet("docs", *ASKED), (4, "", "index.json: not-json; reqlock-snapshot makes such a file\n"))
        status, output, errors = self.fleet("docs", "--", "relock", "--tree")
        self.assertEqual((status, output), (2, ""))
        self.assertIn("--tree", errors)
        self.assertEqual(self.bytes_of("docs"), before)


@needs_program
class Page(unittest.TestCase):
    def test_what_is_typed_prints_what_is_shown(self):
        text = (TOP / "docs" / "FLEET.md").read_text(encoding="utf-8")
        # (an empty line between two that are indented is one of the output)
        [block] = typed_blocks(re.sub(r"(?m)(^ {4}.+\n)\n(?= {4})", r"\1    \n", text))
        with tempfile.TemporaryDirectory() as name:
            folder = Path(name)
            shutil.copytree(TOP / "examples", folder / "examples")
            (folder / "reqlock-fleet").symlink_to(SCRIPT)
            path = f"{folder}:{PROGRAM.parent}:{os.environ['PATH']}"
            printed = printed_by(block, folder, {**os.environ, "PATH": path, "PYTHONDONTWRITEBYTECODE": "1"})
            self.assertEqual([text.splitlines() for text in printed], [shown for _, shown in block])


if __name__ == "__main__":
    unittest.main()
