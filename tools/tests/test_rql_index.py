"""Tests of how the settings of rql reach the index: of several indexes the first that has a name, those that are for some names alone,
bounds and what is told of them, choices of releases, and what isn't asked again."""

import os
import shutil
import subprocess
import sys
import unittest

from support.made.served_index import MadeIndex, sdist_of, wheel_of
from support.rql_projects import ENVIRONMENT, SCRIPT, Served
from support.terminals import shown_on_terminal


class Indexes(Served):
    """A team's index beside a public one, which an attacker fills."""

    def setUp(self):
        super().setUp()
        self.team = MadeIndex()
        self.addCleanup(self.team.close)
        self.team.add("team-tool", wheel_of("team-tool", "1", "rich"))
        self.serve(rich=[wheel_of("rich", "1")])
        self.index.add("team-tool", wheel_of("team-tool", "9"))
        self.put("requirements.txt", "team-tool\n")

    def settings(self, indexes):
        self.put("reqlock.toml", f"index = [{indexes}]\n{ENVIRONMENT}")

    def locked(self):
        return [row.split()[:2] for row in self.rql("show")[1].splitlines()[1:]]

    def test_the_first_that_has_a_name_is_asked_for_it_alone(self):
        self.settings(f'"{self.team.url}", "{self.index.url}"')
        self.accepts("init", answer="ok 0\n")
        self.assertEqual(self.locked(), [["rich", "1"], ["team-tool", "1"]])
        self.assertNotIn("/simple/team-tool/", [path for _, path in self.index.asked])

    def test_one_for_some_names_is_asked_for_these_and_no_other_is(self):
        self.settings(f'"{self.index.url}", {{ url = "{self.team.url}", only = ["team-*"] }}')
        self.accepts("init", answer="ok 0\n")
        self.assertEqual(self.locked(), [["rich", "1"], ["team-tool", "1"]])
        self.assertNotIn("/simple/team-tool/", [path for _, path in self.index.asked])
        self.assertNotIn("/simple/rich/", [path for _, path in self.team.asked])

    def test_one_that_refuses_or_fails_leads_to_no_other(self):
        self.settings(f'"{self.team.url}", "{self.index.url}"')
        for status in 401, 403, 500:
            self.team.instead["/simple/team-tool/"] = [lambda answer, status=status: answer.give(status)]
            exit_status, output, errors = self.rql("init", PIP_RETRIES="0")
            self.assertEqual((exit_status, output), (6, ""), errors)
            self.assertIn(str(status), errors)
            self.assertEqual(sorted(os.listdir(self.folder)), ["reqlock.toml", "requirements.txt"])

    def test_two_for_which_a_password_could_be_meant_are_refused(self):
        self.settings('"https://a-b.example/simple/", "https://a.b.example/simple/"')
        status, _, errors = self.rql("init", REQLOCK_INDEX_A_B_EXAMPLE_PASSWORD="p")
        self.assertEqual(status, 6)
        self.assertIn("REQLOCK_INDEX_A_B_EXAMPLE_PASSWORD: it could be meant for a-b.example or for a.b.example; ~/.netrc tells them apart", errors)


class Choices(Served):
    def setUp(self):
        super().setUp()
        self.serve(
            rich=[
                wheel_of("rich", "1", told={"upload-time": "2024-01-01T00:00:00Z"}), wheel_of("rich", "2", told={"upload-time": "2024-06-01T00:00:00Z"}),
                sdist_of("rich", "3", told={"upload-time": "2024-07-01T00:00:00Z"}),
                wheel_of("rich", "4rc1", told={"upload-time": "2024-08-01T00:00:00Z"}),
            ],
        )

    def version(self, line, *settings):
        """Which version of rich is locked for a line with these settings."""
        for name in os.listdir(self.folder):
            path = self.folder / name
            shutil.rmtree(path) if path.is_dir() else path.unlink()
        self.put("requirements.txt", f"{line}\n")
        self.put("reqlock.toml", "".join(f"{setting}\n" for setting in (*settings, f'index = ["{self.index.url}"]', ENVIRONMENT)))
        self.accepts("init", answer="ok 0\n")
        return self.rql("show", "rich")[1].split()[1]

    def test_of_releases(self):
        for line, wanted, *settings in (
            ("rich", "3"), ("rich>=1rc1", "4rc1"), ("rich>=1rc1", "3", "pre-releases = false"), ("rich", "2", "only-binary = true"),
            ("rich", "1", 'exclude-newer = "2024-02-01"'), ("rich", "2", 'exclude-newer = "2024-06-15"'), ("rich>=1rc1", "4rc1", "newest = 1"),
        ):
            with self.subTest(line=line, settings=settings):
                self.assertEqual(self.version(line, *settings), wanted)

    def test_a_lock_whose_versions_are_the_only_ones(self):
        """What is developed with stands on top of what is deployed."""
        self.serve(flask=[wheel_of("flask", "1"), wheel_of("flask", "2")])
        prod, dev = self.folder / "prod", self.folder / "dev"
        (self.folder / ".git").mkdir()
        for folder, lines, more in (prod, "flask<2\n", ""), (dev, "flask\nrich\n", 'constraints = ["../prod/pylock.toml"]\n'):
            self.put("requirements.txt", lines, folder)
            self.put("reqlock.toml", f'{more}index = ["{self.index.url}"]\n{ENVIRONMENT}', folder)
            self.assertEqual(self.rql("init", folder=folder)[:2], (0, "ok 0\n"))
        self.assertEqual(self.rql("show", folder=dev)[1].splitlines()[1].split()[:2], ["flask", "1"])
        self.assertEqual(self.rql("upgrade", "flask", folder=dev)[1], "same\n")
        self.assertEqual(self.rql("constrain", "flask", folder=prod)[0], 0)
        self.assertEqual(self.rql("upgrade", "flask", folder=prod)[1], "ok 2\n")
        self.assertEqual(self.rql("upgrade", "flask", folder=dev)[1], "ok 1\n")
        self.assertEqual(self.rql("show", folder=dev)[1].splitlines()[1].split()[:2], ["flask", "2"])


class LeftOut(Served):
    """What constraints leave out is told behind the answer of `why` and `outdated` that it matters to."""

    def setUp(self):
        super().setUp()
        self.serve(
            flask=[wheel_of("flask", "1", "rich"), wheel_of("flask", "2", "rich>=2")], tool=[wheel_of("tool", "1")],
            rich=[wheel_of("rich", version) for version in ("1", "1.5", "2", "2.1")],
        )
        self.begin_within("# bounds\nRich < 2  # (not yet)\nflask>=1\nrich!=1.5\n", "flask\nrich\ntool\n")

    def begin_within(self, bounds, lines):
        self.put("bounds.txt", bounds)
        self.put("requirements.txt", lines)
        self.put("reqlock.toml", f'constraints = ["bounds.txt"]\nindex = ["{self.index.url}"]\n{ENVIRONMENT}')
        self.accepts("init", answer="ok 0\n")

    def told(self, *words, **variables):
        """What is told of constraints, where that is wanted. It stands at the end."""
        lines = self.rql(*words, **{"CI": "1", **variables})[2].splitlines()
        first = next((place for place, line in enumerate(lines) if " leaves out " in line), len(lines))
        return lines[first:]

    def test_of_what_is_typed_or_printed(self):
        rich = ["bounds.txt leaves out rich 1.5 and newer (line 2: Rich < 2 and line 4: rich!=1.5)"]
        for words in ["why", "RICH>=2"], ["why", "--not", "rich"], ["why", "--not", "rich==2"], ["why", "--not", "flask"]:
            with self.subTest(words=words):
                self.assertEqual(self.told(*words), rich)
        self.assertIn("2. the version asked for (flask==2) allows flask 2, which is ruled out by 1.", self.rql("why", "--not", "flask")[1])
        for words in ["outdated"], ["why", "tool"], ["why", "--bogus", "rich"], ["why", "--help", "rich"], ["show", "rich"]:
            with self.subTest(words=words):
                self.assertEqual(self.told(*words), [])
        self.put("bounds.txt", "rich<2\n")
        self.assertEqual(self.rql("outdated")[1].splitlines()[2].split(), ["rich", "1", "1.5", "1.5"])
        self.assertEqual(self.told("outdated"), ["bounds.txt leaves out rich 2 and newer (line 1: rich<2)"])
        self.put("bounds.txt", "")
        self.assertEqual(self.told("outdated"), [])

    def test_where_it_is_wanted(self):
        words = ["why", "--not", "rich"]
        for wanted, *call in (1, "-v", *words), (1, *words, "-v"), (0, *words), (0, "-q", *words), (0, *words, "-q"):
            status, output, errors = self.rql(*call)
            self.assertEqual((status, output), (0, "rich 1 is locked.\n"))
            self.assertEqual(errors.count("bounds.txt leaves out"), wanted, call)
        for call in ["-q", *words], [*words, "--quiet"]:
            self.assertEqual(self.told(*call), [])

    def test_at_a_terminal_the_answer_is_the_programs_own(self):
        """A program that writes to a terminal may use colors: what it writes passes through nobody."""
        self.stand_in('#!/bin/sh\n[ -t 1 ] && echo colors\necho Rich\n')

        def start(terminal):
            return subprocess.Popen(
                [sys.executable, "-B", SCRIPT, "outdated"], cwd=self.folder, env=self.variables, stdin=subprocess.DEVNULL, stdout=terminal,
                stderr=terminal,
            )

        status, shown = shown_on_terminal(start)
        self.assertEqual(status, 0, shown)
        self.assertRegex(shown, r"(?s)\ncolors\r\nRich\r\n[^\n]*bounds.txt leaves out rich 1.5 and newer \([^\n]*\)\r\n\Z")

    def test_three_and_how_many_more(self):
        self.stand_in('#!/bin/sh\nprintf "%s\n" "$*" >>calls\nprintf "b-b, a(e) c==1; \\033[1md\\033[0m\n"\n')
        for name in "a", "b-b", "c", "d", "e":
            self.serve(**{name: [wheel_of(name, "1"), wheel_of(name, "2")]})
        self.put("bounds.txt", "a<2\nB.b<2\nc<2\nd<2\ne<2\nrich>=1\n")
        self.put("requirements.txt", "a\nb-b\nc\nd\ne\nrich\n")
        lines = self.told("why", "E", "-v")
        wanted = [f"bounds.txt leaves out {name} 2 (line {line})" for name, line in (("e", "5: e<2"), ("b-b", "2: B.b<2"), ("a", "1: a<2"))]
        self.assertEqual(lines, [*wanted, "and 2 more"])
        words = "--dir . --index .reqlock/index.asked.json why E -v"
        self.assertEqual((self.folder / "calls").read_text(encoding="utf-8").splitlines(), [words, words])

    def test_the_answer_is_asked_for_once_where_nothing_is_left_out(self):
        self.stand_in('#!/bin/sh\necho call >>calls\n')
        self.put("bounds.txt", "rich>=1\n")
        self.assertEqual(self.told("why", "rich"), [])
        self.assertEqual((self.folder / "calls").read_text(encoding="utf-8"), "call\n")

    def test_the_status_stays_the_programs(self):
        """Also where the bounds are gone by the time that they are told."""
        self.stand_in('#!/bin/sh\nrm -f bounds.txt\necho rich\nexit 3\n')
        status, output, errors = self.rql("why", "rich", CI="1")
        self.assertEqual((status, output), (3, "rich\n"), errors)
        self.assertNotIn("leaves out", errors)

    def test_all_releases_many_ranges_and_a_lock(self):
        self.serve(many=[wheel_of("many", str(number)) for number in range(1, 10)])
        self.put("bounds.txt", "many!=1,!=3,!=5,!=7,!=9\ntool>1\n")
        self.put("bounds.toml", '[[packages]]\nname = "flask"\nversion = "1"\n')
        self.put("reqlock.toml", self.lines_of("reqlock.toml").replace('"bounds.txt"', '"bounds.txt", "bounds.toml"'))
        self.assertEqual(self.told("why", "many"), ["bounds.txt leaves out 5 releases of many (line 1: many!=1,!=3,!=5,!=7,!=9)"])
        self.assertEqual(self.told("why", "tool"), ["bounds.txt leaves out all of tool, 1 release (line 2: tool>1)"])
        self.assertEqual(self.told("why", "flask>=2"), ["bounds.toml leaves out flask 2 (it has flask 1 alone)"])

    def lines_of(self, name):
        return (self.folder / name).read_text(encoding="utf-8")


class Fresh(Served):
    def test_what_is_fresh_is_not_asked_again(self):
        self.index.max_age = 600
        self.serve(**{name: [wheel_of(name, "1")] for name in ("rich", "flask")})
        self.begin("rich\n")
        asked = len(self.index.asked)
        self.accepts("add", "flask", answer="ok 1\n")
        self.assertFalse([path for _, path in self.index.asked[asked:] if "rich" in path])
        for words in ["outdated"], ["upgrade"], ["check", "--current"], ["index"], ["--refresh", "add", "--dry-run", "flask[a]"]:
            asked = len(self.index.asked)
            self.rql(*words)
            self.assertIn("/simple/rich/", [path for _, path in self.index.asked[asked:]], words)


if __name__ == "__main__":
    unittest.main()
