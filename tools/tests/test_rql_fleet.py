"""Tests of `rql fleet`: a call in each of many projects, and which version is locked where."""

import shlex
import unittest

from support.made.served_index import wheel_of
from support.rql_projects import ENVIRONMENT, Served

NAMES = "a", "b", "c"


class Fleets(Served):
    def setUp(self):
        super().setUp()
        self.serve(urllib3=[wheel_of("urllib3", "1.26"), wheel_of("urllib3", "2.0")], rich=[wheel_of("rich", "1")])
        for name, lines in zip(NAMES, ("urllib3\n", "urllib3<2\n", "rich\n")):
            folder = self.folder / "services" / name
            self.put("requirements.txt", lines, folder)
            self.put("reqlock.toml", f'index = ["{self.index.url}"]\n{ENVIRONMENT}', folder)
            self.assertEqual(self.rql("init", folder=folder)[:2], (0, "ok 0\n"))

    def test_which_version_is_locked_where(self):
        rows = (
            (["urllib3"], ["services/a  -       2.0", "services/b  -       1.26"]), (["urllib3<2"], ["services/b  -       1.26"]),
            (["urllib3", "services/a", "services/c"], ["services/a  -       2.0"]),
        )
        for words, wanted in rows:
            status, output, errors = self.rql("fleet", "show", *words)
            self.assertEqual((status, errors), (0, ""))
            self.assertEqual(output.splitlines(), ["folder      target  version", *wanted])
        self.assertEqual(self.rql("fleet", "show", "none"), (0, "", ""))
        self.assertEqual(self.rql("fleet", "show", "<2")[0], 2)

    def test_a_folder_that_cannot_be_read(self):
        self.put("reqlock.journal", "{}", self.folder / "services" / "b")
        status, output, errors = self.rql("fleet", "show", "urllib3")
        self.assertEqual((status, len(output.splitlines())), (1, 2))
        self.assertIn("services/b: reqlock.journal: it is no journal of reqlock", errors)

    def test_a_release_in_each_project(self):
        self.index.add("urllib3", wheel_of("urllib3", "2.1"))
        status, output, errors = self.rql("fleet", "--", "upgrade", "urllib3")
        self.assertEqual((status, errors), (0, ""))
        self.assertEqual(output.splitlines(), ["services/a  ok 1", "services/b  ok 1", "services/c  refused not-locked", "3 folders, 0 refused"])
        self.assertEqual(self.rql("fleet", "show", "urllib3>=2.1")[1].splitlines()[1:], ["services/a  -       2.1"])

    def test_folders_that_are_named(self):
        status, output, _ = self.rql("fleet", "services/a", "services/b", "--", "check")
        self.assertEqual((status, output.splitlines()), (0, ["services/a  ok 0", "services/b  ok 0", "2 folders, 0 refused"]))

    def test_words_that_are_no_call_are_refused_once_with_what_is_meant(self):
        for words, told in (
            (["--", "chek"], "rql: error: there is no command 'chek': rql check?"), (["--", "add"], "arguments are required: TEXT"),
            (["services/a", "--"], "-- upgrade urllib3\n"), ([], "rql fleet services/* -- upgrade urllib3\n"),
            (["--explain", "--", "check"], "--explain: options of rql stand in front of fleet"),
        ):
            status, output, errors = self.rql("fleet", *words)
            self.assertEqual((status, output, errors.count(told)), (2, "", 1), errors)
        for words in ["check"], ["services/a", "show", "rich>=1"]:
            errors = self.rql("fleet", *words)[2]
            meant = shlex.split(errors.partition(" may stand: rql ")[2])
            self.assertEqual([word for word in meant if word != "--"], ["fleet", *words])
            self.assertNotEqual(self.rql(*meant)[1], "")

    def test_what_stands_behind_the_dashes_is_the_calls_own(self):
        status, output, errors = self.rql("fleet", "services/a", "--", "init", "--index", self.index.url)
        self.assertEqual((status, output.splitlines()[-1]), (1, "1 folder, 1 refused"))
        self.assertIn("services/a: ", errors)
        self.assertIn("settings stand there already", errors)

    def test_a_dry_run_is_told_by_its_reply(self):
        self.assertEqual(self.rql("fleet", "services/a", "--", "add", "rich", "--dry-run")[1].splitlines()[0], "services/a  ok 1")

    def test_a_lock_that_is_gone(self):
        (self.folder / "services" / "b" / "pylock.toml").unlink()
        self.assertEqual(self.rql("fleet", "show", "rich")[2], "services/b: services/b/pylock.toml: No such file or directory\n")

    def test_with_an_index_it_is_the_tool(self):
        status, output, _ = self.rql("fleet", "--index", "services/a/.reqlock/index.json", "services/a", "--", "relock")
        self.assertEqual((status, output.splitlines()[0]), (0, "folder      reply  changed, or why not"))
        self.assertIn("FOLDER [FOLDER ..] -- SUBCOMMAND", self.rql("fleet", "--help")[1])

    def test_a_project_that_refuses(self):
        status, output, errors = self.rql("fleet", "services/a", "services/b", "--", "add", "urllib3>=2")
        self.assertEqual((status, output.splitlines()[-1]), (1, "2 folders, 2 refused"))
        status, output, errors = self.rql("fleet", "services/a", "services/none", "--", "check")
        self.assertEqual((status, output.splitlines()[-1]), (1, "2 folders, 1 refused"))
        self.assertIn("services/none: ", errors)


if __name__ == "__main__":
    unittest.main()
