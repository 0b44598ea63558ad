"""Tests that a path in a call that is told stands there as a shell takes it: one with a blank, a `$` or a quote is one word."""

import shlex
import unittest

from support.rql_projects import Projects
from support.synced import Synced

ODD = "my $HOME's"


class Environments(Synced):
    def test_of_what_makes_one(self):
        self.lock({"a": "1"})
        place = self.project / ODD / "venv"
        for makes, options in ("makes one", []), ("makes it anew", ["--clear"]):
            told = self.call(venv=str(place))[2][-1]
            self.assertEqual(shlex.split(told[told.index("python3 ") : told.index(f" {makes}")]), ["python3", "-m", "venv", *options, str(place)])
            place.mkdir(parents=True, exist_ok=True)
            (place / "pyvenv.cfg").touch()


class Without(Projects):
    def test_of_one_where_there_is_none(self):
        folder = self.outside / ODD
        self.put("reqlock.toml", 'environment = { python = "3.11", platform = "linux-x86_64" }\n', folder)
        told = self.refuses("sync", folder=folder)
        self.assertEqual(shlex.split(told[told.index("python3 ") : told.index(" makes one")]), ["python3", "-m", "venv", f"{folder}/.venv"])
        with self.subTest("of a link"):
            (folder / ".venv").symlink_to(folder / "other")
            (folder / "other").mkdir()
            told = self.refuses("sync", folder=folder)
            self.assertEqual(shlex.split(told[told.index("rql sync ") : told.index(" says")]), ["rql", "sync", "--venv", f"{folder}/other"])


if __name__ == "__main__":
    unittest.main()
