"""Tests of settings in a file whose environments change: what else stands there, comments too, stays as it is."""

import importlib.util
import unittest
from dataclasses import replace

from support.places import new_folder

from reqlock_tools.rql.settings import EnvironmentSetting, read_settings
from reqlock_tools.rql.settings_edit import checked, with_environments

LINUX, WINDOWS, ALONE = (EnvironmentSetting(name, "3.11", f"{name or 'linux'}-x86_64") for name in ("linux", "windows", ""))
INDEX = 'index = ["https://index.example/simple/"]  # in order\n'
UNNAMED = 'environment = { platform = "linux-x86_64", python = "3.11" }  # what is locked for\n'
NAMED = """
[environments]  # mine
# both of them
linux = { python = "3.11", platform = "linux-x86_64" }  # deployed
# and this
windows = { python = "3.11", platform = "windows-x86_64" }  # tested
"""
OTHER = "\n[tool.other]\nx = 1\n"


def of_project(text):
    """Settings of a file of their own, as they stand in that of a project."""
    return '[project]\nname = "app"\n\n[tool.reqlock]\n' + text.replace("[environments]", "[tool.reqlock.environments]") + OTHER


@unittest.skipUnless(importlib.util.find_spec("tomlkit"), "python3 has no tomlkit: apt-get install python3-tomlkit")
class Environments(unittest.TestCase):
    def changed(self, text, *environments):
        """The file with these environments; of settings of a project, and of a file of their own."""
        files = [self.changed_in("reqlock.toml", text, environments), self.changed_in("pyproject.toml", of_project(text), environments)]
        self.assertEqual(files[1], of_project(files[0]))
        return files[0]

    def changed_in(self, name, text, environments):
        path = new_folder(self.addCleanup) / name
        path.write_bytes(text.encode())
        settings = read_settings(path)
        return checked(replace(settings, environments=environments), with_environments(settings, environments, settings.exports)).decode()

    def test_a_comment_goes_with_the_one_that_gets_a_name_and_loses_it(self):
        there = self.changed(INDEX + UNNAMED, LINUX, WINDOWS)
        linux = UNNAMED.replace("environment", "linux")
        self.assertEqual(there, f'{INDEX}\n[environments]\n{linux}windows = {{ python = "3.11", platform = "windows-x86_64" }}\n')
        self.assertEqual(self.changed(there, ALONE), INDEX + UNNAMED)

    def test_comments_beside_those_that_go_stay(self):
        alone = NAMED.splitlines()[3].replace("linux =", "environment =")
        self.assertEqual(self.changed(INDEX + NAMED, ALONE), f"{INDEX}# mine\n# both of them\n# and this\n{alone}\n")
        bare = self.changed(INDEX + NAMED.replace("  # deployed", ""), ALONE)
        self.assertEqual(bare, f"{INDEX}# both of them\n# and this\n{alone.replace('deployed', 'mine')}\n")

    def test_the_ends_of_lines_stay(self):
        for text in INDEX + UNNAMED, INDEX + NAMED:
            windows = text.replace("\n", "\r\n")
            for environments in [LINUX, WINDOWS], [ALONE], [replace(LINUX, python="3.12"), WINDOWS, replace(WINDOWS, name="new")]:
                wanted = self.changed_in("reqlock.toml", text, tuple(environments))
                self.assertEqual(self.changed_in("reqlock.toml", windows, tuple(environments)), wanted.replace("\n", "\r\n"))
        without = (INDEX + UNNAMED).rstrip()
        self.assertEqual(self.changed_in("reqlock.toml", without, (ALONE,)), without)

    def test_a_new_one_has_the_form_of_the_others(self):
        linux, windows = (f'[environments.{name}]\npython = "3.11"\nplatform = "{name}-x86_64"\n' for name in ("linux", "windows"))
        self.assertEqual(self.changed_in("reqlock.toml", f"{INDEX}\n{linux}", (LINUX, WINDOWS)), f"{INDEX}\n{linux}\n{windows}")

    def test_other_forms(self):
        for text in (
            INDEX + 'environments.linux = { python = "3.11", platform = "linux-x86_64" }  # deployed\nnewest = 1\n',
            INDEX + 'environments = { linux = { python = "3.11", platform = "linux-x86_64" } }\n',
            INDEX + '[environments.linux]\npython = "3.11"\nplatform = "linux-x86_64"\n',
            INDEX + '[environment]\npython = "3.11"\nplatform = "linux-x86_64"\n',
        ):
            for environments in [LINUX, WINDOWS], [ALONE], [WINDOWS]:
                with self.subTest(text=text, environments=environments):
                    self.assertTrue(self.changed_in("reqlock.toml", text, tuple(environments)).startswith(INDEX))


if __name__ == "__main__":
    unittest.main()
