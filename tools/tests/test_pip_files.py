"""Tests of where pip's configuration is looked for: pip is asked for it only where there is a file, and what variables say counts more."""

import os
import re
import subprocess
import unittest
from unittest import mock

from support.synced import Synced, variables

from reqlock_tools.rql.pip_files import pip_files
from reqlock_tools.rql.sync_installed import read_environment
from reqlock_tools.rql.sync_pip import variables_for


class Configuration(Synced):
    def test_pip_is_asked_only_where_it_has_a_file(self):
        environment = read_environment(self.venv)
        own = {"HOME": str(self.home), "PYTHONPATH": "x", "PIP_CONFIG_FILE": os.devnull}
        own |= {"PIP_RETRIES": "2", "PIP_default-timeout": "7", "PIP_TARGET": "x"}
        with mock.patch("reqlock_tools.rql.sync_pip.asked") as asks, mock.patch.dict(os.environ, own, clear=True):
            pip_variables = variables_for(("pip",), environment, self.project / "netrc")
            self.assertEqual((pip_variables["PIP_RETRIES"], pip_variables["PIP_DEFAULT_TIMEOUT"]), ("2", "7"))
            self.assertFalse({"PIP_TARGET", "PYTHONPATH"} & pip_variables.keys())
            asks.assert_not_called()
            (self.project / "pip.conf").write_bytes(b"")
            os.environ["PIP_CONFIG_FILE"] = str(self.project / "pip.conf")
            asks.return_value = "global.retries='4'\nglobal.timeout='3'\ninstall.target='x'\n"
            pip_variables = variables_for(("pip",), environment, self.project / "netrc")
        self.assertEqual((pip_variables["PIP_RETRIES"], pip_variables["PIP_TIMEOUT"], "PIP_TARGET" in pip_variables), ("2", "3", False))

    def test_the_files_are_those_that_pip_reads(self):
        kept = {name: value for name, value in variables(HOME=str(self.home)).items() if name != "PIP_CONFIG_FILE"}
        for more in {}, {"XDG_CONFIG_DIRS": "/one:/two", "XDG_CONFIG_HOME": str(self.home / "own"), "PIP_CONFIG_FILE": "/named"}:
            own = {**kept, **more}
            done = subprocess.run([self.venv / "bin" / "python", "-I", "-m", "pip", "config", "debug"], env=own, capture_output=True, check=True)
            with mock.patch.dict(os.environ, own, clear=True):
                self.assertEqual(sorted(pip_files(str(self.venv))), sorted(re.findall(r"(?m)^  (\S+), exists: ", done.stdout.decode())))


if __name__ == "__main__":
    unittest.main()
