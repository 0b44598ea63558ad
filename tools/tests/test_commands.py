"""Tests of what the tools have in common: their names as scripts of a checkout and as installed commands, and what they tell of words
and of an output that are wrong."""

import array
import fcntl
import importlib
import os
import pty
import signal
import subprocess
import sys
import termios
import time
import unittest
from functools import partial
from pathlib import Path
from unittest import mock

from support.places import TOOLS, new_folder
from support.terminals import read_all
from support.tool_calls import called, copied
from support.wanted_libraries import want_libraries
from test_install import COMMANDS

from reqlock_tools import commands, moved, names


def pressed(module):
    """The status of a tool in which Ctrl-C is pressed at once."""
    with mock.patch.object(importlib.import_module(f"reqlock_tools.{module}"), "main", side_effect=KeyboardInterrupt):
        return commands.call(module)


def unread(pipe):
    """How many bytes of a pipe wait to be read."""
    count = array.array("i", [0])
    fcntl.ioctl(pipe, termios.FIONREAD, count)
    return count[0]


def is_asleep(process):
    """Whether a process waits for something."""
    return Path(f"/proc/{process}/stat").read_text(encoding="ascii").rpartition(")")[2].split()[0] == "S"


class Names(unittest.TestCase):
    def test_are_those_by_which_a_tool_is_called(self):
        with mock.patch.object(sys, "argv", ["/usr/bin/reqlock-hashes"]):
            self.assertEqual(names.tool("snapshot"), "reqlock-snapshot")
            self.assertEqual(names.called("`snapshot.py simple` and tools/environment.py"), "`reqlock-snapshot simple` and reqlock-environment")
            self.assertEqual(names.called("my_snapshot.py, other.py"), "my_snapshot.py, other.py")
        with mock.patch.object(sys, "argv", ["tools/hashed_requirements.py"]):
            self.assertEqual(names.tool("snapshot"), "snapshot.py")
            self.assertEqual(names.called("tools/environment.py"), "tools/environment.py")

    def test_are_of_all_commands(self):
        self.assertEqual(["reqlock", *sorted(names.COMMANDS.values())], sorted(COMMANDS))


class Calls(unittest.TestCase):
    """The scripts, and the same under the names of commands."""

    def setUp(self):
        self.folder = new_folder(self.addCleanup)
        for module, command in names.COMMANDS.items():
            (self.folder / command).symlink_to(TOOLS / f"{module}.py")

    def run_tool(self, command, *words, output=None):
        """What a command does; as a process of its own where its output is given."""
        if output is None:
            module = next(module for module, name in names.COMMANDS.items() if name == command)
            return called(module, words, self.folder, name=str(self.folder / command))
        return subprocess.run(
            [sys.executable, "-B", self.folder / command, *words], cwd=self.folder, stdin=subprocess.DEVNULL, stdout=output,
            stderr=subprocess.PIPE, encoding="utf-8", check=False,
        )

    def test_help_and_wrong_words(self):
        for command in names.COMMANDS.values():
            with self.subTest(command=command):
                done = self.run_tool(command, "--help")
                self.assertEqual((done.returncode, done.stderr), (0, ""))
                self.assertTrue(done.stdout.startswith(f"usage: {command} "), done.stdout)
                self.assertNotRegex(done.stdout, r"\w\.py\b")
                for words in ["--hlep"], ["a"] * 9:
                    done = self.run_tool(command, *words)
                    self.assertEqual((done.returncode, done.stdout), (2, ""))
                    self.assertIn(f"{command}: error: ", done.stderr)

    def test_a_file_that_is_not_there_is_named(self):
        for command, *words in (
            ("reqlock-snapshot", "none"), ("reqlock-hashes", "none"),
            ("reqlock-adopt", "none", "none", "--index", "none", "--env", "none"), ("reqlock-check-refutation", "none", "none", "none"),
            ("reqlock-snapshot", "simple", "http://127.0.0.1:1/simple/", "--for", "none"),
        ):
            with self.subTest(command=command):
                done = self.run_tool(command, *words)
                self.assertEqual((done.stdout, done.stderr), ("", f"{command}: none: No such file or directory\n"))
                self.assertEqual(done.returncode, 2 if command == "reqlock-check-refutation" else 1)

    @staticmethod
    def interrupted(call):
        """The status of a call at which Ctrl-C is pressed once it has read all and waits for more. (One that comes between two readings is
        heeded behind the next one alone.)"""
        end = time.monotonic() + 60
        while unread(call.stdin) or not is_asleep(call.pid):
            assert time.monotonic() < end, "it doesn't wait for its input"
            time.sleep(0.01)
        call.send_signal(signal.SIGINT)
        return call.wait(timeout=60)

    def test_ctrl_c(self):
        """It is pressed while the tool reads its input, which is longer than a pipe holds."""
        for command, *words in (
            ("reqlock-hashes", "/dev/stdin"), ("reqlock-check-refutation", "/dev/stdin", "none", "none"),
            ("reqlock-adopt", "/dev/stdin", "none", "--index", "none", "--env", "none"),
        ):
            with self.subTest(command=command), subprocess.Popen(
                [sys.executable, "-B", self.folder / command, *words], cwd=self.folder, stdin=subprocess.PIPE, stdout=subprocess.PIPE,
                stderr=subprocess.PIPE, preexec_fn=partial(signal.signal, signal.SIGINT, signal.SIG_DFL),
            ) as call:
                call.stdin.write(b"#" * 2**18)
                call.stdin.flush()
                self.assertEqual(self.interrupted(call), 130)
                self.assertEqual((call.stdout.read(), call.stderr.read().decode()), (b"", f"{command}: stopped\n"))
        for module in names.COMMANDS:
            with self.subTest(module=module):
                done = copied([f"{module}.py"], partial(pressed, module))
                self.assertEqual((done.returncode, done.stdout, done.stderr), (130, "", f"{module}.py: stopped\n"))

    def told(self, module, terminal=True, **more):
        """What an installed command tells on standard error, which is a terminal or a pipe, when its help is asked for."""
        variables = {name: value for name, value in os.environ.items() if name != "CI"} | {"XDG_CACHE_HOME": str(self.folder / "cache"), **more}
        call = [str(self.folder / "bin" / names.COMMANDS[module]), "--help"], partial(commands.call, module), self.folder, variables
        ours, theirs = pty.openpty()
        done = copied(*call, terminal=theirs if terminal else None)
        os.close(theirs)
        shown = read_all(ours).decode() + done.stderr
        self.assertEqual(done.returncode, 0, shown)
        return shown.replace("\r\n", "\n")

    @want_libraries("platformdirs")
    def test_a_person_is_told_once_which_word_of_rql_does_the_same(self):
        listed = called("rql", ["--help"]).stdout
        for module, words in moved.WORDS.items():
            command = names.COMMANDS[module]
            with self.subTest(command=command):
                self.assertEqual(self.told(module, terminal=False), "")
                self.assertEqual(self.told(module, CI="1"), "")
                self.assertEqual(self.told(module), f"{command}: rql does this too: {words} (told once; this name stays)\n")
                self.assertEqual(self.told(module), "")
                self.assertRegex(listed, rf"(?m)^    {words.split()[1].rstrip(',')}( |$)")
        for module in "hashed_requirements", "rql":
            self.assertEqual(self.told(module), "")

    @want_libraries("platformdirs")
    def test_where_nothing_can_be_remembered_nothing_is_told(self):
        (self.folder / "cache").write_bytes(b"")
        self.assertEqual(self.told("merge"), "")

    def test_an_output_that_is_full_or_closed(self):
        with open("/dev/full", "w", encoding="utf-8") as full:
            done = self.run_tool("reqlock-environment", output=full)
        self.assertEqual((done.returncode, done.stderr), (1, "reqlock-environment: standard output: No space left on device\n"))
        readings, writings = os.pipe()
        os.close(readings)
        done = self.run_tool("reqlock-environment", output=writings)
        os.close(writings)
        self.assertEqual((done.returncode, done.stderr), (1, ""))


if __name__ == "__main__":
    unittest.main()
