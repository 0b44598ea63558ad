"""Tests of the manual pages, the completions and the tables: they are what tools/pages.py makes of the help of each command, and shells
complete by them."""

import os
import pty
import select
import shutil
import subprocess
import unittest

from support.completed import RUNS, SHARE, Completed
from support.places import needs_program, new_folder

import pages
from page_makers.command import Command, Option, Value
from page_makers.program_help import Unread, command_of

COMMANDS = {
    "init", "add", "remove", "constrain", "set", "upgrade", "relock", "lock", "sync", "check", "index", "env", "undo", "redo", "forget", "show",
    "tree", "outdated", "why", "log", "diff", "export", "skipped", "fleet", "merge", "check-refutation",
}
# How long a shell may take to show something.
SECONDS = 10
HELP = """Do something

Usage: x do [OPTIONS] <NAME> [WHAT]...

Arguments:
  <NAME>     The name
  [WHAT]...  More of it

Options:
      --line <NAME> [TEXT]  Two values
      --form <FORM>         a, b or c [default: a]
      --any [<NEW>...]      As many as are there
  -h, --help                Print help

Example: x do it
"""


class Pages(unittest.TestCase):
    """What stands there is what is made, to the byte."""

    def check(self, made):
        others = [name for name, text in made if pages.is_another(name, text)]
        self.assertEqual(others, [], "call tools/pages.py")

    def test_of_the_parsers(self):
        self.check(pages.tool_files())

    @needs_program
    def test_of_the_program(self):
        self.check(pages.program_files())

    def test_nothing_else_stands_there(self):
        names = ("reqlock", *pages.COMMANDS.values())
        self.assertEqual({path.name for path in SHARE.glob("man/*")}, {f"{name}.1" for name in names})
        for folder, before, behind in ("bash", "", ""), ("zsh", "_", ""), ("fish", "", ".fish"):
            self.assertEqual({path.name for path in SHARE.glob(f"{folder}/*")}, {f"{before}{name}{behind}" for name in names})

    def test_each_says_what_made_it(self):
        for path in SHARE.glob("*/*"):
            head = "".join(path.read_text(encoding="utf-8").splitlines()[:3])
            self.assertRegex(head, "made by tools/pages.py .*: python3 tools/pages.py makes it again", path)

    @unittest.skipUnless(shutil.which("groff"), "there is no groff: apt-get install groff")
    def test_no_manual_page_has_a_fault(self):
        for path in SHARE.glob("man/*"):
            done = subprocess.run(["groff", "-man", "-Tutf8", "-ww", path], capture_output=True, encoding="utf-8", check=False)
            self.assertEqual((done.returncode, done.stderr), (0, ""), path)

    def test_the_shells_read_each(self):
        for shell in "bash", "zsh", "fish":
            if shutil.which(shell):
                for path in SHARE.glob(f"{shell}/*"):
                    done = subprocess.run([shell, "-n", path], capture_output=True, check=False)
                    self.assertEqual((done.returncode, done.stderr), (0, b""), path)


class Help(unittest.TestCase):
    """What is read of the help of a program."""

    def test_words_options_and_their_values(self):
        words = Value("NAME", "The name"), Value("WHAT", "More of it", is_needed=False, is_many=True)
        options = (
            Option(("--line",), (Value("NAME"), Value("TEXT", is_needed=False)), "Two values"),
            Option(("--form",), (Value("FORM", choices=("a", "b", "c")),), "a, b or c [default: a]"),
            Option(("--any",), (Value("NEW", is_needed=False, is_many=True),), "As many as are there"),
            Option(("-h", "--help"), (), "Print help"),
        )
        wanted = Command(("x", "do"), "Do something", words, options, (), "Example: x do it")
        self.assertEqual(command_of(("x", "do"), lambda _: HELP), wanted)

    def test_what_is_no_such_help_is_refused(self):
        for text in "", HELP.replace("Options:", "Words:"), HELP.replace("--any [<NEW>...]", "--any (NEW)"), HELP.replace("--form", "form"):
            with self.assertRaises(Unread):
                command_of(("x", "do"), lambda _, text=text: text)


class OfRql(Completed):
    name = "rql"
    lines = b"a" + RUNS + b"\n c-1.2_x [e]>=1\n-r other\n\xffb\nD\xe2\x80\xa8" + RUNS + b"\n"

    def test_commands_and_names_of_lines(self):
        for shell in "bash", "fish":
            if shutil.which(shell):
                with self.subTest(shell=shell):
                    self.assertLessEqual(COMMANDS, self.offered(shell))
                    self.assertLessEqual({"add", "set", "remove", "list"}, self.offered(shell, "env"))
                    for word in "remove", "constrain", "upgrade", "set":
                        self.assertEqual(self.offered(shell, word), {"a", "c-1.2_x", "D"})
                    self.assertEqual(self.offered(shell, "env", "remove"), set())

    def test_options(self):
        self.assertLessEqual({"--dry-run", "--keep-locked"}, self.all_offered("bash", "add"))
        self.assertLessEqual({"--python", "--pins", "--dry-run"}, self.all_offered("bash", "env", "add"))
        self.assertEqual(self.offered("bash", "lock", "--check"), set())


class OfATool(Completed):
    def test_files_folders_and_commands(self):
        (self.folder / "inner").mkdir()
        for shell in "bash", "fish":
            if shutil.which(shell):
                with self.subTest(shell=shell):
                    self.name = "reqlock-hashes"
                    self.assertEqual({offer.rstrip("/") for offer in self.offered(shell)}, {"inner", "requirements.txt"})
                    self.name = "reqlock-snapshot"
                    self.assertEqual({offer.rstrip("/") for offer in self.offered(shell)}, {"simple", "again", "inner"})
                    self.assertEqual(self.offered(shell, "simple", "--for"), self.offered(shell, "--output"))
        self.assertLessEqual({"--cache", "--only"}, self.all_offered("bash", "simple"))
        self.name = "reqlock-environment"
        self.assertIn("windows-arm64", self.offered("bash", "--platform"))


class AtATerminal(unittest.TestCase):
    """What a shell makes of a line at TAB: a name of a file is quoted, so that what it says isn't run."""

    FILES = "a b.json", "c$(id>PWNED).json", "d';id>PWNED.json", "e`id>PWNED`", "f.json"
    STARTS = {
        "bash": (
            ("bash", "--norc", "--noprofile", "-i"),
            "bind 'set bell-style none'; bind 'set enable-bracketed-paste off'; for name in {0}/bash/*; do source $name; done",
        ),
        "zsh": (("zsh", "-f", "-i"), "fpath=({0}/zsh $fpath); autoload -U compinit; compinit -D; unsetopt beep"),
    }

    def setUp(self):
        self.folder = new_folder(self.addCleanup)
        for name in self.FILES:
            (self.folder / name).write_bytes(b"")
        (self.folder / "g h").mkdir()

    def shown(self, terminal, wanted):
        """What comes until it has what is wanted, or nothing more does. (zsh tells the terminal to bracket what is pasted, behind that.)"""
        shown = ""
        while wanted not in shown and select.select([terminal], [], [], SECONDS)[0]:
            shown += os.read(terminal, 4096).decode()
        return shown

    def check(self, shell, lines):
        """Each line is another one behind TAB."""
        for line, wanted in lines.items():
            with self.subTest(shell=shell, line=line):
                self.assertIn(wanted, self.completed(*self.STARTS[shell], line, wanted))
        self.assertFalse((self.folder / "PWNED").exists())

    def completed(self, words, begin, line, wanted):
        ours, theirs = pty.openpty()
        own = {"HOME": str(self.folder), "TERM": "dumb", "INPUTRC": os.devnull, "LC_ALL": "C.UTF-8", "COLUMNS": "200"}
        variables = {"PATH": os.environ["PATH"], **own}
        shell = subprocess.Popen(words, cwd=self.folder, env=variables, stdin=theirs, stdout=theirs, stderr=theirs, start_new_session=True)
        os.close(theirs)
        os.write(ours, f"{begin.format(SHARE)}; PS1=RE''ADY\n".encode())
        self.assertIn("READY", self.shown(ours, "READY"))
        os.write(ours, f"{line}\t".encode())
        shown = self.shown(ours, wanted)
        os.close(ours)
        shell.wait(timeout=60)
        return shown

    def test_bash_quotes_files(self):
        self.check("bash", {
            "reqlock --index a": r"reqlock --index a\ b.json ", r"reqlock --index a\ ": r"reqlock --index a\ b.json ",
            'reqlock --index "a': 'reqlock --index "a b.json" ', "reqlock --index c": r"reqlock --index c\$\(id\>PWNED\).json ",
            "reqlock --env one=c": r"reqlock --env one=c\$\(id\>PWNED\).json ", "reqlock replace d": r"reqlock replace d\'\;id\>PWNED.json ",
            "reqlock init --pins e": r"reqlock init --pins e\`id\>PWNED\` ", "reqlock --index=f": "reqlock --index=f.json ",
            "reqlock --dir g": r"reqlock --dir g\ h/", "reqlock --color=al": "reqlock --color=always ", "rql -C g": r"rql -C g\ h/",
            "reqlock-hashes a": r"reqlock-hashes a\ b.json ",
        })

    @unittest.skipUnless(shutil.which("zsh"), "there is no zsh: apt-get install zsh")
    def test_zsh_quotes_files_and_puts_options_in(self):
        self.check("zsh", {
            "reqlock --index a": r"reqlock --index a\ b.json ", "reqlock --env one=c": r"reqlock --env one=c\$\(id\>PWNED\).json ",
            "reqlock why --expl": "reqlock why --explain ", "reqlock export --format d": "reqlock export --format dot ",
            "rql env add --pyt": "rql env add --python ", "reqlock-snapshot simple --cach": "reqlock-snapshot simple --cache ",
        })


if __name__ == "__main__":
    unittest.main()
