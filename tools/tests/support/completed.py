"""What shells offer at TAB, with the completions of a command in share/."""

import os
import subprocess
import unittest

from support.places import TOP, new_folder

SHARE = TOP / "share"
RUNS = b"$(id>PWNED)`id>PWNED`;id>PWNED"
SECONDS = 60

BASH = """
name=$1
source "$2"
shift 2
COMP_WORDS=("$name" "$@" "")
COMP_CWORD=$(($# + 1))
"_${name//-/_}"
printf '%s\\n' "${COMPREPLY[@]}"
"""
# (compadd is zsh's own, and works at a prompt alone)
ZSH = """
_arguments() { : }
compadd() { print -rl -- ${(P)2} }
source "$2"
folder=.
case $3 in
remove) _reqlock_line_names ;;
*) _reqlock_locked_names ;;
esac
:
"""
FISH = """
source $argv[2]
complete --do-complete "$argv[1] $argv[3..-1] " | string replace -r '\\t.*' ''; or true
"""


class Completed(unittest.TestCase):
    """A test in a folder whose lines may want to do harm. The command of `name` is completed."""

    name = "reqlock"
    lines = b""

    def setUp(self):
        self.folder = new_folder(self.addCleanup)
        (self.folder / "requirements.txt").write_bytes(self.lines)

    def variables(self):
        return {**os.environ, "HOME": str(self.folder), "LC_ALL": "C.UTF-8"}

    def all_offered(self, shell, *words):
        """What a shell offers behind these words. Nothing of what the files say is run."""
        starts = {
            "bash": ("bash", "-c", BASH, "bash", self.name, SHARE / "bash" / self.name),
            "zsh": ("zsh", "-f", "-c", ZSH, "zsh", self.name, SHARE / "zsh" / f"_{self.name}"),
            "fish": ("fish", "--no-config", "-c", FISH, self.name, SHARE / "fish" / f"{self.name}.fish"),
        }
        done = subprocess.run(
            [*starts[shell], *words], cwd=self.folder, env=self.variables(), capture_output=True, check=False, timeout=SECONDS
        )
        self.assertEqual((done.returncode, done.stderr), (0, b""))
        self.assertFalse((self.folder / "PWNED").exists(), (shell, words))
        return {line for line in done.stdout.decode(errors="surrogateescape").splitlines() if line}

    def offered(self, shell, *words):
        """The same but for options."""
        return {line for line in self.all_offered(shell, *words) if not line.startswith("-")}
