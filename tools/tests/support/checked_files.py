"""What `check` and `log` of the program answer of the files of a folder, beside what the rules of rules/journals.py say. They need the
program, which ./check builds first."""

import re
import tempfile
from pathlib import Path

from support.places import MEMORY, PROGRAM
from support.rules.journals import REQUIREMENTS, tells_in
from support.spawned import ended, text_of


def told(files, answer, *others):
    """What `checked` gives for an answer of the rules."""
    if answer == "ok":
        return 0, f"ok {others[0]}\n", "", heads_at(*others)
    if answer in ("files-disagree", "unreadable"):
        history = tells_in(files) if (answer, *others) == ("files-disagree", REQUIREMENTS) else None
        return 4, "", f"reqlock: {others[0]}: {answer}\n", [] if history is None else heads_at(*history)
    return 4, "", f"reqlock: reqlock.journal: line {others[0]}: journal-broken\n", []


def heads_at(cursor, steps):
    """What the lines of a log of so many steps begin with, whose history stands here."""
    return [f"{'*' if place == cursor else ' '} {place} " for place in range(steps + 1)]


def heads_of(log):
    """The mark and the number that each line of a log begins with."""
    return [re.match("(?:[* ] [0-9]+ )?", line)[0] for line in log.splitlines()]


def checked(files):
    """What `check` answers in a folder of these files, by their names: status, standard output and standard error; and what the lines of
    `log` begin with, where it has some. Where it has none, it tells what `check` does. The files stay."""
    with tempfile.TemporaryDirectory(dir=MEMORY) as name:
        folder = Path(name)
        for file, data in files.items():
            (folder / file).write_bytes(data)

        done, log = (ended([PROGRAM, "--dir", folder, subcommand]) for subcommand in ("check", "log"))
        if log.returncode != 0 and (log.returncode, log.stdout, log.stderr) != (done.returncode, done.stdout, done.stderr):
            raise AssertionError("`log` tells another fault than `check`")
        if {path.name: path.read_bytes() for path in folder.iterdir()} != files:
            raise AssertionError("`check` or `log` changed a file")
    return done.returncode, text_of(done.stdout), text_of(done.stderr), heads_of(text_of(log.stdout))
