"""Sessions that were saved with journals of version 1 (saved_sessions/): they stand for the same histories as before, keep their
bytes until a command is accepted, and are then written in version 2. The program's tests need it built; ./check builds it."""

import json
import re
import shutil
import unittest

from support.made.journals import compact
from support.places import SUPPORT, needs_program
from support.program import FILES, Program
from support.rules.journals import opens_in, read_header, read_step
from support.rules.lock_tables import read_lock_table
from support.rules.requirements import read_lines
from support.rules.states import State, after, inverse, is_state

SESSIONS = SUPPORT / "saved_sessions"
TOLD = json.loads((SESSIONS / "told.json").read_text(encoding="utf-8"))
# of each session the cursor, the count of its steps, and its index
PLACES = {
    "edited": (7, 7, "index"), "undone": (2, 4, "index"), "relocked": (2, 3, "later"), "crlf": (1, 1, "three"),
    "crlf_undone": (0, 1, "three"), "empty": (0, 0, "index"),
}
JOURNAL = "reqlock.journal"


def saved(name):
    """The files of a session, by their names."""
    return {file: (SESSIONS / name / file).read_bytes() for file in FILES}


def states_of(name):
    """The states of a session, by the rules of changes."""
    requirements, lock, journal = saved(name).values()
    first, *lines = journal.splitlines()
    header = read_header(first)
    changes = [read_step(line, header) for line in lines]
    present = State.of_one(read_lines(requirements), header.targets[0].environment, *read_lock_table(lock)[1:])
    states = [present]
    for change in reversed(changes[: header.cursor]):
        states.insert(0, after(states[0], inverse(change)))
    for change in changes[header.cursor :]:
        states.append(after(states[-1], change))
    return states


class Rules(unittest.TestCase):
    def test_each_session_opens(self):
        for name, (cursor, steps, _) in PLACES.items():
            self.assertEqual(opens_in(saved(name)), ("ok", cursor, steps), name)
            self.assertEqual((len(states_of(name)), all(map(is_state, states_of(name)))), (steps + 1, True), name)

    def test_each_journal_is_of_version_1(self):
        for name in PLACES:
            first = json.loads(saved(name)[JOURNAL].splitlines()[0])
            self.assertEqual(list(first), ["cursor", "environment", "journal", "lock", "requirements", "steps"])
            self.assertEqual(first["journal"], 1)


class Calls(Program):
    def begin_saved(self, name):
        for file in FILES:
            shutil.copy(SESSIONS / name / file, self.folder)
        shutil.copy(SESSIONS / f"{PLACES[name][2]}.json", self.outside / "index.json")

    def stands(self, name):
        """The files are those of the session, byte for byte, and nothing is beside them."""
        self.assertEqual(self.files(), saved(name))


def steps_told(log):
    """The mark and the number of each step that the `log` of that program told, with its entries."""
    steps = []
    others = re.compile(r"init|another index|\d+ lines?")
    for line in log.splitlines():
        number, _, what = line[2:].partition(" ")
        steps.append((line[:2], number, [part for part in what.split(", ") if not others.fullmatch(part)]))
    return steps


def steps_of(log):
    """The same of what `log --long` tells, where each entry stands on a line of its own."""
    steps = []
    for line in log.splitlines():
        if line.startswith("      "):
            # (that program didn't tell which fields of an entry are others)
            steps[-1][2].append(line.strip().partition(" (")[0])
        else:
            steps.append((line[:2], line[2:].split(" ")[0], []))
    return steps


@needs_program
class Sessions(Calls):
    def test_what_only_reads_tells_what_it_told_and_leaves_the_files(self):
        for name in PLACES:
            self.begin_saved(name)
            for words, told in TOLD[name].items():
                with self.subTest(name=name, words=words):
                    if words == "log":
                        status, text = self.call("log", "--long")
                        self.assertEqual((status, steps_of(text)), (told[0], steps_told(told[1])))
                    elif "--explain" in words:
                        # the words of sentences are free; they name the line that is asked about
                        status, text = self.call(*words.split())
                        self.assertEqual(status, told[0])
                        self.assertIn("f<1", text)
                    else:
                        self.assertEqual(self.call(*words.split()), tuple(told))
            self.call("skipped")
            self.stands(name)

    def test_what_is_refused_or_the_same_leaves_the_files(self):
        for name in PLACES:
            cursor, steps, _ = PLACES[name]
            self.begin_saved(name)
            self.assertEqual(self.call("relock"), (0, "same\n"), name)
            self.assertEqual(self.call("add", "x y"), (1, "refused bad-text\n"))
            self.assertEqual(self.call("add", "zzz"), (3, "refused no-solution\n"))
            self.assertEqual(self.call("remove", "zzz"), (1, "refused not-present\n"))
            if cursor == 0:
                self.assertEqual(self.call("undo"), (1, "refused nothing-to-undo\n"))
            if cursor == steps:
                self.assertEqual(self.call("redo"), (1, "refused nothing-to-redo\n"))
            self.assertEqual(self.call("batch", text="bogus\nrelock\n")[0], 0)
            self.stands(name)

    def is_at(self, state):
        """The requirements file and the lock are those of a state."""
        files = self.files()
        self.assertEqual(read_lines(files["requirements.txt"]), state.lines)
        self.assertEqual(read_lock_table(files["pylock.toml"])[1:], (state.digest, state.entries()))

    def test_undo_and_redo_go_to_the_states_of_the_history(self):
        for name, (cursor, steps, _) in PLACES.items():
            states = states_of(name)
            self.begin_saved(name)
            moves = [("undo", place) for place in reversed(range(cursor))] + [("redo", place) for place in range(1, steps + 1)]
            for word, place in moves:
                self.assertEqual(self.call(word), (0, f"ok {place}\n"), name)
                self.is_at(states[place])

    def test_an_accepted_command_writes_version_2(self):
        for name, (cursor, steps, _) in PLACES.items():
            if steps == 0:
                continue
            self.begin_saved(name)
            word, place = ("undo", cursor - 1) if cursor > 0 else ("redo", 1)
            self.assertEqual(self.call(word), (0, f"ok {place}\n"))
            first, *lines = self.files()[JOURNAL].splitlines(keepends=True)
            header = json.loads(first)
            self.assertEqual(list(header), ["cursor", "journal", "requirements", "steps", "targets"])
            self.assertEqual((header["journal"], header["cursor"], header["steps"]), (2, place, steps))
            old = [json.loads(line) for line in saved(name)[JOURNAL].splitlines()[1:]]
            new = [compact({**step, "entries": [["", *entry] for entry in step["entries"]]}) for step in old]
            self.assertEqual(lines, new)
            self.assertEqual(opens_in(self.files()), ("ok", place, steps))

    def test_an_edit_cuts_the_steps_behind_the_cursor(self):
        self.begin_saved("undone")
        self.assertEqual(self.call("add", "e"), (0, "ok 3\n"))
        self.assertEqual(self.call("redo"), (1, "refused nothing-to-redo\n"))
        lines = self.files()[JOURNAL].splitlines()
        self.assertEqual((len(lines), json.loads(lines[0])["journal"]), (4, 2))

    def test_the_worked_row(self):
        self.begin_saved("crlf_undone")
        self.assertEqual(self.call("undo"), (1, "refused nothing-to-undo\n"))
        self.stands("crlf_undone")
        self.assertEqual(self.call("redo"), (0, "ok 1\n"))
        self.assertEqual(len(self.files()["requirements.txt"]), 28)
        self.assertIn(b'"journal":2', self.files()[JOURNAL])
        self.assertEqual(self.files()["requirements.txt"], saved("crlf")["requirements.txt"])


@needs_program
class StoppedSaves(Calls):
    """An `undo` of the session `crlf`, whose save was stopped behind the first of the three files, or the second. What it left
    beside is of version 1."""

    def stop(self, count):
        self.begin_saved("crlf")
        for place, (file, data) in enumerate(saved("crlf_undone").items()):
            (self.folder / (file if place < count else f"{file}.new")).write_bytes(data)

    def test_is_ended_by_the_next_command_that_saves(self):
        for count in 1, 2:
            self.stop(count)
            self.assertEqual(self.call("undo"), (1, "refused nothing-to-undo\n"))
            self.stands("crlf_undone")
            self.stop(count)
            self.assertEqual(self.call("redo"), (0, "ok 1\n"))
            files = self.files()
            self.assertEqual(sorted(files), sorted(FILES))
            self.assertEqual(opens_in(files), ("ok", 1, 1))
            self.assertIn(b'"journal":2', files[JOURNAL])

    def test_is_told_by_what_only_reads(self):
        for count in 1, 2:
            self.stop(count)
            before = self.files()
            self.assertEqual(self.call("check"), (4, "reqlock: requirements.txt: files-disagree\n"))
            self.assertEqual(self.files(), before)


if __name__ == "__main__":
    unittest.main()
