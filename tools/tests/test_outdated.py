"""What `outdated` and `check --current` tell: by worked examples, and over drawn sessions by a second reading of the rules. They need the
program, which ./check builds first."""

import json
import unittest

from support.drawn_files import DrawnFiles
from support.made.sessions import Draw
from support.places import IS_LONG
from support.program import Program
from support.rules.edits import History, Refused, edited, problems_after
from support.rules.newer import outdated

SESSIONS = 300 if IS_LONG else 30
EDITS = 4


def table(rows):
    """A table, its first row the heads."""
    widths = [max(map(len, column)) for column in zip(*rows)]
    return "".join("  ".join(f"{cell:{width}}" for cell, width in zip(row, widths)).rstrip() + "\n" for row in rows)


def holder_text(holder):
    who = f"line {holder['line']}" if "line" in holder else f"{holder['name']} {holder['version']}"
    return f"{who} ({holder['requirement']})"


def target_text(told):
    """What is printed of a target."""
    rows = [["name", "locked", "admitted", "newest", "held by"]]
    for entry in told["outdated"]:
        rows.append([entry["name"], entry["locked"], entry["admitted"] or "-", entry["newest"], ", ".join(map(holder_text, entry["held_by"]))])
    text = table(rows) if len(rows) > 1 else ""
    for label, key in ("not in the index", "not_in_index"), ("yanked", "yanked"):
        pins = ", ".join(f"{entry['name']} {entry['version']}" for entry in told[key])
        text += f"{label}: {pins}\n" if pins else ""
    return (f"target {told['target']}\n" if told["target"] and text else "") + text


def outdated_text(told):
    """What is printed for what the JSON tells."""
    return "\n".join(filter(None, map(target_text, told["targets"])))


class Outdated(DrawnFiles):
    def tells(self, wanted, *more):
        """What is printed, once more by the JSON."""
        self.assertEqual(self.told("outdated"), (0, wanted, ""))
        status, output, error = self.told("outdated", "--json")
        self.assertEqual((status, error), (0, ""))
        self.assertEqual(outdated_text(json.loads(output)), wanted)

    def test_who_holds_back(self):
        self.begin(b"a<2\nc\n", ("a", "1", []), ("b", "1", []), ("c", "1", ["b<2"]))
        self.assertEqual(self.call("init"), (0, "ok 0\n"))
        self.tells("")
        lines = (self.folder / "requirements.txt").read_bytes()
        self.begin(
            lines, ("a", "1", []), ("a", "1.5", []), ("a", "2", []), ("b", "1", []), ("b", "2", []), ("c", "1", ["b<2"]), ("c", "1.1", []),
        )
        self.tells(
            "name  locked  admitted  newest  held by\n"
            "a     1       1.5       2       line 1 (a<2)\n"
            "b     1       1         2       c 1 (b<2)\n"
            "c     1       1.1       1.1\n"
        )

    def test_what_counts_as_newest(self):
        self.begin(b"a\nb\nd==1\n", ("a", "1", []), ("b", "1", []), ("d", "1", []))
        self.assertEqual(self.call("init"), (0, "ok 0\n"))
        self.begin(
            b"a\nb\nd==1\n", ("a", "1", []), ("a", "2rc1", []), ("a", "3", [], {"requires_python": "<3"}), ("b", "1", []),
            ("b", "2", [], {"yanked": True}), ("d", "1", []), ("d", "2", [], {"yanked": True}),
        )
        self.tells("name  locked  admitted  newest  held by\nd     1       1         2       line 3 (d==1)\n")

    def test_a_release_that_the_index_lacks(self):
        self.begin(b"a\n", ("a", "1", ["b<2"]), ("b", "1", []))
        self.assertEqual(self.call("init"), (0, "ok 0\n"))
        self.begin(b"a\n", ("a", "2", []), ("b", "1", []), ("b", "2", []))
        self.tells(
            "name  locked  admitted  newest  held by\na     1       2         2\nb     1       2         2\nnot in the index: a 1\n"
        )

    def test_a_locked_release_that_was_yanked_since(self):
        releases = ("a", "1", []), ("a", "2", []), ("b", "1", [])
        self.begin(b"a==2\nb\n", *releases)
        self.assertEqual(self.call("init"), (0, "ok 0\n"))
        self.begin(b"a==2\nb\n", releases[0], ("a", "2", [], {"yanked": True}), ("b", "1", [], {"yanked": True}))
        self.tells("yanked: a 2, b 1\n")

    def test_drawn_sessions(self):
        seen = set()
        for seed in range(SESSIONS):
            with self.subTest(seed=seed):
                draw = Draw(seed)
                self.lock_for(self.drawn_targets(draw, seed))
                self.play(draw, seen)
        self.assertLessEqual({"held", "free", "none admitted", "absent", "current", "another index", "stale", "no-solution"}, seen)

    def play(self, draw, seen):
        self.put({})
        self.take_index(draw.index())
        history = History(self.begun_session(draw)[0])
        for _ in range(EDITS):
            self.take_index(draw.index())
            self.check_outdated(history.state(), seen)
            self.check_current(history.state(), history.cursor, seen)
            names = sorted({name for target in history.state().targets.values() for name in target.entries})
            command = draw.command(names, names)
            reply = history.reply(command, self.index)
            self.assertEqual(self.told(*command)[1], f"{reply}\n")

    def check_outdated(self, state, seen):
        before = self.files()
        wanted = outdated(state, problems_after(state, ("relock",), self.index)[1])
        status, output, error = self.told("outdated", "--json")
        self.assertEqual((status, json.loads(output), error), (0, wanted, ""))
        self.assertEqual(self.told("outdated"), (0, outdated_text(wanted), ""))
        self.assertEqual(self.files(), before)
        for target in wanted["targets"]:
            seen.update("held" if entry["held_by"] else "free" for entry in target["outdated"])
            seen.update("none admitted" for entry in target["outdated"] if entry["admitted"] is None)
            seen.update("absent" for _ in target["not_in_index"])

    def check_current(self, state, cursor, seen):
        before = self.files()
        status, output, error = self.told("check", "--current")
        told = self.told("check", "--current", "--json")
        self.assertEqual((self.files(), error), (before, ""))
        try:
            relocked = edited(state, ("relock",), self.index)
        except Refused as refused:
            seen.add(refused.word)
            self.assertEqual((status, output), (3, f"refused {refused.word}\n"))
            self.assertEqual(told, (3, f"refused {refused.word}\n", ""))
            return
        is_current, is_another = relocked.targets == state.targets, relocked.digest != state.digest
        answer = json.loads(told[1])
        self.assertEqual((told[0], answer["place"], answer["current"]), (status, cursor, is_current))
        self.assertEqual(answer["another_index"], is_another)
        seen.add("stale" if not is_current else "another index" if is_another else "current")
        if is_current:
            self.assertEqual((status, output, answer["diff"]), (0, "current\n", None))
            return
        self.assertEqual((status, output.splitlines()[0]), (1, "stale"))
        self.check_stale(output.removeprefix("stale\n"), answer["diff"])

    def check_stale(self, told, diff):
        """What a relock does now is what was told. It is taken back."""
        before = self.files()
        status, reply, _ = self.told("relock")
        self.assertEqual((status, reply[:2]), (0, "ok"))
        self.assertEqual(self.told("diff"), (0, told, ""))
        difference = json.loads(self.told("diff", "--json")[1])
        self.assertEqual({key: difference[key] for key in diff}, diff)
        self.put(before)


class Current(Program):
    def test_a_lock_that_is_current_and_one_that_is_stale(self):
        self.begin(b"a\n", ("a", "1", []))
        self.assertEqual(self.call("init"), (0, "ok 0\n"))
        self.assertEqual(self.told("check", "--current"), (0, "current\n", ""))
        self.assertEqual(self.told("check", "--json"), (0, '{"place":0}\n', ""))
        self.assertEqual(self.told("check", "--current", "--json"), (0, '{"another_index":false,"current":true,"diff":null,"place":0}\n', ""))
        self.begin(b"a\n", ("a", "1", ["b"]), ("b", "1", []))
        files = self.files()
        status, told, error = self.told("check", "--current")
        self.assertEqual((status, error), (1, ""))
        self.assertRegex(told, r"\Astale\na 1 -> 1 \(dependencies\)\n\+ b 1\n- index: [0-9a-f]{64}\n\+ index: [0-9a-f]{64}\n\Z")
        self.assertEqual(self.files(), files)
        self.begin(b"a\n", ("a", "2", ["z"]))
        self.assertEqual(self.told("check", "--current"), (3, "refused no-solution\n", ""))

    def test_another_index_in_which_nothing_moves(self):
        self.begin(b"a\n", ("a", "1", []))
        self.assertEqual(self.call("init"), (0, "ok 0\n"))
        self.begin(b"a\n", ("a", "1", []), ("b", "1", []))
        self.assertEqual(self.told("check", "--current"), (0, "current\n", ""))
        status, output, told = self.told("check", "--current", "-v")
        self.assertEqual((status, output), (0, "current\n"))
        self.assertRegex(told, r"\A- index: [0-9a-f]{64}\n\+ index: [0-9a-f]{64}\n\Z")
        self.assertEqual(self.told("check", "--current", "-q"), (0, "current\n", ""))
        self.assertEqual(self.told("check", "--current", "--json"), (0, '{"another_index":true,"current":true,"diff":null,"place":0}\n', ""))

    def test_the_index_is_needed(self):
        self.begin(b"a\n", ("a", "1", []))
        self.assertEqual(self.call("init"), (0, "ok 0\n"))
        for words in ["check", "--current"], ["outdated"]:
            with self.subTest(words=words):
                self.assertEqual(self.answered("--dir", self.folder, *words), (2, "", "reqlock: --index is needed\n"))


if __name__ == "__main__":
    unittest.main()
