"""Edits and `why` with --keep-locked: drawn sessions in which the program must answer as the rules do, with one target and with several;
laws over drawn states; and worked examples, also of what is told of a version that an edit moved. There are 50 sessions of each kind and
100 states, or 500 and 1,000 with LONG_TESTS=1."""

import json
import shutil
import unittest
from collections import Counter

from support.drawn_files import DrawnFiles
from support.drawn_sessions import DrawnSessions, locked_names, names_on
from support.made.environments import LINUX, WINDOWS
from support.made.kept_sessions import Draw
from support.places import IS_LONG, TOP
from support.program import Program
from support.rules.edits import KEEP, Refused, edited, problems_after
from support.rules.locks import Problem, is_refutation, read_index, read_refutation, solutions
from support.rules.requirements import order_key, read_name, read_version

SESSIONS, STATES = (500, 1000) if IS_LONG else (50, 100)
COMMANDS = 4
# what some session must have come to, and with several targets
SEEN = {
    "ok", "same", "no-solution", "nothing-to-undo", "refuted", "solvable", "refused drop", "a locked version is gone", "as the plain edit",
    "kept what the plain edit moves", "refused what the plain edit moves",
}
SEEN_OF_TARGETS = SEEN | {"targets: 1", "targets: 2", "targets: 3", "locks that differ"}


def freed_by(state, command):
    """The names whose versions an edit frees."""
    if command[0] != "upgrade":
        return set()
    return set(map(read_name, command[1:])) or set(locked_names(state))


def some_keep_all(state, command, index):
    """Whether the problem of each target has a solution in which every kept version that is needed stays."""
    problems = problems_after(state, command, index)[1].values()
    return all(
        any(all(problem.kept.get(name, place) == place for name, place in solution.items()) for solution in solutions(problem))
        for problem in problems
    )


class Sessions(DrawnSessions):
    """Drawn sessions in which most edits have the option."""

    drawing = Draw

    def test_of_a_target_without_a_name(self):
        self.play_all(lambda draw, seed: {"": LINUX}, SEEN, SESSIONS)

    def test_of_several_targets(self):
        self.play_all(self.drawn_targets, SEEN_OF_TARGETS, SESSIONS)

    def drawn_command(self, draw, state):
        command = super().drawn_command(draw, state)
        return (KEEP, *command) if command[0] not in ("undo", "redo") and draw.happens(70) else command

    def check_command(self, history, command):
        state = history.state()
        reply = super().check_command(history, command)
        if command[0] == KEEP and (reply in ("same", "refused no-solution") or reply.startswith("ok")):
            self.count_kept(state, history.state(), command, reply)
        return reply

    def count_kept(self, old, new, command, reply):
        """Counts what only the option comes to."""
        problems = problems_after(old, command, self.index)[1].values()
        self.seen["a locked version is gone"] += any(None in problem.kept.values() for problem in problems)
        try:
            plain = edited(old, command[1:], self.index)
        except Refused:
            return
        kept = "as the plain edit" if plain == new else "kept what the plain edit moves"
        self.seen["refused what the plain edit moves" if reply == "refused no-solution" else kept] += 1


class Laws(DrawnFiles):
    """Laws of an edit with the option beside the same one without it, both over one drawn state and an index that may be another one."""

    def test_of_drawn_states(self):
        self.seen = Counter()
        for seed in range(STATES):
            with self.subTest(seed=seed):
                draw = Draw(seed)
                self.lock_for(self.drawn_targets(draw, seed))
                self.put({})
                self.take_index(draw.index())
                state, _ = self.begun_session(draw)
                before = self.files()
                for _ in range(COMMANDS):
                    self.take_index(draw.index())
                    self.check_laws(state, before, self.drawn_edit(draw, state))
        for case in "kept", "same files", "moved", "no solution keeps all", "refused otherwise":
            self.assertGreater(self.seen[case], 0, self.seen)

    def drawn_edit(self, draw, state):
        """A command that isn't `undo` or `redo`."""
        while True:
            command = draw.command(names_on(state.lines), locked_names(state))
            if command[0] not in ("undo", "redo"):
                return command

    def outcome(self, before, *words):
        """What the program replies over these files, and what they are then."""
        self.put(before)
        return self.told(*words)[1], self.files()

    def locks(self):
        """The versions that are locked for each target, by their keys."""
        locked = {name: self.locked(name) for name in self.environments}
        return {name: {package: order_key(read_version(text)) for package, text in versions.items()} for name, versions in locked.items()}

    def check_laws(self, state, before, command):
        """What isn't freed keeps its version; a lock is the answer exactly where some solution keeps all; and an edit that moves
        nothing gives the same files with the option and without it."""
        self.put(before)
        old = self.locks()
        plain, plain_locks = self.outcome(before, *command), self.locks()
        kept, kept_locks = self.outcome(before, KEEP, *command), self.locks()
        if plain[0].startswith("refused") and plain[0] != "refused no-solution\n":
            self.seen["refused otherwise"] += 1
            self.assertEqual(kept, plain, command)
            return
        freed = freed_by(state, command)
        self.assertEqual(self.moved(old, kept_locks, freed), [], command)
        can_keep = some_keep_all(state, command, self.index)
        self.seen["kept" if can_keep else "no solution keeps all"] += 1
        self.assertEqual(kept[0] != "refused no-solution\n", can_keep, command)
        if plain[0] != "refused no-solution\n" and not self.moved(old, plain_locks, freed):
            self.seen["same files"] += 1
            self.assertEqual(kept, plain, command)
        elif can_keep:
            self.seen["moved"] += 1
            self.assertNotEqual(kept[1], plain[1], command)
        else:
            self.assertEqual(kept[1], before, command)

    @staticmethod
    def moved(old, new, freed):
        """The targets and names of which both locks have an entry that isn't freed, with other versions."""
        both = [(target, name) for target in old for name in old[target].keys() & new[target].keys() - freed]
        return [(target, name) for target, name in both if old[target][name] != new[target][name]]


class Plugins(Program):
    """A folder with the files of examples/plugins: of `aa-plug` and `zz-plug` release 1.0 asks for nothing and 2.0 for `mid<2`."""

    def begin_plugins(self, requirements=b"mid\n"):
        shutil.copy(TOP / "examples" / "plugins" / "index.json", self.outside)
        self.put({"requirements.txt": requirements})
        self.plays((["init"], 0, "ok 0\n"))

    def without(self, name, version):
        """From here on the index hasn't this release."""
        path = self.outside / "index.json"
        index = json.loads(path.read_text(encoding="utf-8"))
        for package in index["packages"]:
            package["releases"] = [release for release in package["releases"] if (package["name"], release["version"]) != (name, version)]
        path.write_text(json.dumps(index), encoding="utf-8")

    def moves(self, *words):
        """The lines of standard error on versions that an accepted edit moved."""
        status, output, errors = self.told(*words, "--verbose")
        self.assertEqual((status, output[:2]), (0, "ok"), errors)
        return [line for line in errors.splitlines() if line.startswith("moved: ")]


class Worked(Plugins):
    def check_add(self, name, versions, *option):
        self.assertEqual(self.call("add", name, *option), (0, "ok 1\n"))
        self.assertEqual(self.locked(), versions)
        self.assertEqual(self.call("undo"), (0, "ok 0\n"))

    def test_names_before_and_behind_the_locked_one(self):
        self.begin_plugins()
        self.check_add("zz-plug", {"mid": "2.0", "zz-plug": "1.0"})
        self.check_add("zz-plug", {"mid": "2.0", "zz-plug": "1.0"}, KEEP)
        self.check_add("aa-plug", {"mid": "1.0", "aa-plug": "2.0"})
        self.check_add("aa-plug", {"mid": "2.0", "aa-plug": "1.0"}, KEEP)

    def test_the_option_stands_in_front_too(self):
        self.begin_plugins()
        self.plays(
            ([KEEP, "add", "aa-plug", "--dry-run"], 0, "ok 1\n+ 2: aa-plug\n+ aa-plug 1.0\n"),
            ([KEEP, "add", "aa-plug"], 0, "ok 1\n"), (["relock", KEEP], 0, "same\n"), (["relock"], 0, "same\n"),
        )
        for words in ["undo"], ["redo"], ["init"], ["try"], ["show"]:
            self.assertEqual(self.call(KEEP, *words)[0], 2)
            self.assertEqual(self.call(*words, KEEP)[0], 2)

    def test_an_upgrade_frees_the_names_that_it_says(self):
        self.begin_plugins()
        self.plays(
            (["add", "aa-plug", KEEP], 0, "ok 1\n"),
            (["upgrade", "aa-plug", KEEP], 0, "same\n"), (["upgrade", "mid", KEEP], 0, "same\n"),
            (["upgrade", "AA_plug", "Mid", KEEP, "--dry-run"], 0, "ok 2\naa-plug 1.0 -> 2.0\nmid 2.0 -> 1.0\n"),
            (["upgrade", KEEP, "--dry-run"], 0, "ok 2\naa-plug 1.0 -> 2.0\nmid 2.0 -> 1.0\n"),
            (["upgrade", "aa-plug", "--dry-run"], 0, "ok 2\naa-plug 1.0 -> 2.0\nmid 2.0 -> 1.0\n"),
            (["upgrade", "zz-plug", KEEP], 1, "refused not-locked\n"),
        )
        self.begin_plugins(b"mid<2\nzz-plug<2\n")
        self.plays(
            (["constrain", "mid", KEEP], 0, "ok 1\n"), (["constrain", "zz-plug", KEEP], 0, "ok 2\n"),
            (["upgrade", "mid", KEEP], 0, "ok 3\n"), (["diff"], 0, "mid 1.0 -> 2.0\n"), (["undo"], 0, "ok 2\n"),
            (["upgrade", "zz-plug", KEEP], 0, "ok 3\n"), (["diff"], 0, "zz-plug 1.0 -> 2.0\n"),
        )

    def test_a_constraint_that_a_locked_version_does_not_meet(self):
        self.begin_plugins()
        self.plays(
            (["constrain", "mid", "<2", KEEP], 3, "refused no-solution\n"), (["constrain", "mid", "<=2", KEEP], 0, "ok 1\n"),
            (["constrain", "mid", "<2"], 0, "ok 2\n"),
        )

    def test_a_locked_version_that_is_gone(self):
        self.begin_plugins()
        self.without("mid", "2.0")
        told = "No choice of versions that keeps what is locked meets line 1 (mid). 1. line 1 (mid) needs mid, and the lock keeps 2.0, " \
            "which the index doesn't have."
        self.plays(
            (["relock", KEEP], 3, "refused no-solution\n"), (["add", "zz-plug", KEEP], 3, "refused no-solution\n"),
            (["why", KEEP], 3, "-\n"), (["why"], 0, "solvable\n"), (["why", "--upgrade", "mid", KEEP], 0, "solvable\n"),
        )
        status, output = self.call("why", "--explain", KEEP)
        self.assertEqual((status, " ".join(output.split())), (3, told))
        self.plays(
            (["remove", "mid", KEEP], 0, "ok 1\n"), (["undo"], 0, "ok 0\n"), (["upgrade", "mid", KEEP], 0, "ok 1\n"),
        )
        self.assertEqual(self.locked(), {"mid": "1.0"})

    def test_a_locked_name_that_nothing_needs_stands_in_no_way(self):
        self.begin_plugins(b"aa-plug\nzz-plug<2\n")
        self.assertEqual(self.locked(), {"aa-plug": "2.0", "mid": "1.0", "zz-plug": "1.0"})
        self.without("mid", "1.0")
        self.plays((["remove", "aa-plug", KEEP], 0, "ok 1\n"))
        self.assertEqual(self.locked(), {"zz-plug": "1.0"})

    def test_a_refusal_says_what_may_be_asked(self):
        self.begin_plugins()
        status, output, errors = self.told("add", "aa-plug>=2", KEEP, "--verbose")
        self.assertEqual((status, output), (3, "refused no-solution\n"))
        first, without, ask = errors.splitlines()
        self.assertEqual((first, without), ("no versions meet all requirements", "without --keep-locked there is a solution"))
        self.assertTrue(ask.startswith("ask: reqlock ") and ask.endswith(" --keep-locked why --explain 'aa-plug>=2'"), ask)
        self.assertNotIn("without", self.told("add", "mid2", "--verbose")[2])

    def test_a_batch_keeps_in_each_of_its_lines(self):
        self.begin_plugins()
        lines = "add zz-plug\nadd aa-plug>=2\nadd aa-plug\nundo\nredo\nupgrade aa-plug\nupgrade\n"
        self.assertEqual(
            self.told("batch", KEEP, text=lines),
            (0, "ok 1\nrefused no-solution\nok 2\nok 1\nok 2\nsame\nok 3\n", ""),
        )
        self.assertEqual(self.locked(), {"aa-plug": "2.0", "mid": "1.0", "zz-plug": "2.0"})

    def test_a_refutation_knows_that_others_are_no_candidates(self):
        self.begin_plugins()
        status, told = self.call("why", "aa-plug>=2", KEEP)
        index, lines = read_index((self.outside / "index.json").read_bytes()), ["mid\n", "aa-plug>=2"]
        kept = {"mid": read_version("2.0")}
        conflicts = read_refutation(told)
        self.assertEqual(status, 3)
        self.assertTrue(is_refutation(Problem(lines, LINUX, index, kept, True), conflicts))
        self.assertFalse(is_refutation(Problem(lines, LINUX, index, kept), conflicts))


class Moved(Plugins):
    """What --verbose tells of each locked version that an edit moved, and didn't name."""

    def test_with_the_versions_that_would_be_other_ones(self):
        self.begin_plugins()
        line = "moved: mid 2.0 -> 1.0 (--keep-locked keeps it, with aa-plug 1.0)"
        self.assertEqual(self.moves("add", "aa-plug", "--dry-run"), [line])
        self.assertEqual(self.moves("add", "aa-plug", KEEP, "--dry-run"), [])
        self.assertEqual(self.moves("add", "zz-plug", "--dry-run"), [])
        self.assertEqual(self.moves("add", "aa-plug"), [line])

    def test_where_no_solution_keeps_all(self):
        self.begin_plugins()
        self.assertEqual(self.moves("add", "aa-plug>=2"), ["moved: mid 2.0 -> 1.0 (no solution keeps all that is locked)"])

    def test_of_a_version_that_was_yanked_since(self):
        self.begin(b"mid\n", ("aa", "1", []), ("mid", "1", []), ("mid", "2", []))
        self.plays((["init"], 0, "ok 0\n"))
        self.begin(b"mid\n", ("aa", "1", []), ("mid", "1", []), ("mid", "2", [], {"yanked": True}))
        self.assertEqual(self.moves("add", "aa", "--dry-run"), ["moved: mid 2 -> 1 (2 is yanked; no solution keeps all that is locked)"])
        self.assertEqual(self.moves("relock"), ["moved: mid 2 -> 1 (2 is yanked; no solution keeps all that is locked)"])

    def test_with_an_entry_of_the_same_version(self):
        """The index has another `aa-plug` 2.0, which doesn't go with the locked `mid`."""
        self.begin(b"aa-plug\nmid\n", ("aa-plug", "1.0", []), ("aa-plug", "2.0", []), ("mid", "1.0", []), ("mid", "2.0", []))
        self.plays((["init"], 0, "ok 0\n"))
        self.begin(b"aa-plug\nmid\n", ("aa-plug", "1.0", []), ("aa-plug", "2.0", ["mid<2"]), ("mid", "1.0", []), ("mid", "2.0", []))
        self.assertEqual(self.moves("upgrade", "aa-plug", "--dry-run"), ["moved: mid 2.0 -> 1.0 (--keep-locked keeps it, with aa-plug 1.0)"])
        self.assertEqual(self.moves("upgrade", "aa-plug", KEEP), [])
        self.assertEqual(self.locked(), {"aa-plug": "1.0", "mid": "2.0"})

    def test_nothing_of_what_an_edit_names(self):
        self.begin_plugins()
        self.assertEqual(self.moves("constrain", "mid", "<2"), [])
        self.assertEqual(self.moves("constrain", "MID"), [])
        self.assertEqual(self.moves("upgrade", "mid"), [])
        self.assertEqual(self.moves("add", "aa-plug"), ["moved: mid 2.0 -> 1.0 (--keep-locked keeps it, with aa-plug 1.0)"])
        self.assertEqual(self.moves("remove", "aa-plug"), [])
        self.assertEqual(self.moves("upgrade"), [])

    def test_where_the_name_would_go(self):
        """Of the locked versions alone `app` 2.0 is best, which needs no `mid`."""
        self.begin(b"app\n", ("app", "1.0", ["mid"]), ("mid", "1.0", []), ("mid", "2.0", []))
        self.plays((["init"], 0, "ok 0\n"))
        releases = ("app", "1.0", ["mid"]), ("app", "2.0", []), ("app", "3.0", ["mid<2"]), ("mid", "1.0", []), ("mid", "2.0", [])
        self.begin(b"app\n", *releases)
        line = "moved: mid 2.0 -> 1.0 (--keep-locked takes it out, with app 2.0)"
        self.assertEqual(self.moves("upgrade", "app", "--dry-run"), [line])
        self.assertEqual(self.moves("upgrade", "app", KEEP), [])
        self.assertEqual(self.locked(), {"app": "2.0"})

    def test_where_every_locked_version_can_stay(self):
        """The upgraded name goes back to what it had, so nothing changes."""
        self.begin_plugins()
        self.plays((["add", "aa-plug", KEEP], 0, "ok 1\n"))
        self.assertEqual(
            self.moves("upgrade", "aa-plug", "--dry-run"), ["moved: mid 2.0 -> 1.0 (--keep-locked keeps it, with aa-plug 1.0)"]
        )
        self.plays((["upgrade", "aa-plug", KEEP], 0, "same\n"))

    def test_nothing_of_the_name_that_a_new_line_has(self):
        self.begin_plugins(b"zz-plug\n")
        self.assertEqual(self.locked(), {"mid": "1.0", "zz-plug": "2.0"})
        self.assertEqual(self.moves("add", "mid>=2"), ["moved: zz-plug 2.0 -> 1.0 (no solution keeps all that is locked)"])

    def test_behind_the_name_of_its_target(self):
        self.lock_for({"linux": LINUX, "win": WINDOWS})
        self.begin_plugins()
        keeps = "mid 2.0 -> 1.0 (--keep-locked keeps it, with aa-plug 1.0)"
        self.assertEqual(self.moves("add", "aa-plug", "--dry-run"), [f"moved: linux: {keeps}", f"moved: win: {keeps}"])
        self.assertEqual(self.moves("add", "aa-plug ; sys_platform == 'win32'", "--dry-run"), [f"moved: win: {keeps}"])
        told = "moved: win: mid 2.0 -> 1.0 (no solution keeps all that is locked)"
        self.assertEqual(self.moves("add", "aa-plug>=2 ; sys_platform == 'win32'"), [told])


if __name__ == "__main__":
    unittest.main()
