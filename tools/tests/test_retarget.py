"""Tests of `retarget`: the targets of a history change as a step. Which versions are kept, what is told, which files come and go, and that no
file is lost that isn't of the history."""

import json
import unittest

from support.made.environments import LINUX, MACOS, OLDER, WINDOWS
from support.program import HEAD, Program
from support.rules.journals import file_name, opens_in

JOURNAL = "reqlock.journal"
RELEASES = (
    ("a", "1", ["b"]), ("a", "2", ["b"]), ("b", "1", []), ("b", "2", []), ("c", "1", []), ("w", "1", []), ("w", "2", []),
    ("old", "1", []), ("z", "1", ['nowhere; sys_platform=="darwin"']),
)
FILE = b'a\nw; os_name=="nt"\nold; python_version<"3.11"\n'
WRITTEN = "write failed"


class Retarget(Program):
    """A history of two targets at place 1, whose locks have older versions than the index by now."""

    environments = {"linux": OLDER, "win": WINDOWS}

    def setUp(self):
        super().setUp()
        self.begin(FILE, *(release for release in RELEASES if release[1] == "1"))
        self.plays((["init"], 0, "ok 0\n"), (["add", "c"], 0, "ok 1\n"))
        self.begin(FILE + b"c\n", *RELEASES)
        self.before = self.files()

    def retarget(self, environments, *words):
        """What a retarget to these environments answers."""
        self.lock_for(environments)
        return self.call("retarget", *words)

    def journal(self):
        """The header and the steps."""
        return [json.loads(line) for line in self.files()[JOURNAL].splitlines()]

    def state(self):
        """The files of the present state."""
        return {name: data for name, data in self.files().items() if name != JOURNAL}

    def opens(self, cursor, steps, *names):
        """The folder has the locks of these targets and no others, and stands for a history."""
        self.assertEqual(sorted(self.files()), sorted(["requirements.txt", JOURNAL, *map(file_name, names)]))
        self.assertEqual(opens_in(self.files()), ("ok", cursor, steps))
        self.plays((["check"], 0, f"ok {cursor}\n"))


class Steps(Retarget):
    """One target goes, one comes, and one gets another Python."""

    NEW = {"linux": LINUX, "mac": MACOS}
    TOLD = (
        "target linux: implementation_version 3.9.2 -> 3.12.3, target linux: python_full_version 3.9.2 -> 3.12.3, "
        "target linux: python_version 3.9 -> 3.12, + target mac, - target win"
    )

    def setUp(self):
        super().setUp()
        self.assertEqual(self.retarget(self.NEW), (0, "ok 2\n"))

    def test_is_a_step_that_is_taken_back(self):
        self.opens(2, 2, "linux", "mac")
        self.assertEqual([self.locked(name) for name in self.NEW], [{"a": "1", "b": "1", "c": "1"}] * 2)
        there = self.state()
        self.plays((["undo"], 0, "ok 1\n"))
        self.opens(1, 2, "linux", "win")
        self.assertEqual(self.state(), {name: data for name, data in self.before.items() if name != JOURNAL})
        self.plays((["redo"], 0, "ok 2\n"))
        self.opens(2, 2, "linux", "mac")
        self.assertEqual(self.state(), there)
        self.plays((["undo"], 0, "ok 1\n"), (["undo"], 0, "ok 0\n"), (["redo"], 0, "ok 1\n"), (["redo"], 0, "ok 2\n"))
        self.assertEqual(self.state(), there)

    def test_edits_go_on_for_the_new_targets(self):
        self.plays((["upgrade", "a"], 0, "ok 3\n"), (["remove", "c"], 0, "ok 4\n"))
        self.opens(4, 4, "linux", "mac")
        self.assertEqual([self.locked(name) for name in self.NEW], [{"a": "2", "b": "1"}] * 2)
        for place in 3, 2, 1:
            self.plays((["undo"], 0, f"ok {place}\n"))
        self.opens(1, 4, "linux", "win")
        self.assertEqual(self.call("batch", text="redo\nredo\nredo\n"), (0, "ok 2\nok 3\nok 4\n"))
        self.opens(4, 4, "linux", "mac")
        self.assertEqual(self.call("batch", text="undo\nundo\nundo\nundo\nadd c\n"), (0, "ok 3\nok 2\nok 1\nok 0\nok 1\n"))
        self.opens(1, 1, "linux", "win")

    def test_a_journal_is_of_version_3_while_a_step_has_targets(self):
        self.assertEqual(json.loads(self.before[JOURNAL].splitlines()[0])["journal"], 2)
        header, first, step = self.journal()
        self.assertEqual((header["journal"], [target["name"] for target in header["targets"]]), (3, ["linux", "mac"]))
        self.assertEqual((sorted(first), sorted(step)), (["entries", "lines", "snapshot"], ["entries", "lines", "snapshot", "targets"]))
        self.assertEqual([[name, old and old["python_version"], new and new["python_version"]] for name, old, new in step["targets"]], [
            ["linux", "3.9", "3.12"], ["mac", None, "3.12"], ["win", "3.12", None],
        ])
        self.plays((["undo"], 0, "ok 1\n"))
        self.assertEqual(self.journal()[0]["journal"], 3)
        # an edit makes an end of the step
        self.plays((["remove", "c"], 0, "ok 2\n"))
        self.assertEqual((self.journal()[0]["journal"], len(self.journal())), (2, 3))
        self.opens(2, 2, "linux", "win")

    def test_a_history_that_forgets_the_step_is_of_version_2_again(self):
        self.plays((["forget", "--before", "1"], 0, "ok 1\n"))
        self.assertEqual(self.journal()[0]["journal"], 3)
        self.plays((["forget", "--keep", "0"], 0, "ok 0\n"))
        self.assertEqual(self.journal()[0]["journal"], 2)
        self.opens(0, 0, "linux", "mac")

    def test_is_told(self):
        targets = self.TOLD.replace(", ", "\n") + "\n"
        self.plays((["log"], 0, f"  0 init\n  1 add c\n{f'* 2 retarget: {self.TOLD}'[:97]}...\n"))
        entries = "target linux\n- old 1\ntarget mac\n+ 3 entries\ntarget win\n- 4 entries\n"
        status, told = self.call("diff")
        self.assertEqual((status, told[: told.index("- index: ")]), (0, targets + entries))
        status, told = self.call("diff", "2", "1")
        back = "target linux: python_version 3.12 -> 3.9\n- target mac\n+ target win\ntarget linux\n+ old 1\ntarget mac\n- 3 entries\ntarget win\n+ 4 entries\n"
        self.assertIn(back, told)
        indented = "".join(f"      {line}\n" for line in targets.splitlines())
        status, told = self.call("log", "--long")
        self.assertTrue(told.endswith(f"{indented}      linux: - old 1\n      mac: + 3 entries\n      win: - 4 entries\n"), told)

    def test_is_told_as_json(self):
        _, told = self.call("diff", "--json")
        told = json.loads(told)
        self.assertEqual(told["targets"], [
            {"target": "linux", "old": OLDER, "new": LINUX}, {"target": "mac", "old": None, "new": MACOS}, {"target": "win", "old": WINDOWS, "new": None},
        ])
        self.assertEqual([(entry["target"], entry["name"]) for entry in told["entries"]], [
            ("linux", "old"), ("mac", "a"), ("mac", "b"), ("mac", "c"), ("win", "a"), ("win", "b"), ("win", "c"), ("win", "w"),
        ])
        *others, last = [json.loads(line) for line in self.call("log", "--json")[1].splitlines()]
        self.assertEqual((last["told"], last["targets"]), (f"retarget: {self.TOLD}", told["targets"]))
        self.assertFalse([step for step in others if "targets" in step])

    def test_a_changed_requirements_file_keeps_nothing_back(self):
        """What changed is told of the journal alone then."""
        self.plays((["upgrade"], 0, "ok 3\n"))
        whole = [self.call("diff", "--json", *places)[1] for places in (["0", "3"], ["1", "2"], ["3", "1"], ["1", "1"])]
        (self.folder / "requirements.txt").write_bytes(b"other\n")
        for places, told in zip((["0", "3"], ["1", "2"], ["3", "1"], ["1", "1"]), whole):
            difference, wanted = json.loads(self.told("diff", "--json", *places)[1]), json.loads(told)
            for key in "entries", "index", "from", "to":
                self.assertEqual(difference[key], wanted[key])
            self.assertEqual(difference.get("targets"), wanted.get("targets"))


class Versions(Retarget):
    """Which versions a retarget keeps."""

    def test_a_target_that_stays_keeps_its_own(self):
        self.assertEqual(self.retarget({"linux": LINUX, "win": WINDOWS}), (0, "ok 2\n"))
        self.assertEqual(self.locked("linux"), {"a": "1", "b": "1", "c": "1"})
        old, new = (files["pylock.win.toml"].splitlines() for files in (self.before, self.files()))
        # (the line of the index's digest)
        self.assertEqual((len(new), sum(one != other for one, other in zip(old, new))), (len(old), 1))

    def test_a_new_one_takes_what_none_contradicts(self):
        self.plays((["upgrade", "w"], 0, "ok 2\n"))
        self.assertEqual(self.retarget({"newer": WINDOWS}), (0, "ok 3\n"))
        self.assertEqual(self.locked("newer"), {"a": "1", "b": "1", "c": "1", "w": "2"})
        self.opens(3, 3, "newer")

    def test_pins_come_before_that(self):
        pins = self.outside / "pins.txt"
        pins.write_text("a==2\nw==2\n", encoding="utf-8")
        for words in ["--pins", f"mac={pins}"], ["--pins", pins], ["--pins", f"linux={pins}", "--pins", f"mac={pins}"]:
            self.put(self.before)
            self.assertEqual(self.retarget({"linux": OLDER, "mac": MACOS}, *words), (0, "ok 2\n"))
            self.assertEqual([self.locked(name)["a"] for name in ("linux", "mac")], ["1", "2"])

    def test_pins_are_of_new_targets(self):
        pins = self.outside / "pins.txt"
        pins.write_text("a==2\n", encoding="utf-8")
        self.assertEqual(self.retarget({"linux": OLDER}, "--pins", f"win={pins}")[0], 2)
        self.assertEqual(self.files(), self.before)

    def test_pins_of_standard_input(self):
        self.lock_for({"mac": MACOS})
        self.assertEqual(self.call("retarget", "--pins", "-", text="b==2\n"), (0, "ok 2\n"))
        self.assertEqual(self.locked("mac"), {"a": "1", "b": "2", "c": "1"})


class Replies(Retarget):
    """What is answered where nothing is saved."""

    def test_the_same_targets_are_the_same(self):
        self.begin(FILE + b"c\n", *(release for release in RELEASES if release[1] == "1"))
        self.assertEqual(self.retarget({"linux": OLDER, "win": WINDOWS}), (0, "same\n"))
        self.assertEqual(self.files(), self.before)

    def test_another_index_alone(self):
        self.assertEqual(self.retarget({"linux": OLDER, "win": WINDOWS}, "--if-needed"), (0, "same\n"))
        self.assertEqual(self.files(), self.before)
        self.assertEqual(self.retarget({"linux": OLDER, "win": WINDOWS}), (0, "ok 2\n"))
        self.assertEqual(self.journal()[0]["journal"], 2)
        self.assertEqual(self.retarget({"linux": OLDER}, "--if-needed"), (0, "ok 3\n"))
        self.opens(3, 3, "linux")

    def test_another_environment_alone_is_no_index_alone(self):
        moved = {"linux": OLDER | {"platform_release": "7.0"}, "win": WINDOWS}
        self.assertEqual(self.retarget(moved, "--if-needed"), (0, "ok 2\n"))
        self.opens(2, 2, "linux", "win")

    def test_all_targets_lock_or_none(self):
        self.plays((["add", "z"], 0, "ok 2\n"))
        before = self.files()
        self.assertEqual(self.retarget({"linux": LINUX, "mac": MACOS}), (3, "refused no-solution\n"))
        self.assertEqual(self.files(), before)
        self.assertEqual(self.call("why", "--retarget")[0], 3)
        self.assertEqual(self.call("why", "--retarget")[1].splitlines()[0], "target mac")
        self.assertIn("target mac\n", self.call("why", "--explain", "--retarget")[1])
        self.lock_for({"linux": LINUX})
        self.plays((["why", "--retarget"], 0, "solvable\n"), (["retarget"], 0, "ok 3\n"))

    def test_only_kept_versions(self):
        self.assertEqual(self.retarget({"win": WINDOWS, "mac": MACOS}, "--keep-locked"), (0, "ok 2\n"))
        self.assertEqual(self.locked("mac"), {"a": "1", "b": "1", "c": "1"})

    def test_a_dry_run_saves_nothing(self):
        self.lock_for({"linux": OLDER, "mac": MACOS})
        status, told = self.call("retarget", "--dry-run")
        self.assertEqual(status, 0)
        self.assertTrue(told.startswith("ok 2\n+ target mac\n- target win\ntarget mac\n+ 3 entries\ntarget win\n- 4 entries\n- index: "), told)
        self.assertEqual(self.files(), self.before)
        self.plays((["retarget"], 0, "ok 2\n"))
        there = self.files()
        status, told = self.call("undo", "--dry-run")
        self.assertTrue(told.startswith("ok 1\n- target mac\n+ target win\n"), told)
        self.assertEqual(self.files(), there)

    def test_no_line_of_a_batch(self):
        self.assertEqual(self.call("batch", text="retarget\nretarget --env x\n"), (0, "refused bad-command\n" * 2))
        self.assertEqual(self.files(), self.before)

    def test_words_that_are_no_request(self):
        index = self.outside / "index.json"
        for words, told in (
            (["retarget"], "reqlock: --index is needed\n"), (["--env", "x", "retarget"], "reqlock: --index is needed\n"),
            (["--index", index, "retarget"], "reqlock: --env is needed\n"), (["--index", index, "why", "--retarget"], "reqlock: --env is needed\n"),
        ):
            with self.subTest(words=words):
                self.assertEqual(self.answered("--dir", self.folder, *words), (2, "", told))
        for words, told in (
            (["retarget", "x"], "unexpected argument 'x' found"), (["retarget", "--json"], "unexpected argument '--json' found"),
            (["why", "--retarget", "x"], "the argument '--retarget' cannot be used with one or more of the other specified arguments"),
            (["why", "--retarget", "--init"], "the argument '--init' cannot be used with one or more of the other specified arguments"),
            (["why", "--pins", "x"], "--init, --replace or --retarget is needed"), (["retarger"], "unrecognized subcommand 'retarger'"),
        ):
            with self.subTest(words=words):
                status, output, errors = self.told(*words)
                self.assertEqual((status, output), (2, ""))
                self.assertTrue(errors.startswith(f"error: {told}"), errors)
        self.lock_for({"Linux": OLDER})
        self.plays((["retarget"], 2, "reqlock: --env has a bad name\n"))
        self.assertEqual(self.files(), self.before)


class Files(Retarget):
    """No file is lost that isn't of the history."""

    NEW = {"linux": OLDER, "mac": MACOS}

    def check_refused(self, *words, name="pylock.mac.toml", told=""):
        before = self.files()
        for more in [], ["-v"], ["--dry-run"]:
            status, output, errors = self.told(*words, *more)
            self.assertEqual((status, output), (5, ""), errors)
            self.assertTrue(errors.startswith(f"reqlock: {name}: {WRITTEN}\n"), errors)
            self.assertIn(told if more == ["-v"] else "", errors)
            self.assertEqual(self.files(), before)

    def test_a_file_in_the_place_of_a_new_lock(self):
        self.lock_for(self.NEW)
        stands = "pylock.mac.toml stands there already, and isn't the lock that comes there: remove it, or move it elsewhere and hand its versions in by --pins mac=FILE\n"
        for content in b"", b"mine\n", self.before["pylock.win.toml"]:
            (self.folder / "pylock.mac.toml").write_bytes(content)
            self.check_refused("retarget", told=stands)
        (self.folder / "pylock.mac.toml").unlink()
        (self.folder / "pylock.mac.toml").mkdir()
        self.assertEqual(self.call("retarget"), (5, f"reqlock: pylock.mac.toml: {WRITTEN}\n"))
        (self.folder / "pylock.mac.toml").rmdir()
        (self.folder / "pylock.mac.toml").symlink_to("nowhere")
        self.assertEqual(self.call("retarget"), (5, f"reqlock: pylock.mac.toml: {WRITTEN}\n"))
        (self.folder / "pylock.mac.toml").unlink()
        self.plays((["retarget"], 0, "ok 2\n"))

    def test_a_lock_that_is_written_already(self):
        self.assertEqual(self.retarget(self.NEW), (0, "ok 2\n"))
        there = self.files()
        self.put(self.before | {"pylock.mac.toml": there["pylock.mac.toml"]})
        self.plays((["retarget"], 0, "ok 2\n"))
        self.assertEqual(self.files(), there)

    def test_a_file_in_the_place_of_one_that_comes_back(self):
        self.assertEqual(self.retarget(self.NEW), (0, "ok 2\n"))
        (self.folder / "pylock.win.toml").write_bytes(b"mine\n")
        stands = "pylock.win.toml stands there already, and isn't the lock that comes there: remove it, or move it elsewhere\n"
        self.check_refused("undo", name="pylock.win.toml", told=stands)
        self.assertEqual(self.call("batch", text="undo\n"), (5, f"ok 1\nreqlock: pylock.win.toml: {WRITTEN}\n"))
        # it is of no target, so edits leave it
        self.plays((["remove", "c"], 0, "ok 3\n"))
        self.assertEqual((self.folder / "pylock.win.toml").read_bytes(), b"mine\n")
        (self.folder / "pylock.win.toml").unlink()
        self.plays((["undo"], 0, "ok 2\n"), (["undo"], 0, "ok 1\n"))
        self.opens(1, 3, "linux", "win")

    def test_a_lock_that_somebody_puts_back_stays(self):
        self.assertEqual(self.retarget(self.NEW), (0, "ok 2\n"))
        (self.folder / "pylock.win.toml").write_bytes(self.before["pylock.win.toml"])
        self.plays((["remove", "c"], 0, "ok 3\n"))
        self.assertEqual((self.folder / "pylock.win.toml").read_bytes(), self.before["pylock.win.toml"])

    def test_a_link_that_goes_leaves_what_it_leads_to(self):
        place = self.outside / "elsewhere.toml"
        (self.folder / "pylock.win.toml").rename(place)
        (self.folder / "pylock.win.toml").symlink_to(place)
        self.assertEqual(self.retarget(self.NEW), (0, "ok 2\n"))
        self.assertEqual(place.read_bytes(), self.before["pylock.win.toml"])
        self.opens(2, 2, "linux", "mac")
        self.plays((["undo"], 0, "ok 1\n"))
        self.opens(1, 2, "linux", "win")

    def test_the_target_without_a_name(self):
        self.assertEqual(self.retarget({"": OLDER}), (0, "ok 2\n"))
        self.opens(2, 2, "")
        status, told = self.call("diff")
        self.assertTrue(told.startswith("+ target\n- target linux\n- target win\n+ 4 entries\ntarget linux\n- 4 entries\ntarget win\n- 4 entries\n"), told)
        self.assertEqual(self.retarget({"": LINUX}), (0, "ok 3\n"))
        self.assertIn("target: python_version 3.9 -> 3.12\n- old 1\n", self.call("diff")[1])
        self.plays((["show"], 0, f"{HEAD}a     1        1\nb     1              a\nc     1        4\n"))
        self.plays((["undo"], 0, "ok 2\n"), (["undo"], 0, "ok 1\n"))
        self.opens(1, 3, "linux", "win")


if __name__ == "__main__":
    unittest.main()
