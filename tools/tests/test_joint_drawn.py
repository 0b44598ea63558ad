"""The lock file of several targets, over drawn indexes, targets and environments: wherever the marker of a target holds, an installer takes what that
target locked, as the second reading of PEP 751 has it, and a new lock there is the same. Where no such file is printed, two targets differ that
nothing tells apart. Of 40 indexes, and 40 as users have them, or 400 with LONG_TESTS=1. They need the program, which ./check builds first."""

import json
import re
import unittest
from collections import Counter

from support.drawn_files import DrawnFiles
from support.joint import REFUSAL, check_in, check_joint, targets_in
from support.made.releases import index_of
from support.places import IS_LONG, needs_program
from support.program import Program
from support.rules.asked import are_alike
from support.rules.edits import Refused, begun
from support.rules.journals import file_name
from support.rules.lock_tables import read_lock_table
from support.rules.locks import read_index
from support.rules.pins import begun_with
from support.rules.requirements import cut_lines
from support.rules.versions import canonical
from test_export_drawn import DrawnIndex, UsersIndex

COUNT = 400 if IS_LONG else 40
TRIES = 10
OTHERS = 10
COVERED = 4
NAMES = "", "linux", "mac", "old", "win", "x-1", "x-2"
PYLOCK = "export", "--format", "pylock"
GOING = re.compile("(?:target )?(.*) can go: (?:target )?(.*) covers it")
# what must have come
SEEN = (
    "no lock", "refused", "printed", "packages with markers", "several entries of a name", "one environment of two targets", "no target",
    "another environment with a target", "can go",
)


def told_name(target):
    """How `--covers` names a target."""
    return target or "the target"


@needs_program
class Drawn(DrawnFiles):
    def test_each_environment_gets_what_its_target_locked(self):
        self.seen = Counter()
        for kind in DrawnIndex, UsersIndex:
            for seed in range(COUNT):
                with self.subTest(kind=kind.__name__, seed=seed):
                    draw = kind(seed)
                    self.take_index(draw.index())
                    self.play(draw)
        self.assertLessEqual(set(SEEN), set(+self.seen), self.seen)

    def play(self, draw):
        """What is exported of the locks for drawn environments, held against the locks in others."""
        for _ in range(TRIES):
            self.lock_for(self.drawn_environments(draw))
            lines = draw.requirements()
            self.locks = self.begin_locks(lines, self.drawn_pins(draw))
            if self.locks is not None:
                self.check_export(draw, lines)
                return
            self.seen["no lock"] += 1

    def check_export(self, draw, lines):
        status, output, error = self.told(*PYLOCK)
        if status != 0 and len(self.environments) > 1:
            self.check_refused(status, output, error, lines)
            return
        self.assertEqual((status, error), (0, ""))
        data = output.encode()
        self.check_printed(data)
        environments, own = self.environments, {name: (self.folder / file_name(name)).read_bytes() for name in self.locks}
        others = [draw.other_than(draw.one(list(environments.values())), draw.one((1, 1, 2, 3))) for _ in range(OTHERS)]
        met = [check_in(data, environments, self.locks, other) for other in others]
        self.check_covers(data, others[:COVERED])
        for other, names in zip(others, met):
            self.seen["another environment with a target"] += bool(names) and other not in environments.values()
            self.seen["no target"] += not names
            if names:
                self.check_anew(lines, other, own[names[0]], self.locks[names[0]], draw.happens(15))

    # What is drawn

    @staticmethod
    def drawn_environments(draw):
        """Environments by the names of targets, of which some are nearly alike, or are so."""
        environments = {}
        for name in sorted(draw.random.sample(NAMES, draw.one((1, 2, 2, 3, 3, 4, 5)))):
            is_near = environments and draw.happens(65)
            environments[name] = draw.other_than(draw.one(list(environments.values())), draw.one((0, 0, 1))) if is_near else draw.environment()
        return environments

    def drawn_pins(self, draw):
        """Files of pins for some targets, each its target, its name and its bytes."""
        names = [name for name in self.environments if draw.happens(50)]
        return [(name, f"pins-{place}.txt", self.pins_text(draw).encode()) for place, name in enumerate(names)]

    def pins_text(self, draw):
        """Pins that are seldom the newest."""
        releases = [
            (name, draw.one(candidates[1:] or candidates))
            for name, candidates in self.index.releases.items() if candidates and draw.happens(80)
        ]
        return "".join(f"{name}=={canonical(release.version)}\n" for name, release in releases)

    # Locks

    def begin_locks(self, lines, pins):
        """The entries that `init` locks, by the names of targets, where they are those of the rules; None where it is refused."""
        self.put({"requirements.txt": lines.encode()})
        words = []
        for target, name, data in pins:
            (self.outside / name).write_bytes(data)
            words += ["--pins", f"{target}={self.outside / name}" if target else self.outside / name]
        status, output, _ = self.told("init", *words)
        self.assertIn((status, output), [(0, "ok 0\n"), (3, "refused no-solution\n")])
        locks = {name: read_lock_table((self.folder / file_name(name)).read_bytes())[2] for name in self.environments} if status == 0 else None
        self.assertEqual(locks, self.ruled(lines, self.environments, pins))
        return locks

    def ruled(self, lines, environments, pins):
        """The same by the rules in Python."""
        try:
            state = begun_with(cut_lines(lines), environments, pins, self.index)
        except Refused:
            return None
        return {name: target.entries for name, target in state.targets.items()}

    def check_anew(self, lines, environment, pins, wanted, is_called):
        """A new lock in an environment, beside the pins of a lock's file, has its entries; by the rules, and by the program where that is called."""
        self.assertEqual(self.ruled(lines, {"": environment}, [("", "kept.toml", pins)]), {"": wanted}, environment)
        if is_called:
            self.lock_for({"": environment})
            self.assertEqual(self.begin_locks(lines, [("", "kept.toml", pins)]), {"": wanted})

    # What is printed

    def check_printed(self, data):
        """The file has what it must have. Of one target it is that of its name."""
        check_joint(data, self.environments, self.locks)
        self.seen["printed"] += len(self.environments) > 1
        self.seen["packages with markers"] += b"\nmarker = " in data
        names = re.findall(rb'(?m)^\[\[packages\]\]\n(?:marker = .*\n)?name = "(.*)"', data)
        self.seen["several entries of a name"] += len(set(names)) < len(names)
        met = [names for own in self.environments.values() for names in targets_in(data, self.environments, own)]
        self.seen["one environment of two targets"] += any(len(names) > 1 for names in met)
        if len(self.environments) == 1 and "" not in self.environments:
            self.assertEqual(self.told(*PYLOCK, "--target", *self.environments), (0, data.decode(), ""))

    def check_refused(self, status, output, error, lines):
        """Two targets are told that have a package otherwise, and no question tells them apart."""
        match = REFUSAL.match(error)
        self.assertEqual((status, output, match is not None), (2, "", True), error)
        one, other, name = match.groups()
        self.assertLess(one, other)
        self.assertNotEqual(self.locks[one].get(name), self.locks[other].get(name))
        environments = self.environments[one], self.environments[other]
        self.assertTrue(are_alike(cut_lines(lines), self.index, *environments), environments)
        self.seen["refused"] += 1

    def check_covers(self, data, others):
        """What is told of other environments and of the targets' own is what an installer does there, and a target can go where another one has its
        own environment too."""
        own = dict(self.environments.items())
        files = {self.environment_file(name): environment for name, environment in own.items()}
        for place, environment in enumerate(others):
            path = self.outside / f"other-{place}.json"
            path.write_text(json.dumps(environment), encoding="utf-8")
            files[path] = environment
        status, output, error = self.told(*PYLOCK, "--covers", *files)
        lines = output.splitlines()
        told = {path: line.removeprefix(f"{path}: ").split(", ") for path, line in zip(files, lines)}
        for path, environment in files.items():
            met = check_in(data, own, self.locks, environment)
            self.assertEqual(told[path] == ["no target"], not met, (path, environment))
            self.assertLessEqual({*told[path]} - {"no target"}, {*map(told_name, met)})
        self.assertEqual((status, error), (1 if ["no target"] in told.values() else 0, ""))
        self.check_going(lines[len(files) :], {name: told[self.environment_file(name)] for name in own})

    def check_going(self, lines, told):
        """A target can go where another one has its environment, which is an earlier one or isn't covered by it. That has the same entries,
        since the file has both."""
        covering = {told_name(name): covers for name, covers in told.items()}
        wanted, names = [], list(covering)
        for place, name in enumerate(names):
            self.assertIn(name, covering[name])
            others = [other for other in covering[name] if other != name and (other in names[:place] or name not in covering[other])]
            wanted += [(name, other) for other in others[:1]]
        matches = list(map(GOING.fullmatch, lines))
        self.assertNotIn(None, matches, lines)
        self.assertEqual([match.groups() for match in matches], wanted)
        self.seen["can go"] += bool(wanted)


class Asked(unittest.TestCase):
    """The second reading of what is asked, by itself."""

    def test_environments_that_answer_alike_have_the_same_lock(self):
        seen = Counter()
        for kind in DrawnIndex, UsersIndex:
            for seed in range(COUNT):
                draw = kind(seed)
                index, lines = read_index(json.dumps(draw.index()).encode()), cut_lines(draw.requirements())
                one = draw.environment()
                other = draw.other_than(one, draw.one((1, 2)))
                if are_alike(lines, index, one, other):
                    self.assertEqual(self.locked(lines, one, index), self.locked(lines, other, index), (lines, one, other))
                    seen["alike"] += one != other
                else:
                    seen["told apart"] += 1
        self.assertEqual(set(+seen), {"alike", "told apart"})

    @staticmethod
    def locked(lines, environment, index):
        try:
            return begun(lines, {"": environment}, index).targets[""].entries
        except Refused as fault:
            return fault.word

    def test_what_is_asked(self):
        """By rows of lines, of what an environment has otherwise, and of whether that is asked."""
        index = read_index(json.dumps(index_of(
            ("a", "1", ['b<2; sys_platform=="win32"', 'c; extra=="e" and os_name=="nt"'], {"requires_python": ">=3.8"}),
            ("a", "2", [], {"requires_python": ">=3.12"}), ("b", "1", ['c; platform_machine=="x"']), ("b", "2", ['c; platform_release=="x"']),
            ("c", "1", []),
        )).encode())
        whole = Program.environments[""] | {"python_full_version": "3.11.7", "python_version": "3.11"}
        for lines, changes, is_asked in (
            ("a<2", {"sys_platform": "win32"}, True), ("a>=2", {"sys_platform": "win32"}, False), ("a", {"platform_machine": "x"}, True),
            ("a", {"platform_release": "x"}, False), ("b", {"platform_release": "x"}, True), ("a<2", {"python_full_version": "3.12.0"}, False),
            ("a", {"python_full_version": "3.12.0"}, True), ("a<2", {"python_full_version": "3.7.0"}, True), ("a<2", {"os_name": "nt"}, False),
            ("a[e]<2", {"os_name": "nt"}, True), ('z; os_name=="nt"', {"os_name": "nt"}, True), ("c", {"os_name": "nt"}, False),
        ):
            with self.subTest(lines=lines, changes=changes):
                self.assertEqual(are_alike([lines], index, whole, whole | changes), not is_asked)


if __name__ == "__main__":
    unittest.main()
