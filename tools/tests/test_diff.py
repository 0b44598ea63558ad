"""What the program tells of changes, in drawn sessions: `diff` between all pairs of places, dry runs of each command, and what `--verbose`
adds. The changes that it tells in JSON are applied as the rules have it to the files of one place, and must give those of the other; the lines for
people are those of that JSON. There are 12 sessions, or 200 with LONG_TESTS=1."""

import fcntl
import itertools
import json
import os
import unittest

from support.drawn_sessions import locked_names, names_on
from support.made.environments import LINUX, OLDER, WINDOWS
from support.made.releases import file_of
from support.made.sessions import Draw
from support.places import IS_LONG
from support.program import Program
from support.rules.journals import file_name
from support.rules.lock_tables import read_lock_table
from support.rules.requirements import cut_lines
from support.rules.states import Change, State, Target, after, inverse, is_minimal, places_of
from support.rules.versions import order_key, read_version

SESSIONS = 200 if IS_LONG else 12
COMMANDS = 6
TARGETS = [{"": LINUX}, {"linux": LINUX, "win": WINDOWS}, {"": LINUX, "older": OLDER, "x-1": WINDOWS}]
# a version that moved unasked; a locked release that is yanked, a pre-release, or without an extra that is asked for; what the index lacks
NOTE = (
    r"^(moved: |\S+ \S+ is yanked: |\S+ \S+ is a pre-release, and |No release of \S+ in the index asks for anything by the extra "
    r"|.* (was|were) ruled out|\S+ \S+ was locked without the extra |Where the package index has (it|them), |    reqlock-snapshot simple )"
)
DRY = {"add", "remove", "constrain", "upgrade", "relock", "undo", "redo"}


def entry_in(value):
    """An entry, without its name; None where there is none."""
    return value and {key: part for key, part in value.items() if key != "name"}


def change_in(told):
    """The change that an object of JSON tells."""
    splices = [(splice["line"] - 1, splice["old"], splice["new"]) for splice in told["lines"]]
    entries = []
    for entry in told["entries"]:
        for part in filter(None, (entry["old"], entry["new"])):
            assert part["name"] == entry["name"]
        entries.append((entry["target"], entry["name"], entry_in(entry["old"]), entry_in(entry["new"])))
    return Change(splices, entries, told["index"] and (told["index"]["old"], told["index"]["new"]))


def plain(text):
    """A text as a terminal may have it."""
    is_odd = [letter != "\t" and (ord(letter) < 32 or 127 <= ord(letter) < 160) for letter in text]
    return "".join(f"\\u{{{ord(letter):x}}}" if odd else letter for letter, odd in zip(text, is_odd))


def line_told(sign, number, line):
    end = "\n" if line.endswith("\n") else "\n\\ no line ending\n"
    return f"{sign} {number}: " + plain(line.removesuffix("\n").removesuffix("\r")) + end


def entry_told(name, old, new):
    if old is None or new is None:
        return f"- {name} {old['version']}\n" if new is None else f"+ {name} {new['version']}\n"
    return f"{name} {old['version']} -> {new['version']}{fields_told(old, new)}\n"


def fields_told(old, new):
    """Which fields differ of entries of equal versions."""
    if order_key(read_version(old["version"])) != order_key(read_version(new["version"])):
        return ""
    files, others = ({file["name"]: file for file in [*entry["wheels"], *filter(None, [entry["sdist"]])]} for entry in (old, new))
    places, other_places = ({(file["name"], file["url"], file["size"]) for file in named_files.values()} for named_files in (files, others))
    fields = {
        "files": places != other_places, "hashes": any(name in others and others[name]["sha256"] != files[name]["sha256"] for name in files),
        "requires-python": old["requires_python"] != new["requires_python"], "dependencies": old["dependencies"] != new["dependencies"],
    }
    told = ", ".join(field for field, is_other in fields.items() if is_other)
    return f" ({told})" if told else ""


def text_of(change):
    """A change as it is told to people."""
    told, target = "", ""
    for (place, old, new), (_, behind) in zip(change.splices, places_of(change)):
        told += "".join(line_told("-", number, line) for number, line in enumerate(old, place + 1))
        told += "".join(line_told("+", number, line) for number, line in enumerate(new, behind + 1))
    for own, name, old, new in change.entries:
        if own != target:
            told, target = f"{told}target {own}\n", own
        told += entry_told(name, old, new)
    if change.digests is not None:
        told += "- index: {}\n+ index: {}\n".format(*change.digests)
    return told


class Changes(Program):
    def state(self):
        """The state that the files of the folder hold."""
        files, targets, digest = self.files(), {}, None
        for name, environment in sorted(self.environments.items()):
            _, digest, entries = read_lock_table(files[file_name(name)])
            targets[name] = Target(environment, entries)
        return State(cut_lines(files["requirements.txt"].decode()), digest, targets)

    def times(self):
        """What stands in the folder, and when it and its files were written."""
        told = {path.name: (path.stat().st_mtime_ns, path.stat().st_ino) for path in self.folder.iterdir()}
        return self.files(), told, self.folder.stat().st_mtime_ns

    def succeeds(self, *words):
        """What a call prints that has nothing to report."""
        status, output, errors = self.told(*words)
        self.assertEqual((status, errors), (0, ""), words)
        return output

    def change(self, *places):
        return change_in(json.loads(self.succeeds("diff", "--json", *map(str, places))))


class DrawnChanges(Changes):
    def test_in_sessions(self):
        for seed in range(SESSIONS):
            with self.subTest(seed=seed):
                draw = Draw(seed + 5000)
                self.lock_for(TARGETS[seed % 3])
                self.begin_drawn(draw)
                for _ in range(COMMANDS):
                    self.draw_index(draw, 40)
                    state = self.state()
                    self.check_command(draw.command(names_on(state.lines), locked_names(state)))
                self.check_pairs()

    def draw_index(self, draw, percent):
        if draw.happens(percent):
            (self.outside / "index.json").write_text(json.dumps(draw.index()), encoding="utf-8")

    def begin_drawn(self, draw):
        self.draw_index(draw, 100)
        for _ in range(100):
            self.put({"requirements.txt": draw.requirements().encode()})
            if self.told("init")[0] == 0:
                return
        raise AssertionError("no file that was drawn has a solution")

    def check_command(self, command):
        """A dry run says what the command and `diff` then do, and leaves all as it was. With `--verbose` the command prints the same on
        standard error, and behind it notes: the versions that moved unasked, and what pip would warn of."""
        before, old, place = self.times(), self.state(), self.cursor()
        dry = self.told(*command, "--dry-run")
        self.assertEqual(self.times(), before, command)
        told = self.told(*command, "-v") if len(command[-1]) % 2 else self.told("--verbose", *command)
        self.assertEqual(dry[0], told[0], command)
        if told[0] != 0:
            self.assertEqual(dry, (*told[:2], ""), command)
            self.assertNotEqual(told[2], "")
            self.assertEqual(self.files(), before[0])
            return
        diff = self.succeeds("diff", str(place))
        self.assertEqual(dry, (0, told[1] + diff, ""), command)
        self.assertTrue(told[2].startswith(diff), command)
        for line in told[2][len(diff):].splitlines():
            self.assertRegex(line, NOTE)
        self.assertEqual(after(old, self.change(place)), self.state())

    def cursor(self):
        return int(self.succeeds("check").split()[1])

    def go_to(self, place):
        while self.cursor() > place:
            self.succeeds("undo")
        while self.cursor() < place:
            self.succeeds("redo")

    def check_pairs(self):
        """The changes between all pairs of places, asked for at one of them."""
        states, steps = [], self.succeeds("log").count("\n")
        for place in range(steps):
            self.go_to(place)
            states.append(self.state())
            wanted = self.succeeds("diff", str(max(place - 1, 0)), str(place))
            self.assertEqual(self.succeeds("diff"), wanted)
        self.go_to(steps // 2)
        for first, old in enumerate(states):
            self.assertEqual(self.change(first), self.change(first, steps // 2))
            for second, new in enumerate(states):
                self.check_pair(first, second, old, new)
        status = self.told("diff", str(steps)), self.told("diff", "0", str(steps))
        self.assertEqual(status, ((2, "", f"reqlock: the history has no place {steps}\n"),) * 2)
        self.check_changed(states)

    def check_pair(self, first, second, old, new):
        told = json.loads(self.succeeds("diff", "--json", str(first), str(second)))
        self.assertEqual((told["from"], told["to"]), (first, second))
        change = change_in(told)
        self.assertEqual(after(old, change), new)
        self.assertTrue(is_minimal(change))
        self.assertEqual(change == Change([], [], None), old == new)
        if first < second:
            self.assertEqual(self.change(second, first), inverse(change))
        self.assertEqual(self.succeeds("diff", str(first), str(second)), text_of(change))


    def check_changed(self, states):
        """Where the requirements file was changed by hand the changes are made of those of the steps alone, and lead where they must."""
        with (self.folder / "requirements.txt").open("ab") as file:
            file.write(b"# by hand")
        for (first, old), (second, new) in itertools.product(enumerate(states), repeat=2):
            status, output, _ = self.told("diff", "--json", str(first), str(second))
            self.assertEqual(status, 0)
            told = json.loads(output)
            self.assertEqual((told["from"], told["to"], told["requirements_changed"]), (first, second, True))
            change = change_in(told)
            self.assertEqual(after(old, change), new)
            self.assertTrue(is_minimal(change))
            self.assertEqual(self.told("diff", str(first), str(second))[:2], (0, text_of(change)))


class Histories(Changes):
    def test_the_log_as_json(self):
        self.begin(b"a\n", ("a", "1", []), ("a", "2", []), ("b", "1", []))
        for words in ("init",), ("add", "b  # \u009bx"), ("constrain", "a", "<2"), ("undo",):
            self.succeeds(*words)
        steps = [json.loads(line) for line in self.succeeds("log", "--json").splitlines()]
        self.assertEqual([(step["step"], step["current"]) for step in steps], [(0, False), (1, True), (2, False)])
        self.assertEqual([step["told"] for step in steps], ["init", "add b  # \\u{9b}x", "constrain a <2"])
        for number, step in enumerate(steps[1:], 1):
            self.assertEqual(change_in(step), self.change(number - 1, number))
        self.assertNotIn("\u009b", self.succeeds("log", "--json") + self.succeeds("diff", "--json") + self.succeeds("diff"))

    def test_which_fields_of_an_entry_are_others(self):
        self.begin(b"a\n", ("a", "1", []), ("b", "1", []))
        self.succeeds("init")
        wheel, other = file_of("a", "1"), file_of("a", "1", ".tar.gz")
        changes = {
            "files": {"files": [wheel, other]}, "files, hashes": {"files": [wheel | {"sha256": "1" * 64, "url": "https://other.example/a.whl"}]},
            "hashes": {"files": [wheel | {"sha256": "1" * 64}]}, "requires-python": {"requires_python": ">=3"},
            "files, requires-python, dependencies": {"files": [wheel | {"size": 2}], "requires_python": ">=3", "requires_dist": ["b"]},
        }
        for fields, more in changes.items():
            self.begin(b"a\n", ("a", "1", [], more), ("b", "1", []))
            told = self.succeeds("relock", "--dry-run").splitlines()
            self.assertEqual(told[:2], ["ok 1", f"a 1 -> 1 ({fields})"])

    def test_what_comes_and_goes_is_not_told(self):
        self.begin(b"a\nc", ("a", "1", []), ("b", "1", ["d"]), ("c", "1", []), ("d", "1", []))
        for words in ("init",), ("add", "b"), ("remove", "b"), ("remove", "a"):
            self.succeeds(*words)
        self.assertEqual(self.succeeds("diff", "0", "1"), "- 2: c\n\\ no line ending\n+ 2: c\n+ 3: b\n+ b 1\n+ d 1\n")
        self.assertEqual(self.succeeds("diff", "1", "2"), "- 3: b\n- b 1\n- d 1\n")
        self.assertEqual(self.succeeds("diff", "0", "3"), "- 1: a\n- 2: c\n\\ no line ending\n+ 1: c\n- a 1\n")
        self.assertEqual(self.succeeds("diff", "3", "2"), "+ 1: a\n+ a 1\n")
        self.assertEqual(self.succeeds("diff", "2", "2"), "")


class Details(Changes):
    """What `--verbose` tells of a refusal."""

    def details(self, *words, status=1):
        """What a refused call tells on standard error with `-v`. All else is as it is without."""
        plainly, told = self.told(*words), self.told("-v", *words)
        self.assertEqual((plainly[0], plainly[1]), (status, told[1]))
        self.assertEqual(told[0], status)
        self.assertEqual(told[2][: len(plainly[2])], plainly[2])
        return told[2][len(plainly[2]) :]

    def begin_two(self):
        self.begin(b"a<2  # why\nb\nb ; os_name == 'nt'\n", ("a", "1", []), ("b", "1", []), ("c", "1", ["a>=2"]))
        self.succeeds("init")

    def test_of_texts(self):
        self.begin_two()
        head = "the text does not read\n"
        for text, wanted in (
            ("_a", "column 1: this is no name"),
            ("  c[x, _y] >=1", "column 4: this is no name"),
            ("c >=1, >>2", "column 8: clause 2 is no version specifier"),
            ("c (>>2)", "column 4: clause 1 is no version specifier"),
            ("c ; x", "column 5: this is no marker"),
            ("c @ https://x.example", "column 3: a URL is not supported"),
            ("-r other", "column 1: an option line is not supported"),
            ("c \\", "column 3: a line may not end in a backslash"),
            ("c # \u0007", "column 5: a control character stands in the line"),
            ("# c", "it asks for nothing"),
            ("c\nd", "it has more than one line"),
        ):
            self.assertEqual(self.details("add", "--", text), f"{head}{wanted}\n", text)
        self.assertEqual(self.details("remove", "a b"), f"{head}a b: this is no name\n")
        self.assertEqual(self.details("upgrade", "a", "_"), f"{head}_: this is no name\n")
        self.assertEqual(
            self.details("constrain", "a", ">=1, x\u001b"),
            f"{head}>=1, x\\u{{1b}}: column 6: clause 2 is no version specifier\n",
        )

    def test_of_lines(self):
        self.begin_two()
        self.assertEqual(self.details("add", "A"), "line 1 has this name\nline 1: a<2  # why\n")
        self.assertEqual(self.details("remove", "b"), "2 lines have this name\nline 2: b\nline 3: b ; os_name == 'nt'\n")
        self.assertEqual(self.details("remove", "c"), "no line has this name\n")
        self.assertEqual(self.details("upgrade", "c"), "c is not locked\n")
        self.assertEqual(self.details("undo"), "there is nothing to undo\n")
        self.assertEqual(self.details("redo"), "there is nothing to redo\n")

    def test_of_no_solution(self):
        self.begin_two()
        options = f"ask: reqlock --dir {self.folder} --index {self.outside / 'index.json'} why --explain"
        head = "no versions meet all requirements\n"
        self.assertEqual(self.details("add", "c  # it's", status=3), f"{head}{options} 'c  # it'\\''s'\n")
        lacking = "the index has no release of x\n"
        file, index = self.folder / "requirements.txt", self.outside / "index.json"
        call = "Where the package index has it, this makes the snapshot with it:\n    reqlock-snapshot simple https://index.example/simple/ "
        made = f"{call}x --for {file} --output {index}\n"
        self.assertEqual(self.details("add", "x", status=3), f"{head}{lacking}{options} x\n{made}")
        self.assertEqual(self.details("constrain", "a", ">=2", status=3), f"{head}{options} --constrain a '>=2'\n")
        self.begin(b"a\n", ("b", "1", []))
        lacking = "the index has no release of a\n"
        options = f"--dir {self.folder} --index {self.outside / 'index.json'} --env {self.environment_file('')}"
        asking = f"ask: reqlock {options} why --explain --init\n"
        made = f"{call}a --for {file} --env {self.environment_file('')} --output {index}\n"
        self.assertEqual(self.details("init", status=3), head + lacking + asking + made)

    def test_of_names_that_the_index_lacks(self):
        head = "no versions meet all requirements\nthe index has no release of "
        packages = ("requests", "1", []), ("flask", "1", [], {"files": []}), ("flasks", "1", [])
        self.begin(b"requests\n", *packages)
        self.succeeds("init")
        for text, lacking in (
            ("reqeusts", "reqeusts; near names: requests"), ("django", "django"),
            # a package without a release that can be used has its right name
            ("flask", "flask"),
        ):
            told = self.details("add", text, status=3)
            self.assertEqual(told.partition("\nask: ")[0], head + lacking)
        self.begin(b"reqeusts\n", *packages)
        told = self.details("init", status=3)
        self.assertEqual(told.partition("\nask: ")[0], head + "reqeusts; near names: requests")

    def test_of_files(self):
        self.begin(b"a\n", ("a", "1", []))
        path = self.folder / "reqlock.journal"
        missing = f"{path}: No such file or directory (os error 2)\n`reqlock init` begins a history here\n"
        self.assertEqual(self.details("undo", status=4), missing)
        self.succeeds("init")

    def test_without_details(self):
        self.begin(b"a\n", ("a", "1", []))
        self.assertEqual(self.told("init", "-v"), (0, "ok 0\n", ""))
        self.assertEqual(self.told("relock", "-v"), (0, "same\n", ""))
        self.assertEqual(self.told("relock", "--dry-run"), (0, "same\n", ""))

    def test_a_dry_run_waits_for_no_reader(self):
        self.begin(b"a\n", ("a", "1", []), ("b", "1", []))
        self.succeeds("init")
        folder = os.open(self.folder, os.O_RDONLY)
        self.addCleanup(os.close, folder)
        fcntl.flock(folder, fcntl.LOCK_SH)
        self.assertEqual(self.call("add", "b", "--dry-run", seconds=60), (0, "ok 1\n+ 2: b\n+ b 1\n"))

    def test_a_dry_run_ends_no_stopped_save(self):
        self.begin(b"a\n", ("a", "1", []), ("b", "1", []))
        self.succeeds("init")
        before = self.files()
        self.succeeds("add", "b")
        new = self.files()
        self.put(before | {"requirements.txt": new["requirements.txt"]})
        for name in set(new) - {"requirements.txt"}:
            (self.folder / f"{name}.new").write_bytes(new[name])
        stopped = self.times()
        self.assertEqual(self.told("undo", "--dry-run"), (4, "", "reqlock: requirements.txt: files-disagree\n"))
        self.assertEqual(self.times(), stopped)
        self.assertEqual(self.succeeds("undo"), "ok 0\n")


if __name__ == "__main__":
    unittest.main()
