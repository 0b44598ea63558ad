"""Tests of `replace` and of `--pins` over the built program: drawn files, locks and pins against a second reading of the rules, what is typed
and what is printed, every fault of a file that is handed in, several targets, and a full disk. test_file_calls.py stops a save of it at
each call."""

import json
import shutil
import unittest

from support.drawn_sessions import DrawnSessions
from support.made.environments import LINUX, WINDOWS
from support.made.releases import index_of
from support.places import IS_LONG
from support.program import Program, limited
from support.rules.edits import History, Refused, edited, status_of
from support.rules.journals import file_name
from support.rules.locks import read_index
from support.rules.pins import begun_with, newer_of, replaced
from support.rules.requirements import cut_lines, read_version

SESSIONS = 300 if IS_LONG else 25
MARKERS = "os_name == 'posix'", "os_name == 'nt'"
RELEASES = (
    ("web", "1", []), ("web", "2", []), ("web", "3", ["base>=2"]), ("base", "1", []), ("base", "2", []), ("base", "3", []), ("tool", "1", []),
    ("tool", "2", []),
)
# what some session must have come to
SEEN = {"ok", "same", "no-solution", "a pin that counts", "a lock as pins", "kept alone", "begun with pins"}


class Sessions(DrawnSessions):
    """Each session replaces the lines of a drawn state by those of another, with pins that are drawn, and begins anew with such pins."""

    def test_of_drawn_files_locks_and_pins(self):
        self.play_all(self.drawn_targets, SEEN, SESSIONS)

    def play(self, draw):
        self.put({})
        self.take_index(draw.index())
        history = History(self.begun_session(draw)[0])
        self.locks = []
        for _ in range(2):
            self.locks += [(self.folder / file_name(name)).read_bytes() for name in self.environments]
            self.take_index(draw.index())
            self.check_replace(draw, history)
        self.check_init(draw, history.state())

    @staticmethod
    def pin(draw, name):
        """A line that pins a release of the index, or mostly so."""
        release = draw.one(draw.packages[name])["version"] if draw.happens(90) else "9"
        return f"{draw.name([name])}{draw.one(('', '[e-1]'))}=={release}{draw.marker(MARKERS)}"

    def drawn_pins(self, draw):
        """Files of pins, each its target, its name and its bytes, and the options that hand them in. One may be the lock of a target."""
        files = []
        for place in range(draw.one((0, 1, 1, 2))):
            target = draw.one(["", *self.environments])
            if draw.happens(30):
                name, data = f"{place}.toml", draw.one(self.locks)
                self.seen["a lock as pins"] += 1
            else:
                name, data = f"{place}.txt", "\n".join(self.pin(draw, package) for package in draw.names * 2 if draw.happens(60)).encode()
            (self.outside / name).write_bytes(data)
            files.append((target, name, data))
        return files, [word for target, name, _ in files for word in ("--pins", f"{target}={self.outside / name}")]

    def check_replace(self, draw, history):
        """A replacement by drawn lines, or by the file's own, is what the rules make of it."""
        old, before = history.state(), self.files()
        lines = old.lines if draw.happens(25) else cut_lines(draw.requirements())
        (self.outside / "new.txt").write_bytes("".join(lines).encode())
        files, options = self.drawn_pins(draw)
        keep = ["--keep-locked"] * draw.happens(25)
        reply = self.reply_of(history, lines, files, bool(keep))
        self.seen[reply.removeprefix("refused ").split()[0]] += 1
        answer = self.told("replace", self.outside / "new.txt", *keep, *options)
        self.assertEqual(answer, (status_of(reply), f"{reply}\n", ""), (lines, files))
        if reply.startswith("ok"):
            self.check_files(history)
        else:
            self.assertEqual(self.files(), before)

    def reply_of(self, history, lines, files, only_kept):
        old = history.state()
        try:
            state = replaced(old, lines, files, self.index, only_kept)
        except Refused as refused:
            return f"refused {refused.word}"
        self.seen["a pin that counts"] += bool(files) and state != replaced(old, lines, [], self.index)
        self.seen["kept alone"] += only_kept
        if not files and not only_kept and lines == old.lines:
            self.assertEqual(state, edited(old, ("relock",), self.index))
        if state == old:
            return "same"
        history.states[history.cursor + 1 :] = [state]
        return history.move(1, "")

    def check_init(self, draw, state):
        """`init` with pins begins with what the rules make of them; without any it keeps nothing of the lock that stands there."""
        files, options = self.drawn_pins(draw)
        try:
            begun = begun_with(state.lines, self.environments, files, self.index)
        except Refused:
            self.assertEqual(self.told("init", *options), (3, "refused no-solution\n", ""), files)
            return
        self.seen["begun with pins"] += begun != begun_with(state.lines, self.environments, [], self.index)
        self.assertEqual(self.told("init", *options), (0, "ok 0\n", ""), files)
        self.check_files(History(begun))


class Laws(unittest.TestCase):
    def test_the_newer_of_two(self):
        """It doesn't matter whose versions are the own ones, but for the spelling of equal ones."""
        index = read_index(json.dumps(index_of(("a", "1", []), ("a", "2", []), ("b", "3", []))).encode())
        for one, other, wanted in (
            ("", "", ""), ("a1", "", "a1"), ("a3", "", "a3"), ("a1", "a2", "a2"), ("a1", "a3", "a1"), ("a2", "a3", "a2"), ("a3", "a4", "a4"),
            ("b2", "b3", "b3"), ("b4", "b3", "b3"), ("b2", "b4", "b4"), ("c1", "c2", "c2"), ("a1 c1", "b4 c2", "a1 b4 c2"),
        ):
            sides = [[(pin[0], read_version(pin[1])) for pin in side.split()] for side in (one, other)]
            for own, others in sides, sides[::-1]:
                with self.subTest(own=own, others=others):
                    self.assertEqual(newer_of(dict(own), others, index), {pin[0]: read_version(pin[1]) for pin in wanted.split()})


class Words(Program):
    """What is typed, and what comes of it."""

    def setUp(self):
        super().setUp()
        self.begin(b"# app\r\nweb<3\ntool<2\n", *RELEASES)
        self.assertEqual(self.call("init"), (0, "ok 0\n"))
        self.first = self.files()

    def write(self, text, name="new.txt"):
        (self.outside / name).write_bytes(text)
        return self.outside / name

    def test_lines_of_a_file_or_of_standard_input(self):
        text = "# app\r\nweb\ntool\nbase\n"
        self.assertEqual(self.told("replace", self.write(text.encode())), (0, "ok 1\n", ""))
        self.holds(text)
        self.assertEqual(self.locked(), {"base": "3", "tool": "1", "web": "2"})
        self.plays((["undo"], 0, "ok 0\n"))
        self.assertEqual({name: data for name, data in self.files().items() if name != "reqlock.journal"},
                         {name: data for name, data in self.first.items() if name != "reqlock.journal"})
        self.assertEqual(self.told("replace", "-", text=text), (0, "ok 1\n", ""))
        self.holds(text)
        self.assertEqual(self.told("replace", "-", text=text), (0, "same\n", ""))

    def test_a_file_that_was_changed(self):
        path = self.folder / "requirements.txt"
        path.write_bytes(b"# app\r\nweb>=3\ntool<2\n")
        before = path.stat()
        self.assertEqual(self.told("replace", "--was", "-", text=self.first["requirements.txt"].decode()), (0, "ok 1\n", ""))
        self.assertEqual((path.stat().st_ino, path.stat().st_mtime_ns), (before.st_ino, before.st_mtime_ns))
        self.assertEqual(self.locked(), {"base": "3", "tool": "1", "web": "3"})
        self.assertEqual(self.call("check"), (0, "ok 1\n"))
        self.plays((["undo"], 0, "ok 0\n"))
        self.holds("# app\r\nweb<3\ntool<2\n")

    def test_what_was_refused_changes_nothing(self):
        (self.folder / "requirements.txt").write_bytes(b"web>9\n")
        old = self.write(self.first["requirements.txt"])
        stood = self.files()
        for words, told in (
            (["--was", old], (3, "refused no-solution\n", "")),
            (["--was", self.write(b"web\n", "other")], (4, "", "reqlock: requirements.txt: files-disagree\n")),
            (["--was", "none"], (4, "", "reqlock: old requirements: unreadable\n")),
            ([old], (4, "", "reqlock: requirements.txt: files-disagree\n")),
        ):
            with self.subTest(words=words):
                self.assertEqual(self.told("replace", *words), told)
                self.assertEqual(self.files(), stood)
        (self.folder / "requirements.txt").write_bytes(b"<<<<<<< one\nweb\n=======\ntool\n>>>>>>> other\n")
        self.assertEqual(self.told("replace", "--was", old), (4, "", "reqlock: requirements.txt: line 1: bad-name\n"))

    def test_new_lines_that_do_not_read(self):
        for text, told in (
            (b"web\n<<<<<<< one\n", "line 2: bad-name"), (b"\xff", "not-utf8"), (b"web >>1", "line 1: bad-clause"), (b"-r x\n", "line 1: option-line"),
        ):
            self.assertEqual(self.told("replace", self.write(text)), (4, "", f"reqlock: new requirements: {told}\n"))
        self.assertEqual(self.told("replace", self.outside / "none"), (4, "", "reqlock: new requirements: unreadable\n"))
        self.assertEqual(self.files(), self.first)

    def test_a_line_in_the_place_of_the_one_on_a_name(self):
        for name, text, told in (
            ("web", "tool", (1, "refused already-present\n", "")), ("none", "none", (1, "refused not-present\n", "")),
            ("web", "web>>1", (1, "refused bad-text\n", "")), ("web", "# web", (1, "refused bad-text\n", "")),
        ):
            self.assertEqual(self.told("replace", "--line", name, text), told)
            self.assertEqual(self.files(), self.first)
        self.assertEqual(self.told("replace", "--line", "Web", "base<3  # in its place"), (0, "ok 1\n", ""))
        self.holds("# app\r\nbase<3  # in its place\ntool<2\n")

    def test_pins_of_names(self):
        pins = self.write(b"web==2\ntool==2 ; os_name == 'nt'\nBase[x] == 2  # of the other\nbase==1\nnone==1\n", "pins")
        self.assertEqual(self.told("replace", self.write(b"web\ntool\nbase\n"), "--pins", pins), (0, "ok 1\n", ""))
        self.assertEqual(self.locked(), {"base": "2", "tool": "1", "web": "2"})

    def test_a_newer_pin_that_the_index_lacks(self):
        """Of two pins the one that the index has is kept, whoever hands it in; of two that it lacks none leads to anything."""
        new = self.write(b"web\ntool\n")
        for keep in [], ["--keep-locked"]:
            for pins, locked in (("web==4", "2"), ("web==3", "3"), ("web==1", "2"), ("web==4\nweb==3", "3")):
                with self.subTest(pins=pins, keep=keep):
                    path = self.write(pins.encode(), "pins")
                    self.assertEqual(self.told("replace", new, "--pins", path, *keep), (0, "ok 1\n", ""))
                    self.assertEqual(self.locked()["web"], locked)
                    self.plays((["undo"], 0, "ok 0\n"))
        path = self.write(b"web==4\nweb==1\n", "pins")
        self.assertEqual(self.told("init", "--pins", path), (0, "ok 0\n", ""))
        self.assertEqual(self.locked()["web"], "1")

    def test_both_sides_of_a_merge_where_the_index_lacks_a_pin(self):
        """Each side's lock is handed in to the other; the releases of one are gone from the index, or of both."""
        new = self.write(b"web\n")
        answers = []
        for gone in ["3"], ["2"], ["2", "3"], ["1", "2"]:
            for own, other in ("2", "3"), ("3", "2"):
                for keep in [], ["--keep-locked"]:
                    self.begin(f"web=={own}\n".encode(), *RELEASES)
                    self.assertEqual(self.call("init"), (0, "ok 0\n"))
                    self.begin(f"web=={own}\n".encode(), *(release for release in RELEASES if release[0] != "web" or release[1] not in gone))
                    told = self.told("replace", new, "--pins", self.write(f"web=={other}".encode(), "pins"), *keep)
                    answers.append((told, self.locked()["web"] if told[0] == 0 else ""))
        sides = [answers[place : place + 2] for place in range(0, len(answers), 2)]
        self.assertEqual(sides[::2], sides[1::2])
        accepted, refused = (0, "ok 1\n", ""), (3, "refused no-solution\n", "")
        self.assertEqual(sides[::2], [
            [(accepted, "2")] * 2, [(accepted, "3")] * 2, [(accepted, "1"), (refused, "")], [(accepted, "3")] * 2,
        ])

    def test_faults_of_files_come_before_what_refuses_a_line(self):
        pins = self.write(b"[\n", "bad.toml")
        self.assertEqual(self.told("replace", "--line", "none", "none", "--pins", pins), (4, "", "reqlock: pins: not-toml\n"))
        self.assertEqual(self.told("replace", "--line", "none", "none", "--pins", f"X={pins}"), (4, "", "reqlock: pins X: not-toml\n"))
        pins = self.write(b"web==1\n", "pins")
        told = 2, "", "reqlock: --pins has no target X\n"
        self.assertEqual(self.told("replace", "--line", "none", "none", "--pins", f"X={pins}"), told)
        self.assertEqual(self.told("replace", "--line", "none", "none", "--pins", pins), (1, "refused not-present\n", ""))
        self.assertEqual(self.files(), self.first)

    def test_faults_of_files_come_before_a_name_that_is_no_targets(self):
        bad, pins = self.write(b"web >>1\n", "bad.txt"), self.write(b"web==1\n", "pins")
        for name in "X", "mac":
            for path, told in (
                (pins, "new requirements: line 1: bad-clause"), (self.outside / "none", f"pins {name}: unreadable"),
            ):
                self.assertEqual(self.told("replace", bad, "--pins", f"{name}={path}"), (4, "", f"reqlock: {told}\n"))
            (self.folder / "requirements.txt").write_bytes(b"web >>1\n")
            self.assertEqual(self.told("init", "--pins", f"{name}={pins}"), (4, "", "reqlock: requirements.txt: line 1: bad-clause\n"))
            (self.folder / "requirements.txt").write_bytes(self.first["requirements.txt"])

    def test_each_fault_of_pins(self):
        new, target = self.write(b"web\ntool\n"), ""
        for text, word in (
            ("web", "line 2: no-pin"), ("web>=1", "line 2: no-pin"), ("web==1.*", "line 2: no-pin"), ("web==1,<3", "line 2: no-pin"),
            ("web===1", "line 2: arbitrary-equality"), ("web @ http://x", "line 2: url-requirement"), ("-r x", "line 2: option-line"),
            ("web==1 \\", "line 2: continuation"), ("web==99999999999999999999", "line 2: number-too-large"), ("web==x", "line 2: bad-clause"),
            ("web==1 ; os", "line 2: bad-marker"), ("\x01", "line 2: odd-character"), ("<<<<<<< x", "line 2: bad-name"),
        ):
            with self.subTest(text=text):
                self.check_pins(self.write(f"tool==1\n{text}\n".encode(), "pins"), word, new, target)
        self.check_pins(self.write(b"\xff", "pins"), "not-utf8", new, target)
        self.check_pins(self.outside / "none", "unreadable", new, target)
        for text, word in (("[", "not-toml"), ("", "shape lock-version"), ('lock-version = "1.0"', "shape environments")):
            self.check_pins(self.write(f"{text}\n".encode(), "pins.toml"), word, new, target)

    def check_pins(self, path, word, new, target):
        """A file of pins is refused by `replace` and by `init`, and changes nothing."""
        value, place = (f"{target}={path}", f"pins {target}") if target else (path, "pins")
        for words in ["replace", new], ["init"]:
            self.assertEqual(self.told(*words, "--pins", value), (4, "", f"reqlock: {place}: {word}\n"))
        self.assertEqual(self.files(), self.first)

    def test_standard_input_is_read_once(self):
        new = self.write(b"web\ntool\n")
        self.assertEqual(self.told("replace", new, "--pins", "-", text="web==1\n")[:2], (0, "ok 1\n"))
        told = 4, "", "reqlock: pins: unreadable\n"
        self.assertEqual(self.told("replace", "-", "--pins", "-", text="web==1\n"), told)

    def test_a_plain_init_keeps_no_pin(self):
        (self.folder / "requirements.txt").write_bytes(b"web\ntool\n")
        self.assertEqual(self.told("init"), (0, "ok 0\n", ""))
        self.assertEqual(self.locked(), {"base": "3", "tool": "2", "web": "3"})

    def test_init_keeps_the_pins_of_its_own_lock_where_they_are_handed_in(self):
        (self.folder / "requirements.txt").write_bytes(b"web\ntool\n")
        self.assertEqual(self.told("init", "--pins", self.folder / "pylock.toml"), (0, "ok 0\n", ""))
        self.assertEqual(self.locked(), {"tool": "1", "web": "2"})

    def test_a_full_disk(self):
        new = self.write(b"web\ntool\n")
        shutil.copy(self.folder / "requirements.txt", self.outside / "old")
        for size in 0, 300:
            status, told = self.call("replace", new, before=limited(size))
            self.assertEqual((status, told.endswith(": write failed\n")), (5, True), told)
            self.assertEqual(self.files(), self.first)
        (self.folder / "requirements.txt").write_bytes(b"web\ntool\n")
        stood = self.files()
        self.assertEqual(self.call("replace", "--was", self.outside / "old", before=limited(0))[0], 5)
        self.assertEqual(self.files(), stood)
        self.assertEqual(self.call("replace", "--was", self.outside / "old"), (0, "ok 1\n"))


class Targets(Program):
    """Several targets, each with pins of its own."""

    environments = {"linux": LINUX, "windows": WINDOWS}

    def setUp(self):
        super().setUp()
        self.begin(b"web<2\ntool<2\n", *RELEASES)
        self.assertEqual(self.call("init"), (0, "ok 0\n"))

    def test_each_has_its_own_pins(self):
        (self.outside / "new").write_bytes(b"web\ntool\n")
        for name, text in ("one", b"web==2\n"), ("two", b"web==3\ntool==2\n"), ("three", b"web==2\ntool==1\n"):
            (self.outside / name).write_bytes(text)
        words = [word for value in (f"windows={self.outside / 'one'}", self.outside / "two") for word in ("--pins", value)]
        self.assertEqual(self.told("replace", self.outside / "new", *words), (0, "ok 1\n", ""))
        self.assertEqual(self.locked("linux"), {"base": "3", "tool": "2", "web": "3"})
        self.assertEqual(self.locked("windows"), {"tool": "1", "web": "2"})
        words = [word for name in ("one", "two", "three") for word in ("--pins", f"windows={self.outside / name}")]
        self.plays((["undo"], 0, "ok 0\n"), (["replace", self.outside / "new", *words], 0, "ok 1\n"))
        self.assertEqual(self.locked("windows"), {"base": "3", "tool": "2", "web": "3"})
        self.assertEqual(self.locked("linux"), {"tool": "1", "web": "1"})

    def test_faults_name_the_target(self):
        (self.outside / "new").write_bytes(b"web\n")
        (self.outside / "pins").write_bytes(b"web\n")
        (self.outside / "x.toml").write_bytes(b"[\n")
        before = self.files()
        for value, told in (
            (f"windows={self.outside / 'pins'}", (4, "", "reqlock: pins windows: line 1: no-pin\n")),
            (f"linux={self.outside / 'x.toml'}", (4, "", "reqlock: pins linux: not-toml\n")),
            ("windows=none", (4, "", "reqlock: pins windows: unreadable\n")),
        ):
            for words in ["replace", self.outside / "new"], ["init"]:
                self.assertEqual(self.told(*words, "--pins", value), told)
        (self.outside / "pins").write_bytes(b"web==1\n")
        for name in "mac", "Mac":
            told = 2, "", f"reqlock: --pins has no target {name}\n"
            for words in ["replace", self.outside / "new"], ["init"]:
                self.assertEqual(self.told(*words, "--pins", f"{name}={self.outside / 'pins'}"), told)
        self.assertEqual(self.files(), before)


if __name__ == "__main__":
    unittest.main()
