"""What is told where the requirements file alone was changed since it was saved: `log`, `show`, `diff` and `export` tell the lock and the history
as they were saved, and say first, on standard error, that it was changed. They need the program, which ./check builds first."""

import json
import unittest

from support.made.environments import LINUX, WINDOWS
from support.made.releases import file_of
from support.program import HEAD, Program
from support.rules.journals import file_name

RELEASES = ("a", "1", ["c"]), ("a", "2", ["c"]), ("b", "1", ["c>=1"]), ("c", "1", []), ("d", "1", [])
SAVED = b"# web\na<2\n"
BY_HAND = b"b  # first\n\n# web\nd\n"
# what is said: of steps, of locks, and of locks with lines, or without where these don't read
STEPS, LOCK = "the history as it was saved", "the lock as it was saved"
WITH_LINES, WITHOUT_LINES = f"{LOCK}, with the lines as they are now", f"{LOCK}, without lines, since the file doesn't read"
REFUSED = 4, "", "reqlock: requirements.txt: files-disagree\n"
TELLING = (
    ["log"], ["log", "--long"], ["log", "--json"], ["show"], ["show", "--tree"], ["show", "b"], ["show", "--json"], ["diff"], ["diff", "0"],
    ["export", "--format", "dot"],
)
NEED_LINES = ["check", "--current"], ["outdated"], ["why"], ["why", "d"], ["add", "d"], ["remove", "a"], ["relock"], ["upgrade"], ["batch"]


class Changed(Program):
    """A history of three steps that stands at the second one. Somebody has changed the requirements file since."""

    def setUp(self):
        super().setUp()
        self.begin(SAVED, *RELEASES)
        self.plays((["init"], 0, "ok 0\n"), (["add", "b"], 0, "ok 1\n"), (["constrain", "a"], 0, "ok 2\n"))
        self.plays((["upgrade"], 0, "ok 3\n"), (["undo"], 0, "ok 2\n"))
        self.change(BY_HAND)

    def change(self, data, name="requirements.txt"):
        (self.folder / name).write_bytes(data)

    def bare(self, *words):
        """A call without the index."""
        return self.answered("--dir", self.folder, *words)

    def said(self, what):
        check = f"reqlock --dir {self.folder} check -v"
        return f"reqlock: requirements.txt was changed since reqlock saved it. This is {what}; `{check}` says what to type\n"

    def tells(self, words, text, what):
        """The call prints this, and says first what it is of. All files stay."""
        before = self.files()
        with self.subTest(words=words):
            self.assertEqual(self.bare(*words), (0, text, self.said(what)))
            self.assertEqual(self.files(), before)

    def each(self, text, between=""):
        """A text for each target, which have equal locks."""
        names = sorted(self.environments)
        return between.join((f"target {name}\n" if name else "") + text for name in names)

    def refuses(self, *calls, answer=REFUSED):
        for words in calls:
            with self.subTest(words=words):
                self.assertEqual(self.bare(*words), answer)


class Told(Changed):
    def test_the_log(self):
        self.tells(["log"], "  0 init\n  1 add b\n* 2 constrain a\n  3 upgrade a\n", STEPS)
        heads = [f"{name}: " if name else "" for name in sorted(self.environments)]
        added, moved = ("".join(f"      {head}{text}\n" for head in heads) for text in ("+ b 1", "a 1 -> 2"))
        self.tells(["log", "--long"], f"  0 init\n  1 add b\n{added}* 2 constrain a\n  3 upgrade a\n{moved}", STEPS)
        status, text, errors = self.bare("log", "--json")
        self.assertEqual((status, errors), (0, self.said(STEPS)))
        told = [json.loads(line) for line in text.splitlines()]
        self.assertEqual([(step["step"], step["current"], step["told"], step["requirements_changed"]) for step in told], [
            (0, False, "init", True), (1, False, "add b", True), (2, True, "constrain a", True), (3, False, "upgrade a", True),
        ])
        splices = {"line": 3, "old": [], "new": ["b\n"]}, {"line": 2, "old": ["a<2\n"], "new": ["a\n"]}
        self.assertEqual([step.get("lines") for step in told], [None, [splices[0]], [splices[1]], []])

    def test_differences(self):
        added, moved, gone = self.each("+ b 1\n"), self.each("a 1 -> 2\n"), self.each("- b 1\n")
        for places, text in (
            ("", "- 2: a<2\n+ 2: a\n"), ("1", "- 2: a<2\n+ 2: a\n"), ("0", f"- 2: a<2\n+ 2: a\n+ 3: b\n{added}"), ("2 3", moved),
            ("0 3", f"- 2: a<2\n+ 2: a\n+ 3: b\n{self.each('a 1 -> 2' + chr(10) + '+ b 1' + chr(10))}"),
            ("2 0", f"- 2: a\n- 3: b\n+ 2: a<2\n{gone}"), ("2 1", "- 2: a\n+ 2: a<2\n"), ("1 1", ""), ("0 1", f"+ 3: b\n{added}"),
        ):
            self.tells(["diff", *places.split()], text, STEPS)
        status, text, errors = self.bare("diff", "--json", "0", "2")
        self.assertEqual((status, errors), (0, self.said(STEPS)))
        told = json.loads(text)
        self.assertEqual((told["from"], told["to"], told["index"], told["requirements_changed"]), (0, 2, None, True))
        self.assertEqual(told["lines"], [{"line": 2, "old": ["a<2\n"], "new": ["a\n", "b\n"]}])
        entries = [(entry["target"], entry["name"], entry["old"]) for entry in told["entries"]]
        self.assertEqual(entries, [(name, "b", None) for name in sorted(self.environments)])
        self.refuses(["diff", "4"], ["diff", "0", "4"], answer=(2, "", "reqlock: the history has no place 4\n"))

    def test_the_lock(self):
        rows = "a     1\nb     1        1\nc     1              a, b\n"
        self.tells(["show"], self.each(HEAD + rows, "\n"), WITH_LINES)
        self.tells(["show", "--quiet"], self.each(HEAD + rows, "\n"), WITH_LINES)
        self.tells(["show", "--tree"], self.each("line 1: b  # first\n  b 1\n    c 1\nline 4: d\n", "\n"), WITH_LINES)
        file = file_of("b", "1")
        shown = f"  file {file['name']}\n    url {file['url']}\n    size 1000\n    sha256 {'0' * 64}\n"
        self.tells(["show", "b"], self.each(f"b 1\n  line 1: b  # first\n  needs c 1\n{shown}", "\n"), WITH_LINES)
        self.assertEqual(self.bare("show", "z"), (1, "refused not-locked\n", self.said(WITH_LINES)))
        self.assertEqual(self.bare("-v", "show", "z"), (1, "refused not-locked\n", f"{self.said(WITH_LINES)}z is not locked\n"))
        status, text, errors = self.told("show", "c")
        self.assertEqual((status, errors), (0, self.said(WITH_LINES)))
        needs = ["  needed by a 1: c", "  needed by b 1: c>=1"]
        self.assertEqual([line for line in text.splitlines() if "needed" in line], needs * len(self.environments))

    def test_the_lock_as_json(self):
        for words in ["--json"], ["--json", "b"]:
            status, text, errors = self.bare("show", *words)
            self.assertEqual((status, errors), (0, self.said(WITH_LINES)))
            told = json.loads(text)
            names = [target["target"] for target in told["targets"]]
            self.assertEqual((told["requirements_changed"], names), (True, sorted(self.environments)))
            for target in told["targets"]:
                asked = {row["entry"]["name"]: row["asked_by"] for row in target["entries"]}
                self.assertEqual(asked["b"], [{"line": 1, "requirement": "b", "text": "b  # first"}])
        told = json.loads(self.bare("show", "--tree", "--json")[1])
        self.assertTrue(told["requirements_changed"])

    def test_exports(self):
        last = sorted(self.environments)[-1]
        names = ["--target", last] if last else []
        hashes, dot = ["export", *names], ["export", "--format", "dot", *names]
        status, text, errors = self.bare(*hashes)
        self.assertEqual((status, errors), (0, self.said(LOCK)))
        self.assertEqual([line for line in text.splitlines() if line.endswith("\\")], ["a==1 \\", "b==1 \\", "c==1 \\"])
        status, text, errors = self.bare(*dot)
        self.assertEqual((status, errors), (0, self.said(WITH_LINES)))
        lines = [line.strip() for line in text.splitlines()]
        self.assertIn(f'"{last}:line 1" [shape=plaintext, label="line 1: b  # first"];', lines)
        self.assertEqual([line for line in lines if "->" in line], [f'"{last}:{one}" -> "{last}:{other}";' for one, other in (
            ("line 1", "b"), ("line 4", "d"), ("a", "c"), ("b", "c"),
        )])
        # the conditions of a lock for other environments are those of the lines that it was made of
        self.assertEqual(self.told("export", "--format", "pylock", *names), REFUSED)

    def test_lines_that_do_not_read(self):
        for data in b"a\n-e .\n", b"a\n# \xff\n", b"a >>1\n":
            self.change(data)
            self.tells(["show"], self.each(f"{HEAD}a     1\nb     1\nc     1              a, b\n", "\n"), WITHOUT_LINES)
            self.tells(["log"], "  0 init\n  1 add b\n* 2 constrain a\n  3 upgrade a\n", STEPS)
            self.tells(["diff"], "- 2: a<2\n+ 2: a\n", STEPS)

    def test_a_history_of_no_step(self):
        self.begin(SAVED, *RELEASES)
        self.plays((["init"], 0, "ok 0\n"))
        self.change(b"")
        self.tells(["log"], "* 0 init\n", STEPS)
        self.tells(["diff"], "", STEPS)
        self.tells(["show"], self.each(f"{HEAD}a     1\nc     1              a\n", "\n"), WITH_LINES)
        self.refuses(["diff", "1"], answer=(2, "", "reqlock: the history has no place 1\n"))


class ToldOfTwo(Told):
    environments = {"linux": LINUX, "win": WINDOWS}


class Refused(Changed):
    def test_calls_that_need_the_lines(self):
        before = self.files()
        self.refuses(["check"], ["undo"], ["redo"], ["undo", "--dry-run"])
        for words in *NEED_LINES, ["add", "d", "--dry-run"]:
            with self.subTest(words=words):
                self.assertEqual(self.told(*words), REFUSED)
        self.assertEqual(self.files(), before)

    def test_where_more_is_wrong(self):
        whole = self.files()
        lock, journal = file_name(sorted(self.environments)[0]), "reqlock.journal"
        header, first, second, third = whole[journal].splitlines(keepends=True)
        disagree = "requirements.txt: files-disagree"
        for changes, told in (
            ({lock: whole[lock] + b"\n"}, disagree), ({journal: whole[journal][:-1]}, disagree), ({journal: header + first + second}, disagree),
            ({journal: whole[journal] + third}, disagree), ({journal: header + first + b"{}\n" + third}, disagree),
            ({lock: None}, f"{lock}: unreadable"),
            ({journal: first + second}, f"{journal}: line 1: journal-broken"), ({journal: None}, f"{journal}: unreadable"),
            ({"requirements.txt": None}, "requirements.txt: unreadable"),
        ):
            self.put({name: data for name, data in (whole | changes).items() if data is not None})
            self.refuses(*TELLING, answer=(4, "", f"reqlock: {told}\n"))

    def test_a_save_that_was_stopped(self):
        """What stands beside may be the rest of a save, which the next call that saves ends."""
        for name in ("requirements.txt", file_name(sorted(self.environments)[0]), "reqlock.journal"):
            beside = self.folder / f"{name}.new"
            beside.write_bytes(b"")
            self.refuses(*TELLING)
            beside.unlink()
        self.assertEqual(self.bare("log")[0], 0)

    def test_steps_that_do_not_follow_one_another(self):
        self.begin(b"a\n", *RELEASES)
        self.plays((["init"], 0, "ok 0\n"), (["add", "b"], 0, "ok 1\n"), (["remove", "b"], 0, "ok 2\n"))
        header, first, second = (self.folder / "reqlock.journal").read_bytes().splitlines(keepends=True)
        self.change(BY_HAND)
        self.assertEqual(self.bare("diff", "0", "2"), (0, "", self.said(STEPS)))
        for old, new, gone in (b'["b\\n"]', b'["d\\n"]', "d"), (b'"version":"1"', b'"version":"2"', "b"):
            self.assertIn(old, second)
            self.change(header + first + second.replace(old, new), "reqlock.journal")
            self.refuses(["diff", "0", "2"], ["diff", "2", "0"])
            self.assertEqual(self.bare("diff", "0", "1")[0], 0)
            self.assertEqual(self.bare("log")[:2], (0, f"  0 init\n  1 add b\n* 2 remove {gone}\n"))


class RefusedOfTwo(Refused):
    environments = {"linux": LINUX, "win": WINDOWS}


if __name__ == "__main__":
    unittest.main()
