"""What `show NAME`, `show --tree` and `show --json` tell: by worked examples, and over drawn files by a second reading of the rules. They
need the program, which ./check builds first."""

import json
import unittest

from support.drawn_files import DrawnFiles
from support.made.releases import file_of
from support.made.sessions import Draw
from support.places import IS_LONG
from support.rules.edits import problems_after
from support.rules.newer import told_entries, tree

STATES = 300 if IS_LONG else 30
RELEASES = ("a", "1", ["b<2", "c[x]"]), ("b", "1", ["d"]), ("c", "1", ['d>=1; extra=="x"', "d; os_name=='nt'"]), ("d", "1", [])


def entry_text(told, target):
    """What is printed of an entry, as its JSON tells it."""
    entry = told["entry"]
    lines = [f"{entry['name']} {entry['version']}"]
    if entry["requires_python"] is not None:
        lines.append(f"  requires Python {entry['requires_python'].strip()}")
    for asker in told["asked_by"]:
        wanted = f": {asker['requirement']}" if asker["requirement"] else ""
        if "line" in asker:
            lines.append(f"  line {asker['line']}: {asker['text']}")
        else:
            lines.append(f"  needed by {asker['name']} {asker['version']}{wanted}")
    lines += [f"  needs {need['name']} {need['version']}" for need in told["needs"]]
    for file in [entry["sdist"]] * bool(entry["sdist"]) + entry["wheels"]:
        lines += [f"  file {file['name']}", f"    url {file['url']}", f"    size {file['size']}", f"    sha256 {file['sha256']}"]
    return (f"target {target}\n" if target else "") + "".join(f"{line}\n" for line in lines)


def row_text(row):
    if "line" in row:
        return f"line {row['line']}: {row['text']}\n"
    return "  " * (row["depth"] + 1) + f"{row['name']} {row['version']}{' (shown above)' * row['shown_above']}\n"


def tree_text(targets):
    parts = [(f"target {target['target']}\n" if target["target"] else "") + "".join(map(row_text, target["tree"])) for target in targets]
    return "\n".join(filter(None, parts))


class Show(DrawnFiles):
    def locks(self, requirements=b"# web\na  # why\nd>=1\n", *releases):
        self.begin(requirements, *(releases or RELEASES))
        self.assertEqual(self.call("init"), (0, "ok 0\n"))

    def bare(self, *words):
        """A call without the index."""
        return self.answered("--dir", self.folder, *words)

    def test_an_entry(self):
        self.locks()
        file = file_of("d", "1")
        shown = (
            f"  file {file['name']}\n    url {file['url']}\n    size 1000\n    sha256 {'0' * 64}\n"
        )
        self.assertEqual(self.bare("show", "D"), (0, f"d 1\n  line 3: d>=1\n  needed by b 1\n  needed by c 1\n{shown}", ""))
        told = f"d 1\n  line 3: d>=1\n  needed by b 1: d\n  needed by c 1: d>=1\n{shown}"
        self.assertEqual(self.told("show", "d"), (0, told, ""))
        told = self.told("show", "a")[1].splitlines()
        self.assertEqual(told[:4], ["a 1", "  line 2: a  # why", "  needs b 1", "  needs c 1"])

    def test_a_name_that_is_not_locked(self):
        self.locks()
        self.assertEqual(self.bare("show", "z"), (1, "refused not-locked\n", ""))
        self.assertEqual(self.bare("show", "_"), (1, "refused bad-text\n", ""))

    def test_a_tree(self):
        self.locks()
        wanted = (
            "line 2: a  # why\n  a 1\n    b 1\n      d 1\n    c 1\n      d 1 (shown above)\nline 3: d>=1\n  d 1 (shown above)\n"
        )
        self.assertEqual(self.bare("show", "--tree"), (0, wanted, ""))
        self.assertEqual(self.told("show", "--tree"), (0, wanted, ""))

    def test_a_circle(self):
        self.locks(b"a\n", ("a", "1", ["b"]), ("b", "1", ["a"]))
        self.assertEqual(self.bare("show", "--tree"), (0, "line 1: a\n  a 1\n    b 1\n      a 1 (shown above)\n", ""))

    def test_a_deep_tree(self):
        count = 3000
        names = [f"p{place}" for place in range(count)]
        self.locks(b"p0\n", *((name, "1", [needed]) for name, needed in zip(names, names[1:])), (names[-1], "1", []))
        status, told, error = self.bare("show", "--tree")
        self.assertEqual((status, error, len(told.splitlines())), (0, "", count + 1))
        self.assertEqual(told.splitlines()[41:43], ["  " * 41 + "p40 1", "  " * 41 + "[41] p41 1"])

    def test_no_control_character_reaches_a_terminal(self):
        self.locks(b"a # \xc2\x9b31m\n", ("a", "1", []))
        for words in ["show", "a"], ["show", "--tree"], ["show", "--json"], ["show", "a", "--json"], ["show", "--tree", "--json"]:
            with self.subTest(words=words):
                status, told, _ = self.bare(*words)
                self.assertEqual(status, 0)
                self.assertFalse([letter for letter in told if letter != "\n" and (ord(letter) < 32 or 127 <= ord(letter) < 160)])
        entry = json.loads(self.bare("show", "--json")[1])["targets"][0]["entries"][0]
        self.assertEqual(entry["asked_by"][0]["text"], "a # \x9b31m")

    def test_a_reader_that_has_seen_enough(self):
        self.locks()
        for words in ["show", "a"], ["show", "--tree"], ["show", "--json"], ["outdated"], ["outdated", "--json"]:
            with self.subTest(words=words):
                self.assertEqual(self.unread(*words), (0, b""))

    def test_drawn_states(self):
        for seed in range(STATES):
            with self.subTest(seed=seed):
                draw = Draw(seed)
                self.lock_for(self.drawn_targets(draw, seed))
                self.take_index(draw.index())
                self.check_state(self.begun_session(draw)[0])

    def check_state(self, state):
        self.check_json(told_entries(state, None), self.bare("show", "--json"))
        rows = [{"target": name, "tree": tree(state.lines, target)} for name, target in state.targets.items()]
        self.check_json({"targets": rows}, self.bare("show", "--tree", "--json"))
        self.assertEqual(self.bare("show", "--tree"), (0, tree_text(rows), ""))
        problems = problems_after(state, ("relock",), self.index)[1]
        for name in sorted({name for target in state.targets.values() for name in target.entries}):
            for call, known in (self.bare, None), (self.told, problems):
                wanted = told_entries(state, known, name)
                self.check_json(wanted, call("show", name, "--json"))
                parts = [entry_text(shown, target["target"]) for target in wanted["targets"] for shown in target["entries"]]
                self.assertEqual(call("show", name), (0, "\n".join(parts), ""))

    def check_json(self, wanted, answer):
        status, output, error = answer
        self.assertEqual((status, json.loads(output), error, output.count("\n")), (0, wanted, "", 1))


if __name__ == "__main__":
    unittest.main()
