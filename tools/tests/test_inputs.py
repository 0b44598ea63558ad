"""Files and options that aren't there, and which fault is told where several files have one."""

import unittest

from support.program import Program


class Words(Program):
    """Files and options that aren't there."""

    def test_a_missing_file_is_named(self):
        words = "--dir", "/nowhere", "--index", "/nowhere/index.json", "--env", "/nowhere/environment.json", "try"
        self.assertEqual(self.answered(*words), (4, "", "reqlock: requirements.txt: unreadable\n"))

    def test_a_missing_option_is_named(self):
        for words, option in (["try"], "--index"), (["--env", "e", "try"], "--index"), (["--index", "i", "try"], "--env"):
            with self.subTest(words=words):
                self.assertEqual(self.answered(*words), (2, "", f"reqlock: {option} is needed\n"))


class Order(Program):
    """All files are read before a fault in one of them is told."""

    # The files that a subcommand needs, in the order in which they are read.
    SAVED = "requirements.txt", "reqlock.journal", "pylock.toml"
    EDITED = *SAVED, "index"
    BEGUN = "requirements.txt", "index", "environment"
    RETARGETED = *EDITED, "environment"
    NEEDED = (
        (["undo"], SAVED), (["redo"], SAVED), (["forget", "--keep", "0"], SAVED), (["show"], SAVED), (["log"], SAVED), (["check"], SAVED),
        (["add", "c"], EDITED),
        (["remove", "a"], EDITED), (["constrain", "a"], EDITED), (["upgrade"], EDITED), (["relock"], EDITED), (["batch"], EDITED),
        (["why"], EDITED), (["why", "c"], EDITED), (["replace", "--line", "a", "c"], EDITED), (["retarget"], RETARGETED), (["outdated"], EDITED), (["diff"], SAVED),
        (["export"], SAVED), (["init"], BEGUN), (["try"], BEGUN), (["skipped"], ["index"]),
    )
    # What makes each file faulty and what is then told, in the order in which faults are told.
    SAVED_FAULTS = {
        "reqlock.journal": (b"[", "line 1: journal-broken"), "requirements.txt": (b"a\n-e .\n", "files-disagree"),
        "pylock.toml": (b"", "files-disagree"), "index": (b"{", "not-json"), "environment": (b"{}", "bad-environment implementation_name"),
    }
    BEGUN_FAULTS = {
        "requirements.txt": (b"a\n-e .\n", "line 2: option-line"), "index": (b"{", "not-json"),
        "environment": (b"{}", "bad-environment implementation_name"),
    }

    def setUp(self):
        super().setUp()
        self.begin(b"a\n", ("a", "1", []), ("c", "1", []))
        self.assertEqual(self.call("init"), (0, "ok 0\n"))
        self.paths = {name: self.folder / name for name in self.SAVED}
        self.paths |= {name: self.outside / f"{name}.json" for name in ("index", "environment")}
        self.contents = {name: path.read_bytes() for name, path in self.paths.items()}

    def put(self, name, content):
        """Makes this the content of a file; where it is None, there is no file."""
        self.paths[name].unlink(missing_ok=True)
        if content is not None:
            self.paths[name].write_bytes(content)

    def faults(self, names):
        """A fault of each of these files, in the order in which they are told."""
        told = self.SAVED_FAULTS if "pylock.toml" in names else self.BEGUN_FAULTS
        return [(name, *fault) for name, fault in told.items() if name in names]

    def check_told(self, words, faults):
        """Of these faults, each a file, its content and a text, the first is told."""
        faulty = {name: content for name, content, _ in faults}
        for name, content in self.contents.items():
            self.put(name, faulty.get(name, content))
        name, _, told = faults[0]
        with self.subTest(words=words, faulty=list(faulty)):
            self.assertEqual(self.call(*words), (4, f"reqlock: {name}: {told}\n"))

    def check_told_in_turn(self, words, faults):
        """Of these faults the first is told; without it the second is, and so on."""
        for place in range(len(faults)):
            self.check_told(words, faults[place:])

    def test_the_first_file_that_cannot_be_read_is_told(self):
        for words, names in self.NEEDED:
            self.check_told_in_turn(words, [(name, None, "unreadable") for name in names])

    def test_the_first_fault_is_told(self):
        for words, names in self.NEEDED:
            self.check_told_in_turn(words, self.faults(names))

    def test_a_file_that_cannot_be_read_is_told_before_any_fault(self):
        for words, names in self.NEEDED:
            for name in names:
                # (without a header nothing says which locks there are)
                left = {name, "reqlock.journal"} if name == "pylock.toml" else {name}
                others = [fault for fault in self.faults(names) if fault[0] not in left]
                self.check_told(words, [(name, None, "unreadable"), *others])

    def test_of_a_journal_without_a_header_no_lock_is_read(self):
        for words, names in self.NEEDED:
            if "pylock.toml" in names:
                self.check_told(words, [("reqlock.journal", b"[", "line 1: journal-broken"), ("pylock.toml", None, "unreadable")])

    def test_a_broken_step_is_told_behind_files_that_disagree(self):
        self.assertEqual(self.call("add", "c"), (0, "ok 1\n"))
        self.contents = {name: path.read_bytes() for name, path in self.paths.items()}
        broken = "reqlock.journal", self.contents["reqlock.journal"].removesuffix(b"\n"), "line 2: journal-broken"
        faults = [*self.faults(["requirements.txt", "pylock.toml"]), broken, *self.faults(["index"])]
        self.check_told_in_turn(["relock"], faults)
        self.check_told_in_turn(["undo"], faults[:-1])


if __name__ == "__main__":
    unittest.main()
