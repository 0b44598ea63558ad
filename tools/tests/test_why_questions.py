"""Every question of `why`, over the built program: of the first lock, of each edit, and why a lock hasn't a release."""

import unittest

from support.made.environments import LINUX
from support.made.releases import SHARED
from support.program import Program
from support.rules.locks import Problem, is_refutation, read_index, read_refutation

# `b` 2 asks for a newer Python, `c` 2 was taken back, and `d` 2 is a pre-release
KEPT_BACK = (
    ("b", "1", []), ("b", "2", [], {"requires_python": ">=3.99"}),
    ("c", "1", []), ("c", "2", [], {"yanked": True}),
    ("d", "1", []), ("d", "2a1", []), ("e", "1", ["d!=1"]),
)

# `a` 2 and `z` 2 can't both be had
HELD = ("a", "1", []), ("a", "2", ["z<2"]), ("z", "1", []), ("z", "2", [])


class Questions(Program):
    """What is told of questions. Nothing is saved."""

    def refutes(self, words, *lines):
        """A refutation of these lines is told, by the rules of refutations."""
        status, told = self.call(*words)
        index = read_index((self.outside / "index.json").read_bytes())
        problem = Problem([f"{line}\n" for line in lines], LINUX, index, {})
        self.assertEqual((status, is_refutation(problem, read_refutation(told))), (3, True), told)

    def test_the_first_lock_can_be_asked(self):
        self.begin(b"a==2\nc\n", *SHARED)
        self.plays(
            (["init"], 3, "refused no-solution\n"),
            (["why"], 4, "reqlock: reqlock.journal: unreadable\n"),
            (["why", "--init", "a"], 1, "refused already-present\n"),
            (["why", "--init", "--", "-r x"], 1, "refused bad-text\n"),
        )
        self.refutes(["why", "--init"], "a==2", "c")
        self.assertEqual(list(self.files()), ["requirements.txt"])

    def test_the_first_lock_can_be_asked_with_a_line_more(self):
        self.begin(b"a==2\n", *SHARED)
        self.plays(
            (["why", "--init"], 0, "solvable\n"),
            (["why", "--init", "b"], 0, "solvable\n"),
        )
        self.refutes(["why", "--init", "c"], "a==2", "c")

    def test_the_first_lock_needs_an_environment(self):
        self.begin(b"a\n", *SHARED)
        words = ["--dir", str(self.folder), "--index", str(self.outside / "index.json"), "why", "--init"]
        self.assertEqual(self.answered(*words), (2, "", "reqlock: --env is needed\n"))

    def test_an_old_history_counts_for_nothing_in_the_first_lock(self):
        self.begin(b"a\n", *SHARED)
        self.plays((["init"], 0, "ok 0\n"))
        (self.folder / "reqlock.journal").write_bytes(b"no journal")
        self.plays((["why", "--init"], 0, "solvable\n"))

    def test_the_first_target_without_a_solution_is_told(self):
        self.lock_for({"one": LINUX, "two": LINUX | {"sys_platform": "win32"}})
        self.begin(b"a\nz ; sys_platform == 'win32'\n", *SHARED)
        self.plays((["why", "--init"], 3, "target two\n-\n"))

    def test_a_refused_constraint_can_be_asked(self):
        self.begin(b"a\nc\n", *SHARED)
        self.plays(
            (["init"], 0, "ok 0\n"),
            (["constrain", "a", "==2"], 3, "refused no-solution\n"),
            (["why", "--constrain", "a", "<2"], 0, "solvable\n"),
            (["why", "--constrain", "a"], 0, "solvable\n"),
            (["why", "--constrain", "b", "<2"], 1, "refused not-present\n"),
            (["why", "--constrain", "a", "=2"], 1, "refused bad-text\n"),
            (["log"], 0, "* 0 init\n"),
        )
        self.refutes(["why", "--constrain", "a", "==2"], "a==2", "c")

    def test_an_upgrade_and_a_removal_can_be_asked(self):
        self.begin(b"a\nc\n", *SHARED)
        self.plays((["init"], 0, "ok 0\n"))
        self.begin(b"a\nc\n", ("a", "1", ["b"]), ("c", "1", []))
        self.plays(
            (["why", "--upgrade"], 3, "a==1\n-\n"),
            (["why", "--upgrade", "a", "b"], 3, "a==1\n-\n"),
            (["why", "--upgrade", "z"], 1, "refused not-locked\n"),
            (["why", "--remove", "c"], 3, "a==1\n-\n"),
            (["why", "--remove", "a"], 0, "solvable\n"),
            (["why", "--remove", "b"], 1, "refused not-present\n"),
        )

    def test_the_line_that_is_asked_about_is_told(self):
        self.begin(b"c\na\n", *SHARED)
        self.plays((["init"], 0, "ok 0\n"))
        told = self.call("why", "--explain", "--constrain", "a", "==2")[1]
        self.assertEqual(
            told.partition("\n1. ")[0],
            "line 1 (c) and line 2 as constrained (a==2) don't go together: the only release of c needs b 2 or\nnewer, and a 2 needs b<2.",
        )
        self.begin(b"c\na\n", ("a", "1", ["b"]), ("c", "1", []))
        new = self.outside / "new.txt"
        new.write_bytes(b"# new\nc\na\n")
        for words, line in (["--remove", "c"], 2), (["--upgrade"], 2), (["--replace", new], 3):
            told = self.call("why", "--explain", *words)[1]
            self.assertEqual(told.split("\n")[0], f"No choice of versions meets line {line} (a).")

    def test_questions_exclude_one_another(self):
        self.begin(b"a\n", *SHARED)
        for words in (["--init", "--not", "a"], ["--remove", "a", "--upgrade"], ["--constrain", "a", "--not", "b"]):
            self.assertEqual(self.call("why", *words)[0], 2)

    def test_what_isnt_known_of_a_release_is_refused(self):
        self.begin(b"a\n", *SHARED)
        self.plays(
            (["init"], 0, "ok 0\n"),
            (["why", "--not", "c"], 1, "refused not-locked\n"),
            (["why", "--not", "a[e]"], 1, "refused bad-text\n"),
            (["why", "--not", "a==x"], 1, "refused bad-text\n"),
            (["why", "--not", "b==1.0"], 0, "b 1.0 is locked.\n"),
        )


    def test_what_stands_against_a_release_is_told(self):
        between = ("b", "1", []), ("b", "2", ["m"]), ("c", "1", []), ("c", "2", []), ("m", "1", ["c<2"])
        self.begin(b"a\nz\n", *HELD)
        self.plays(
            (["init"], 0, "ok 0\n"),
            (["why", "--not", "z==2"], 0,
             "With z 2 no solution keeps a at 2, which is taken first: a 2 needs z<2. The best one has a 1.\n"),
        )
        for file, before in (
            (b"b\nc\n", ", which is taken first"), (b"a\nb\nc\n", " beside a 1, which is taken before it"),
            (b"a\naa\nb\nc\n", " beside a 1 and aa 1, which are taken before it"),
        ):
            (self.folder / "reqlock.journal").unlink(missing_ok=True)
            self.begin(file, ("a", "1", []), ("aa", "1", []), *between)
            self.plays((["init"], 0, "ok 0\n"))
            status, told = self.call("why", "--not", "c==2")
            told = told.replace("\n", " ").rstrip()
            self.assertEqual((status, told), (0, f"With c 2 no solution keeps b at 2{before}; the best one has b 1."))


class Reasons(Program):
    """Why a release isn't admitted."""

    def asked(self, line, file=b""):
        """What `why --explain` tells of a line behind those of a file."""
        self.begin(file, *KEPT_BACK)
        status, told = self.call("why", "--init", "--explain", line)
        self.assertEqual(status, 3)
        return told.replace("\n   ", " ")

    def test_each_reason_is_told(self):
        self.assertIn(" 2 needs Python >=3.99, the environment has ", self.asked("b>=2"))
        self.assertIn(" 2 is yanked, and no line pins it with ==", self.asked("c>=2"))
        self.assertIn(" 2a1 is a pre-release, which counts where a line names one", self.asked("e", b"d>=1\n"))
        self.assertIn("the new line (b>=9) allows no release of b; the newest in the index is 2.", self.asked("b>=9"))

    def test_a_line_without_an_extra_does_not_need_it(self):
        self.begin(b"n[x]\nn<2\n", ("n", "1", ["m>=2; extra == 'x'"]), ("n", "2", []), ("m", "1", []))
        self.assertEqual(self.call("why", "--init", "--explain")[1].replace("\n   ", " ").splitlines()[1:], [
            "1. n[x] 1 needs m>=2, and the index has no such release.",
            "2. line 1 (n[x]) needs n[x], and no release of n[x] is left: 2 doesn't match <2 of line 2; 1 is ruled out by 1.",
        ])

    def test_names_that_are_near_are_told(self):
        self.begin(b"", ("requests", "1", []), ("request", "1", []), ("flask", "1", []))
        told = self.call("why", "--init", "--explain", "reqeusts")[1].replace("\n   ", " ")
        self.assertIn("the index has no package reqeusts; near names: requests.", told)

    def test_no_file_writes_to_the_terminal(self):
        self.begin(b"", ("a", "1", [], {"requires_python": ">=3.99,\u001b<4"}), ("a", "2", [], {"requires_python": " >=3.99\t"}))
        for line in ("a", "a ; python_version > '3'  # \u001b[31m"):
            self.assertNotIn("\u001b", self.call("why", "--init", "--explain", line)[1])


if __name__ == "__main__":
    unittest.main()
