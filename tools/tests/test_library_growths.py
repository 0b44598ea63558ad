"""Library calls with one growth of their memory refused: each in turn with LONG_TESTS=1 in the environment, without it each 50th
and the last 40. The scenarios of `conformance` do the calls. They tell what stands before a call, what the call answers and what
stands behind it; and where the call wants memory, do it once more, and then it has to answer as if nothing had been.

A call answers as with ample memory, or that memory was refused, and then all is what it was. Of the commands of a `run` one alone
may be answered so, and all else is as if it hadn't been given; or the `run` as a whole, and then none was done."""

import functools
import sys
import unittest

from support.once import made_once
from support.places import IS_LONG, built
from support.rules.library_scenarios import scenario_text, scenarios, wanted

import growths  # (these stand in tools/)
from conformance_rows import behind_answers

PROGRAM = built("conformance")
PACE = 1 if IS_LONG else 50
LAST = 40
AMPLE = 10**12
REFUSED = "out of memory", "line 0: out of memory", "memory allocation failed"

# A call that may not take memory, those that need none, and one that takes some only to be faster, so that it always answers as
# with ample memory. Each of the others takes some.
NEVER = ("compare",)
ALWAYS = ("state check add x[e]",)
NOTHING = "there is nothing to undo", "there is nothing to redo"
NEEDS_NONE = "clone requirement", "read version 1..0", "whole undo", "whole redo"


def numbers(count):
    """The growths that are refused, of so many."""
    return sorted({*range(1, count + 1, PACE), *range(max(1, count - LAST + 1), count + 1)})


def told(output):
    """What a run tells: what stands before, and each call's answer with what stands behind it. Nothing where it has another form."""
    lines = output.decode().splitlines()[1:]
    before = lines.pop(0).removeprefix("before ") if lines and lines[0].startswith("before ") else None
    calls = []
    while lines and lines.pop(0) == "call" and lines and lines[0].startswith("answer "):
        answer = lines.pop(0).removeprefix("answer ")
        behind = lines.pop(0).removeprefix("behind ") if lines and lines[0].startswith("behind ") else None
        calls.append((answer, behind))
    return None if lines else (before, calls)


def is_whole(ample):
    """Whether a call with ample memory told all of its parts, and no want of memory."""
    if ample is None or len(ample[1]) != 1:
        return False
    before, [(answer, behind)] = ample
    return (before is None) == (behind is None) and not any(word in answer for word in REFUSED)


def is_lawful(run, ample):
    """Whether the call is answered as with ample memory; or it wanted memory and changed nothing, and then it is so answered."""
    before, calls = ample
    if run == ample:
        return True
    return any(run == (before, [(word, before), *calls]) for word in REFUSED)


def are_lawful(run, ample, without):
    """The same of a run of several commands, where one may have wanted memory. `without(place)` is the run of the others."""
    if run is None or is_lawful(run, ample):
        return run is not None
    before, [*calls] = run
    replies = calls[0][0].split("; ") if len(calls) == 1 else []
    if replies.count("out of memory") != 1:
        return False
    place = replies.index("out of memory")
    if ample[1][0][0].split("; ")[place] in NOTHING:
        return False
    others, [(answer, behind)] = without(place)
    return run == (others, [("; ".join(replies), behind)]) and replies[:place] + replies[place + 1 :] == answer.split("; ")


class Rules(unittest.TestCase):
    def test_reads_what_is_told(self):
        self.assertEqual(told(b"x\nbefore 1\ncall\nanswer ok\nbehind 2\n"), ("1", [("ok", "2")]))
        self.assertEqual(told(b"x\ncall\nanswer 1\ncall\nanswer 2\n"), (None, [("1", None), ("2", None)]))
        self.assertIsNone(told(b"x\ncall\n1\n"))

    def test_of_a_call(self):
        ample = ("1", [("ok", "2")])
        self.assertTrue(is_whole(ample))
        for other in None, ("1", []), ("1", [("ok", None)]), ("1", [("a; out of memory", "2")]):
            self.assertFalse(is_whole(other))
        for run in ample, *(("1", [(word, "1"), ("ok", "2")]) for word in REFUSED):
            self.assertTrue(is_lawful(run, ample))
        for run in (
            None, ("1", [("out of memory", "2"), ("ok", "2")]), ("1", [("out of memory", "1")]), ("1", [("ok", "1")]),
            ("1", [("out of memory", "1"), ("ok", "3")]), ("1", [("out of memory", "1"), ("out of memory", "1")]),
        ):
            self.assertFalse(is_lawful(run, ample))

    def test_of_a_run_of_several(self):
        last = NOTHING[1]
        ample = ("1", [(f"ok 1; ok 2; {last}", "2")])
        others = {0: ("1", [(f"ok 1; {last}", "3")]), 2: ("1", [("ok 1; ok 2", "2")])}

        def lawful(*calls):
            return are_lawful(("1", list(calls)), ample, lambda place: others.get(place, ample))

        self.assertTrue(lawful((f"ok 1; ok 2; {last}", "2")))
        self.assertTrue(lawful(("memory allocation failed", "1"), (f"ok 1; ok 2; {last}", "2")))
        self.assertTrue(lawful((f"out of memory; ok 1; {last}", "3")))
        for call in (
            (f"out of memory; ok 1; {last}", "2"), (f"out of memory; ok 2; {last}", "3"),
            (f"out of memory; out of memory; {last}", "3"), ("ok 1; ok 2; out of memory", "2"),
            (f"ok 1; out of memory; {last}", "3"), (f"ok 1; {last}", "3"),
        ):
            self.assertFalse(lawful(call))
        self.assertFalse(are_lawful(None, ample, None))


class Scenarios(unittest.TestCase):
    def test_are_told_as_the_rules_say(self):
        self.assertEqual(behind_answers(), wanted())


@unittest.skipUnless(PROGRAM.exists(), "the program `conformance` isn't built")
@unittest.skipUnless(sys.platform == "linux" and growths.compiler(), "there is no C compiler, or no glibc")
class Calls(unittest.TestCase):
    needs_program = True

    @classmethod
    def setUpClass(cls):
        cls.library = made_once("growths", growths.compiled) / growths.LIBRARY

    def play(self, scenario, number):
        run = growths.run_once([PROGRAM, scenario], self.library, number, mark="call\n", end="answer ")
        self.assertEqual((run.status, run.errors), (0, b""), (scenario, number))
        return run

    @functools.cache
    def ample(self, scenario):
        """What a scenario tells with ample memory, and how many growths its call has."""
        run = self.play(scenario, AMPLE)
        ample_told = told(run.output)
        self.assertIsNone(run.refused)
        self.assertTrue(is_whole(ample_told), run)
        self.assertEqual(run.output.decode(), scenario_text(scenario))
        return ample_told, run.growths

    def without(self, scenario, place):
        word, commands = scenario.split(" ", 1)
        commands = commands.split("/")
        return self.ample(" ".join((word, "/".join(commands[:place] + commands[place + 1 :]))))[0]

    def check(self, scenario):
        ample_told, count = self.ample(scenario)
        takes_none = scenario in NEVER + NEEDS_NONE or ample_told[1][0][0] in NOTHING
        self.assertEqual(count == 0, takes_none, scenario)
        for number in numbers(count):
            run = self.play(scenario, number)
            self.assertIsNotNone(run.refused, (scenario, number))
            self.assertTrue(self.is_right(scenario, told(run.output), ample_told), (scenario, run))

    def is_right(self, scenario, run, ample):
        if scenario in ALWAYS:
            return run == ample
        if scenario.startswith(("run ", "runs ")):
            return are_lawful(run, ample, functools.partial(self.without, scenario))
        return is_lawful(run, ample)

    def test_each_call(self):
        self.assertTrue(scenarios())
        for scenario in scenarios():
            with self.subTest(scenario=scenario):
                self.check(scenario)


if __name__ == "__main__":
    unittest.main()
