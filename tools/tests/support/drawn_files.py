"""The base class of tests over files that are drawn from a seed (made/sessions.py)."""

import json

from support.made.environments import LINUX, OLDER, WINDOWS
from support.program import Program
from support.rules.edits import Refused, begun
from support.rules.locks import read_index
from support.rules.requirements import cut_lines

TARGET_NAMES = "", "linux", "older", "win", "x-1"
TRIES = 100


class DrawnFiles(Program):
    """A folder of drawn files over a drawn index, which is held as the rules read it."""

    def drawn_targets(self, draw, seed):
        """One target, two or three, in any order of names. Two may have equal environments."""
        return {name: draw.one((LINUX, WINDOWS, OLDER)) for name in draw.random.sample(TARGET_NAMES, seed % 3 + 1)}

    def take_index(self, index):
        data = json.dumps(index).encode()
        (self.outside / "index.json").write_bytes(data)
        self.index = read_index(data)

    def begun_session(self, draw):
        """The first state that `init` makes of drawn files, and how many it refused before, which have no solution."""
        for refused in range(TRIES):
            text = draw.requirements()
            self.put({"requirements.txt": text.encode()})
            try:
                state = begun(cut_lines(text), self.environments, self.index)
            except Refused as fault:
                self.assertEqual(self.told("init"), (3, f"refused {fault.word}\n", ""), text)
                self.assertEqual(self.files(), {"requirements.txt": text.encode()})
                continue
            self.assertEqual(self.told("init"), (0, "ok 0\n", ""), text)
            return state, refused
        raise AssertionError("no file that was drawn has a solution")
