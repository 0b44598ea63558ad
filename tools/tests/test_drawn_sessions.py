"""The program in drawn sessions, where it must answer what the rules of locks and edits do: with one target, which has no name, and with
one, two or three that may have names. There are 60 sessions of the first kind and 60 of the others, or 1,000 each with LONG_TESTS=1."""

import unittest

from support.drawn_sessions import SEEN, SEEN_OF_TARGETS, DrawnSessions
from support.made.environments import LINUX
from support.places import IS_LONG

SESSIONS = 1000 if IS_LONG else 60


class Sessions(DrawnSessions):
    def test_of_a_target_without_a_name(self):
        self.play_all(lambda draw, seed: {"": LINUX}, SEEN, SESSIONS)

    def test_of_several_targets(self):
        self.play_all(self.drawn_targets, SEEN_OF_TARGETS, SESSIONS)


if __name__ == "__main__":
    unittest.main()
