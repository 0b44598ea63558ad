"""Tests of how the tools read versions, clauses, markers and requirements, beside the checker of refutations, which shares no line with
them."""

import unittest

from support.made.environments import LINUX
from test_check_refutation import MARKER_TEXTS, REQUIREMENT_TEXTS, SET_TEXTS, VERSION_TEXTS, checker

from reqlock_tools.markers import NO_EXTRA, tree_extras, tree_of
from reqlock_tools.requirements import need_of
from reqlock_tools.specifiers import matches, read_set
from reqlock_tools.versions import read_version

EXTRAS = NO_EXTRA, "e", "e-1"


def theirs(read, *values):
    """What the checker reads; None where it refuses."""
    try:
        return read(*values)
    except checker.Refusal:
        return None


@unittest.skipUnless(checker, "python3 has neither packaging nor pip")
class Rules(unittest.TestCase):
    def test_versions_and_sets(self):
        versions = [text for text in VERSION_TEXTS if theirs(checker.read_version, text) is not None]
        for text in VERSION_TEXTS:
            self.assertEqual(read_version(text), theirs(checker.read_version, text), text)
        for text in SET_TEXTS:
            ours, wanted = read_set(text), theirs(checker.read_set, text)
            self.assertEqual(ours is None, wanted is None, text)
            for version in versions if wanted is not None else ():
                answers = matches(ours, read_version(version)), checker.matches(wanted, checker.read_version(version))
                self.assertEqual(answers[0], answers[1], (text, version))

    def test_markers(self):
        """All that the checker takes, and what was lawful once."""
        for text in [marker for marker in MARKER_TEXTS if theirs(checker.holds, marker, LINUX) is not None]:
            for extra in EXTRAS:
                self.assertEqual(tree_extras(tree_of(text), LINUX).has(extra), checker.holds(text, LINUX, extra or None), (text, extra))

    def test_requirements(self):
        for text in REQUIREMENT_TEXTS:
            wanted = theirs(checker.read_requirement, text)
            if wanted:
                requirement = need_of(text)
                nodes = {(requirement.name, extra) for extra in (None, *requirement.extras)}
                self.assertEqual((requirement.name, nodes), (wanted.name, set(wanted.nodes)), text)


if __name__ == "__main__":
    unittest.main()
