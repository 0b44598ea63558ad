"""The program on inputs that are far larger than any real one, in a stack of 256 KiB: each ends with its answer. With
LONG_TESTS=1 in the environment each has its largest count, without it a thousandth; a history then has 10,000 steps. Files of
short lines take little memory."""

import resource
import unittest

from support.made.overgrown import SIZES, SMALL, blank_lines, short_comments
from support.places import IS_LONG
from support.program import Program

STACK = 256 * 1024
# for a mebibyte of short lines, with the program itself
MEMORY = 192 * 2**20


def small_stack():
    resource.setrlimit(resource.RLIMIT_STACK, (STACK, STACK))


def little_memory():
    resource.setrlimit(resource.RLIMIT_AS, (MEMORY, MEMORY))


class Overgrown(Program):
    def give(self, given, before=small_stack):
        """Puts an input into the folder, and calls the program."""
        for path in self.folder.iterdir():
            path.unlink()
        for name, content in given.files.items():
            (self.folder / name).write_bytes(content)
        (self.outside / "index.json").write_text(given.index_text(), encoding="utf-8")
        if given.environment is not None:
            (self.outside / "environment.json").write_text(given.environment, encoding="utf-8")
        return self.call(*given.words, text=given.text, before=before)

    def test_each_ends_with_its_answer(self):
        for make, most in SIZES.items():
            with self.subTest(make.__name__):
                given = make(most if IS_LONG else SMALL.get(make, most // 1000))
                status, output = self.give(given)
                self.assertEqual((status, output[-len(given.ends) :]), (given.status, given.ends))
                self.setUp()

    def test_short_lines_take_little_memory(self):
        for make, count in (blank_lines, 2**20), (short_comments, 2**19):
            with self.subTest(make.__name__):
                given = make(count)
                self.assertEqual(self.give(given, little_memory), (given.status, given.ends))
                self.setUp()


if __name__ == "__main__":
    unittest.main()
