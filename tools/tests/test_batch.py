"""`batch` and `try` answer each line before they ask for the next one: the tests write a line only once they have read the reply to the
last one. They need the program, which ./check builds first."""

import os
import select
import subprocess

from support.program import Program

# each line and its reply, of a blank one none
TALK = (
    ("add c\n", "ok 1\n"), ("\n", ""), ("add c\r\n", "refused already-present\n"), ("bogus\n", "refused bad-command\n"),
    ("upgrade\n", "same\n"), (" undo \n", "ok 0\n"), ("add " + "x" * 65533 + "\n", "refused bad-command\n"),
    ("undo\n", "refused nothing-to-undo\n"), ("redo\n", "ok 1\n"),
)
SECONDS = 20


class Talk(Program):
    def setUp(self):
        super().setUp()
        self.begin(b"a\n", ("a", "1", []), ("c", "1", []))
        self.assertEqual(self.call("init"), (0, "ok 0\n"))

    def talk(self, word):
        done = subprocess.Popen([self.program, *self.options(), word], stdin=subprocess.PIPE, stdout=subprocess.PIPE, bufsize=0)
        self.addCleanup(done.stdout.close)
        self.addCleanup(done.wait)
        self.addCleanup(done.kill)
        return done

    def heard(self, done, count):
        """So many bytes of the output, or fewer where no more come."""
        heard = b""
        while len(heard) < count and select.select([done.stdout], [], [], SECONDS)[0]:
            more = os.read(done.stdout.fileno(), count - len(heard))
            if not more:
                break
            heard += more
        return heard.decode()

    def test_each_line_is_answered_before_the_next_one_is_given(self):
        for word, end in ("try", "a\nc\n"), ("batch", ""):
            with self.subTest(word=word):
                done = self.talk(word)
                for line, reply in TALK:
                    done.stdin.write(line.encode())
                    self.assertEqual(self.heard(done, len(reply)), reply)
                done.stdin.close()
                self.assertEqual((done.stdout.read().decode(), done.wait()), (end, 0))
        self.assertEqual(self.call("check"), (0, "ok 1\n"))

    def test_lines_that_come_in_parts(self):
        done = self.talk("batch")
        for parts, reply in (["ad", "d c\nun"], "ok 1\n"), (["do\nre"], "ok 0\n"), (["d", "o", "\n"], "ok 1\n"):
            for part in parts:
                done.stdin.write(part.encode())
            self.assertEqual(self.heard(done, len(reply)), reply)
        done.stdin.write(b"undo")
        done.stdin.close()
        self.assertEqual((done.stdout.read(), done.wait()), (b"ok 0\n", 0))
