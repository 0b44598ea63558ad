"""Calls of the program: its output and its status are handed on untouched."""

import contextlib
import os
import re
import shlex
import shutil
import subprocess
import sys
from collections.abc import Callable, Sequence
from dataclasses import dataclass

from reqlock_tools.program import program_path
from reqlock_tools.refusal import Refusal, hidden, shown, speaker, tell
from reqlock_tools.rql.faults import STOPPED
from reqlock_tools.rql.requests import Options
from reqlock_tools.rql.told import ERRORS, Lacking, Told, in_words_of_rql

# How many seconds a call may take before a person is told that it goes on.
PATIENCE = 2.0
# The program's status where its answer couldn't be written.
UNWRITTEN = 5

QUESTION = re.compile(rb"(?m)^ask: rql [^\n]*\n")

say = speaker("rql")


@dataclass(frozen=True)
class Answer:
    """The status of a call, and what it wrote."""

    status: int
    output: bytes
    errors: bytes

    def hand_on(self) -> int:
        """Writes what the call wrote, to the byte, and answers its status; or that of the program where its answer can't be written."""
        has_answer = is_written(self.output)
        hand_on_errors(self.errors)
        return self.status or (0 if has_answer else UNWRITTEN)


def is_written(data: bytes) -> bool:
    """Whether bytes could be written to standard output. Where they can't, nothing more is written there, and what was called is done all the
    same."""
    try:
        sys.stdout.flush()
        sys.stdout.buffer.write(data)
        sys.stdout.flush()
    except OSError as fault:
        os.dup2(os.open(os.devnull, os.O_WRONLY), sys.stdout.fileno())
        if not isinstance(fault, BrokenPipeError):
            say(f"standard output: {fault.strerror}")
        return False
    return True


def hand_on_errors(data: bytes) -> None:
    """Writes what a call told, as far as it can be written. What rql itself tells may be kept back meanwhile; this isn't."""
    # (where standard error was closed, another file may have its number)
    with contextlib.suppress(OSError):
        while data and sys.__stderr__ is not None:
            data = data[os.write(ERRORS, data) :]


def question_of(words: Sequence[str]) -> list[str]:
    """What a question says of the lines that a call puts in the place of others."""
    return ["--replace", *words[words.index("replace") + 1 :]] if "replace" in words else []


def tell_call(words: Sequence[str], text: str | None = None) -> None:
    """Prints a call so that it can be typed."""
    given = f"printf %s {shlex.quote(text)} | " if text is not None else ""
    tell(f"+ {shown(hidden(given + shlex.join(words)))}")


class Caller:
    """What calls the program. With -v each call is told on standard error, so that it can be typed."""

    def __init__(self, options: Options) -> None:
        self.options = options
        self.program = program_path(options.program)
        self.lacking: Lacking = frozenset

    def words(self, *words: str) -> list[str]:
        """The words of a call as they are typed: what rql was told of telling is told to the program too."""
        told = ["-v"] * self.options.is_verbose + ["-q"] * self.options.is_quiet
        return [self.program, *told, *words]

    def tell(self, words: Sequence[str], text: str | None = None) -> None:
        if self.options.is_verbose:
            is_found = shutil.which("reqlock") == self.program
            tell_call(["reqlock" if is_found else self.program, *words[1:]], text)

    def hand_over(self, *words: str, question: Sequence[str] = (), answer: Callable[[], bytes] | None = None) -> int:
        """The status of a call that reads and prints what this process does. What it tells is handed on in the words of rql. A question about
        it is told with the words that are given here behind `rql why`, or, where it can't be asked any more, answered. Ctrl-C is left to it."""
        command = self.words(*words)
        self.tell(command)
        sys.stdout.flush()
        told = Told()
        try:
            # (a file that a shell hands over, as by <(..), is the call's too)
            done = subprocess.Popen(command, stderr=told.theirs, close_fds=False)
        except OSError as fault:
            raise self.absent(fault) from None
        told.begin()
        try:
            status = self.waited(done)
        except KeyboardInterrupt:
            done.wait()
            status = STOPPED
        text = in_words_of_rql(told.whole(), self.options, question or question_of(words), self.lacking)
        asked = QUESTION.search(text)
        if answer is not None and asked is not None:
            text = text[: asked.start()] + answer() + text[asked.end() :]
        hand_on_errors(text)
        return self.status(status)

    def answered(self, *words: str, text: str | None = None) -> Answer:
        """What a call answers, which is printed by nobody yet."""
        command = self.words(*words)
        self.tell(command, text)
        return self.asked(command, text)

    def quietly(self, *words: str) -> Answer:
        """The same of a call on a copy, which is told to nobody."""
        return self.asked(self.words(*words), None)

    def ask(self, *words: str) -> Answer:
        """The same of a call that only reads, and tells nothing beside its answer."""
        return self.asked([self.program, *words], None)

    def asked(self, command: list[str], text: str | None) -> Answer:
        given = b"" if text is None else text.encode(errors="surrogateescape")
        pipe = subprocess.PIPE
        try:
            with subprocess.Popen(command, stdin=pipe, stdout=pipe, stderr=pipe) as done:
                output, errors = self.written(done, given)
        except OSError as fault:
            raise self.absent(fault) from None
        return Answer(self.status(done.returncode), output, in_words_of_rql(errors, self.options, question_of(command), self.lacking))

    def waited(self, done: "subprocess.Popen[bytes]") -> int:
        """The status of a call that has ended. Of a long one a person is told that it goes on."""
        with contextlib.suppress(subprocess.TimeoutExpired):
            return done.wait(PATIENCE)
        self.tell_waiting()
        return done.wait()

    def written(self, done: "subprocess.Popen[bytes]", given: bytes) -> tuple[bytes, bytes]:
        """What a call that is given this writes up to its end. Of a long one a person is told that it goes on."""
        try:
            with contextlib.suppress(subprocess.TimeoutExpired):
                return done.communicate(given, PATIENCE)
            self.tell_waiting()
            return done.communicate()
        except BaseException:
            done.kill()
            raise

    def tell_waiting(self) -> None:
        if sys.stderr.isatty() and not self.options.is_quiet:
            tell("rql: reqlock is still at it; Ctrl-C ends it")

    def absent(self, fault: OSError) -> Refusal:
        return Refusal(f"{self.program}: {fault.strerror}; give the program by --program")

    @staticmethod
    def status(status: int) -> int:
        """A status as a shell has it."""
        return status if status >= 0 else 128 - status


def typed_path(path: str | os.PathLike[str]) -> str:
    """A path as a person types it: from here on, where it is below."""
    whole = os.path.abspath(path)
    near = os.path.relpath(whole)
    return whole if near.startswith("..") else near
