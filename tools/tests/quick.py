"""Runs the rows of `conformance` and the calls of quick_calls.py by `rt try`, which proves nothing: it builds the same sources with
checks at run time. The last line is 'N passed, N failed, N skipped'."""

import os
import re
import shutil
import signal
import subprocess
import sys
import tempfile
import time
from concurrent.futures import ThreadPoolExecutor
from pathlib import Path

from support.places import TOP
from support.quick_calls import SESSIONS, Call, Session, shown_sessions

CONFORMANCE = TOP / "crates" / "conformance"
PROGRAM = TOP / "crates" / "reqlock"
# (for one run of a program: the rows of `conformance` are one)
SECONDS = "540"
ENDED = re.compile(r"(?m)^case=(\d+) run=ended status=(\d+) .*\n")
CASE = re.compile(r"(?m)^== (\d+)(?:\n|\Z)")


def tried(crate: Path, *words: str, text: str = "") -> tuple[int, str, str]:
    """The status of `rt try` in a crate, and what it prints on standard output and on standard error."""
    start = time.monotonic()
    command = ["rt", "try", "--seconds", SECONDS, *words]
    done = subprocess.run(command, cwd=crate, input=text, capture_output=True, encoding="utf-8", check=False)
    print(f"rt try of {crate.name}: {time.monotonic() - start:.0f} s", flush=True)
    return done.returncode, done.stdout, done.stderr


def rows_differ() -> bool:
    """Whether an answer of `conformance` isn't the stored one. Those are told."""
    words = (CONFORMANCE / "args").read_text(encoding="utf-8").splitlines()
    text, wanted = ((CONFORMANCE / name).read_text(encoding="utf-8") for name in ("stdin", "stdout"))
    status, answers, errors = tried(CONFORMANCE, "--", *words, text=text)
    if (status, answers) == (0, wanted):
        return False
    pairs = zip(answers.splitlines(), wanted.splitlines())
    for number, (answer, line) in enumerate(pairs, 1):
        if answer != line:
            print(f"conformance: line {number} is {answer!r}, and {line!r} is stored")
    print(errors[-2000:])
    return True


def whole(word: str, folder: Path) -> str:
    """A word of a call, with the whole path of a file in the place of its name: `rt try` runs the program elsewhere."""
    name, is_named, file = word.rpartition("=")
    if file and (folder / file).is_file() and not word.startswith("-"):
        return f"{name}{is_named}{folder / file}"
    return word


def put(session: Session, folder: Path) -> None:
    """Makes the folder of a session, beside the other examples."""
    shutil.copytree(TOP / "examples", folder.parent)
    if session.blocked:
        (folder / session.blocked).mkdir()


class Answers:
    """What `rt try` prints of each case, by number."""

    def __init__(self, output: str, errors: str) -> None:
        parts = CASE.split(output)
        self.outputs = {int(number): text for number, text in zip(parts[1::2], parts[2::2])}
        parts = ENDED.split(errors)
        self.statuses = {int(number): int(status) for number, status in zip(parts[1::3], parts[2::3])}
        self.errors = {int(number): text for number, text in zip(parts[1::3], parts[0::3])}

    def fault(self, number: int, call: Call, folder: Path) -> str | None:
        """What is wrong with the answer to a call."""
        if number not in self.statuses:
            return "it has no answer"
        told = self.outputs.get(number, "") + self.errors[number]
        told = told.replace(f"--dir {folder} ", "").replace(f"{folder}/", "")
        if told.splitlines() != call.lines:
            return f"it prints {told!r}"
        status = self.statuses[number]
        return None if call.status in (None, status) else f"it ends with status {status}"


def calls_differ() -> tuple[int, int]:
    """How many calls of the sessions answer as they should, and how many don't. Those are told."""
    with tempfile.TemporaryDirectory() as name:
        top = Path(name)
        cases = top / "cases"
        cases.mkdir()
        made: list[tuple[Call, Path]] = []
        for place, session in enumerate([*SESSIONS, *shown_sessions()]):
            folder = top / str(place) / session.example
            put(session, folder)
            for call in session.calls:
                case = cases / f"{len(made):03}"
                case.write_text(call.text, encoding="utf-8")
                words = ["--dir", str(folder), *(whole(word, folder) for word in call.words)]
                Path(f"{case}.args").write_text("".join(f"{word}\n" for word in words), encoding="utf-8")
                made.append((call, folder))
        _, output, errors = tried(PROGRAM, "--cases", str(cases))
        answers = Answers(output, errors)
        faults = [(call, answers.fault(number, call, folder)) for number, (call, folder) in enumerate(made)]
    wrong = [(call, fault) for call, fault in faults if fault is not None]
    for call, fault in wrong:
        print(f"{' '.join(call.words)}: {fault}; wanted is {call.lines} with status {call.status}")
    if len(wrong) == len(made):
        print(errors[-2000:])
    return len(made) - len(wrong), len(wrong)


def end_with_all() -> None:
    """From here on what is started ends with this process, when that is told to end."""
    os.setpgrp()

    def end(*_: object) -> None:
        signal.signal(signal.SIGTERM, signal.SIG_DFL)
        os.killpg(0, signal.SIGTERM)

    signal.signal(signal.SIGTERM, end)


def main() -> int:
    end_with_all()
    # (each build takes up to 7 GB of memory; ./check counts 4 for a job)
    jobs = 2 if int(os.environ.get("RT_JOBS", "1")) >= 4 else 1
    with ThreadPoolExecutor(jobs) as pool:
        rows, calls = pool.submit(rows_differ), pool.submit(calls_differ)
        is_wrong, (passed, failed) = rows.result(), calls.result()
    failed += is_wrong
    print(f"{passed + (not is_wrong)} passed, {failed} failed, 0 skipped")
    return int(failed != 0)


if __name__ == "__main__":
    sys.exit(main())
