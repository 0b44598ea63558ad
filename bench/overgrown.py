#!/usr/bin/env python3
"""Times the program on inputs that are far larger than any real one, in a stack of 256 KiB.

overgrown.py PROGRAM [NAME..]

The inputs are those of tools/tests/support/made/overgrown.py, of which NAMEs choose some. Each is given with a quarter of its largest
count, with half of it and with the whole, and its processor seconds are printed, with the peak memory of the last call. Where they grow
with the input alone, each is about twice the one before. A call that takes more than SECONDS is ended, and larger ones are left out.
"""
import json
import os
import resource
import subprocess
import sys
import tempfile
import time
from pathlib import Path

TESTS = Path(__file__).resolve().parent.parent / "tools" / "tests"
sys.path.insert(0, str(TESTS))
from support.made.environments import LINUX  # noqa: E402
from support.made.overgrown import SIZES  # noqa: E402

SECONDS = 120
STACK = 256 * 1024


def small_stack():
    resource.setrlimit(resource.RLIMIT_STACK, (STACK, STACK))


def call(program, given):
    """The processor seconds and the peak memory in MB of a call, or None where it took too long."""
    with tempfile.TemporaryDirectory() as name:
        place = Path(name)
        (place / "folder").mkdir()
        for file, content in given.files.items():
            (place / "folder" / file).write_bytes(content)
        (place / "index.json").write_text(given.index_text(), encoding="utf-8")
        environment = json.dumps(LINUX) if given.environment is None else given.environment
        (place / "environment.json").write_text(environment, encoding="utf-8")
        (place / "input").write_text(given.text, encoding="utf-8")
        command = [program, "--dir", "folder", "--index", "index.json", "--env", "environment.json", *given.words]
        with open(place / "input", "rb") as source, open(place / "output", "wb") as output:
            start = time.perf_counter()
            process = subprocess.Popen(
                command, cwd=place, stdin=source, stdout=output, stderr=output, preexec_fn=small_stack
            )
            while time.perf_counter() - start < SECONDS:
                ended, status, usage = os.wait4(process.pid, os.WNOHANG)
                if ended:
                    seconds = usage.ru_utime + usage.ru_stime
                    process.returncode = os.waitstatus_to_exitcode(status)
                    break
                time.sleep(0.002)
            else:
                process.kill()
                process.wait()
                return None
        told = (place / "output").read_bytes().decode()
        if process.returncode != given.status or not told.endswith(given.ends):
            return f"status {process.returncode}, {told[-60:]!r}"
        return seconds, usage.ru_maxrss * 1024 / 10**6


def measure(program, make, most):
    print(f"{make.__name__} {most:,}:", end="", flush=True)
    for count in most // 4, most // 2, most:
        answer = call(program, make(count))
        if answer is None:
            print(f"  more than {SECONDS} s at {count:,}", end="")
            break
        if isinstance(answer, str):
            print(f"  {answer} at {count:,}", end="")
            break
        seconds, memory = answer
        print(f"  {seconds:.2f} s", end="", flush=True)
        last = f", {memory:.0f} MB" if count == most else ""
    else:
        print(last, end="")
    print(flush=True)


def main():
    program, names = os.path.abspath(sys.argv[1]), sys.argv[2:]
    for make, most in SIZES.items():
        if not names or make.__name__ in names:
            measure(program, make, most)


main()
