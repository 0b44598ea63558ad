#!/usr/bin/env python3
"""Makes long histories over a file of 2,000 lines with a lock of 2,000 entries, kept whole and as changes, and prints the time of
a copy of a state, of a step, of an undo and of a redo, and the peak memory.

histories.py HISTORY_PROGRAM FOLDER [STEPS..]

There are 1,000 steps, and then 10,000, each of which changes a line and an entry of each lock: of one target, and kept as changes of
three. What wants more than 8 GB is ended, and said so.
"""
import os
import resource
import subprocess
import sys

from history import ENVIRONMENT, lines_of, write_index

LINES = 2_000
STEPS = [1_000, 10_000]
LIMIT = 8 * 10**9
# The program makes 20 steps at a time.
STRIDE = 20
# How the states are kept, and how many targets they have.
KINDS = [("changes", 1), ("whole", 1), ("changes", 3)]


def limit_memory():
    resource.setrlimit(resource.RLIMIT_AS, (LIMIT, LIMIT))


def run(command):
    """What the command prints, in numbers, and its peak memory in MB; nothing where it fails for want of memory."""
    process = subprocess.Popen(command, stdout=subprocess.PIPE, stderr=subprocess.PIPE, preexec_fn=limit_memory)
    printed, errors = process.stdout.read(), process.stderr.read()
    _, status, usage = os.wait4(process.pid, 0)
    process.returncode = os.waitstatus_to_exitcode(status)
    if process.returncode != 0:
        if usage.ru_maxrss * 1024 > LIMIT // 2:
            return None
        sys.exit(f"histories: status {process.returncode} of {' '.join(command)}: {errors.decode()}")
    return [int(word) for word in printed.split()], usage.ru_maxrss * 1024 / 10**6


def told(found):
    if found is None:
        return f"more than {LIMIT // 10**9} GB"
    (steps, copied, stepped, undone, redone), memory = found
    times = [f"{name} {time / 10**3:.3f} ms" for name, time in [("undo", undone), ("redo", redone), ("copy", copied)]]
    return f"{memory:,.0f} MB, all steps {stepped / 10**6:.2f} s, one {stepped / steps / 10**3:.3f} ms, {', '.join(times)}"


def main():
    program, folder = os.path.abspath(sys.argv[1]), sys.argv[2]
    os.makedirs(folder, exist_ok=True)
    write_index(f"{folder}/index.json", LINES)
    with open(f"{folder}/requirements.txt", "w", encoding="ascii") as file:
        file.write(lines_of(LINES, 0))
    files = [f"{folder}/index.json", ENVIRONMENT, f"{folder}/requirements.txt"]
    for steps in [int(word) for word in sys.argv[3:]] or STEPS:
        for kind, targets in KINDS:
            found = run([program, kind, str(steps // STRIDE), *files, str(targets)])
            print(f"{steps:,} steps, {kind}, {targets} targets: {told(found)}", flush=True)


if __name__ == "__main__":
    main()
