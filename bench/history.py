#!/usr/bin/env python3
"""Times calls of the program over long histories, each a process of its own; `undo` beside git on the same files.

history.py PROGRAM FOLDER [STEPS]

The first history has 10,000 steps, over a file of ten lines, and the second 1,000, over a file of 500 lines with a lock of 300
entries; each is made by one batch. The third is the second once more, with as many steps or STEPS, each a process of its own and
a commit of the three files: there the peer of `undo` is `git checkout HEAD~1 -- .`. Of each call the best of five times is
printed by the clock, and the best of processor time behind it, with the peak memory.
"""
import json
import os
import subprocess
import sys
import time

HERE = os.path.dirname(os.path.abspath(__file__))
ENVIRONMENT = f"{HERE}/../examples/web/environment.json"
ROUNDS = 5
GIT = ["git", "-c", "user.name=bench", "-c", "user.email=bench@example", "-c", "gc.auto=0"]


def run(command, folder, text=""):
    """What the command prints, the seconds that it took by the clock and on a processor, and its peak memory in MB."""
    with open(f"{folder}/../input", "w", encoding="ascii") as file:
        file.write(text)
    with open(f"{folder}/../input", "rb") as source, open(f"{folder}/../output", "wb") as out:
        start = time.perf_counter()
        process = subprocess.Popen(command, cwd=folder, stdin=source, stdout=out)
        _, status, usage = os.wait4(process.pid, 0)
        seconds = time.perf_counter() - start
    process.returncode = os.waitstatus_to_exitcode(status)
    if process.returncode != 0:
        sys.exit(f"bench: status {process.returncode} of {' '.join(command)}")
    with open(f"{folder}/../output", encoding="utf-8") as file:
        return file.read(), seconds, usage.ru_utime + usage.ru_stime, usage.ru_maxrss * 1024 / 10**6


def wanted(answer, found):
    if found != answer:
        sys.exit(f"bench: {answer!r} was wanted, and came {found!r}")


def best(calls):
    """The best times of some calls, by the clock and on a processor, with the most memory of one."""
    _, clock, processor, memory = zip(*calls)
    return f"{min(clock):.3f} s ({min(processor):.3f} s) {max(memory):.0f} MB"


def name_of(number):
    return f"package-{number:03}"


def write_index(path, count):
    """An index of packages with two releases each, of which each second one needs its neighbour."""
    packages = []
    for number in range(count):
        name = name_of(number)
        needs = [name_of(number + 1)] if number % 2 == 0 and number + 1 < count else []
        releases = []
        for version in "1.0", "2.0":
            file = f"{name.replace('-', '_')}-{version}-py3-none-any.whl"
            wheel = {"name": file, "url": f"https://files.example/{file}", "size": 1000, "sha256": "0" * 64}
            releases.append({"version": version, "requires_dist": needs, "files": [wheel]})
        packages.append({"name": name, "releases": releases})
    with open(path, "w", encoding="ascii") as file:
        file.write(json.dumps({"snapshot": 1, "packages": packages}))


def lines_of(count, blank):
    """So many requirements, and comments between them."""
    lines = [f"{name_of(number)}\n" for number in range(count)]
    for number in range(blank):
        lines.insert(number * len(lines) // max(blank, 1), f"# part {number}\n")
    return "".join(lines)


def commands_of(count, packages):
    """Commands of which each is an edit of one line and of one entry."""
    for step in range(count):
        name = name_of(step // 2 * 7 % packages)
        yield f"constrain {name} <2" if step % 2 == 0 else f"constrain {name}"


def begin(program, folder, packages, blank):
    os.makedirs(folder)
    write_index(f"{folder}/../index.json", packages)
    with open(f"{folder}/requirements.txt", "w", encoding="ascii") as file:
        file.write(lines_of(packages, blank))
    options = [program, "--index", f"{folder}/../index.json", "--env", ENVIRONMENT]
    wanted("ok 0\n", run([*options, "init"], folder)[0])
    return options


def commit(folder, step):
    run([*GIT, "add", "."], folder)
    run([*GIT, "commit", "-q", "-m", f"{step}"], folder)


def compare_undo(program, folder, steps):
    """Takes the last step back, by the program and by git."""
    options = begin(program, folder, 300, 200)
    run([*GIT, "init", "-q"], folder)
    commit(folder, 0)
    edits = []
    for step, command in enumerate(commands_of(steps, 300), 1):
        answer, *costs = run([*options, *command.split(" ", 2)], folder)
        wanted(f"ok {step}\n", answer)
        edits.append((answer, *costs))
        commit(folder, step)
    undos, redos, checkouts = [], [], []
    for _ in range(ROUNDS):
        undos.append(run([program, "undo"], folder))
        redos.append(run([program, "redo"], folder))
        checkouts.append(run([*GIT, "checkout", "-q", "HEAD~1", "--", "."], folder))
        run([*GIT, "checkout", "-q", "HEAD", "--", "."], folder)
    size = os.path.getsize(f"{folder}/reqlock.journal") / 10**6
    print(f"{steps:,} steps, 500 lines, 300 entries, a journal of {size:.2f} MB:")
    ratio = min(undo[2] for undo in undos) / min(checkout[2] for checkout in checkouts)
    print(f"  undo {best(undos)}, git checkout {best(checkouts)}, ratio of processor times {ratio:.1f}")
    print(f"  redo {best(redos)}, the last five edits {best(edits[-ROUNDS:])}", flush=True)


def batched(program, folder, steps, packages, blank):
    """Makes a history by one batch, opens it, and saves it after one more step."""
    options = begin(program, folder, packages, blank)
    text = "".join(f"{command}\n" for command in commands_of(steps, packages))
    batch = run([*options, "batch"], folder, text)
    wanted(f"ok {steps}", batch[0].splitlines()[-1])
    print(f"{steps:,} steps, {packages + blank} lines, {packages} entries: all in one batch {best([batch])}")
    undos, redos, checks = [], [], []
    for _ in range(ROUNDS):
        undos.append(run([program, "undo"], folder))
        redos.append(run([program, "redo"], folder))
        checks.append(run([program, "check"], folder))
    print(f"  undo {best(undos)}, redo {best(redos)}, check {best(checks)}", flush=True)


def main():
    program, folder = os.path.abspath(sys.argv[1]), os.path.abspath(sys.argv[2])
    steps = int(sys.argv[3]) if len(sys.argv) > 3 else 1_000
    batched(program, f"{folder}/long/folder", 10_000, 8, 2)
    batched(program, f"{folder}/batched/folder", 1_000, 300, 200)
    compare_undo(program, f"{folder}/steps/folder", steps)


if __name__ == "__main__":
    main()
