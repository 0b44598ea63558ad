#!/usr/bin/env python3
"""Times `check` over histories that were saved and over journals that were made by hand.

openings.py PROGRAM FOLDER [OTHER]

Saved are 1,000 steps over 500 lines with a lock of 300 entries, each an edit of a line and an entry, and the same where a name comes
and goes; and 100,000 steps over ten lines. Each is opened with the cursor at its end and at its start. A journal by hand puts in as many lines
as fill half of it. Its other half changes one line a step, or many. The lines are comments or requirements on a name that is locked. What is
refused has a last step that leads nowhere. Printed is the best processor time of ROUNDS calls; of OTHER, a program that stood before, too,
with the ratio.
"""
import os
import re
import shutil
import sys

from history import begin, commands_of, name_of, run, wanted

ROUNDS = 3
SIZES = [220_000, 440_000, 1_000_000]
LINES = {"comments": ("# kept\n", "# other\n"), "requirements": ("package-000\n", "package-000 # other\n")}


def seconds_of(program, folder, status):
    """The best processor time of `check`, which ends with this status."""
    times = []
    for _ in range(ROUNDS):
        command = ["sh", "-c", f'"$0" check 2>&1; test $? = {status}', program]
        times.append(run(command, folder)[2])
    return min(times)


def tell(what, programs, folder, status=0):
    now, *before = [seconds_of(program, folder, status) for program in programs]
    told = "".join(f", {then:.3f} s before, ratio {now / then:.3f}" for then in before)
    print(f"{what}: {now:.3f} s{told}", flush=True)


def coming_and_going(count, packages):
    """Commands of which each takes a name out, or puts it in again."""
    for step in range(count):
        name = name_of(step // 2 * 7 % packages | 1)
        yield f"remove {name}" if step % 2 == 0 else f"add {name}"


def saved(programs, folder, what, commands, packages, blank):
    options = begin(programs[0], folder, packages, blank)
    commands = list(commands)
    answers = run([*options, "batch"], folder, "".join(f"{command}\n" for command in commands))[0]
    wanted(f"ok {len(commands)}", answers.splitlines()[-1])
    tell(f"{what}, at the end", programs, folder)
    run([*options, "batch"], folder, "undo\n" * len(commands))
    tell(f"{what}, at the start", programs, folder)


def step_of(splices):
    told = ",".join(f"[{place},{texts(old)},{texts(new)}]" for place, old, new in splices)
    return f'{{"entries":[],"lines":[{told}],"snapshot":null}}\n'


def texts(lines):
    quoted = (line.replace("\n", "\\n") for line in lines)
    return "[" + ",".join(f'"{line}"' for line in quoted) + "]"


def steps_of(size, pair, splices, begin_at):
    """Steps of so many bytes: the first puts lines in, each other one exchanges so many of them."""
    count = size // 2 // len(texts(pair[:1]))
    stands = [0] * count
    steps = [step_of([(begin_at, [], [pair[0]] * count)])]
    left, place = size - len(steps[0]), 0
    while left > 0:
        chosen = sorted({(place + 2 * number) % count for number in range(splices)})
        chosen = [at for number, at in enumerate(chosen) if number == 0 or at > chosen[number - 1] + 1]
        steps.append(step_of([(begin_at + at, [pair[stands[at]]], [pair[1 - stands[at]]]) for at in chosen]))
        for at in chosen:
            stands[at] = 1 - stands[at]
        left -= len(steps[-1])
        place = (place + 7919) % count
    return steps


def by_hand(programs, folder, kind, size, splices, refused):
    base = f"{os.path.dirname(folder)}/base/folder"
    if not os.path.isdir(base):
        begin(programs[0], base, 10, 0)
    os.makedirs(folder, exist_ok=True)
    for name in os.listdir(base):
        shutil.copy(f"{base}/{name}", f"{folder}/{name}")
    steps = steps_of(size, LINES[kind], splices, 10)
    if refused:
        steps[-1] = step_of([(10, ["# nowhere\n"], [])])
    path = f"{folder}/reqlock.journal"
    with open(path, encoding="utf-8") as file:
        header = re.sub(r'"steps":\d+', f'"steps":{len(steps)}', file.readline())
    with open(path, "w", encoding="utf-8") as file:
        file.write(header + "".join(steps))
    how = "one line" if splices == 1 else f"{splices} lines"
    end = ", refused" if refused else ""
    lines = size // 2 // len(texts(LINES[kind][:1]))
    what = f"by hand, {size // 1000} kB, {len(steps):,} steps of {how} over {lines:,} {kind}{end}"
    tell(what, programs, folder, 4 if refused else 0)


def main():
    folder = os.path.abspath(sys.argv[2])
    programs = [os.path.abspath(program) for program in [sys.argv[1], *sys.argv[3:4]]]
    for kind in LINES:
        for size in SIZES:
            for splices, refused in [(1, False), (1, True), (40, False)]:
                by_hand(programs, f"{folder}/{kind}-{size}-{splices}-{refused}", kind, size, splices, refused)
    saved(programs, f"{folder}/edits/folder", "1,000 edits, 500 lines, 300 entries", commands_of(1_000, 300), 300, 200)
    come = coming_and_going(1_000, 300)
    saved(programs, f"{folder}/names/folder", "1,000 names out and in, 500 lines, 300 entries", come, 300, 200)
    saved(programs, f"{folder}/long/folder", "100,000 edits, ten lines", commands_of(100_000, 8), 8, 2)


if __name__ == "__main__":
    main()
