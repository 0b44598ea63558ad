#!/usr/bin/env python3
"""Runs reqlock and a peer in turn on the same data, three times each, and prints the best times and their ratio.

compare.py PROGRAM VERSION_PROGRAM INDEX_PROGRAM LOCK_PROGRAM RESOLVE_PROGRAM FOLDER

The memory beside each time is the most that a run held at once.
"""
import filecmp
import os
import subprocess
import sys
import time

program, version_program, index_program, lock_program, resolve_program, folder = sys.argv[1:]
here = os.path.dirname(os.path.abspath(__file__))
peer = [sys.executable, f"{here}/peer.py"]
environment = f"{here}/../examples/web/environment.json"
empty = f"{folder}/empty"
os.makedirs(empty)
open(f"{empty}/requirements.txt", "w").close()


def run(command, source, output):
    """The seconds that the command took, and its peak memory in MB. This program keeps no output in memory, since on
    Linux a peak counts what the process held that started the command."""
    with open(source, "rb") as file, open(output, "wb") as out:
        start = time.perf_counter()
        process = subprocess.Popen(command, stdin=file, stdout=out)
        _, status, usage = os.wait4(process.pid, 0)
        seconds = time.perf_counter() - start
    process.returncode = os.waitstatus_to_exitcode(status)
    if process.returncode != 0:
        sys.exit(f"bench: status {process.returncode} of {' '.join(command)}")
    return seconds, usage.ru_maxrss * 1024 / 10**6


def printed_number(output):
    with open(output) as file:
        return int(file.read())


def compare(what, ours, theirs, source=os.devnull, same=True, unit=None, other="peer"):
    """Where `same` is set, both must print the same. Where `unit` is, a run's time is the number that it prints, so many
    of which are a second, in place of that of the whole process."""
    sides = {"reqlock": ours, other: theirs}
    outputs = {name: f"{folder}/output-of-{name}" for name in sides}
    runs = {name: [] for name in sides}
    for _ in range(3):
        for name, command in sides.items():
            seconds, memory = run(command, source, outputs[name])
            runs[name].append((printed_number(outputs[name]) / unit if unit else seconds, memory))
        if same and not filecmp.cmp(*outputs.values(), shallow=False):
            sys.exit(f"bench: {what}: the answers differ")
    times = {name: min(seconds for seconds, _ in runs[name]) for name in sides}
    memories = {name: max(memory for _, memory in runs[name]) for name in sides}
    texts = [f"{name} {times[name]:.3f} s {memories[name]:.0f} MB" for name in sides]
    print(f"{what}: {', '.join(texts)}, ratio {times['reqlock'] / times[other]:.3f}", flush=True)


def compare_locks(what, place):
    """Locks the requirements of a folder. Each side prints pins, and then the microseconds of each step. Both must be
    solutions of so many packages, though not the same one."""
    files = f"{place}/index.json", f"{place}/requirements.txt"
    locker = f"{here}/resolve_peer.py"
    sides = {
        "reqlock": [resolve_program, "plain", files[0], environment, files[1]],
        "resolvelib": [sys.executable, locker, "resolve", *files],
    }
    steps, counts = {name: [] for name in sides}, set()
    for _ in range(3):
        for name, command in sides.items():
            run(command, os.devnull, f"{place}/pins-of-{name}")
            with open(f"{place}/pins-of-{name}") as file:
                steps[name].append([int(word) / 10**6 for word in file.readlines()[-1].split()])
    for name in sides:
        run([sys.executable, locker, "check", *files], f"{place}/pins-of-{name}", f"{place}/count")
        with open(f"{place}/count") as file:
            counts.add(int(file.read()))
    if len(counts) != 1:
        sys.exit(f"bench: {what}: the numbers of packages differ")
    made, resolved = (min(times) for times in zip(*steps["reqlock"]))
    ours, theirs = (min(map(sum, steps[name])) for name in sides)
    texts = f"reqlock {made:.3f} s and {resolved:.3f} s, resolvelib {theirs:.2f} s"
    print(f"{what}, {counts.pop()} packages: {texts}, ratio {ours / theirs:.3f}", flush=True)


index = f"{folder}/index.json"
whole, alike = f"{folder}/whole.json", f"{folder}/alike.json"
long = f"{folder}/long"
making, apart, value = ([index_program, word, whole] for word in ("index", "apart", "value"))
what = "index of 100,000 whole releases (50 MB)"
compare(f"{what}, made of its bytes", making, value, same=False, unit=1000, other="serde_json")
compare("its JSON value, taken apart, and the digest", apart, value, same=False, unit=1000, other="serde_json")
compare(f"{what}, read, made and dropped", making, value, same=False, other="serde_json")
making, value = ([index_program, word, alike] for word in ("index", "value"))
what = "index of 100,000 releases, most of which ask for what the one before does"
compare(f"{what}, made of its bytes", making, value, same=False, unit=1000, other="serde_json")
compare(
    "index of 51,250 releases, read",
    [program, "--dir", empty, "--index", index, "--env", environment, "try"],
    [*peer, "index", index],
)
compare(
    "1,000 additions and undos, 2,000 lines",
    [program, "--dir", folder, "--index", index, "--env", environment, "try"],
    [*peer, "try", folder],
    f"{folder}/commands.txt",
)
compare(
    "1,000 edits of every kind, 2,000 lines",
    [program, "--dir", folder, "--index", index, "--env", environment, "try"],
    [*peer, "try", folder],
    f"{folder}/edits.txt",
)
compare(
    "requirements file of a million lines, read",
    [program, "--dir", long, "--index", f"{long}/index.json", "--env", environment, "try"],
    [*peer, "read", long, environment],
)
for what, word in ("comparisons", "compare"), ("matches", "match"):
    compare(
        f"a million {what} of versions",
        [version_program, word],
        [sys.executable, f"{here}/version_peer.py", word],
        f"{folder}/versions.txt",
    )
for size in 2_500, 5_000, 10_000:
    lock = f"{folder}/lock-{size}.toml"
    for what, word, other in ("read", "read", "tomllib"), ("printed", "print", "joins"):
        compare(
            f"a lock of {size:,} entries, {what}",
            [lock_program, word, lock],
            [sys.executable, f"{here}/lock_peer.py", word, lock],
            same=False,
            unit=10**6,
            other=other,
        )
for count in 50, 100, 200, 500:
    compare_locks("lock with going back", f"{folder}/stray{count}")
compare_locks("lock without going back", f"{folder}/newest500")
