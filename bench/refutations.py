#!/usr/bin/env python3
"""Refutes planted problems to which one line was added, by conflicts of single versions and of sets, and prints how long each
step took.

refutations.py RESOLVE_PROGRAM FOLDER [SECONDS [COUNT..]]

To each problem of `planted.py` of so many packages (100, 300, 1,000), of three seeds, a line is added that leaves one of its
names the oldest release alone. Once that is the name of the file's last line with a bound, which the line contradicts by
itself: it comes last in the search, which has recorded much by then. And once it is a name with which the file has no solution
only because of what other packages need (DEEP); such names were found by trying one after the other.

All times are of processor time. A run that takes more than so many seconds (180) is cut off; of a run of less than five
seconds the least times of three are printed.
"""
import os
import signal
import subprocess
import sys

HERE = os.path.dirname(os.path.abspath(__file__))
ENVIRONMENT = f"{HERE}/../examples/web/environment.json"
COUNTS = [100, 300, 1_000]
SEEDS = [1, 2, 3]
ROUNDS = 3
SHORT = 5
STEPS = ["Problem::new", "Learning::resolve", "refute_singly", "check", "refute_by_sets", "check_sets"]
DEEP = {
    (100, 1): 90,
    (100, 2): 65,
    (100, 3): 78,
    (300, 1): 200,
    (300, 2): 277,
    (300, 3): 89,
    (1_000, 1): 236,
    (1_000, 3): 52,
}


def write_problem(place, count, seed):
    """Writes the planted problem, and answers its lines."""
    subprocess.run([sys.executable, f"{HERE}/planted.py", str(seed), str(count), place], check=True)
    with open(f"{place}/requirements.txt", encoding="ascii") as file:
        return file.read().splitlines()


def oldest(name):
    return f"{name}==0"


def last_contradicted(lines):
    """The line that contradicts the last one with a bound above the oldest release."""
    return oldest([line.split(">=")[0] for line in lines if ">=0" not in line][-1])


def refute(program, files, seconds):
    """How many conflicts and choices there are, conflicts of sets and terms, and the least seconds of each step; nothing where that
    takes too long."""
    limited = ["prlimit", f"--cpu={seconds}:{seconds + 5}"]
    command = [*limited, program, "refute", files[0], ENVIRONMENT, files[1]]
    sizes, times = None, []
    while not times or len(times) < ROUNDS and sum(times[0]) < SHORT:
        done = subprocess.run(command, stdout=subprocess.PIPE, encoding="ascii", check=False)
        if done.returncode == -signal.SIGXCPU:
            return None
        done.check_returncode()
        if done.stdout == "solvable\n":
            sys.exit(f"refutations: there is a solution of {files[1]}")
        sizes, steps = ([int(word) for word in line.split()] for line in done.stdout.splitlines())
        times.append([step / 10**6 for step in steps])
    return sizes, [min(step) for step in zip(*times)]


def compare(program, files, seconds):
    found = refute(program, files, seconds)
    if found is None:
        return f"none in {seconds} s"
    (conflicts, choices, sets, terms), times = found
    texts = [f"{step} {time:.4f} s" for step, time in zip(STEPS, times)]
    return f"{conflicts:,} conflicts with {choices:,} choices, {sets:,} of sets with {terms:,} terms; {', '.join(texts)}"


def main():
    program, folder = sys.argv[1:3]
    seconds = int(sys.argv[3]) if len(sys.argv) > 3 else 180
    counts = [int(word) for word in sys.argv[4:]] or COUNTS
    for count in counts:
        for seed in SEEDS:
            place = f"{folder}/refuted-{count}-{seed}"
            lines = write_problem(place, count, seed)
            added = [last_contradicted(lines)]
            if (count, seed) in DEEP:
                added.append(oldest(f"package-{DEEP[count, seed]:05}"))
            for line in added:
                with open(f"{place}/{line}.txt", "w", encoding="ascii") as file:
                    file.write("".join(f"{one}\n" for one in [*lines, line]))
                files = f"{place}/index.json", f"{place}/{line}.txt"
                print(f"{count:,} packages, seed {seed}, {line}: {compare(program, files, seconds)}", flush=True)


if __name__ == "__main__":
    main()
