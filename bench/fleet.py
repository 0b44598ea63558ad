#!/usr/bin/env python3
"""Times tools/fleet.py over many folders beside the calls that it makes.

fleet.py PROGRAM [FOLDERS [JOBS]]

It makes an index of 10 MB and 400 folders, or FOLDERS, of 40 lines each, begins their histories, and asks in each whether p000>=2 can be
had. First each call is made by itself, one after the other, and the sum of their times is printed; then the fleet makes the same calls,
two at a time or JOBS. The ratio is that of the fleet's time to the sum divided by the jobs, by the clock and by processors.
"""
import json
import os
import random
import subprocess
import sys
import tempfile
import time
from pathlib import Path

TOP = Path(__file__).resolve().parent.parent
sys.path.insert(0, str(TOP / "tools" / "tests"))
from support.made.environments import LINUX  # noqa: E402

PACKAGES, RELEASES, LINES, DEPENDENCIES = 800, 38, 40, 3


def release(rng, place, number):
    """A release of a package: version NUMBER.0, which needs some of the packages behind it in versions near its own."""
    name = f"p{place:03}"
    later = range(place + 1, min(place + 40, PACKAGES))
    needs = [f"p{it:03}>={max(1, number - rng.randrange(5))}" for it in rng.sample(later, min(DEPENDENCIES, len(later)))]
    file = f"{name}-{number}.0-py3-none-any.whl"
    digest = f"{rng.getrandbits(256):064x}"
    files = [{"name": file, "url": f"https://files.example/{name}/{file}", "size": rng.randrange(1, 10**7), "sha256": digest}]
    return {"version": f"{number}.0", "requires_python": ">=3.8", "requires_dist": needs, "yanked": False, "files": files}


def write_all(folder, count):
    """The index, the environment and the folders."""
    rng = random.Random(1)
    releases = [[release(rng, place, number) for number in range(1, RELEASES + 1)] for place in range(PACKAGES)]
    packages = [{"name": f"p{place:03}", "releases": found} for place, found in enumerate(releases)]
    (folder / "index.json").write_text(json.dumps({"snapshot": 1, "packages": packages}), encoding="utf-8")
    (folder / "environment.json").write_text(json.dumps(LINUX), encoding="utf-8")
    for place in range(count):
        (folder / f"s{place:03}").mkdir()
        names = ["p000", *(f"p{it:03}" for it in rng.sample(range(1, PACKAGES), LINES - 1))]
        lines = [f"{name}>={rng.randrange(1, 5)}\n" for name in names]
        (folder / f"s{place:03}" / "requirements.txt").write_text("".join(lines), encoding="utf-8")


def timed(command, folder):
    """The seconds of a call by the clock, and of processors with those of the calls that it makes."""
    before, start = os.times(), time.perf_counter()
    done = subprocess.run(command, cwd=folder, stdin=subprocess.DEVNULL, capture_output=True, encoding="utf-8", check=False)
    seconds, after = time.perf_counter() - start, os.times()
    if done.returncode not in (0, 1, 3):
        sys.exit(f"{' '.join(map(str, command))}: {done.stdout}{done.stderr}")
    return seconds, after.children_user + after.children_system - before.children_user - before.children_system, done.stdout


def main(program, count="400", jobs="2"):
    program, count, jobs = str(Path(program).resolve()), int(count), int(jobs)
    with tempfile.TemporaryDirectory() as name:
        folder = Path(name)
        write_all(folder, count)
        print(f"index {(folder / 'index.json').stat().st_size / 1e6:.1f} MB, {count} folders of {LINES} lines", flush=True)
        services = [f"s{place:03}" for place in range(count)]
        fleet = [sys.executable, "-B", TOP / "tools" / "fleet.py", "--program", program, "--index", "index.json", "--jobs", str(jobs)]
        _, _, told = timed([*fleet, "--env", "environment.json", *services, "--", "init"], folder)
        print("begun:", told.strip().splitlines()[-1], flush=True)
        words = ["constrain", "--dry-run", "--", "p000", ">=2"]
        calls = [timed([program, f"--dir={it}", "--index=index.json", *words], folder) for it in services]
        clock, used = sum(it[0] for it in calls), sum(it[1] for it in calls)
        print(f"calls one by one: {clock:.1f} s by the clock, {used:.1f} s of processors", flush=True)
        seconds, processors, told = timed([*fleet, *services, "--", "constrain", "p000", ">=2", "--dry-run"], folder)
        print(f"fleet, {jobs} at a time: {seconds:.1f} s by the clock, {processors:.1f} s of processors;", told.strip().splitlines()[-1])
        print(f"ratio by the clock {seconds / (clock / jobs):.3f}, of processors {processors / used:.3f}")


if __name__ == "__main__":
    if not 2 <= len(sys.argv) <= 4:
        sys.exit(__doc__)
    main(*sys.argv[1:])
