#!/usr/bin/env python3
"""Times `tools/snapshot.py simple` on an index of its own: simple_index.py [PACKAGES [RELEASES [SECONDS [LINES]]]] [pip]

The index has 300 packages with 30 releases each, unless told otherwise, and answers on 127.0.0.1 from another process, each
request after SECONDS more, 0 where none are given. Each release has a wheel with its metadata beside it, and four dependencies on
average. Thirty names lead to all packages; with LINES so many names lead to six packages each, and to no others.
A first call has an empty cache, a second a full one, of which it asks whether each page is as it was, a third is offline. They give the
same bytes. A fourth makes the snapshot again with one name more while all pages are fresh. With the word `pip` at the end pip is then
asked what it would install of the same names: with no cache, and again with the cache that a call before filled. Of each the seconds by
the clock, the processor seconds, the requests that the index counted and the peak memory are printed, and the load of the machine.
"""
import multiprocessing
import os
import random
import subprocess
import sys
import tempfile
import time
from pathlib import Path

TOOLS = Path(__file__).resolve().parent.parent / "tools"
sys.path.insert(0, str(TOOLS / "tests"))
from support.made.served_index import Answers, MadeIndex, wheel_of  # noqa: E402

SEED = 1
LINES = 30
GROUP = 6


def name_of(number):
    return f"package-{number:03}"


def others_of(chance, number, packages, has_groups):
    """What a release needs: others that are mostly near it, or those behind it in its group."""
    if has_groups:
        behind = range(number + 1, min(packages, (number // GROUP + 1) * GROUP))
        return set(chance.sample(behind, min(len(behind), chance.randint(3, 5))))
    return {(number + int(chance.expovariate(0.1)) + 1) % packages for _ in range(chance.randint(2, 6))}


def fill(index, packages, releases, has_groups):
    """Makes the world. A package needs others with a lower bound."""
    chance = random.Random(SEED)
    for number in range(packages):
        for version in range(1, releases + 1):
            others = others_of(chance, number, packages, has_groups)
            needs = [f"{name_of(other)}>=1.{chance.randint(1, version)}" for other in sorted(others)]
            index.add(name_of(number), wheel_of(name_of(number).replace("-", "_"), f"1.{version}", *needs, python=">=3.8"))


def serve(pipe, packages, releases, seconds, has_groups):
    """Tells where the index is, and then how many requests came since, as often as it is asked."""
    usual = Answers.do_GET

    def later(self):
        time.sleep(seconds)
        usual(self)

    if seconds:
        Answers.do_GET = Answers.do_HEAD = later
    index = MadeIndex(max_age=86_400)
    # (it ends with the process that began it)
    index.end.cancel()
    fill(index, packages, releases, has_groups)
    pipe.send(index.url)
    while pipe.recv():
        pipe.send(sum(index.counts().values()))


def timed(pipe, words, variables):
    """The figures of one call."""
    start = time.monotonic()
    call = subprocess.Popen(
        [sys.executable, *words], stdout=subprocess.DEVNULL, stderr=subprocess.PIPE, encoding="utf-8", env=variables
    )
    told = call.stderr.read()
    _, status, usage = os.wait4(call.pid, 0)
    seconds = time.monotonic() - start
    if status != 0:
        sys.exit(told)
    pipe.send(True)
    return seconds, usage.ru_utime + usage.ru_stime, pipe.recv(), usage.ru_maxrss / 1000


def show(title, clock, processor, requests, memory):
    told = f"{clock:.2f} s, {processor:.2f} s of processor time, {requests} requests, {memory:.0f} MB"
    print(f"{title}: {told}; load {os.getloadavg()[0]:.1f}", flush=True)


def time_snapshots(pipe, url, names, new, folder, variables):
    """The calls of the script, which are compiled before."""
    output, script, texts = folder / "index.json", TOOLS / "snapshot.py", []
    place = "--cache", folder / "cache", "--output", output
    subprocess.run([sys.executable, script, "simple", url, "none"], env=variables, capture_output=True, check=False)
    for title, words in (
        ("empty cache", ["simple", url, *names]), ("full cache", ["simple", url, *names, "--refresh"]),
        ("offline", ["simple", url, *names, "--offline"]), ("one name more", ["again", new]),
    ):
        figures = timed(pipe, [script, *words, *place], variables)
        texts.append(output.read_bytes())
        show(title, *figures)
    if len(set(texts[:3])) != 1:
        sys.exit("the snapshots differ")
    print(f"the snapshot has {len(texts[0]) / 1e6:.1f} MB")


def time_pip(pipe, url, names, folder, variables):
    """pip's calls, which install nothing."""
    words = "-m", "pip", "--isolated", "--disable-pip-version-check", "install", "--dry-run", "--target", folder / "target", "-q"
    for title, cache in ("pip, no cache", ["--no-cache-dir"]), (None, []), ("pip, full cache", []):
        figures = timed(pipe, [*words, *cache, "--index-url", url, *names], variables)
        if title is not None:
            show(title, *figures)


def main(arguments):
    has_pip = arguments[-1:] == ["pip"]
    arguments = arguments[: len(arguments) - has_pip]
    packages, releases, seconds, lines = (*arguments, *("300", "30", "0", "0")[len(arguments):])[:4]
    packages, releases, seconds, lines = int(packages), int(releases), float(seconds), int(lines)
    pipe, theirs = multiprocessing.Pipe()
    server = multiprocessing.Process(target=serve, args=(theirs, packages, releases, seconds, lines > 0), daemon=True)
    server.start()
    url = pipe.recv()
    step = GROUP * max(1, packages // GROUP // lines) if lines else max(1, packages // LINES)
    names = [name_of(number) for number in range(0, packages, step)][: lines or None]
    new = name_of(GROUP - 1 if lines else 0) if step == GROUP else name_of(step - 1)
    with tempfile.TemporaryDirectory() as name:
        # (modules are compiled once, whatever the surroundings say)
        variables = {key: text for key, text in os.environ.items() if key != "PYTHONDONTWRITEBYTECODE"}
        variables |= {"PYTHONPYCACHEPREFIX": name, "XDG_CACHE_HOME": f"{name}/pip"}
        time_snapshots(pipe, url, names, new, Path(name), variables)
        if has_pip:
            time_pip(pipe, url, names, Path(name), variables)
    pipe.send(False)
    server.join()


if __name__ == "__main__":
    main(sys.argv[1:])
