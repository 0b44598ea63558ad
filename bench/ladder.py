#!/usr/bin/env python3
"""Prints a table in Markdown: how long resolvers took over problems of the shapes that users have (shapes.py).

ladder.py RESOLVE_PROGRAM FOLDER [--seconds SECONDS] [--jobs COUNT] [--only WORDS ..]

Each problem is written into FOLDER and locked by `Learning::resolve`, and by two versions of resolvelib: the one within the pip of
the Python that runs this, and Debian's, of /usr/bin/python3 (the package python3-resolvelib). Each of these takes the names in
two orders, by their bytes and as pip does (resolve_peer.py). One that isn't there is told, and has no columns. Of reqlock both
steps count, making the problem and resolving it; reading the index counts nowhere. What gives no answer in so many seconds
(30) is cut off; of what ends in five seconds the best of three runs is printed. Times are of processor time. Behind each
stands how many versions were locked; each answer is seen to be a solution. The ratio is to the fastest of the peer's; where
none ends, to so many seconds.

The whole table takes some hours, nearly all for peers that give no answer. With --only, it has the problems alone whose shape has
one of the WORDS in it: --only boto 'seed 5'. With --jobs, so many problems are run at a time, which is less exact.
"""
import argparse
import os
import signal
import subprocess
import sys
from concurrent.futures import ThreadPoolExecutor
from functools import partial
from typing import NamedTuple

from shapes import SHAPES, write

HERE = os.path.dirname(os.path.abspath(__file__))
ENVIRONMENT = f"{HERE}/../examples/web/environment.json"
PEER = f"{HERE}/resolve_peer.py"
ORDERS = {"plain": "by bytes", "pip": "as pip"}
ROUNDS = 3
SHORT = 5


class Peer(NamedTuple):
    """A resolvelib: whose it is, the Python that runs it, and where that takes it from."""

    owner: str
    python: str
    libraries: str

    def run(self, *words, **options):
        variables = {**os.environ, "BENCH_LIBRARIES": self.libraries}
        command = [self.python, PEER, *words]
        return subprocess.run(command, env=variables, stdout=subprocess.PIPE, encoding="ascii", check=False, **options)


PEERS = Peer("pip's", sys.executable, "pip"), Peer("Debian's", "/usr/bin/python3", "own")


def peers_at_hand():
    """The peers that run, each with the versions of its libraries."""
    found = {}
    for peer in PEERS:
        try:
            done = peer.run("versions", stderr=subprocess.DEVNULL)
        except OSError:
            done = None
        if done is None or done.returncode != 0:
            print(f"ladder: {peer.owner} resolvelib isn't there, so it is left out", file=sys.stderr)
        else:
            found[peer] = done.stdout.strip()
    return found


class Answer(NamedTuple):
    """How a run came to its end: `none` where it was cut off, `fails`, or empty; the pins, and the seconds."""

    fault: str
    pins: list[str]
    seconds: float


def answer(run, seconds):
    done = run()
    if done.returncode == -signal.SIGXCPU:
        return Answer(f"none in {seconds} s", [], seconds)
    if done.returncode != 0:
        return Answer(f"fails with status {done.returncode}", [], seconds)
    *pins, last = done.stdout.splitlines()
    if last == "none":
        return Answer("no solution", [], seconds)
    taken = sum(int(word) for word in last.split()) / 10**6
    return Answer("", pins, taken) if taken <= seconds else Answer(f"none in {seconds} s", [], seconds)


def best(run, seconds):
    """The fastest of three runs; the first, where that isn't short."""
    first = answer(run, seconds)
    if first.fault or first.seconds > SHORT:
        return first
    return min([first, *(answer(run, seconds) for _ in range(1, ROUNDS))], key=lambda one: (one.fault != "", one.seconds))


def told(found, checker, files):
    """The cell of a run, whose pins have to be a solution."""
    if found.fault:
        return found.fault
    done = checker.run("check", *files, input="\n".join(found.pins))
    return f"{found.seconds:.3f} s, {len(found.pins)}" if done.returncode == 0 else "no solution is what it gave"


def ratio(ours, theirs, seconds):
    ended = [found.seconds for found in theirs if not found.fault]
    if ours.fault:
        return f"above {seconds / min(ended):.3g}" if ended else ""
    return f"{'' if ended else 'below '}{ours.seconds / max(min(ended, default=seconds), 1e-6):.3g}"


def row(problem, options, peers):
    """The cells of a problem: each resolver's, and the ratio."""
    family, name = problem
    place = f"{options.folder}/{family}-{name}".replace(",", "").replace(" ", "-")
    write(family, name, place)
    files = f"{place}/index.json", f"{place}/requirements.txt"
    limit = options.seconds + 1
    command = ["prlimit", f"--cpu={limit}:{limit + 5}", options.program, "learning", files[0], ENVIRONMENT, files[1]]
    ours = best(partial(subprocess.run, command, stdout=subprocess.PIPE, encoding="ascii", check=False), options.seconds)
    theirs = [
        best(partial(peer.run, "resolve", *files, order, str(limit)), options.seconds) for peer in peers for order in ORDERS
    ]
    cells = [told(found, PEERS[0], files) for found in [ours, *theirs]]
    return [f"{family}, {name}", *cells, ratio(ours, theirs, options.seconds)]


def request_of(words):
    parser = argparse.ArgumentParser(
        prog="ladder.py", description=__doc__, formatter_class=argparse.RawDescriptionHelpFormatter
    )
    parser.add_argument("program", metavar="RESOLVE_PROGRAM", help="resolve_bench, which bench/run builds")
    parser.add_argument("folder", metavar="FOLDER", help="where the problems are written")
    parser.add_argument("--seconds", type=int, default=30, help="what takes longer is cut off")
    parser.add_argument("--jobs", type=int, default=1, help="so many problems at a time")
    parser.add_argument("--only", metavar="WORDS", nargs="+", default=[""], help="the shapes with one of these in their names")
    options = parser.parse_args(words)
    if not os.access(options.program, os.X_OK):
        parser.error(f"{options.program} is no program: bench/run builds resolve_bench, and runs this over it")
    if options.seconds < 1 or options.jobs < 1:
        parser.error("--seconds and --jobs take a number from 1 on")
    return options


def main(words):
    options = request_of(words)
    problems = [(family, name) for family, names in SHAPES.items() for name in names]
    problems = [one for one in problems if any(words in ", ".join(one) for words in options.only)]
    if not problems:
        print(f"ladder: no shape has {' or '.join(options.only)} in its name", file=sys.stderr)
        return 2
    peers = peers_at_hand()
    if PEERS[0] not in peers:
        print("ladder: python3 has no pip, by whose packaging the answers are checked", file=sys.stderr)
        return 1
    for peer, versions in peers.items():
        print(f"{peer.owner}: {versions}", file=sys.stderr)
    heads = [f"{peer.owner} resolvelib, {order}" for peer in peers for order in ORDERS.values()]
    heads = ["Shape", "`Learning::resolve`", *heads, "ratio"]
    print(f"| {' | '.join(heads)} |\n{'|---' * len(heads)}|", flush=True)
    with ThreadPoolExecutor(options.jobs) as pool:
        for cells in pool.map(lambda problem: row(problem, options, peers), problems):
            print(f"| {' | '.join(cells)} |", flush=True)
    return 0


if __name__ == "__main__":
    sys.exit(main(sys.argv[1:]))
