#!/usr/bin/env python3
"""Writes a problem for a resolver in which a solution is planted: planted.py SEED COUNT FOLDER [all].

There are COUNT packages of 20 releases each. A release depends on 4 packages on average, which are drawn by popularity: the
n-th most popular one with a weight of 1/n. A third of the ranges have an upper bound. One release of each package is the
planted one; its ranges have the planted releases, and so have those of the 30 lines. The lower bounds of all other ranges are
drawn from the older half of the releases, or with `all` from all of them. The same words give the same bytes.
"""
import itertools
import json
import os
import random
import sys

from generate import release

RELEASES = 20
DEPENDENCIES = 4
LINES = 30


def named(number):
    return f"package-{number:05}"


def bounds(rng, low, high):
    """A range from the release at one place; a third of them end before one from another place on, or behind all."""
    return f">={low}" + (f",<{rng.randrange(high, RELEASES + 1)}" if rng.randrange(3) == 0 else "")


def planted_range(rng, place):
    return bounds(rng, rng.randrange(place + 1), place + 1)


def other_range(rng, lows):
    low = rng.randrange(lows)
    return bounds(rng, low, low + 1)


def releases(rng, number, places, weights, lows):
    """The releases of a package, and what they ask for."""
    found = []
    for version in range(RELEASES):
        asked = set(rng.choices(range(len(places)), cum_weights=weights, k=rng.randrange(2 * DEPENDENCIES + 1)))
        one = release(named(number), str(version))
        for other in sorted(asked - {number}):
            is_planted = version == places[number]
            wanted = planted_range(rng, places[other]) if is_planted else other_range(rng, lows)
            one["requires_dist"].append(named(other) + wanted)
        found.append(one)
    return found


def planted(seed, count, lows=RELEASES // 2):
    """The packages and the lines; the lower bounds of other ranges are drawn from so many of the oldest releases."""
    rng = random.Random(seed)
    places = [rng.randrange(RELEASES) for _ in range(count)]
    ranks = rng.sample(range(count), count)
    weights = list(itertools.accumulate(1 / (rank + 1) for rank in ranks))
    packages = [{"name": named(n), "releases": releases(rng, n, places, weights, lows)} for n in range(count)]
    asked = sorted(rng.sample(range(count), min(LINES, count)))
    return packages, [named(n) + planted_range(rng, places[n]) for n in asked]


def write_problem(folder, packages, lines):
    os.makedirs(folder, exist_ok=True)
    with open(f"{folder}/index.json", "w", encoding="ascii") as out:
        out.write(json.dumps({"snapshot": 1, "packages": packages}))
    with open(f"{folder}/requirements.txt", "w", encoding="ascii") as out:
        out.writelines(f"{line}\n" for line in lines)


def main():
    seed, count, folder, *kind = sys.argv[1:]
    write_problem(folder, *planted(int(seed), int(count), RELEASES if kind == ["all"] else RELEASES // 2))


if __name__ == "__main__":
    main()
