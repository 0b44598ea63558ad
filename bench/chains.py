#!/usr/bin/env python3
"""Writes a problem without a solution and a refutation of it: chains.py SHAPE COUNT FOLDER.

The packages form a chain in which each release needs the next package, and the last needs one that isn't in the index. A
conflict says of each package, from the last one on, that it can't be chosen.

    chain    a release each
    fan      the first line's package is a choice of each conflict, and each package needs it too; the last needs another release
    pairs    two releases each, which differ in nothing, and a conflict for each of them
    whole    a chain, whose conflicts rest on one that lies in them without the choice that is looked for
"""
import json
import os
import sys

from generate import release


def named(number):
    return f"package-{number:05}"


def made(name, version, wanted):
    one = release(name, version)
    one["requires_dist"] = wanted
    return one


def package(name, versions, wanted):
    return {"name": name, "releases": [made(name, version, wanted) for version in versions]}


def chain(count):
    packages = [package(named(n), ["1"], [named(n + 1)]) for n in range(count)]
    return packages, [named(0)], [[f"{named(n)}==1"] for n in reversed(range(count))]


def fan(count):
    root = package("root", ["1"], [named(0)])
    packages = [package(named(n), ["1"], ["root", named(n + 1)]) for n in range(count - 1)]
    last = package(named(count - 1), ["1"], ["root>1"])
    conflicts = [["root==1", f"{named(n)}==1"] for n in reversed(range(count))]
    return [root, *packages, last], ["root"], [*conflicts, ["root==1"]]


def pairs(count):
    packages = [package(named(n), ["2", "1"], [named(n + 1)]) for n in range(count // 2)]
    return packages, [named(0)], [[f"{named(n)}=={v}"] for n in reversed(range(count // 2)) for v in (1, 2)]


def whole(count):
    packages = [package(named(n), ["1"], [named(n + 1)]) for n in range(count)]
    first = f"{named(count - 1)}==1"
    conflicts = [[first, f"{named(n)}==1"] for n in range(count - 1)]
    return packages, [named(0)], [[first], *conflicts, *chain(count)[2]]


SHAPES = {"chain": chain, "fan": fan, "pairs": pairs, "whole": whole}


def main():
    shape, count, folder = sys.argv[1:]
    packages, lines, conflicts = SHAPES[shape](int(count))
    os.makedirs(folder, exist_ok=True)
    with open(f"{folder}/index.json", "w", encoding="ascii") as out:
        out.write(json.dumps({"snapshot": 1, "packages": packages}))
    with open(f"{folder}/requirements.txt", "w", encoding="ascii") as out:
        out.writelines(f"{line}\n" for line in lines)
    with open(f"{folder}/conflicts.txt", "w", encoding="ascii") as out:
        out.writelines(" ".join(conflict) + "\n" for conflict in conflicts)
        out.write("-\n")


if __name__ == "__main__":
    main()
