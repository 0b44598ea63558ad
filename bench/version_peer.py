#!/usr/bin/env python3
"""The work of version_bench with packaging: version_peer.py compare|match <DATA

Compares each version of standard input with each, or matches each with each set, and prints a sum of the answers.
"""
import sys

from libraries import SpecifierSet, Version


def mixed(total, yes):
    return (total * 31 + yes) % 2**64


def compare(versions):
    total = 0
    for version in versions:
        total = mixed(total, sum(version < other for other in versions))
    return total


def match(sets, versions):
    total = 0
    for specifiers in sets:
        contains = specifiers.contains
        total = mixed(total, sum(contains(version, prereleases=True) for version in versions))
    return total


def main():
    lines = [line.rstrip("\n").partition(" ") for line in sys.stdin]
    versions = [Version(text) for word, _, text in lines if word == "version"]
    sets = [SpecifierSet(text) for word, _, text in lines if word == "set"]
    total = compare(versions) if sys.argv[1] == "compare" else match(sets, versions)
    print(f"{len(versions)} versions, {len(sets)} sets, sum {total}")


main()
