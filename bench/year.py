#!/usr/bin/env python3
"""Makes the history of a year of weekly upgrades, and prints how long its journal is, and how long it would be in other forms.

year.py REQLOCK FOLDER

200 packages are locked, and each week 50 of them have a new release. A third of the packages have 12 to 30 wheels in each release, the others
one; each release has a source archive. The forms: as it is; each changed entry as the fields that differ, old and new; each changed entry new
alone.
"""
import json
import os
import random
import subprocess
import sys

from history import ENVIRONMENT

PACKAGES, LINES, WEEKS, UPGRADED = 200, 50, 52, 50
PLATFORMS = [
    "macosx_10_9_x86_64",
    "macosx_11_0_arm64",
    "manylinux_2_17_x86_64.manylinux2014_x86_64",
    "manylinux_2_17_aarch64.manylinux2014_aarch64",
    "musllinux_1_1_x86_64",
    "win_amd64",
]
TAGS = [f"cp3{minor}-cp3{minor}-{platform}" for minor in range(9, 14) for platform in PLATFORMS]


def tags(rng):
    return ["py3-none-any"] if rng.randrange(3) else TAGS[: rng.randrange(12, 31)]


def file(rng, name):
    path = f"{rng.getrandbits(8):02x}/{rng.getrandbits(8):02x}/{rng.getrandbits(240):060x}"
    return {
        "name": name,
        "url": f"https://files.example/packages/{path}/{name}",
        "size": rng.randrange(10**4, 10**7),
        "sha256": f"{rng.getrandbits(256):064x}",
    }


def release(rng, name, week, wheels, needs):
    version = f"1.{week}.0"
    names = [f"{name}-{version}.tar.gz"] + [f"{name}-{version}-{tag}.whl" for tag in wheels]
    return {
        "version": version,
        "requires_python": ">=3.8",
        "requires_dist": needs,
        "yanked": False,
        "files": [file(rng, n) for n in names],
    }


class Year:
    def __init__(self, program, folder):
        self.program, self.folder, self.rng = program, folder, random.Random(7)
        self.names = [f"package{number:03d}" for number in range(PACKAGES)]
        self.tags = {name: tags(self.rng) for name in self.names}
        self.needs = {name: self.names[LINES + 3 * place : LINES + 3 * place + 3] if place < LINES else [] for place, name in enumerate(self.names)}
        self.index = {name: [self.release(name, 0)] for name in self.names}

    def release(self, name, week):
        return release(self.rng, name, week, self.tags[name], self.needs[name])

    def call(self, *words):
        """Writes the index, and calls the program over it."""
        with open(f"{self.folder}/index.json", "w", encoding="ascii") as out:
            json.dump({"snapshot": 1, "packages": [{"name": name, "releases": found} for name, found in self.index.items()]}, out)
        subprocess.run([self.program, "--dir", self.folder, "--index", f"{self.folder}/index.json", *words], check=True, stdout=subprocess.DEVNULL)

    def make(self):
        with open(f"{self.folder}/requirements.txt", "w", encoding="ascii") as out:
            out.write("".join(f"{name}\n" for name in self.names[:LINES]))
        self.call("--env", ENVIRONMENT, "init")
        for week in range(1, WEEKS + 1):
            for name in self.rng.sample(self.names, UPGRADED):
                self.index[name] = [self.index[name][-1], self.release(name, week)]
            self.call("upgrade")


def by_fields(old, new):
    return {key: [old.get(key), new.get(key)] for key in sorted({*old, *new}) if old.get(key) != new.get(key)}


def length(steps, form):
    """The bytes of the steps, each changed entry in a form of its two values."""
    whole = 0
    for step in steps:
        entries = [[target, name, *([form(old, new)] if old and new else [old, new])] for target, name, old, new in step["entries"]]
        whole += len(json.dumps({**step, "entries": entries}, separators=(",", ":"))) + 1
    return whole


def main():
    program, folder = os.path.abspath(sys.argv[1]), sys.argv[2]
    os.makedirs(folder, exist_ok=True)
    Year(program, folder).make()
    with open(f"{folder}/reqlock.journal", encoding="utf-8") as lines:
        size = os.fstat(lines.fileno()).st_size
        steps = [json.loads(line) for line in lines][1:]
    print(f"{WEEKS} weeks, {size:,} bytes; by fields {length(steps, by_fields):,}; new alone {length(steps, lambda old, new: new):,}")


if __name__ == "__main__":
    main()
