#!/usr/bin/env python3
"""Writes an index, a requirements file, commands and versions for a benchmark: generate.py SEED FOLDER.

The index has 2,000 packages of 25 releases each, the file a line for each package, and the commands are 1,000 pairs of
an addition and an undo. `edits.txt` has 1,000 edits, 200 of each kind. There are 1,000 versions and 1,000 sets. The folder `long` has a requirements file of a million
lines, none of which asks for anything: comments, blank lines and requirements whose marker doesn't hold. So its index
has no packages, and reading is nearly all there is to do. `whole.json` is an index of 50 MB, whose 100,000 releases
have all that a release may have, and hardly two of which ask for the same; in `alike.json` nine of ten ask for what the
one before does, which is nearer to real indexes. `lock-N.toml` is a lock of N packages. The folders `strayN` and `newestN` have a problem
of N packages each for a resolver. The same seed gives the same bytes.
"""
import json
import os
import random
import sys

from lock_peer import lock_text

PACKAGES = 2_000
RELEASES = 25
PAIRS = 1_000
ROUNDS = 200
SPARE = 50
VERSIONS = 1_000
WHOLE_PACKAGES = 4_000
LINES = 1_000_000
LOCKED = [2_500, 5_000, 10_000]
PROBLEMS = [50, 100, 200, 500]
CHOICES = 20
DEPENDENCIES = 5
STRAYS = 0.05
WORDS = "pinned until the next release of this one is out see the notes below and ask before it moves".split()
# None of these holds on Linux with CPython 3 and no extra.
INACTIVE = [
    'os_name == "nt"',
    "python_version < '3'",
    'sys_platform == "win32" or sys_platform == "cygwin"',
    "platform_python_implementation != 'CPython' and python_full_version >= '3.8.1'",
    '(os_name == "nt" or "java" in sys_platform) and python_version ~= "3.8"',
    "extra == 'tests'",
]


def file(package, name, size, sha256):
    return {"name": name, "url": f"https://files.example/{package}/{name}", "size": size, "sha256": sha256}


def release(name, version):
    return {
        "version": version,
        "requires_python": None,
        "requires_dist": [],
        "yanked": False,
        "files": [file(name, f"{name}-{version}-py3-none-any.whl", 1000, "0" * 64)],
    }


def whole_release(rng, name, version):
    """A release with all its parts, some 500 bytes of JSON: a wheel, in half of them an sdist too, and dependencies."""
    endings = ["-py3-none-any.whl", ".tar.gz"][: rng.randrange(1, 3)]
    names = [f"{name.replace('-', '_')}-{version}{ending}" for ending in endings]
    return {
        "version": version,
        "requires_python": rng.choice([None, ">=3.8", ">=3.7,<4", ">=2.7,!=3.0.*,!=3.1.*"]),
        "requires_dist": [dependency(rng) for _ in range(rng.randrange(4))],
        "yanked": rng.randrange(50) == 0,
        "files": [file(name, n, rng.randrange(1, 10**7), f"{rng.getrandbits(256):064x}") for n in names],
    }


def make_alike(rng, releases):
    """Has nine of ten releases ask for what the one before them does."""
    for before, found in zip(releases, releases[1:]):
        if rng.randrange(10):
            found["requires_python"] = before["requires_python"]
            found["requires_dist"] = before["requires_dist"]


def versions(rng):
    found = set()
    while len(found) < RELEASES:
        found.add((rng.randrange(5), rng.randrange(20), rng.randrange(10)))
    return [".".join(map(str, v)) for v in rng.sample(sorted(found), RELEASES)]


def line(rng, name, listed):
    pick = rng.choice(listed)
    kind = rng.randrange(4)
    if kind == 0:
        return name
    if kind == 1:
        return f"{name}=={pick}  # pinned"
    if kind == 2:
        return f"{name}>={pick}"
    return f"{name}<={pick},!=99"


def edits(rng, listed, present, spare):
    """Rounds of five edits: a package is pinned, freed to be newer, upgraded with another and removed, and in between all
    is relocked."""
    for _ in range(ROUNDS):
        added = rng.choice(spare)
        pick = rng.choice(listed[added])
        yield f"add {added}=={pick}  # for now"
        yield f"constrain {added} >={pick}"
        yield f"upgrade {added} {rng.choice(present)}"
        yield "relock"
        yield f"remove {added}"


def version(rng):
    """A version with neither epoch nor local part, where our rules and packaging's differ in places."""
    text = ".".join(str(rng.randrange(6)) for _ in range(rng.randrange(1, 5)))
    text += rng.choice(["", "", "", f"a{rng.randrange(3)}", f"b{rng.randrange(3)}", f"rc{rng.randrange(3)}"])
    text += rng.choice(["", "", "", "", f".post{rng.randrange(3)}"])
    return text + rng.choice(["", "", "", "", f".dev{rng.randrange(3)}"])


def clause(rng):
    operator = rng.choice(["==", "!=", "<=", ">=", ">=", "<", "<", ">", "~=", ".*"])
    release = f"{rng.randrange(6)}.{rng.randrange(6)}"
    if operator == ".*":
        return f"{rng.choice(['==', '!='])}{release}.*"
    return f"~={release}" if operator == "~=" else operator + version(rng)


def comment(rng):
    return "# " + " ".join(rng.choices(WORDS, k=rng.randrange(1, 9)))


def requirement(rng):
    text = f"{rng.choice(['Package', 'package'])}{rng.choice('-_.')}{rng.randrange(PACKAGES):05}"
    text += rng.choice(["", "", "", "[tests]", "[docs,Tests]", " [ a.b , c ]"])
    specifiers = ",".join(clause(rng) for _ in range(rng.randrange(3)))
    return text + (f" ({specifiers})" if specifiers and rng.randrange(8) == 0 else specifiers)


def with_marker(rng, text):
    """The requirement with a marker that doesn't hold, so that it asks for nothing."""
    return f"{text}{rng.choice(['; ', ' ; ', ';'])}{rng.choice(INACTIVE)}"


def dependency(rng):
    text = requirement(rng)
    return with_marker(rng, text) if rng.randrange(3) == 0 else text


def ascending(rng):
    found = set()
    while len(found) < CHOICES:
        found.add((rng.randrange(4), rng.randrange(10), rng.randrange(5)))
    return sorted(found)


def dotted(version):
    return ".".join(map(str, version))


def range_with(rng, listed, place):
    """A set that matches the version at a place of a list, and some others of it."""
    kind = rng.randrange(4)
    if kind == 0:
        return f"!={dotted(rng.choice(listed[:place] + listed[place + 1:]))}"
    if kind == 1:
        same = [version for version in listed[: place + 1] if version[0] == listed[place][0]]
        return f"~={dotted(rng.choice(same)[:2])}"
    low = dotted(rng.choice(listed[: place + 1]))
    high = rng.choice(listed[place + 1 :] + [(listed[-1][0] + 1, 0)])
    return f">={low},<{dotted(high)}"


def problem(rng, folder, count, strays):
    """A problem of so many packages, each of which depends on the next ones. One version of each is a solution. The
    range of a dependency has it, but for the share of strays among the releases outside the solution, whose range has
    some other version. Without strays the newest versions are the solution."""
    names = [f"package-{n:05}" for n in range(count)]
    listed = [ascending(rng) for _ in names]
    places = [rng.randrange(CHOICES) if strays else CHOICES - 1 for _ in names]
    packages = []
    for number, name in enumerate(names):
        needed = range(number + 1, min(number + 1 + DEPENDENCIES, count))
        releases = []
        for place, version in enumerate(listed[number]):
            found = release(name, dotted(version))
            for other in needed:
                stray = place != places[number] and rng.random() < strays
                wanted = rng.randrange(CHOICES) if stray else places[other]
                found["requires_dist"].append(names[other] + range_with(rng, listed[other], wanted))
            releases.append(found)
        packages.append({"name": name, "releases": releases})
    os.makedirs(folder, exist_ok=True)
    with open(f"{folder}/index.json", "w") as out:
        out.write(json.dumps({"snapshot": 1, "packages": packages}))
    with open(f"{folder}/requirements.txt", "w") as out:
        out.write(names[0] + range_with(rng, listed[0], places[0]) + "\n")


def idle_line(rng):
    kind = rng.randrange(10)
    if kind < 2:
        return with_marker(rng, requirement(rng)) + rng.choice(["", "", f"  {comment(rng)}"])
    return rng.choice(["", "", " ", "\t"]) if kind < 5 else rng.choice(["", "", "  "]) + comment(rng)


def locked_file(rng, package, ending):
    name = f"{package['name'].replace('-', '_')}-{package['version']}{ending}"
    sha256 = f"{rng.getrandbits(256):064x}"
    url = f"https://files.example/{package['name']}/{name}"
    return {"name": name, "url": url, "size": rng.randrange(1, 10**7), "hashes": {"sha256": sha256}}


def locked_package(rng, names, name):
    """A package of a lock with a wheel or two, in half of them an sdist too, and up to three dependencies."""
    package = {"name": name, "version": f"1.{rng.randrange(20)}"}
    if rng.randrange(4):
        package["requires-python"] = rng.choice([">=3.8", ">=3.7,<4", ">=2.7,!=3.0.*,!=3.1.*"])
    needed = sorted(set(rng.choices(names, k=rng.randrange(4))) - {name})
    if needed:
        package["dependencies"] = [{"name": other} for other in needed]
    if rng.randrange(2):
        package["sdist"] = locked_file(rng, package, ".tar.gz")
    endings = ["-cp312-cp312-linux_x86_64.whl", "-py3-none-any.whl"][rng.randrange(2) :]
    package["wheels"] = [locked_file(rng, package, ending) for ending in endings]
    return package


def lock(rng, size):
    names = [f"package-{n:05}" for n in range(size)]
    return {
        "lock-version": "1.0",
        "environments": ['os_name == "posix" and sys_platform == "linux"'],
        "created-by": "reqlock",
        "packages": [locked_package(rng, names, name) for name in names],
        "tool": {"reqlock": {"snapshot": f"{rng.getrandbits(256):064x}"}},
    }


def main():
    rng = random.Random(int(sys.argv[1]))
    folder = sys.argv[2]
    os.makedirs(folder, exist_ok=True)
    names = [f"package-{n:05}" for n in range(PACKAGES + SPARE)]
    listed = {name: versions(rng) for name in names}
    packages = [{"name": n, "releases": [release(n, v) for v in listed[n]]} for n in names]
    with open(f"{folder}/index.json", "w") as out:
        out.write(json.dumps({"snapshot": 1, "packages": packages}))
    with open(f"{folder}/requirements.txt", "w") as out:
        for name in rng.sample(names[:PACKAGES], PACKAGES):
            out.write(line(rng, name, listed[name]) + "\n")
    with open(f"{folder}/commands.txt", "w") as out:
        for _ in range(PAIRS):
            name = rng.choice(names[PACKAGES:])
            out.write(f"add {line(rng, name, listed[name])}\nundo\n")
    with open(f"{folder}/versions.txt", "w") as out:
        for _ in range(VERSIONS):
            out.write(f"version {version(rng)}\n")
        for _ in range(VERSIONS):
            out.write(f"set {','.join(clause(rng) for _ in range(rng.randrange(1, 4)))}\n")
    with open(f"{folder}/edits.txt", "w") as out:
        for edit in edits(random.Random(int(sys.argv[1])), listed, names[:PACKAGES], names[PACKAGES:]):
            out.write(f"{edit}\n")
    names = [f"package-{n:05}" for n in range(WHOLE_PACKAGES)]
    packages = [{"name": n, "releases": [whole_release(rng, n, v) for v in versions(rng)]} for n in names]
    with open(f"{folder}/whole.json", "w") as out:
        out.write(json.dumps({"snapshot": 1, "packages": packages}))
    alike = random.Random(int(sys.argv[1]))
    for package in packages:
        make_alike(alike, package["releases"])
    with open(f"{folder}/alike.json", "w") as out:
        out.write(json.dumps({"snapshot": 1, "packages": packages}))
    os.makedirs(f"{folder}/long", exist_ok=True)
    with open(f"{folder}/long/index.json", "w") as out:
        json.dump({"snapshot": 1, "packages": []}, out)
    with open(f"{folder}/long/requirements.txt", "w") as out:
        for _ in range(LINES):
            out.write(idle_line(rng) + "\n")
    for size in LOCKED:
        with open(f"{folder}/lock-{size}.toml", "w") as out:
            out.write(lock_text(lock(rng, size)))
    rng = random.Random(int(sys.argv[1]))
    for count in PROBLEMS:
        problem(rng, f"{folder}/stray{count}", count, STRAYS)
    problem(rng, f"{folder}/newest{PROBLEMS[-1]}", PROBLEMS[-1], 0)


if __name__ == "__main__":
    main()
