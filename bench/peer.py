#!/usr/bin/env python3
"""The same work with Python's json and the library packaging, as a peer to measure beside.

peer.py index INDEX             reads the index
peer.py try FOLDER <COMMANDS    reads the index and the requirements file, and does the commands
peer.py read FOLDER ENVIRONMENT reads the requirements file, sees that no line asks for anything there, and prints it
"""
import json
import re
import sys

from libraries import Requirement, Version, canonicalize_name


def read_index(path):
    with open(path, "rb") as file:
        packages = json.load(file)["packages"]
    found = {}
    for package in packages:
        releases = [Version(r["version"]) for r in package["releases"]]
        found[canonicalize_name(package["name"])] = sorted(releases, reverse=True)
    return found


def wanted(text):
    body = re.split(r"(?:^|\s)#", text, maxsplit=1)[0].strip()
    return Requirement(body) if body else None


def lock(lines, index, kept):
    """The versions of the names: the kept one where it may be, else the newest that may."""
    by_name = {}
    for _, requirement in lines:
        if requirement is not None:
            by_name.setdefault(canonicalize_name(requirement.name), []).append(requirement.specifier)
    locked = {}
    for name in sorted(by_name):
        specifiers = by_name[name]
        listed = index.get(name, [])
        for version in [kept[name], *listed] if kept.get(name) in listed else listed:
            if all(s.contains(version, prereleases=True) for s in specifiers):
                locked[name] = version
                break
        else:
            return None
    return locked


def places(lines, name):
    return [n for n, (_, r) in enumerate(lines) if r is not None and canonicalize_name(r.name) == name]


def edited(state, word, text):
    """The lines after an edit and the versions that it keeps, or its refusal. A line has no extras and no space before
    its specifiers."""
    lines, locked = state
    if word == "add":
        requirement = wanted(text)
        if places(lines, canonicalize_name(requirement.name)):
            return "already-present"
        return lines + [(text + "\n", requirement)], locked
    if word in ("remove", "constrain"):
        name, _, specifiers = text.partition(" ")
        found = places(lines, canonicalize_name(name))
        if len(found) != 1:
            return "ambiguous" if found else "not-present"
        front, (old, _), back = lines[: found[0]], lines[found[0]], lines[found[0] + 1 :]
        if word == "remove":
            return front + back, locked
        new = re.sub(r"^([A-Za-z0-9._-]+)[^\s#]*", lambda match: match[1] + specifiers, old)
        return front + [(new, wanted(new))] + back, locked
    named = [canonicalize_name(name) for name in text.split()] if word == "upgrade" else []
    if any(name not in locked for name in named):
        return "not-locked"
    return lines, {name: version for name, version in locked.items() if name not in named}


def texts(state):
    return [line for line, _ in state[0]], {name: str(version) for name, version in state[1].items()}


def reply(state, past, line, index):
    word, _, text = line.strip().partition(" ")
    if word == "undo":
        if not past:
            return state, "refused nothing-to-undo"
        return past.pop(), f"ok {len(past)}"
    answer = edited(state, word, text)
    if isinstance(answer, str):
        return state, f"refused {answer}"
    lines, kept = answer
    locked = lock(lines, index, kept)
    if locked is None:
        return state, "refused no-solution"
    if texts((lines, locked)) == texts(state):
        return state, "same"
    past.append(state)
    return (lines, locked), f"ok {len(past)}"


def read_idle(folder, environment):
    with open(environment, "rb") as file:
        values = {**json.load(file), "extra": ""}
    with open(f"{folder}/requirements.txt") as file:
        lines = [(line, wanted(line)) for line in file]
    for line, requirement in lines:
        if requirement is not None and (requirement.marker is None or requirement.marker.evaluate(values)):
            sys.exit(f"peer: a line asks for something: {line}")
    sys.stdout.write("".join(line for line, _ in lines))


def main():
    if sys.argv[1] == "index":
        read_index(sys.argv[2])
        return
    if sys.argv[1] == "read":
        read_idle(*sys.argv[2:])
        return
    folder = sys.argv[2]
    index = read_index(f"{folder}/index.json")
    with open(f"{folder}/requirements.txt") as file:
        lines = [(line, wanted(line)) for line in file]
    state, past = (lines, lock(lines, index, {})), []
    for line in sys.stdin:
        state, text = reply(state, past, line, index)
        print(text)
    sys.stdout.write("".join(line for line, _ in state[0]))


main()
