"""Locks and journals that tests make, and journals that are altered."""

import json

from support.rules.journals import digest_of
from support.rules.requirements import marker_text

ZEROS = "0" * 64
OTHERS = b' "0,a9\n[}\xff'


def entry(name, version, *dependencies, python=None):
    """The entry of a release with one wheel, in the form that a journal gives it."""
    file = f"{name.replace('-', '_')}-{version}-py3-none-any.whl"
    wheel = {"name": file, "sha256": ZEROS, "size": 1000, "url": f"https://files.example/{file}"}
    return {
        "dependencies": list(dependencies), "requires_python": python, "sdist": None, "version": version, "wheels": [wheel],
    }


def file_text(file):
    name, url, digest = (json.dumps(file[key]) for key in ("name", "url", "sha256"))
    return f"{{name = {name}, url = {url}, size = {file['size']}, hashes = {{sha256 = {digest}}}}}"


def package_text(name, entry):
    lines = ["[[packages]]", f'name = "{name}"', f'version = "{entry["version"]}"']
    if entry["requires_python"] is not None:
        lines.append(f"requires-python = {json.dumps(entry['requires_python'])}")
    if entry["dependencies"]:
        lines.append("dependencies = [{}]".format(", ".join(f'{{name = "{other}"}}' for other in entry["dependencies"])))
    if entry["sdist"] is not None:
        lines.append(f"sdist = {file_text(entry['sdist'])}")
    if entry["wheels"]:
        lines.append("wheels = [{}]".format(", ".join(map(file_text, entry["wheels"]))))
    return "\n".join(lines) + "\n\n"


def lock_text(environment, entries, digest=ZEROS):
    """The bytes of a lock with these entries, by name."""
    lines = ['lock-version = "1.0"', f"environments = [{json.dumps(marker_text(environment))}]", 'created-by = "reqlock"']
    packages = "".join(package_text(name, entries[name]) for name in sorted(entries)) or "packages = []\n\n"
    return ("\n".join(lines) + f"\n{packages}[tool.reqlock]\nsnapshot = \"{digest}\"\n").encode()


def compact(value):
    return json.dumps(value, sort_keys=True, ensure_ascii=False, separators=(",", ":")).encode() + b"\n"


def step(lines=(), entries=(), snapshot=None):
    """A step's value. Its entries are in the form of version 1, or name their targets in front, as version 2 has them."""
    return {"entries": list(entries), "lines": list(lines), "snapshot": snapshot}


def in_version(version, step):
    """The value of a step in the form of a version. Version 2 names the target of each entry, which is empty."""
    return step if version == 1 else {**step, "entries": [["", *entry] for entry in step["entries"]]}


def header(requirements, lock, environment, cursor=0, steps=0, version=2):
    """The value of a header with one target, in the form of a version."""
    whole = {"cursor": cursor, "journal": version, "requirements": digest_of(requirements), "steps": steps}
    target = {"environment": environment, "lock": digest_of(lock)}
    return whole | (target if version == 1 else {"targets": [target | {"name": ""}]})


def header_of_targets(requirements, locks, environments, cursor=0, steps=0):
    """The value of a header with the targets of these locks and environments, by their names."""
    names = sorted(environments)
    targets = [{"environment": environments[name], "lock": digest_of(locks[name]), "name": name} for name in names]
    return {"cursor": cursor, "journal": 2, "requirements": digest_of(requirements), "steps": steps, "targets": targets}


def journal(requirements, lock, environment, cursor, *steps, version=2):
    """The bytes of a journal of a version over these files. The steps are given in the form of version 1."""
    first = header(requirements, lock, environment, cursor, len(steps), version)
    return b"".join(map(compact, [first, *(in_version(version, step) for step in steps)]))


def journal_of_targets(requirements, locks, environments, cursor, *steps):
    """The bytes of a journal of version 2 over these files. The steps name the targets of their entries."""
    first = header_of_targets(requirements, locks, environments, cursor, len(steps))
    return b"".join(map(compact, [first, *steps]))


def altered(journal):
    """Every journal that comes of this one by one alteration, each with a text that tells which: cut at each byte, each byte
    exchanged for each of a few others and for its neighbour in the alphabet, each line doubled, dropped, and exchanged with
    the next."""
    for place in range(len(journal)):
        yield f"cut at byte {place}", journal[:place]
    for place, byte in enumerate(journal):
        for other in sorted({*OTHERS, byte ^ 1} - {byte}):
            yield f"byte {place} made {bytes([other])!r}", journal[:place] + bytes([other]) + journal[place + 1 :]
    lines = journal.splitlines(keepends=True)
    for place, line in enumerate(lines):
        yield f"line {place + 1} doubled", b"".join([*lines[:place], line, *lines[place:]])
        yield f"line {place + 1} dropped", b"".join([*lines[:place], *lines[place + 1 :]])
        if place > 0:
            exchanged = [*lines[: place - 1], line, lines[place - 1], *lines[place + 1 :]]
            yield f"lines {place} and {place + 1} exchanged", b"".join(exchanged)
