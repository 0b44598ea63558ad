"""Which releases an index leaves out, and whether one could have mattered in what `why --explain` tells."""

import json

from support.rules.locks import counted, read_release
from support.rules.requirements import Fault, matches, read_name
from support.rules.told_releases import Line
from support.rules.versions import order_key, read_version


def left_out(data):
    """The releases of an index that don't count, by their names and places: the text of the version, or None where another release has
    that version."""
    versions = {}
    for package in json.loads(data)["packages"]:
        places = {place for place, _ in counted(package["releases"]).values()}
        for place, release in enumerate(package["releases"]):
            if place not in places:
                versions[read_name(package["name"]), place] = None if is_read(release) else release["version"]
    return versions


def is_read(release):
    try:
        return bool(read_release(release))
    except Fault:
        return False


def could_matter(reader, name, version, told):
    """Whether a release that was left out could have been taken: its version doesn't read, or matches the lines that are told and all that
    a sentence says is asked of the name. Of a version that another release has it is None, as text."""
    if version is None:
        return False
    read = read_version(version)
    if read is None:
        return True
    held = reader.problem.held.get(name)
    if held is not None and order_key(held) != order_key(read):
        return False
    if not all(matches(line.requirement.clauses, read) for line in told if line.requirement.name == name):
        return False
    return any(all(may_take(reader, source, name, read) for source in sources) for own, sources in reader.asking if own == name)


def may_take(reader, source, name, version):
    if isinstance(source, Line):
        return source.requirement.name == name and matches(source.requirement.clauses, version)
    wanted = [requirement for key in source.keys for requirement in reader.requirements_at(source[:2], key, name)]
    return any(matches(requirement.clauses, version) for requirement in wanted)
