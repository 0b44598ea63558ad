"""What a lock's file is read as: the rules of its table read plainly, for tests that ask what an answer must be. It is written from the
rules alone."""

import re
import tomllib
from functools import lru_cache

from support.rules.requirements import Fault, want
from support.rules.values import is_rising, want_digest, want_entry, want_keys, want_list, want_text


def file_of_table(table):
    want_keys(table, ("name", "url", "size", "hashes"))
    want_keys(table["hashes"], ("sha256",))
    return {"name": table["name"], "sha256": table["hashes"]["sha256"], "size": table["size"], "url": table["url"]}


def members_of(package, key):
    """The array at a key of a package, which is absent rather than empty."""
    if key not in package:
        return []
    want(isinstance(package[key], list) and package[key], "an array that isn't empty")
    return package[key]


def entry_of_table(package):
    want(isinstance(package, dict), "a table")
    want({"name", "version"} <= set(package), "a name and a version")
    want(set(package) <= {"name", "version", "requires-python", "dependencies", "sdist", "wheels"}, "known keys")
    dependencies = members_of(package, "dependencies")
    for table in dependencies:
        want_keys(table, ("name",))
    entry = {
        "dependencies": [table["name"] for table in dependencies],
        "requires_python": package.get("requires-python"),
        "sdist": file_of_table(package["sdist"]) if "sdist" in package else None,
        "version": package["version"],
        "wheels": [file_of_table(table) for table in members_of(package, "wheels")],
    }
    want_entry(package["name"], entry)
    return package["name"], entry


# A quoted text, a comment, `=` with the space around it, a line break, characters that mean nothing here, or another one.
TOML_PART = re.compile(r""""(?:[^"\\\n]|\\.)*"|'[^'\n]*'|#[^\n]*|\s*=\s*|\r?\n|[^"'#=\s{}]+|.""", re.DOTALL)


def in_toml_1_0(text):
    """The text without the line breaks that TOML 1.1 allows in an inline table, anywhere but around `=`. The program reads 1.1, and
    Python 1.0."""
    depth, parts = 0, []
    for part in TOML_PART.findall(text):
        if part in ('"', "'"):
            return text  # a quoted text ends with its line: neither reads it
        depth += {"{": 1, "}": -1}.get(part, 0)
        parts.append(" " if depth > 0 and part in ("\n", "\r\n") else part)
    return "".join(parts)


def read_lock_table(data):
    """The text of a lock's environment, its digest of the index, and its entries by name."""
    environment, digest, entries = parsed(data)
    return environment, digest, dict(entries)


@lru_cache(2**9)
def parsed(data):
    try:
        lock = tomllib.loads(in_toml_1_0(data.decode("utf-8")))
    except (ValueError, RecursionError):
        raise Fault("TOML") from None
    want_keys(lock, ("lock-version", "environments", "created-by", "packages", "tool"))
    want(lock["lock-version"] == "1.0" and lock["created-by"] == "reqlock", "a lock")
    want_list(lock["environments"])
    want(len(lock["environments"]) == 1, "one environment")
    want_text(lock["environments"][0])
    want_keys(lock["tool"], ("reqlock",))
    want_keys(lock["tool"]["reqlock"], ("snapshot",))
    want_digest(lock["tool"]["reqlock"]["snapshot"])
    want_list(lock["packages"])
    entries = list(map(entry_of_table, lock["packages"]))
    want(is_rising([name for name, _ in entries]), "rising names")
    return lock["environments"][0], lock["tool"]["reqlock"]["snapshot"], dict(entries)
