"""The forms of values that journals and locks share, for the rules of both. Each refuses what hasn't the form."""

import re

from support.rules.requirements import NAME, normal, read_set, read_version, want
from support.rules.versions import canonical

LARGEST = 2**64 - 1
LARGEST_SIZE = 2**63 - 1
ENTRY_KEYS = {"dependencies", "requires_python", "sdist", "version", "wheels"}


def is_rising(texts):
    return all(one < other for one, other in zip(texts, texts[1:]))


def want_keys(table, keys):
    want(isinstance(table, dict) and set(table) == set(keys), "these keys")


def want_number(value, most=LARGEST):
    want(type(value) is int and 0 <= value <= most, "a number")


def want_text(value, pattern=""):
    want(isinstance(value, str) and re.search(pattern, value), "a text")


def want_digest(value):
    want_text(value, r"\A[0-9a-f]{64}\Z")


def want_name(value):
    want_text(value)
    want(re.fullmatch(NAME, value) and normal(value) == value, "a normal name")


def want_list(value):
    want(isinstance(value, list), "an array")


def want_file(file, end):
    want_keys(file, ("name", "sha256", "size", "url"))
    want_text(file["name"], end)
    want_text(file["url"])
    want_number(file["size"], LARGEST_SIZE)
    want_digest(file["sha256"])


def want_entry(name, entry):
    """A package's entry, in the form that a journal gives it."""
    want_name(name)
    want_keys(entry, ENTRY_KEYS)
    want_text(entry["version"])
    version = read_version(entry["version"])
    want(version is not None and canonical(version) == entry["version"], "a canonical version")
    if entry["requires_python"] is not None:
        want_text(entry["requires_python"])
        want(read_set(entry["requires_python"]), "a set that isn't empty")
    want_list(entry["dependencies"])
    for other in entry["dependencies"]:
        want_name(other)
    want(is_rising(entry["dependencies"]) and name not in entry["dependencies"], "rising names of others")
    want_list(entry["wheels"])
    for file in entry["wheels"]:
        want_file(file, r"\.whl\Z")
    want(is_rising([file["name"] for file in entry["wheels"]]), "rising names of wheels")
    if entry["sdist"] is not None:
        want_file(entry["sdist"], r"\.(tar\.gz|zip)\Z")
    want(entry["wheels"] or entry["sdist"] is not None, "a file")
