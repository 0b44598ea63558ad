"""TOML that others wrote, read within bounds: Python's own reader takes time and memory without measure for some short texts."""

import re
import tomllib
from typing import Any

from reqlock_tools.conflicts import conflict_in
from reqlock_tools.refusal import Refusal

# No key has so many parts, and no number so many digits.
MOST_PARTS = 32
MOST_DIGITS = 64
STRING = r'"""(?:[^"\\]|\\.|"(?!""))*"{3,5}' r"|'''(?:[^']|'(?!''))*'{3,5}" r'|"(?:[^"\\\n]|\\.)*"' r"|'[^'\n]*'"
TOKEN = re.compile(
    rf"(?:{STRING}|#[^\n]*)|(?P<open>[\"'])|(?P<mark>[.\n=,{{}}\[\]])|(?P<digits>[0-9_]{{{MOST_DIGITS},}})", re.DOTALL
)


def refuse_long(text: str) -> None:
    """Refuses keys of many parts, and numbers of many digits."""
    parts = 0
    for token in TOKEN.finditer(text):
        if token["open"]:
            raise Refusal("it is no TOML: a text in it has no end")
        if token["digits"]:
            raise Refusal(f"it has a number or a key of over {MOST_DIGITS} digits")
        if token["mark"]:
            parts = parts + 1 if token["mark"] == "." else 0
        if parts >= MOST_PARTS:
            raise Refusal(f"it has a key of over {MOST_PARTS} parts")


def read_toml(text: str) -> dict[str, Any]:
    refuse_long(text)
    try:
        return tomllib.loads(text)
    except (ValueError, RecursionError) as error:
        raise Refusal(f"it is no TOML: {conflict_in(text) or error}") from None


def value_at(table: dict[str, Any], *keys: str) -> Any:
    """The value at these keys, one in the other; None where it isn't there."""
    value: Any = table
    for key in keys:
        value = value.get(key) if isinstance(value, dict) else None
    return value


def table_at(table: dict[str, Any], *keys: str) -> dict[str, Any]:
    """The table at these keys; an empty one where there is none."""
    value = value_at(table, *keys)
    return value if isinstance(value, dict) else {}
