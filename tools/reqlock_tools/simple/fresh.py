"""How long a page that is kept needs no asking, by `Cache-Control: max-age` (RFC 9111)."""

import re
import time
from collections.abc import Mapping

from reqlock_tools.simple.cache import Beside

MAX_AGE = re.compile(r"(?:^|[\s,])max-age=\"?([0-9]{1,9})", re.IGNORECASE)
FORBIDS = re.compile(r"(?:^|[\s,])(?:no-cache|no-store)(?:$|[\s,=])", re.IGNORECASE)
NUMBER = re.compile("[0-9]{1,9}")
# No index keeps its pages from being asked for longer than a day.
MOST_SECONDS = 86_400


def seconds_of(headers: Mapping[str, str]) -> int:
    """How long an answer is fresh from now on."""
    told = headers.get("Cache-Control", "")
    max_age, age = MAX_AGE.search(told), NUMBER.fullmatch(headers.get("Age", "0").strip())
    if max_age is None or FORBIDS.search(told) or age is None:
        return 0
    return min(MOST_SECONDS, int(max_age[1]) - int(age[0]))


def freshness(headers: Mapping[str, str]) -> Beside:
    """What stands beside a page that is fresh for a while; nothing where it isn't."""
    seconds = seconds_of(headers)
    return {"fresh_until": int(time.time()) + seconds} if seconds > 0 else {}


def is_fresh(beside: Beside) -> bool:
    """Whether a page that is there needs no asking. One from the future does: the clock was put back."""
    until = beside.get("fresh_until")
    return isinstance(until, int) and not beside["is_absent"] and 0 < until - time.time() <= MOST_SECONDS
