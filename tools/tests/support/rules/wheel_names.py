"""Which wheel of several an installer takes: the rules of binary distributions' names read plainly. It is written from the rules alone."""

import re
from itertools import product

from support.rules.requirements import want

# NAME-VERSION(-BUILD)?-PYTHON-ABI-PLATFORM.whl, of which a build begins with a digit
WHEEL = re.compile(
    r"(?P<name>[^-]+)-(?P<version>[^-]+)(?:-(?P<number>[0-9]+)(?P<rest>[^-]*))?-(?P<python>[^-]+)-(?P<abi>[^-]+)-(?P<platform>[^-]+)\.whl",
    re.ASCII,
)


def parts_of(name):
    match = WHEEL.fullmatch(name)
    want(match is not None, "the name of a wheel")
    return match


def wheel_tags(name):
    """Each of the last three parts of a wheel's name may stand for several, with dots between: the wheel has all tags of these."""
    parts = parts_of(name)
    return {"-".join(tag) for tag in product(*(parts[part].lower().split(".") for part in ("python", "abi", "platform")))}


def build_of(name):
    """A wheel without a build number stands behind all that have one. The greatest one is taken, by its number and then its text."""
    parts = parts_of(name)
    return () if parts["number"] is None else (int(parts["number"]), parts["rest"])


def best_wheel(names, tags):
    """The name of the wheel that is taken where wheels of these tags run, the best tag first; None where no wheel runs there."""
    places = {tag.lower(): place for place, tag in reversed(list(enumerate(tags)))}
    ranks = {name: min((places[tag] for tag in wheel_tags(name) & places.keys()), default=None) for name in names}
    fitting = [name for name in names if ranks[name] is not None]
    best = [name for name in fitting if ranks[name] == min(ranks[other] for other in fitting)]
    return max(best, key=build_of, default=None)
