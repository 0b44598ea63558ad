"""The environments that a snapshot is for, as words name them."""

import re
from collections.abc import Iterable

from reqlock_tools.environment import VARIABLES, own_environment
from reqlock_tools.names import called
from reqlock_tools.refusal import Say
from reqlock_tools.requirements import environment_node, variables_in
from reqlock_tools.simple.plan import Environment, environment_of

NAMED = re.compile(r"([A-Za-z0-9._-]+)=(.+)")


def own_target() -> Environment:
    """The environment of the Python that runs."""
    described = own_environment()
    return environment_of("", described, {name: str(described[name]) for name in VARIABLES})


def read_target(word: str) -> tuple[str, Environment]:
    """The file that a word names, as FILE or NAME=FILE, and the environment in it."""
    named = NAMED.fullmatch(word)
    name, path = (named[1], named[2]) if named else ("", word)
    node = environment_node(path)
    variables = variables_in(node)
    return path, environment_of(name, node.object(), variables)


def read_targets(words: Iterable[str], is_any: bool, is_here: bool, say: Say) -> tuple[Environment, ...]:
    """The environments of words. Where they are to be installed here, wheels of this Python count for those that tell of none, and where
    there is no word, this Python is the one that counts."""
    targets = []
    for path, target in map(read_target, words):
        if target.built is None and is_here:
            target = Environment(target.name, target.variables, own_target().built)
        if target.built is None and not is_any:
            way = called("tools/environment.py prints one that does")
            say(f"{path}: it doesn't tell which wheels it takes, so none is left out for it; {way}")
        targets.append(target)
    return tuple(targets) if targets or not is_here else (own_target(),)
