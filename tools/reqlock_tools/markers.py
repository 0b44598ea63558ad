"""Markers (PEP 508) as reqlock reads them: trees of comparisons, what decides them, and where they hold or can hold."""

import re
from collections.abc import Callable, Iterator, Mapping, Sequence
from functools import lru_cache
from typing import NamedTuple

from reqlock_tools.environment import VARIABLES
from reqlock_tools.specifiers import SIGNS, matches, read_clause
from reqlock_tools.versions import is_name, normal, read_version

NO_EXTRA = ""
MOST_OPEN, LONGEST = 64, 2**13
TOKEN = re.compile(r"""[ \t]*(?:('[^']*'|"[^"]*")|([A-Za-z_.]+)|(~=|===?|!=|<=?|>=?)|([()]))""")
# Names that older packages write for variables.
OLDER = {
    "os.name": "os_name", "sys.platform": "sys_platform", "platform.version": "platform_version",
    "platform.machine": "platform_machine", "platform.python_implementation": "platform_python_implementation",
    "python_implementation": "platform_python_implementation",
}


class Side(NamedTuple):
    """One side of a comparison: a quoted text, or the name of a variable."""

    text: str
    is_name: bool


class Comparison(NamedTuple):
    left: Side
    sign: str
    right: Side

    def names(self) -> set[str]:
        """The variables that it reads."""
        return {side.text for side in (self.left, self.right) if side.is_name}

    def extra(self) -> str | None:
        """The extra that it compares with, in normal form, None where that is no name."""
        texts = [side.text for side in (self.left, self.right) if not side.is_name]
        return normal(texts[0]) if len(texts) == 1 and is_name(texts[0]) else None


class Junction(NamedTuple):
    """Parts of which one must hold, or all."""

    takes_one: bool
    parts: tuple["Tree", ...]


Tree = Comparison | Junction


class Unread(Exception):
    """A text is no marker."""


class Reader:
    """Takes a marker's words one by one."""

    def __init__(self, text: str) -> None:
        self.words = list(words_of(text))
        self.place = self.open = 0

    def next(self) -> str:
        return self.words[self.place] if self.place < len(self.words) else ""

    def take(self) -> str:
        word = self.next()
        self.place += 1
        return word

    def joined(self, word: str) -> Tree:
        """What stands between the words `or`, or between the words `and`."""
        read: Callable[[], Tree] = (lambda: self.joined("and")) if word == "or" else self.part
        parts = [read()]
        while self.next() == word:
            self.take()
            parts.append(read())
        return parts[0] if len(parts) == 1 else Junction(word == "or", tuple(parts))

    def part(self) -> Tree:
        """A comparison, or what stands in parentheses."""
        if self.next() != "(":
            return self.comparison()
        self.take()
        self.open += 1
        if self.open > MOST_OPEN:
            raise Unread
        tree = self.joined("or")
        self.open -= 1
        if self.take() != ")":
            raise Unread
        return tree

    def comparison(self) -> Comparison:
        left, sign = self.side(), self.take()
        if sign == "not" and self.next() == "in":
            sign = f"not {self.take()}"
        if sign not in (*SIGNS, "~=", "===", "in", "not in"):
            raise Unread
        return Comparison(left, sign, self.side())

    def side(self) -> Side:
        word = self.take()
        if word.startswith(("'", '"')):
            return Side(word[1:-1], False)
        name = OLDER.get(word, word)
        if name not in (*VARIABLES, "extra"):
            raise Unread
        return Side(name, True)


def words_of(text: str) -> Iterator[str]:
    place, text = 0, text.rstrip(" \t")
    while place < len(text):
        token = TOKEN.match(text, place)
        if token is None:
            raise Unread
        yield token[0].lstrip(" \t")
        place = token.end()


@lru_cache(maxsize=2**12)
def tree_of(text: str) -> Tree | None:
    """The tree of a marker, also of one that was lawful once; None where it is none, or a longer one than any is."""
    if len(text) > LONGEST:
        return None
    try:
        reader = Reader(text)
        tree = reader.joined("or")
    except Unread:
        return None
    return tree if reader.place == len(reader.words) else None


def compare(left: str, sign: str, right: str) -> bool:
    """A comparison of two texts, by versions where both sides read so."""
    if sign in ("in", "not in"):
        return (left in right) == (sign == "in")
    clause, version = read_clause(sign + right) if "," not in right else None, read_version(left)
    if clause is not None and version is not None:
        return matches([clause], version)
    return sign in SIGNS and bool(SIGNS[sign](left, right))


def value(side: Side, environment: Mapping[str, str]) -> str:
    return environment.get(side.text, "") if side.is_name else side.text


class Extras(NamedTuple):
    """Some extras, or all others than these. An empty name stands for none."""

    names: frozenset[str]
    is_others: bool

    def has(self, extra: str) -> bool:
        return (extra in self.names) != self.is_others

    def others(self) -> "Extras":
        return Extras(self.names, not self.is_others)


ALL = Extras(frozenset(), True)


def union(parts: list[Extras]) -> Extras:
    names = frozenset[str]().union(*(part.names for part in parts if not part.is_others))
    others = [part.names for part in parts if part.is_others]
    return Extras(frozenset.intersection(*others) - names, True) if others else Extras(names, False)


def comparison_extras(comparison: Comparison, environment: Mapping[str, str] | None) -> Extras:
    """The extras with which a comparison can hold. Without an environment each can, but for one of `extra`; so can `===`."""
    names = comparison.names()
    if "extra" in names:
        if comparison.sign not in ("==", "!=") or comparison.left.is_name == comparison.right.is_name:
            return ALL
        extra = comparison.extra()
        return Extras(frozenset() if extra is None else frozenset([extra]), comparison.sign == "!=")
    if comparison.sign == "===" or environment is None and names:
        return ALL
    holds = compare(value(comparison.left, environment or {}), comparison.sign, value(comparison.right, environment or {}))
    return ALL if holds else ALL.others()


def tree_extras(tree: Tree, environment: Mapping[str, str] | None) -> Extras:
    """The extras with which a marker can hold, each comparison read once."""
    if isinstance(tree, Comparison):
        return comparison_extras(tree, environment)
    parts = [tree_extras(part, environment) for part in tree.parts]
    return union(parts) if tree.takes_one else union([part.others() for part in parts]).others()


def comparisons(tree: Tree) -> Iterator[Comparison]:
    if isinstance(tree, Comparison):
        yield tree
    else:
        for part in tree.parts:
            yield from comparisons(part)


def extras_of(tree: Tree) -> set[str]:
    """The extras that a marker compares with. With each other one it holds as with none."""
    return {extra for comparison in comparisons(tree) if "extra" in comparison.names() and (extra := comparison.extra()) is not None}


class Markers:
    """Where markers can hold: in which of the environments, or anywhere where none is given. Environments are told as the bits of a
    number, the first as its lowest."""

    def __init__(self, environments: Sequence[Mapping[str, str]]) -> None:
        self.environments: list[Mapping[str, str] | None] = [*environments] or [None]
        self.all = (1 << len(self.environments)) - 1
        self.known: dict[str, list[Extras]] = {}

    def where(self, marker: str, extra: str) -> int:
        """The environments in which a marker can hold with an extra, or with none. One that isn't read can in each."""
        if marker == "":
            return self.all
        if marker not in self.known:
            tree = tree_of(marker)
            self.known[marker] = [tree_extras(tree, environment) if tree else ALL for environment in self.environments]
        return sum(1 << place for place, extras in enumerate(self.known[marker]) if extras.has(extra))

    def can_hold(self, marker: str, extra: str) -> bool:
        """Whether a marker can hold somewhere with an extra, or with none."""
        return self.where(marker, extra) != 0
