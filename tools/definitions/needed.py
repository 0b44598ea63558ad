"""Which definitions a promise rests on: those that its contracts name, what these name, and so on, in reading order."""

import re
from collections.abc import Iterator
from dataclasses import dataclass

from definitions.reading import TOKEN, Module

Key = tuple[str, str]
# What stands at the head of a file and defines nothing.
PASSED_OVER = re.compile(r"(?:pub )?(?:use|mod) |infix")


@dataclass(frozen=True)
class Needed:
    """What of a file is needed: the lines of these definitions, in the order of the file."""

    module: str
    names: tuple[str, ...]
    lines: int


class Uses:
    """What each definition names. Of some it is told what stands in their place."""

    def __init__(self, modules: dict[str, Module], told: dict[Key, tuple[Key, ...]]):
        self.modules, self.told = modules, told

    def place(self, module: str, word: str, is_own: bool = True) -> Key | None:
        """Where a word's definition stands; None where it is none of these modules'."""
        known = self.modules.get(module)
        if known is None:
            return None
        if word in known.items:
            return module, word
        if word in known.constructors:
            return next(((module, name) for name, item in known.items.items() if re.search(rf"^\s+(?:pub )?{re.escape(word)} :", item, re.M)), None)
        for taken in known.imports:
            if word in taken.names and (is_own or taken.is_handed_on):
                return self.place(taken.module, taken.names[word], False)
        return None

    def named_by(self, key: Key) -> Iterator[Key]:
        if key in self.told:
            yield from self.told[key]
            return
        for token in dict.fromkeys(TOKEN.findall(self.modules[key[0]].items[key[1]])):
            for word in {token, token.split(".")[0], token.rstrip(".")}:
                named = self.place(key[0], word)
                if named is not None and named != key:
                    yield named

    def all_from(self, roots: list[Key]) -> list[Key]:
        """What these rest on and they, each behind what it names."""
        reached: dict[Key, None] = {}
        begun: set[Key] = set()
        stack = [(root, iter(tuple(self.named_by(root)))) for root in reversed(roots)]
        begun.update(roots)
        while stack:
            key, rest = stack[-1]
            following = next(rest, None)
            if following is None:
                reached[key] = None
                stack.pop()
            elif following not in begun:
                begun.add(following)
                stack.append((following, iter(tuple(self.named_by(following)))))
        return list(reached)

    def lines_of(self, key: Key) -> int:
        return self.modules[key[0]].items[key[1]].count("\n")


def files_of(uses: Uses, keys: list[Key]) -> list[Needed]:
    """The files of definitions, in the order in which their last one is wanted."""
    by_file: dict[str, list[Key]] = {}
    for key in keys:
        by_file.setdefault(key[0], []).append(key)
    return [
        Needed(module, tuple(name for name in uses.modules[module].items if (module, name) in members), sum(map(uses.lines_of, members)))
        for module, members in by_file.items()
    ]
