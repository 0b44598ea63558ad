"""All definitions of a checkout in Python: what could be translated as functions, and the others with why they weren't."""

from __future__ import annotations

import functools
import sys
from pathlib import Path
from typing import Any

from definitions import library, values
from definitions.reading import Module, Unread, read_module
from definitions.translation import VALUE, Names, Word, Writer, plain

Key = tuple[str, str]
# A definition goes over a list by calling itself for the rest.
DEEPEST = 20_000


def modules_in(crates: Path) -> dict[str, Module]:
    """The modules of all crates, by their names."""
    modules = {}
    for path in sorted(crates.glob("*/specs/**/*.antt")):
        name = ".".join(["Rattle", *path.relative_to(crates).with_suffix("").parts])
        modules[name] = read_module(name, path)
    return modules


def python_name(key: Key) -> str:
    return plain(f"{key[0].removeprefix('Rattle.').replace('.specs', '')}__{'bind' if key[1] == '>>=' else key[1]}")


class Definitions:
    """The functions of all definitions: `definitions["pep440", "Matching", "matches"]`, and `left`: those that aren't, with why."""

    def __init__(self, crates: Path):
        self.modules = modules_in(crates)
        self.names = Names(self.modules)
        self.texts: dict[Key, str] = {}
        self.called: dict[Key, set[Key]] = {}
        self.left: dict[Key, str] = {}
        for module in self.modules.values():
            for name in module.functions:
                self.translate((module.name, name))
        self.leave_callers()
        self.scope = self.run()

    def translate(self, key: Key) -> None:
        function = self.modules[key[0]].functions[key[1]]
        called: set[Key] = set()

        def calls(module: str, name: str) -> Word:
            called.add((module, name))
            clauses = self.modules[module].functions[name].clauses
            arity = len(clauses[0][0]) if clauses else 0
            return Word(python_name((module, name)) + ("" if arity else "()"), arity)

        try:
            if function.why is not None:
                raise Unread(function.why)
            self.texts[key] = Writer(self.names, key[0], calls).function(function, python_name(key))
            self.called[key] = called
        except Unread as fault:
            self.left[key] = str(fault)

    def leave_callers(self) -> None:
        """What calls a function that was left is left too."""
        callers: dict[Key, list[Key]] = {}
        for key, called in self.called.items():
            for callee in called:
                callers.setdefault(callee, []).append(key)
        waiting = list(self.left)
        while waiting:
            gone = waiting.pop()
            for caller in callers.get(gone, []):
                if caller in self.texts:
                    del self.texts[caller]
                    self.left[caller] = f"it calls `{gone[1]}` of {gone[0]}, which is left"
                    waiting.append(caller)

    def text(self) -> str:
        """Everything as one Python module."""
        return "\n\n".join(self.text_of(key) for key in self.texts)

    def text_of(self, key: Key) -> str:
        name = python_name(key)
        arity = len(self.modules[key[0]].functions[key[1]].clauses[0][0])
        head = "@functools.cache\n" if arity == 0 else ""
        return head + self.texts[key] + (f"{name}{VALUE} = Function({arity}, {name})\n" if arity else "")

    def run(self) -> dict[str, Any]:
        sys.setrecursionlimit(max(sys.getrecursionlimit(), DEEPEST))
        scope: dict[str, Any] = {"functools": functools, **vars(values), **library.SCOPE}
        exec(compile(self.text(), "<definitions>", "exec"), scope)  # noqa: S102 (it is what was just translated)
        return scope

    def __getitem__(self, place: tuple[str, str, str]) -> Any:
        """The function of a crate's module, or its value where it takes nothing."""
        crate, module, name = place
        key = f"Rattle.{crate}.specs.{module}", name
        if key in self.left:
            raise KeyError(f"{name} of {key[0]}: {self.left[key]}")
        word = python_name(key)
        return self.scope[word + VALUE] if word + VALUE in self.scope else self.scope[word]()
