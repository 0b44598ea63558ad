"""Translates the functions of definitions to Python, one to one: a clause becomes a `case`, and all else its like in Python.

What isn't translated is listed with why: it states something, it takes a form that isn't read, or it calls what was left.
"""

import keyword
import re
from collections.abc import Callable, Iterable
from dataclasses import dataclass
from typing import Any

from definitions import library
from definitions.reading import Function, Module, Unread

CONSTRUCTORS = {"Some", "None", "Ok", "Err", "inl", "inr", "Less", "Equal", "Greater"}
SIGNS = {"+": "+", "*": "*", "^": "**", "++": "+", "==": "==", "&&": "and", "||": "or"}
# What stands behind the name of a function where it isn't called with all its arguments.
VALUE = "_value"
LIBRARY_SIGNS = {"-": "_less", "/": "_quotient", "%": "_remainder"}


def plain(name: str) -> str:
    """A name as Python may have it."""
    word = re.sub(r"\W", "_", name)
    return word + "_" if keyword.iskeyword(word) or word in ("match", "case", "type") else word


@dataclass(frozen=True)
class Named:
    """What a word stands for: a function of a module, a constructor, or a part of the library."""

    kind: str
    name: str
    module: str = ""


@dataclass(frozen=True)
class Word:
    """A word in Python: a function of so many arguments, which is one of the values of definitions under another name; or a value."""

    text: str
    arity: int
    # the constructor that it is, where it is one
    made: str = ""

    def value(self) -> str:
        return self.text + (VALUE if self.arity else "")


class Names:
    """Which word stands for what in each module."""

    def __init__(self, modules: dict[str, Module]):
        self.modules = modules

    def in_module(self, module: str, word: str, is_own: bool = True) -> Named | None:
        """What a module has under a word, its own or, where it is asked for by another one, what it hands on."""
        if module.endswith(".TheVariants"):
            return Named("constructor", word)
        known = self.modules.get(module)
        if known is None:
            is_made = word in CONSTRUCTORS or word in library.CONSTRUCTORS.get(module, ())
            return Named("constructor", word) if is_made else Named("library", word, module)
        if word in known.functions:
            return Named("function", word, module)
        if word in known.constructors:
            return Named("constructor", word)
        for taken in known.imports:
            if word in taken.names and (is_own or taken.is_handed_on):
                return self.in_module(taken.module, taken.names[word], False)
        return None

    def of(self, module: str, word: str) -> Named:
        named = Named("library", word) if word == "tt" else self.in_module(module, word)
        if named is None:
            raise Unread(f"`{word}` isn't known")
        return named

    def under(self, module: str, alias: str, word: str) -> Named | None:
        """What `alias.word` stands for; None where no import has that alias."""
        for taken in self.modules[module].imports:
            if taken.alias == alias:
                return self.in_module(taken.module, word, False)
        return None


class Writer:
    """Writes the functions of one module in Python."""

    def __init__(self, names: Names, module: str, calls: Callable[[str, str], Word]):
        self.names, self.module, self.calls = names, module, calls

    # ---- expressions

    def expression(self, parsed: Any, own: frozenset[str]) -> str:
        write: Callable[..., str] = getattr(self, "of_" + parsed[0])
        return write(*parsed[1:], own)

    def of_number(self, value: int, own: frozenset[str]) -> str:
        return str(value)

    def of_text(self, written: str, own: frozenset[str]) -> str:
        return f'_text("{written}")'

    def of_list(self, own: frozenset[str]) -> str:
        return "()"

    def of_tuple(self, members: list[Any], own: frozenset[str]) -> str:
        return f"({', '.join(self.expression(member, own) for member in members)})"

    def of_if(self, condition: Any, then: Any, other: Any, own: frozenset[str]) -> str:
        return f"({self.expression(then, own)} if {self.expression(condition, own)} else {self.expression(other, own)})"

    def of_lambda(self, name: str, body: Any, own: frozenset[str]) -> str:
        return f"Function(1, lambda {plain(name)}: {self.expression(body, own | {name})})"

    def of_record(self, base: Any, parts: dict[str, Any], own: frozenset[str]) -> str:
        given = ", ".join(f"{plain(name)}={self.expression(part, own)}" for name, part in parts.items())
        return f"Record({given})" if base is None else f"{self.expression(base, own)}.but({given})"

    def of_fields(self, value: Any, fields: list[str], own: frozenset[str]) -> str:
        return self.expression(value, own) + self.fields(fields)

    def fields(self, fields: Iterable[str]) -> str:
        return "".join(f"[{field}]" if field.isdigit() else f".{plain(field)}" for field in fields)

    def of_operator(self, sign: str, left: Any, right: Any, own: frozenset[str]) -> str:
        one, other = self.expression(left, own), self.expression(right, own)
        if sign in SIGNS:
            return f"({one} {SIGNS[sign]} {other})"
        if sign == "∷":
            return f"({one}, *{other})"
        if sign == ">>=":
            return f"{self.word('>>=')}({one}, {other})"
        return f"{LIBRARY_SIGNS[sign]}({one}, {other})"

    def of_apply(self, function: Any, given: list[Any], own: frozenset[str]) -> str:
        if function == ("name", "codes") and given[0][0] == "text":
            return self.expression(given[0], own)
        arguments = [self.expression(argument, own) for argument in given]
        word = self.called(function[1], own) if function[0] == "name" else None
        if word is not None and word.made:
            return f'Made("{word.made}", ({", ".join(arguments)},))'
        if word is None or not 0 < word.arity <= len(given):
            return f"{self.expression(function, own)}({', '.join(arguments)})"
        rest = arguments[word.arity :]
        return f"{word.text}({', '.join(arguments[: word.arity])})" + (f"({', '.join(rest)})" if rest else "")

    def called(self, word: str, own: frozenset[str]) -> Word | None:
        """The function that a word is, where it is one of a module or of the library, to be called with all its arguments at once."""
        return None if word.split(".")[0] in own or "." in word else self.named(self.names.of(self.module, word))

    def of_name(self, word: str, own: frozenset[str]) -> str:
        first, *fields = word.split(".")
        if first in own:
            return plain(first) + self.fields(fields)
        if fields and (named := self.names.under(self.module, first, fields[0])) is not None:
            return self.named(named).value() + self.fields(fields[1:])
        return self.word(first) + self.fields(fields)

    def word(self, word: str) -> str:
        return self.named(self.names.of(self.module, word)).value()

    def named(self, named: Named) -> Word:
        if named.kind == "constructor":
            return Word(f'Made("{named.name}")', 0, named.name)
        if named.kind == "library":
            return library_word(named)
        return self.calls(named.module, named.name)

    # ---- clauses

    def pattern(self, parsed: Any, tails: list[str], guards: list[str]) -> str:
        """A pattern in Python. A rest of a list is bound as a list there: `tails` says which names are to be tuples."""
        if parsed[0] == "list":
            return "()"
        if parsed[0] == "number":
            return str(parsed[1])
        if parsed[0] == "tuple":
            return f"({', '.join(self.pattern(member, tails, guards) for member in parsed[1])})"
        if parsed[0] == "cons":
            return f"({self.pattern(parsed[1], tails, guards)}, {self.rest(parsed[2], tails, guards)})"
        if parsed[0] == "constructor":
            return self.constructed(parsed[1][1], parsed[2], tails, guards)
        return self.bound(parsed[1])

    def rest(self, parsed: Any, tails: list[str], guards: list[str]) -> str:
        if parsed[0] == "cons":
            return f"{self.pattern(parsed[1], tails, guards)}, {self.rest(parsed[2], tails, guards)}"
        if parsed[0] == "list":
            return ""
        tails.append(plain(parsed[1]))
        return f"*{plain(parsed[1])}"

    def constructed(self, word: str, given: list[Any], tails: list[str], guards: list[str]) -> str:
        made = self.constructor(word)
        if made == "suc":
            name = plain(given[0][1])
            guards.append(name)
            return name
        if made is None:
            raise Unread(f"`{word}` in a pattern")
        inner = "".join(self.pattern(pattern, tails, guards) + ", " for pattern in given)
        return f'Made("{made}", ({inner}))'

    def bound(self, word: str) -> str:
        """A word alone: a constructor that takes nothing, or a name for what stands there."""
        if word in ("true", "false", "zero"):
            return {"true": "True", "false": "False", "zero": "0"}[word]
        made = self.constructor(word)
        return plain(word) if made is None else f'Made("{made}", ())'

    def constructor(self, word: str) -> str | None:
        first, _, last = word.partition(".")
        named = self.names.under(self.module, first, last) if last else self.names.in_module(self.module, word)
        if word == "suc":
            return "suc"
        return named.name if named is not None and named.kind == "constructor" else None

    def function(self, function: Function, name: str) -> str:
        """A function of as many arguments as its clauses have patterns."""
        arity = len(function.clauses[0][0])
        arguments = [f"given_{n}" for n in range(arity)]
        lines = [f"def {name}({', '.join(arguments)}):"]
        if arity == 0:
            return lines[0] + f"\n    return {self.expression(function.clauses[0][1], frozenset())}\n"
        plain_clauses = [self.plain_clause(*clause) for clause in function.clauses]
        if None not in plain_clauses:
            return "\n".join([*lines, *(line for clause in plain_clauses for line in clause or [])]) + "\n"
        lines.append(f"    match ({', '.join(arguments)},):")
        for patterns, body in function.clauses:
            lines += self.clause(patterns, body)
        return "\n".join(lines) + "\n"

    def plain_clause(self, patterns: list[Any], body: Any) -> list[str] | None:
        """A clause whose patterns are names, lists and constructors of names, as an `if`, which is sooner done than a `case`; None for another."""
        conditions: list[str] = []
        bindings: list[str] = []
        for number, pattern in enumerate(patterns):
            test = self.plain_test(pattern, f"given_{number}", bindings)
            if test is None:
                return None
            conditions += [test] * bool(test)
        own = frozenset(name for pattern in patterns for name in self.names_in(pattern))
        lines = [*bindings, f"return {self.expression(body, own)}"]
        if not conditions:
            return [f"    {line}" for line in lines]
        return [f"    if {' and '.join(conditions)}:", *(f"        {line}" for line in lines)]

    def plain_test(self, pattern: Any, given: str, bindings: list[str]) -> str | None:
        """What tests whether a value is of a pattern, empty where each is; None where the pattern isn't plain. What it names is bound."""
        if pattern[0] == "list":
            return f"not {given}"
        if pattern[0] == "cons" and self.is_name(pattern[1]) and self.is_name(pattern[2]):
            bindings.append(f"{plain(pattern[1][1])}, {plain(pattern[2][1])} = {given}[0], {given}[1:]")
            return given
        if self.is_name(pattern):
            bindings.append(f"{plain(pattern[1])} = {given}")
            return ""
        word, inner = (pattern[1][1], pattern[2]) if pattern[0] == "constructor" else (pattern[1], [])
        made = self.constructor(word) if pattern[0] in ("constructor", "name") else None
        if made in (None, "suc") or not all(map(self.is_name, inner)):
            return None
        bindings += [f"({', '.join(plain(name[1]) for name in inner)},) = {given}.parts"] if inner else []
        return f'{given}.name == "{made}"'

    def is_name(self, pattern: Any) -> bool:
        """Whether a pattern is a name for whatever stands there."""
        return bool(pattern[0] == "name" and self.bound(pattern[1]) == plain(pattern[1]) and self.constructor(pattern[1]) is None)

    def clause(self, patterns: list[Any], body: Any) -> list[str]:
        tails: list[str] = []
        guards: list[str] = []
        heads = "".join(self.pattern(pattern, tails, guards) + ", " for pattern in patterns)
        own = frozenset(name for pattern in patterns for name in self.names_in(pattern))
        condition = "".join(f"{' if' if n == 0 else ' and'} {guard} > 0" for n, guard in enumerate(guards))
        return [
            f"        case ({heads}){condition}:",
            *(f"            {tail} = tuple({tail})" for tail in tails),
            *(f"            {guard} = {guard} - 1" for guard in guards),
            f"            return {self.expression(body, own)}",
        ]

    def names_in(self, pattern: Any) -> Iterable[str]:
        if pattern[0] == "name":
            if pattern[1] not in ("true", "false", "zero") and self.constructor(pattern[1]) is None:
                yield pattern[1]
        elif pattern[0] == "tuple":
            for member in pattern[1]:
                yield from self.names_in(member)
        elif pattern[0] == "cons":
            yield from self.names_in(pattern[1])
            yield from self.names_in(pattern[2])
        elif pattern[0] == "constructor":
            for member in pattern[2]:
                yield from self.names_in(member)


def library_word(named: Named) -> Word:
    if named.name in ("true", "false"):
        return Word(named.name.capitalize(), 0)
    arity = library.arity_of(named.module, named.name)
    if arity is None:
        raise Unread(f"`{named.name}` of {named.module} isn't among what the library here has")
    return Word(f"_{named.name}", arity)


