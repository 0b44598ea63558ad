"""The values of definitions in Python: numbers, bools, tuples (lists and pairs), and the two kinds here; a text is a tuple of its bytes."""

from __future__ import annotations

from collections.abc import Callable
from typing import Any


class Made:
    """A constructor with what it was given, as `Some 3`. One that takes more can be called with it, as any function."""

    __match_args__ = "name", "parts"
    __slots__ = "name", "parts"

    def __init__(self, name: str, parts: tuple[Any, ...] = ()):
        self.name, self.parts = name, parts

    def __call__(self, *more: Any) -> Made:
        return Made(self.name, self.parts + more)

    def __eq__(self, other: object) -> bool:
        return isinstance(other, Made) and (self.name, self.parts) == (other.name, other.parts)

    def __hash__(self) -> int:
        return hash((self.name, self.parts))

    def __repr__(self) -> str:
        return f"{self.name}({', '.join(map(repr, self.parts))})" if self.parts else self.name


class Record:
    """A record by its fields, in whatever order they were given."""

    def __init__(self, **parts: Any):
        self.__dict__.update(parts)

    def but(self, **parts: Any) -> Record:
        """The same with other values in some fields."""
        return Record(**{**self.__dict__, **parts})

    def __eq__(self, other: object) -> bool:
        return isinstance(other, Record) and self.__dict__ == other.__dict__

    def __hash__(self) -> int:
        return hash(tuple(sorted(self.__dict__.items(), key=lambda member: member[0])))

    def __repr__(self) -> str:
        return f"Record({', '.join(f'{name}={value!r}' for name, value in self.__dict__.items())})"


class Function:
    """A function that takes its arguments one after the other, as every function of a definition does."""

    __slots__ = "arity", "body", "given"

    def __init__(self, arity: int, body: Callable[..., Any], given: tuple[Any, ...] = ()):
        self.arity, self.body, self.given = arity, body, given

    def __call__(self, *more: Any) -> Any:
        given = self.given + more
        if len(given) == self.arity:
            return self.body(*given)
        if len(given) < self.arity:
            return Function(self.arity, self.body, given)
        return self.body(*given[: self.arity])(*given[self.arity :])


NONE = Made("None")


def some(value: Any) -> Made:
    return Made("Some", (value,))


def option(value: Any) -> Made:
    """What Python has as a value or None."""
    return NONE if value is None else some(value)


def text(written: str) -> tuple[int, ...]:
    """The bytes of a text."""
    return tuple(written.encode("utf-8", "surrogateescape"))


def written(data: tuple[int, ...]) -> str:
    """The text of bytes."""
    return bytes(data).decode("utf-8", "surrogateescape")
