"""What the definitions take from the toolchain's own libraries, written in Python: lists, options, orders, bytes, JSON, TOML, SHA-256."""

import hashlib
import json
import tomllib
from collections.abc import Callable
from typing import Any

from definitions.values import NONE, Function, Made, option, some, text

Bytes = tuple[int, ...]
LESS, EQUAL, GREATER = Made("Less"), Made("Equal"), Made("Greater")
DEEPEST = 127
CONSTRUCTORS = {
    "Rattle.serde_json.specs.Data": (
        "null", "boolean", "number", "string", "array", "object", "no_items", "item", "no_members", "member", "unsigned", "negative", "float",
    ),
    "Rattle.toml.specs.Data": (
        "string", "integer", "float", "boolean", "datetime", "array", "table", "no_items", "item", "no_members", "member",
    ),
    "Rattle.std.specs.Prelude": ("Some", "None", "Ok", "Err", "pos", "negsuc"),
    "Rattle.std.proofs.Common": ("inl", "inr"),
}


# ---- numbers, orders


def less(one: int, other: int) -> int:
    """Natural numbers end at 0."""
    return max(one - other, 0)


def quotient(one: int, other: int) -> int:
    return one // other if other else 0


def remainder(one: int, other: int) -> int:
    return one % other if other else one


def compared(one: Any, other: Any) -> Made:
    return LESS if one < other else EQUAL if one == other else GREATER


def slice_cmp(compare: Callable[[Any, Any], Made], one: tuple[Any, ...], other: tuple[Any, ...]) -> Made:
    for left, right in zip(one, other):
        if (order := compare(left, right)) != EQUAL:
            return order
    return compared(len(one), len(other))


def then_cmp(first: Callable[[Any, Any], Made], second: Callable[[Any, Any], Made], one: Any, other: Any) -> Made:
    order = first(one, other)
    return second(one, other) if order == EQUAL else order


def option_cmp(compare: Callable[[Any, Any], Made], one: Made, other: Made) -> Made:
    if one.parts and other.parts:
        return compare(one.parts[0], other.parts[0])
    return compared(len(one.parts), len(other.parts))


# ---- lists, options


def prefix_len(test: Callable[[Any], bool], items: tuple[Any, ...]) -> int:
    return next((at for at, item in enumerate(items) if not test(item)), len(items))


def position_or_len(test: Callable[[Any], bool], items: tuple[Any, ...]) -> int:
    return next((at for at, item in enumerate(items) if test(item)), len(items))


def position_from(test: Callable[[Any], bool], first: int, items: tuple[Any, ...]) -> Made:
    at = position_or_len(test, items)
    return some(first + at) if at < len(items) else NONE


def fold(step: Callable[[Any, Any], Any], start: Any, items: tuple[Any, ...]) -> Any:
    for item in items:
        start = step(start, item)
    return start


def slice_split(test: Callable[[Any], bool], items: tuple[Any, ...]) -> tuple[tuple[Any, ...], ...]:
    pieces: list[list[Any]] = [[]]
    for item in items:
        if test(item):
            pieces.append([])
        else:
            pieces[-1].append(item)
    return tuple(map(tuple, pieces))


def join_with_byte(byte: int, pieces: tuple[Bytes, ...]) -> Bytes:
    return tuple(bytes([byte]).join(map(bytes, pieces)))


def onto_first(byte: int, pieces: tuple[Bytes, ...]) -> tuple[Bytes, ...]:
    return ((byte, *pieces[0]), *pieces[1:]) if pieces else ((byte,),)


def insert_entry(compare: Callable[[Any, Any], Made], entries: tuple[Any, ...], key: Any, value: Any) -> tuple[Any, ...]:
    """The entries with this one in its place among rising keys; one of an equal key keeps its key."""
    for at, entry in enumerate(entries):
        order = compare(key, entry[0])
        if order == LESS:
            return (*entries[:at], (key, value), *entries[at:])
        if order == EQUAL:
            return (*entries[:at], (entry[0], value), *entries[at + 1 :])
    return (*entries, (key, value))


def insert_key(compare: Callable[[Any, Any], Made], keys: tuple[Any, ...], key: Any) -> tuple[Any, ...]:
    for at, other in enumerate(keys):
        order = compare(key, other)
        if order != GREATER:
            return (*keys[:at], key, *keys[at:]) if order == LESS else keys
    return (*keys, key)


def found_first(test: Callable[[Any], bool], entries: tuple[Any, ...]) -> Made:
    for key, value in entries:
        if test(key):
            return some(value)
    return NONE


def filter_map(change: Callable[[Any], Made], items: tuple[Any, ...]) -> tuple[Any, ...]:
    return tuple(part for option in map(change, items) for part in option.parts)


def enumerate_from(first: int, items: tuple[Any, ...]) -> tuple[tuple[int, Any], ...]:
    return tuple(enumerate(items, first))


# ---- texts


def is_utf8(data: Bytes) -> bool:
    try:
        bytes(data).decode("utf-8")
    except UnicodeDecodeError:
        return False
    return True


def decode_sized(digits: Bytes, size: int) -> Made:
    """The bytes that hexadecimal digits write, as many as are wanted; else a fault, whichever it is."""
    try:
        decoded = bytes.fromhex(bytes(digits).decode("ascii"))
    except ValueError:
        return Made("Err", (Made("InvalidHexCharacter"),))
    return Made("Ok", (tuple(decoded),)) if len(digits) == 2 * size == 2 * len(decoded) else Made("Err", (Made("InvalidStringLength"),))


def is_in(*ranges: str) -> Callable[[int], bool]:
    """Whether a byte lies in one of these ranges, each its first and last character."""
    return lambda byte: any(ord(ends[0]) <= byte <= ord(ends[1]) for ends in ranges)


def ends_with(same: Callable[[Any, Any], bool], items: tuple[Any, ...], end: tuple[Any, ...]) -> bool:
    return each_pair(same, end, items[max(len(items) - len(end), 0) :])


# ---- JSON and TOML


def linked(items: list[Any], one: str, none: str) -> Made:
    """Items as the data of the libraries has them: each with the rest behind it."""
    chain = Made(none)
    for fields in reversed(items):
        chain = Made(one, (*fields, chain))
    return chain


def members(table: dict[str, Any], data_of: Callable[[Any], Made]) -> Made:
    """The members of an object, in the byte order of their keys."""
    return linked([(text(key), data_of(table[key])) for key in sorted(table, key=text)], "member", "no_members")


def json_number(value: int | float) -> Made:
    if type(value) is int and 0 <= value < 2**64:
        return Made("unsigned", (value,))
    return Made("negative", (value,)) if type(value) is int and -(2**63) <= value < 0 else Made("float", (float(value),))


def json_data(value: Any) -> Made:
    if value is None:
        return Made("null")
    if isinstance(value, bool):
        return Made("boolean", (value,))
    if isinstance(value, (int, float)):
        return Made("number", (json_number(value),))
    if isinstance(value, str):
        return Made("string", (text(value),))
    if isinstance(value, list):
        return Made("array", (linked([(json_data(item),) for item in value], "item", "no_items"),))
    return Made("object", (members(value, json_data),))


def is_too_deep(value: Any) -> bool:
    """Whether arrays and objects nest deeper than is read."""
    level = [value]
    for _ in range(DEEPEST + 1):
        level = [inner for held in level for inner in (held if isinstance(held, list) else held.values() if isinstance(held, dict) else ())]
        if not level:
            return False
    return True


def refuse(word: str) -> None:
    raise ValueError(word)


def read_json(data: Bytes) -> Made:
    try:
        value = json.loads(bytes(data).decode("utf-8"), parse_constant=refuse)
    except (ValueError, RecursionError):
        return NONE
    return NONE if is_too_deep(value) else some(json_data(value))


def toml_data(value: Any) -> Made:
    if isinstance(value, bool):
        return Made("boolean", (value,))
    if isinstance(value, int):
        return Made("integer", (Made("pos", (value,)) if value >= 0 else Made("negsuc", (-value - 1,)),))
    if isinstance(value, float):
        return Made("float", (value,))
    if isinstance(value, str):
        return Made("string", (text(value),))
    if isinstance(value, list):
        return Made("array", (linked([(toml_data(item),) for item in value], "item", "no_items"),))
    return Made("table", (members(value, toml_data),)) if isinstance(value, dict) else Made("datetime", (value,))


def parse_document(data: Bytes) -> Made:
    try:
        return some(members(tomllib.loads(bytes(data).decode("utf-8")), toml_data))
    except (ValueError, RecursionError):
        return NONE


def get_member(key: Bytes, held: Made) -> Made:
    while held.name == "member":
        if held.parts[0] == key:
            return some(held.parts[1])
        held = held.parts[2]
    return NONE


def get(key: Bytes, data: Made) -> Made:
    return get_member(key, data.parts[0]) if data.name == "object" else NONE


def part_of(kind: str) -> Callable[[Made], Made]:
    """What data of this kind has; nothing for data of another."""
    return lambda data: some(data.parts[0] if data.parts else ()) if data.name == kind else NONE


def members_len(held: Made) -> int:
    count = 0
    while held.name == "member":
        count, held = count + 1, held.parts[2]
    return count


def is_made(*names: str) -> Callable[[Made], bool]:
    return lambda made: made.name in names


def same_text(one: Bytes, other: Bytes) -> bool:
    return one == other


def each_pair(same: Callable[[Any, Any], bool], one: tuple[Any, ...], other: tuple[Any, ...]) -> bool:
    return len(one) == len(other) and all(map(same, one, other))


def mapped(change: Callable[[Any], Any], option: Made) -> Made:
    return some(change(option.parts[0])) if option.parts else NONE


NAMES: dict[str, tuple[int, Any]] = {
    "not": (1, lambda truth: not truth),
    "suc": (1, lambda n: n + 1),
    "max": (2, max),
    "min": (2, min),
    "nat_eq": (2, lambda one, other: one == other),
    "nat_lt": (2, lambda one, other: one < other),
    "nat_le": (2, lambda one, other: one <= other),
    "nat_cmp": (2, compared),
    "bool_cmp": (2, compared),
    "on": (4, lambda part, compare, one, other: compare(part(one), part(other))),
    "then_cmp": (4, then_cmp),
    "ordering_then": (2, lambda first, second: second if first == EQUAL else first),
    "slice_cmp": (3, slice_cmp),
    "option_cmp": (3, option_cmp),
    "pointwise": (3, each_pair),
    "is_eq": (1, is_made("Equal")),
    "is_lt": (1, is_made("Less")),
    "is_gt": (1, is_made("Greater")),
    "is_le": (1, is_made("Less", "Equal")),
    "is_ge": (1, is_made("Greater", "Equal")),
    "length": (1, len),
    "map": (2, lambda change, items: tuple(map(change, items))),
    "filter": (2, lambda test, items: tuple(filter(test, items))),
    "filter_map": (2, filter_map),
    "flat_map": (2, lambda change, items: tuple(part for item in items for part in change(item))),
    "concat": (1, lambda lists: tuple(item for items in lists for item in items)),
    "fold": (3, fold),
    "find": (2, lambda test, items: option(next(filter(test, items), None))),
    "position": (2, lambda test, items: position_from(test, 0, items)),
    "position_from": (3, position_from),
    "position_or_len": (2, position_or_len),
    "prefix_len": (2, prefix_len),
    "suffix_len": (2, lambda test, items: prefix_len(test, items[::-1])),
    "take_while": (2, lambda test, items: items[: prefix_len(test, items)]),
    "before_first": (2, lambda test, items: items[: position_or_len(test, items)]),
    "after_first": (2, lambda test, items: items[position_or_len(test, items) + 1 :]),
    "count_by": (2, lambda test, items: sum(map(test, items))),
    "list_all": (2, lambda test, items: all(map(test, items))),
    "list_any": (2, lambda test, items: any(map(test, items))),
    "take": (2, lambda count, items: items[:count]),
    "drop": (2, lambda count, items: items[count:]),
    "slice_get": (2, lambda items, at: some(items[at]) if at < len(items) else NONE),
    "slice_index": (2, lambda items, at: items[at] if at < len(items) else 0),
    "slice_index_or": (3, lambda items, at, other: items[at] if at < len(items) else other),
    "slice_split": (2, slice_split),
    "enumerate_from": (2, enumerate_from),
    "join_with_byte": (2, join_with_byte),
    "onto_first": (2, onto_first),
    "insert_entry": (4, insert_entry),
    "insert_key": (3, insert_key),
    "lookup": (2, found_first),
    "is_at": (2, lambda compare, key: compare(key) == EQUAL),
    "is_some": (1, is_made("Some")),
    "is_none": (1, is_made("None")),
    "is_ok": (1, is_made("Ok")),
    "is_err": (1, is_made("Err")),
    "result_ok": (1, lambda result: some(result.parts[0]) if result.name == "Ok" else NONE),
    "ok_or": (2, lambda option, fault: Made("Ok", option.parts) if option.parts else Made("Err", (fault,))),
    "unwrap_or": (2, lambda option, other: option.parts[0] if option.parts else other),
    "option_or": (2, lambda option, other: option if option.parts else other),
    "option_map": (2, mapped),
    "option_map_or": (3, lambda change, option, other: change(option.parts[0]) if option.parts else other),
    "option_and_then": (2, lambda change, option: change(option.parts[0]) if option.parts else NONE),
    "option_to_list": (1, lambda option: option.parts),
    "bytes_eq": (2, same_text),
    "is_utf8": (1, is_utf8),
    "decimal": (1, lambda number: text(str(number))),
    "is_ascii_digit": (1, is_in("09")),
    "is_ascii_alphabetic": (1, is_in("az", "AZ")),
    "is_ascii_alphanumeric": (1, is_in("az", "AZ", "09")),
    "is_ascii_lowercase": (1, is_in("az")),
    "is_ascii_graphic": (1, is_in("!~")),
    "is_ascii_hexdigit": (1, is_in("09", "af", "AF")),
    "to_ascii_lowercase": (1, lambda byte: byte + 32 if 65 <= byte <= 90 else byte),
    "tt": (0, ()),
    "match_ordering": (4, lambda order, one, same, other: {"Less": one, "Equal": same, "Greater": other}[order.name]),
    "items_of": (1, lambda items: linked([(item,) for item in items], "item", "no_items")),
    "members_len": (1, members_len),
    "sha256": (1, lambda data: tuple(hashlib.sha256(bytes(data)).digest())),
    "encode_lower": (1, lambda data: text(bytes(data).hex())),
    "read": (1, read_json),
    "parse_document": (1, parse_document),
    "get": (2, get),
    "get_member": (2, get_member),
    "as_null": (1, part_of("null")),
    "as_bool": (1, part_of("boolean")),
    "as_number": (1, part_of("number")),
    "as_str": (1, part_of("string")),
    "as_array": (1, part_of("array")),
    "as_object": (1, part_of("object")),
    "as_u64": (1, part_of("unsigned")),
    "as_integer": (1, part_of("integer")),
    "as_table": (1, part_of("table")),
    "ends_with": (3, ends_with),
}
# The same word means another thing in these modules.
LEFT = {"Rattle.std.specs.BTreeMap": ("get",)}
# (a local of a definition never begins with this sign)
SCOPE: dict[str, Any] = {"_text": text, "_less": less, "_quotient": quotient, "_remainder": remainder}
for _name, (_arity, _body) in NAMES.items():
    SCOPE |= {f"_{_name}": _body, f"_{_name}_value": Function(_arity, _body)}


def arity_of(module: str, name: str) -> int | None:
    """How many arguments a function of a library's module takes; None where it isn't here."""
    return None if name not in NAMES or name in LEFT.get(module, ()) else NAMES[name][0]
