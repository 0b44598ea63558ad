"""Changes of arrays in pyproject.toml, by tomlkit, which leaves all else as it is. What it makes is read again, and refused where it is
anything but what was to be."""

import sys
from typing import Any

from reqlock_tools.libraries import library
from reqlock_tools.refusal import Refusal
from reqlock_tools.rql.faults import SettingsFault
from reqlock_tools.rql.sources_splice import Splice
from reqlock_tools.toml import read_toml


def changed_array(text: str, splice: Splice) -> str:
    """A pyproject.toml with one item put in, taken out or exchanged."""
    tomlkit = library("tomlkit")
    if tomlkit is None:
        raise SettingsFault(f"{sys.executable} has no library tomlkit, by which {splice.section.path.name} is changed: pip install tomlkit")
    where = f"{splice.section.path}: {'.'.join(splice.section.keys)}"
    wanted = read_toml(text)
    if array_at(wanted, splice.section.keys) is None:
        raise SettingsFault(f"{where}: there is no such array: write it as []")
    put(array_at(wanted, splice.section.keys), splice)
    try:
        document = tomlkit.parse(text)
        is_same = tomlkit.dumps(document) == text
        put(array_at(document, splice.section.keys), splice)
        changed: str = tomlkit.dumps(document)
        if is_same and read_toml(changed) == wanted:
            return changed
    except (ValueError, TypeError, IndexError, KeyError, Refusal):
        pass
    raise SettingsFault(f"{where}: its array is written so that it can't be changed here: change it by hand, and then rql lock")


def array_at(table: Any, keys: tuple[str, ...]) -> Any:
    """The array at some keys; None where there is none."""
    for key in keys:
        table = table.get(key)
        if table is None:
            return None
    return table


def put(array: Any, splice: Splice) -> None:
    """Changes an array as a splice tells."""
    if splice.old is not None and splice.place is not None:
        if splice.new is None:
            del array[splice.place]
        else:
            array[splice.place] = splice.new
    elif splice.place is None:
        array.append(splice.new)
    else:
        array.insert(splice.place, splice.new)
