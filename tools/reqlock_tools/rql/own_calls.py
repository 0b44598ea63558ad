"""The calls that reqlock and its tools print to be typed, and what rql has for each of them. What the settings of a project say already, as
folder, index and environments, stands in no call of rql."""

import os
import shlex
from collections.abc import Callable
from dataclasses import dataclass

# Options that the settings make needless, each with the word behind it.
OF_SETTINGS = "--dir", "--index", "--env", "--for", "--output", "--color"
# Subcommands that are words of rql too, and mean the same there.
ALIKE = (
    "add", "remove", "constrain", "upgrade", "relock", "retarget", "undo", "redo", "forget", "show", "log", "diff", "outdated", "skipped", "export",
    "check", "why",
)


@dataclass(frozen=True)
class Here:
    """Where calls are typed: `start` is the folder that -C named, and `base` that of the settings, as it is typed from here. `question` is
    what a question says behind `rql why` of an edit whose lines stand in a file."""

    start: str = "."
    base: str = "."
    question: tuple[str, ...] = ("--replace",)


@dataclass(frozen=True)
class Call:
    """A call: the program with its subcommand, and the words that are no settings."""

    word: str
    words: tuple[str, ...]


def call_of(text: str) -> Call | None:
    """The call that a text spells; None where it spells none."""
    try:
        program, *words = shlex.split(text)
    except ValueError:
        return None
    kept = without_settings(words)
    place = next((place for place, word in enumerate(kept) if not word.startswith("-")), None)
    if place is None:
        return Call(program, tuple(kept))
    return Call(f"{program} {kept[place]}", (*kept[:place], *kept[place + 1 :]))


def without_settings(words: list[str]) -> list[str]:
    """The words but for what settings say. Behind `--` stand texts alone."""
    kept: list[str] = []
    rest = iter(words)
    for word in rest:
        option, is_whole, _ = word.partition("=")
        if option in OF_SETTINGS:
            if not is_whole:
                next(rest, None)
        else:
            kept.append(word)
        if word == "--":
            kept += rest
    return kept


def alike(word: str) -> Callable[[Call, Here], list[str]]:
    return lambda call, here: [*front(here.start), word, *call.words]


def front(folder: str) -> list[str]:
    return ["rql", *(["-C", folder] if folder != "." else [])]


def shown(call: Call, here: Here) -> list[str]:
    """The tree has a word of its own."""
    words = [word for word in call.words if word != "--tree"]
    return [*front(here.start), "tree" if "--tree" in call.words else "show", *words]


def asked(call: Call, here: Here) -> list[str]:
    """A question. Of lines that stand in a file the program doesn't know which file that was."""
    words = [*call.words[:-1], *here.question] if call.words[-1:] == ("--replace",) else [*call.words]
    return [*front(here.start), "why", *words]


def replaced(call: Call, here: Here) -> list[str] | None:
    """What `replace` does for one line, or for lines that were changed by hand."""
    match call.words:
        case ("--line", _, text):
            return [*front(here.start), "set", text]
        case ("--was", _):
            return [*front(here.start), "lock"]
    return None


def begun(call: Call, here: Here) -> list[str]:
    """A history that begins anew. Its settings stand in their own folder, from which the locks are named whose pins are kept."""
    pins = [value for option, value in zip(call.words, call.words[1:]) if option == "--pins"]
    paths = [os.path.relpath(pin.rpartition("=")[2], here.base) for pin in pins]
    return [*front(here.base), "init", *(word for path in paths for word in ("--from", path))]


def remade(call: Call, here: Here) -> list[str]:
    """An index with more names. The first word behind `simple` is the address that the settings have."""
    return [*front(here.start), "index", *call.words["simple" in call.word :]]


# What makes a call of rql of each, by the program and its subcommand.
WAYS: dict[str, Callable[[Call, Here], list[str] | None]] = {
    **{f"reqlock {word}": alike(word) for word in ALIKE},
    "reqlock show": shown, "reqlock why": asked, "reqlock replace": replaced, "reqlock init": begun,
    "reqlock-snapshot again": remade, "reqlock-snapshot simple": remade, "reqlock-merge": alike("lock"),
}


def own_call(text: str, here: Here) -> str | None:
    """The call of rql that does what a call does, as it is typed; None where there is none. Where its output is put stays."""
    bare, mark, output = text.partition(" >")
    is_put = mark != "" and "'" not in output
    call = call_of(bare if is_put else text)
    words = WAYS[call.word](call, here) if call is not None and call.word in WAYS else None
    return None if words is None else " ".join(map(quoted, words)) + (f" >{output}" if is_put else "")


def quoted(word: str) -> str:
    """A word as each shell takes it: zsh takes one that begins with = for the name of a command."""
    return f"'{word}'" if word.startswith("=") and shlex.quote(word) == word else shlex.quote(word)
