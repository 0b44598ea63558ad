"""Makes completions of bash."""

from collections.abc import Iterable

from page_makers.command import Command, Kind
from page_makers.filling import filled
from page_makers.shells import FOLDER_OPTIONS, behind, below, has_names, id_of, key, name_functions, offers, option_words

ARM, INNER = " " * 8, " " * 12


def arms(pairs: Iterable[tuple[str, str]], indent: str = ARM) -> str:
    """The arms of a `case`, those that do the same in one."""
    by_arm: dict[str, list[str]] = {}
    for pattern, done in pairs:
        by_arm.setdefault(done, []).append(pattern)
    return "".join(f"{indent}{' | '.join(patterns)}) {done} ;;\n" for done, patterns in by_arm.items())


def chosen(kind: Kind, choices: tuple[str, ...]) -> str:
    """What is done where such a value stands; nothing is offered of one that nobody knows."""
    if choices:
        return f'words="{" ".join(choices)}"'
    return f"kind={kind.value}" if kind is not Kind.OTHER else "return"


def places(top: Command) -> str:
    """How a word before the one that is completed is read."""
    options = [option for command in below(top) for option in command.options if option.values and option.values[0].is_needed]
    valued = {form: "" for option in options for form in option.forms}
    step = '[ "${COMP_WORDS[place + 1]}" = = ] || ((place++))'
    text = ""
    if has_names(top):
        folder = FOLDER_OPTIONS[top.name]
        del valued[folder]
        text = f"{ARM}{folder}) folder=${{COMP_WORDS[++place]:-.}} ;;\n"
    text += f"{ARM}{' | '.join(valued)}) {step} ;;\n" if valued else ""
    return text + f"{ARM}=) ((place++)) ;;\n{ARM}-*) ;;\n" + commands(top)


def commands(top: Command) -> str:
    """How a word is read that is no option."""
    if not top.inner:
        return f"{ARM}*) ((given++)) ;;\n"
    first = '"") command=${COMP_WORDS[place]} ;;\n'
    if top.words:
        names = " | ".join(command.name for command in top.inner)
        first = (
            f'"")\n{INNER}    case ${{COMP_WORDS[place]}} in\n{INNER}    {names}) command=${{COMP_WORDS[place]}} ;;\n'
            f"{INNER}    *) ((given++)) ;;\n{INNER}    esac\n{INNER}    ;;\n"
        )
    more = "".join(f"{INNER}{command.name}) command+=/${{COMP_WORDS[place]}} ;;\n" for command in top.inner if command.inner)
    return f"{ARM}*)\n{INNER}case $command in\n{INNER}{first}{more}{INNER}*) ((given++)) ;;\n{INNER}esac\n{INNER};;\n"


def values(top: Command) -> str:
    """What stands behind options. One means the same in each command that has it."""
    kinds: dict[str, str] = {}
    for option in (option for command in below(top) for option in command.options):
        for value, kind in list(behind(top, option))[:1]:
            for form in option.forms:
                if kinds.setdefault(f"*,{form},*", chosen(kind, value.choices)) != chosen(kind, value.choices):
                    raise ValueError(f"{form} means several things")
    return arms(kinds.items(), ARM[4:])


def words(top: Command) -> str:
    """What stands behind commands."""
    rows = [
        (f"{key(command)},{place}", chosen(kind, value.choices))
        for command in below(top) for place, value, kind in offers(top, command) if kind is not Kind.OTHER or value.choices
    ]
    return arms(rows + [(f"{key(command)},*", "kind=files") for command in below(top) if command.passes])


def options(top: Command) -> str:
    rows = []
    for command in below(top):
        named = f' commands="{" ".join(inner.name for inner in command.inner)}"' if command.inner else ""
        if command.options or command.inner:
            rows.append((key(command) or '""', f'words="{" ".join(option_words(command))}"{named}'))
    return arms(rows)


def bash(top: Command) -> str:
    """The completion of a command."""
    return filled(
        "completion.bash", ID=id_of(top), NAME=top.name, FUNCTIONS=name_functions(top, "bash"), PLACES=places(top), BEHIND=values(top),
        OPTIONS=options(top), WORDS=words(top),
    )
