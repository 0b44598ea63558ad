"""Makes completions of fish."""

from page_makers.command import Command, Kind, Option, Value
from page_makers.filling import filled
from page_makers.shells import behind, below, brief, id_of, key, name_functions, offers


# What is done behind commands that have others below them.
DEEPER = """\
                else if contains -- $command[1] {}
                    set command $command[1]/$words[1]
                    break
"""


def quoted(text: str) -> str:
    escaped = text.replace("\\", "\\\\").replace("'", "\\'")
    return f"'{escaped}'"


def action(top: Command, value: Value, kind: Kind) -> str:
    """What offers the words that may stand for a value."""
    if value.choices:
        return f" -a {quoted(' '.join(value.choices))}"
    if kind is Kind.FILE:
        return " -F"
    if kind is Kind.FOLDER:
        return " -a '(__fish_complete_directories)'"
    return "" if kind is Kind.OTHER else f" -a {quoted(f'(__{id_of(top)}_{kind.value})')}"


def option_text(top: Command, option: Option) -> str:
    forms = "".join(f" -l {form[2:]}" if form.startswith("--") else f" -s {form[1:]}" for form in option.forms)
    for value, kind in behind(top, option):
        forms += f" {'-r' if kind is Kind.FILE else '-x'}{action(top, value, kind)}"
        break
    return f"{forms} -d {quoted(brief(option))}"


def condition(top: Command, commands: list[Command]) -> str:
    """Where something is offered: behind some of the commands, before all of them, or everywhere."""
    keys = [key(command) for command in commands]
    if not top.inner or len(keys) == len([command for command in below(top) if command.options]):
        return ""
    if keys == [""]:
        return f" -n __{id_of(top)}_before"
    inner = f"__{id_of(top)}_in {' '.join(filter(None, keys))}"
    return f" -n {quoted(f'__{id_of(top)}_before; or {inner}' if '' in keys else inner)}"


def lines(top: Command) -> list[str]:
    """What is offered: options, commands and words; what is the same of several commands in one line."""
    takers: dict[str, list[Command]] = {}
    texts = []
    for command in below(top):
        for option in command.options:
            takers.setdefault(option_text(top, option), []).append(command)
        for inner in command.inner:
            texts.append(f"{condition(top, [command])} -a {inner.name} -d {quoted(inner.first_line)}")
    words: dict[str, list[Command]] = {}
    for command in below(top):
        for _, value, kind in offers(top, command):
            if text := action(top, value, kind):
                words.setdefault(text, []).append(command)
        if command.passes:
            words.setdefault(" -F", []).append(command)
    texts += [f"{condition(top, places)}{text}" for text, places in words.items()]
    return [*texts, *(f"{condition(top, places)}{text}" for text, places in takers.items())]


def functions(top: Command) -> str:
    options = [option for command in below(top) for option in command.options if option.values and option.values[0].is_needed]
    valued = {form: "" for option in options for form in option.forms}
    inner = " ".join(command.name for command in top.inner if command.inner)
    deeper = DEEPER.format(inner) if inner else ""
    text = filled("commands.fish", ID=id_of(top), NAME=top.name, VALUED=" ".join(valued), DEEPER=deeper) if top.inner else ""
    return text + name_functions(top, "fish")


def fish(top: Command) -> str:
    """The completion of a command. Files are offered where they are meant."""
    told = "".join(f"complete -c {top.name}{line}\n" for line in ["" if takes_files(top) else " -f", *lines(top)] if line)
    return filled("completion.fish", NAME=top.name, FUNCTIONS=functions(top), LINES=told)


def takes_files(top: Command) -> bool:
    return not top.inner and any(kind is Kind.FILE for _, _, kind in offers(top, top))
