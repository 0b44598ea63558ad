"""Makes manual pages. Their templates have what no help says."""

from page_makers.command import Command, Option, Value
from page_makers.filling import filled


def quoted(text: str) -> str:
    """A text as roff has it."""
    text = text.replace("\\", "\\e").replace("-", "\\-")
    return f"\\&{text}" if text.startswith((".", "'")) else text


def shown(value: Value) -> str:
    return quoted(value.shown()).replace(quoted(value.name), f"\\fI{quoted(value.name)}\\fR", 1)


def paragraphs(text: str) -> str:
    """Paragraphs, filled; those with an indented line stay as they are."""
    told = []
    for block in filter(None, text.strip("\n").split("\n\n")):
        lines = [quoted(line) for line in block.strip("\n").split("\n")]
        told.append("\n".join([".nf", *lines, ".fi"] if "\n " in f"\n{block}" else lines))
    return "".join(f".PP\n{paragraph}\n" for paragraph in told).removeprefix(".PP\n")


def told_option(option: Option) -> str:
    forms = ", ".join(f"\\fB{quoted(form)}\\fR" for form in option.forms)
    return f".TP\n{' '.join((forms, *map(shown, option.values)))}\n{quoted(option.help)}\n"


def told_words(command: Command) -> str:
    return "".join(f".TP\n\\fI{quoted(word.name)}\\fR\n{quoted(word.help)}\n" for word in command.words if word.help)


def told_options(command: Command, others: tuple[Option, ...] = ()) -> str:
    """The options of a command; of those that others are too, the names alone."""
    options = [option for option in command.options if "--help" not in option.forms]
    shared = ", ".join(f"\\fB{quoted(option.longest())}\\fR" for option in options if option in others)
    return "".join(told_option(option) for option in options if option not in others) + (f".PP\nTakes also: {shared}\n" if shared else "")


def head(names: tuple[str, ...], command: Command, option: str = "") -> str:
    """The words of a command, with its values in italics."""
    return " ".join(filter(None, (f"\\fB{quoted(' '.join(names))}\\fR", option, *map(shown, command.words))))


def told_command(command: Command, top: Command) -> str:
    """What a page says of a command below another one."""
    if command.inner:
        return "".join(told_command(inner, top) for inner in command.inner)
    example = f".PP\n{paragraphs(command.more)}" if command.more not in ("", top.more) else ""
    text = f".SS {head(command.path[len(top.path) :], command)}\n{paragraphs(command.about)}"
    return text + told_words(command) + told_options(command, top.options) + example


def section(title: str, text: str) -> str:
    """A section, where it has some text."""
    return f".SH {title}\n{text}" if text else ""


def manual(command: Command, page: str) -> str:
    """The manual page of a command, of the template with this name."""
    first, _, rest = command.about.partition("\n")
    words = [head(command.path, command, "[\\fIOPTION\\fR ..]")] if command.words or not command.inner else []
    words += [f"\\fB{quoted(command.name)}\\fR [\\fIOPTION\\fR ..] \\fICOMMAND\\fR [\\fIWORD\\fR ..]"] if command.inner else []
    return filled(
        page, TITLE=quoted(command.name.upper()), NAME=quoted(command.name), FIRST=quoted(first.rstrip(".")),
        SYNOPSIS=quoted(command.usage) if command.usage else "\n.br\n".join(words), ABOUT=paragraphs(rest), WHOLE_ABOUT=paragraphs(command.about),
        WORDS=told_words(command), OPTIONS=told_options(command), MORE=paragraphs(command.more),
        COMMANDS=section("COMMANDS", "".join(told_command(inner, command) for inner in command.inner)),
        VALUES=section("VALUES", paragraphs(command.more)),
    )
