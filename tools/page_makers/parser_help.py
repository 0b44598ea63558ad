"""Reads the parsers of the tools in Python, which `--help` of each prints."""

import argparse
import importlib
import os
import sys
from collections.abc import Iterator
from contextlib import contextmanager
from dataclasses import replace

from page_makers.command import Command, Option, Value

HOME = "~"
UNCHANGED = {"XDG_CACHE_HOME": "", "HOME": HOME}


@contextmanager
def installed_as(command: str) -> Iterator[None]:
    """Within it a tool is called by its installed name, and the home of whoever calls is told as `~`."""
    words, variables = sys.argv, {name: os.environ.get(name) for name in UNCHANGED}
    sys.argv = [command]
    os.environ.update(UNCHANGED)
    try:
        yield
    finally:
        sys.argv = words
        for name, text in variables.items():
            if text is None:
                del os.environ[name]
            else:
                os.environ[name] = text


def help_of(action: argparse.Action) -> str:
    """What help says of an argument, with the values that it puts in."""
    text = action.help or ""
    return " ".join((text % vars(action) if "%(" in text else text).split())


def value_of(action: argparse.Action, told: str = "") -> Value:
    name = action.metavar if isinstance(action.metavar, str) else action.dest
    choices = tuple(str(choice) for choice in action.choices) if action.choices else ()
    return Value(name, told, action.nargs not in ("?", "*"), action.nargs in ("+", "*"), choices)


def command_of(path: tuple[str, ...], about: str, parser: argparse.ArgumentParser, more: tuple[Command, ...] = ()) -> Command:
    """The command that a parser reads."""
    words, options, inner = [], [], list(more)
    for action in parser._actions:
        if isinstance(action, argparse._SubParsersAction):
            told = {choice.dest: choice.help or "" for choice in action._choices_actions}
            inner += [command_of((*path, name), told[name], inner_parser) for name, inner_parser in action.choices.items()]
        elif not action.option_strings:
            words.append(value_of(action, help_of(action)))
        elif action.help != argparse.SUPPRESS:
            values = (value_of(action),) if action.nargs != 0 else ()
            options.append(Option(tuple(action.option_strings), values, help_of(action), isinstance(action, argparse._AppendAction)))
    return Command(path, about, tuple(words), tuple(options), tuple(inner), parser.epilog or "", parser.usage or "", not parser.add_help)


def described(path: tuple[str, ...], parser: argparse.ArgumentParser, more: tuple[Command, ...] = ()) -> Command:
    return command_of(path, parser.description or "", parser, more)


def rql_command() -> Command:
    with installed_as("rql"):
        module = importlib.import_module("reqlock_tools.rql.parser")
        return replace(described(("rql",), module.parser_of()), more=module.EPILOG)


def tool_command(module: str, command: str) -> Command:
    """The command that a module of the tools is; that of snapshots has two words with parsers of their own."""
    with installed_as(command):
        parser = importlib.import_module(f"reqlock_tools.{module}").parser_of()
        more: tuple[Command, ...] = ()
        if module == "snapshot":
            request = importlib.import_module("reqlock_tools.simple.request")
            kinds = (("simple", request.simple_parser()), ("again", request.again_parser()))
            more = tuple(described((command, name), inner_parser) for name, inner_parser in kinds)
        return described((command,), parser, more)
