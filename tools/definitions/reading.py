"""Reads the files of definitions (`specs/` of a crate): their imports, their data types, and each function with its clauses.

Only what functions are written in is read: application, operators, `if`, `let`, `do`, records, pairs and λ. A statement about values (its
type ends in `Type`) and a proof aren't functions, and `Unread` says of each why it was left.
"""

import re
from dataclasses import dataclass, field
from pathlib import Path
from typing import Any

# How tightly an operator binds, and from which side.
OPERATORS = {
    "^": (75, "right"), "*": (70, "left"), "/": (70, "left"), "%": (70, "left"), "∷": (67, "right"), "+": (65, "left"), "-": (65, "left"),
    "++": (65, "left"), "==": (50, "none"), "&&": (35, "left"), "||": (30, "left"), ">>=": (10, "left"),
}
TOKEN = re.compile(r'"(?:[^"\\]|\\.)*"|\[\]|[()\[\]{},;]|[^\s()\[\]{},;"]+')
HEAD = re.compile(r"(?:abbrev|unfoldable)(?: pub)? (\S+) :(.*)", re.DOTALL)
STATES = re.compile(r"Type [0-9]+\s*$")


class Unread(Exception):
    """A definition isn't a function of the kind that is read; the text says why."""


@dataclass(frozen=True)
class Import:
    """What a file takes from a module: names, each under the name that it has here, or the module's constructors under one word."""

    module: str
    names: dict[str, str]
    alias: str | None = None
    is_handed_on: bool = False


@dataclass
class Function:
    """A function: its clauses, each with its patterns and the tokens of its body; why it wasn't read, where it wasn't."""

    name: str
    clauses: list[tuple[list[Any], Any]] = field(default_factory=list)
    why: str | None = None


@dataclass
class Module:
    """One file of definitions."""

    name: str
    imports: list[Import]
    functions: dict[str, Function]
    constructors: set[str]
    items: dict[str, str]


# ---- items


def without_comments(text: str) -> list[str]:
    """The lines of a file without those that are comments; a comment behind code stands nowhere in these files."""
    return [line for line in text.splitlines() if line.strip() and not line.lstrip().startswith("--")]


def opened(lines: list[str]) -> list[str]:
    """The lines, those of a `mutual` block as if each stood for itself."""
    opened_lines, is_within = [], False
    for line in lines:
        if not line.startswith(" "):
            is_within = line.endswith("mutual")
            opened_lines += [] if is_within else [line]
            continue
        inner = line[2:] if is_within else line
        opened_lines.append("abbrev " + inner if is_within and re.match(r"pub (?!data )", inner) else inner)
    return opened_lines


def items_of(text: str) -> list[str]:
    """What stands at the left margin, each with the indented lines that follow it and the brace that ends it."""
    items: list[str] = []
    for line in opened(without_comments(text)):
        if line.startswith((" ", "}")) and items:
            items[-1] += "\n" + line
        else:
            items.append(line)
    return items


def import_of(item: str) -> Import:
    is_handed_on = item.startswith("pub ")
    words = re.fullmatch(r"(?:pub )?use ([\w.]+?)(?:\.\{(.*)\}| as (\w+))?", item, re.DOTALL)
    if words is None:
        raise Unread(f"an import of another form: {item}")
    module, listed, alias = words.groups()
    names = [name.replace("◌", "").strip().partition(" as ")[::2] for name in (listed or "").split(",") if name.strip()]
    return Import(module, {new or old: old for old, new in names}, alias, is_handed_on)


def constructors_in(item: str) -> set[str]:
    return set(re.findall(r"^  (?:pub )?(\S+) :", item, re.MULTILINE))


def item_name(item: str) -> str:
    """The name that an item defines or goes on with."""
    words = re.match(r"(?:(?:abbrev|unfoldable|pub|record|data) )*(\S+)", item)
    return words[1].replace("◌", "") if words else ""


def read_module(name: str, path: Path) -> Module:
    imports, functions, constructors = [], {}, set()
    items: dict[str, str] = {}
    for item in items_of(path.read_text(encoding="utf-8")):
        items[item_name(item)] = items.get(item_name(item), "") + item + "\n"
        if re.match(r"(pub )?use ", item):
            imports.append(import_of(item))
        elif item.startswith(("pub data ", "data ")):
            constructors |= constructors_in(item)
        elif head := HEAD.fullmatch(item):
            functions[head[1].replace("◌", "")] = Function(head[1].replace("◌", ""), why="it states something" if STATES.search(head[2]) else None)
        elif re.search(r" =\s", item):
            add_clause(functions, item)
    return Module(name, imports, functions, constructors, items)


def add_clause(functions: dict[str, Function], item: str) -> None:
    """Adds a clause to the function that it is of; one of a proof or of a statement is of none."""
    left, right = re.split(r" =(?=\s)", item, maxsplit=1)
    try:
        name, patterns = left_side(left)
    except Unread:
        return
    function = functions.get(name)
    if function is None or function.why is not None:
        return
    try:
        function.clauses.append((patterns, body_of(right)))
    except Unread as fault:
        function.why = str(fault)


# ---- patterns


def left_side(text: str) -> tuple[str, list[Any]]:
    """The name of the function that a clause is of, and its patterns; an operator's clause has one on each side."""
    parser = Parser(TOKEN.findall(text))
    atoms = []
    while not parser.is_at_end():
        if parser.peek() == "{":
            parser.skip_braces()
            continue
        atoms.append(parser.pattern_atom())
    if len(atoms) == 3 and atoms[1] == ("name", ">>="):
        return ">>=", [atoms[0], atoms[2]]
    if not atoms or atoms[0][0] != "name":
        raise Unread("no clause of a function")
    return atoms[0][1], atoms[1:]


def body_of(text: str) -> object:
    if text.startswith(" do\n"):
        return steps_of(text[4:].split("\n"))
    parser = Parser(TOKEN.findall(text))
    body = parser.expression()
    if not parser.is_at_end():
        raise Unread(f"`{parser.peek()}` where the body should end")
    return body


def steps_of(lines: list[str]) -> object:
    """A `do` block: each line but the last names what its right side gives, where it gives something."""
    margin = len(lines[0]) - len(lines[0].lstrip())
    steps: list[str] = []
    for line in lines:
        if len(line) - len(line.lstrip()) == margin:
            steps.append(line.strip())
        else:
            steps[-1] += " " + line.strip()
    result = body_of(steps[-1])
    for step in reversed(steps[:-1]):
        name, arrow, right = step.partition(" ← ")
        if not arrow:
            raise Unread("a step of `do` without ←")
        result = ("operator", ">>=", body_of(right), ("lambda", name, result))
    return result


# ---- expressions


class Parser:
    """Reads tokens from left to right. An expression is a tuple whose first member says what it is."""

    def __init__(self, tokens: list[str]):
        self.tokens, self.at = tokens, 0

    def is_at_end(self) -> bool:
        return self.at == len(self.tokens)

    def peek(self) -> str:
        return "" if self.is_at_end() else self.tokens[self.at]

    def next(self) -> str:
        if self.is_at_end():
            raise Unread("the text ends too early")
        self.at += 1
        return self.tokens[self.at - 1]

    def want(self, token: str) -> None:
        word = self.next()
        if word != token:
            raise Unread(f"`{word}` where `{token}` should stand")

    def skip_braces(self) -> None:
        depth = 0
        while True:
            token = self.next()
            depth += (token == "{") - (token == "}")
            if depth == 0:
                return

    def expression(self, least: int = 0) -> object:
        left = self.prefixed()
        while (operator := OPERATORS.get(self.peek())) is not None and operator[0] >= least:
            sign = self.next()
            right = self.expression(operator[0] + (operator[1] != "right"))
            left = ("operator", sign, left, right)
        return left

    def prefixed(self) -> object:
        word = self.peek()
        if word == "if":
            self.next()
            condition = self.expression()
            self.want("then")
            then = self.expression()
            self.want("else")
            return ("if", condition, then, self.expression())
        if word == "λ":
            self.next()
            return self.of_lambda()
        if word == "let":
            self.next()
            name = self.next()
            self.want("=")
            value = self.expression()
            self.want("in")
            return ("apply", ("lambda", name, self.expression()), [value])
        return self.application()

    def of_lambda(self) -> object:
        """λ of one name or of several, the last with the dot behind it; a name may have its type."""
        names = []
        while True:
            token = self.next()
            if token == "(":
                names.append(self.next())
                while self.next() != ")":
                    pass
                token = self.next()
                if token != ".":
                    raise Unread("λ of another form")
                break
            names.append(token.rstrip("."))
            if token.endswith("."):
                break
        body = self.expression()
        for name in reversed(names):
            body = ("lambda", name, body)
        return body

    def application(self) -> object:
        function = self.atom()
        given = []
        while self.begins_atom():
            if self.peek() == "{":
                self.skip_braces()
                continue
            given.append(self.atom())
        if self.peek() == "λ":
            given.append(self.prefixed())
        return ("apply", function, given) if given else function

    def begins_atom(self) -> bool:
        word = self.peek()
        return bool(word) and word not in OPERATORS and word not in ("then", "else", "in", ")", "]", "}", ",", ";", "=", "λ", "×", "≡", "→", "⊎")

    def atom(self) -> object:
        word = self.next()
        if word == "(":
            return self.fields_behind(self.bracketed())
        if word == "record":
            return self.record()
        if word == "[]":
            return ("list",)
        if word.startswith('"'):
            return ("text", word[1:-1])
        if word.isdigit():
            return ("number", int(word))
        if word in ("{", "[", ")", "]", "}", ",", ";"):
            raise Unread(f"`{word}` where a value should stand")
        return ("name", word)

    def bracketed(self) -> object:
        members = [self.expression()]
        while self.peek() == ",":
            self.next()
            members.append(self.expression())
        self.want(")")
        return members[0] if len(members) == 1 else ("tuple", members)

    def fields_behind(self, value: object) -> object:
        """A bracketed value with `.name` directly behind it."""
        if self.peek().startswith(".") and self.peek() != ".":
            return ("fields", value, self.next()[1:].split("."))
        return value

    def record(self) -> object:
        base = None if self.peek() == "{" else self.atom()
        self.want("{")
        parts = {}
        while self.peek() != "}":
            name = self.next()
            self.want("=")
            parts[name] = self.expression()
            if self.peek() == ";":
                self.next()
        self.want("}")
        return ("record", base, parts)

    def pattern_atom(self) -> tuple[Any, ...]:
        word = self.next()
        if word == "[]":
            return ("list",)
        if word.isdigit():
            return ("number", int(word))
        if word != "(":
            return ("name", word)
        members = [self.pattern()]
        while self.peek() == ",":
            self.next()
            members.append(self.pattern())
        self.want(")")
        return members[0] if len(members) == 1 else ("tuple", members)

    def pattern(self) -> tuple[Any, ...]:
        """A constructor with what it has, or `first ∷ rest`."""
        head = self.pattern_atom()
        given = []
        while self.peek() not in ("", ")", ",", "∷"):
            given.append(self.pattern_atom())
        first = ("constructor", head, given) if given else head
        if self.peek() == "∷":
            self.next()
            return ("cons", first, self.pattern())
        return first
