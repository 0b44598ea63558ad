"""What lines of requirements files, markers and environments mean: the rules of docs/RULES.md read plainly, for tests that ask
what an answer must be. It is written from the rules alone, so that it shares no mistake with the program. All faults are one."""

import re
from functools import lru_cache
from typing import NamedTuple

import support.places  # noqa: F401  (tools/ is on the path from here on)
from support.rules.versions import SPACE, Version, order_key, read_version, without_zeros

BLANK = " \t"
NAME = "[A-Za-z0-9](?:[A-Za-z0-9._-]*[A-Za-z0-9])?"
MOST_OPEN = 64
TEXTS = (
    "implementation_name", "implementation_version", "os_name", "platform_machine", "platform_python_implementation",
    "platform_release", "platform_system", "platform_version", "python_full_version", "python_version", "sys_platform",
)
OPERATORS = "~=", "==", "!=", "<=", ">=", "<", ">"
TOKEN = re.compile(r"('[^']*'|\"[^\"]*\"|[A-Za-z_]+|===|~=|==|!=|<=|>=|<|>|[()])[ \t]*")


class Fault(Exception):
    """A text isn't of the form."""


class Clause(NamedTuple):
    operator: str
    version: Version
    is_prefix: bool


class Requirement(NamedTuple):
    """What a line asks for; its marker is None where it has none."""

    name: str
    extras: list[str]
    clauses: list[Clause]
    marker: object


def want(holds, what):
    if not holds:
        raise Fault(what)


def normal(name):
    return re.sub("[-_.]+", "-", name).lower()


def read_name(text):
    want(re.fullmatch(NAME, text), "a name")
    return normal(text)


# Sets of specifiers


@lru_cache(2**14)
def read_clause(text):
    operator = re.match("===|~=|==|!=|<=|>=|<|>|", text)[0]
    want(operator in OPERATORS, "an operator")
    rest = text[len(operator) :].lstrip(BLANK)
    is_prefix = rest.endswith(".*")
    rest = rest.removesuffix(".*")
    version = read_version(rest)
    want(version is not None and rest == rest.strip(SPACE), "a version")
    if is_prefix:
        is_release = version == Version(version.epoch, version.release, None, None, None, None)
        want(operator in ("==", "!=") and is_release, "a release before .*")
    want(operator in ("==", "!=") or version.local is None, "no local part")
    want(operator != "~=" or len(version.release) >= 2, "two release numbers")
    return Clause(operator, version, is_prefix)


def read_set(text):
    if not text.strip(BLANK):
        return []
    pieces = [piece.strip(BLANK) for piece in text.split(",")]
    if len(pieces) > 1 and not pieces[-1]:
        pieces.pop()
    return list(map(read_clause, pieces))


def is_pre(version):
    return version.pre is not None or version.dev is not None


def is_of(one, other):
    """Whether a version is a pre- or post-release "of" another, which is to be tested besides."""
    return one.epoch == other.epoch and without_zeros(one.release) == without_zeros(other.release)


def begins_with(version, epoch, numbers):
    padded = version.release + (0,) * len(numbers)
    return version.epoch == epoch and padded[: len(numbers)] == numbers


def clause_matches(clause, version):
    operator, wanted, is_prefix = clause
    bare = version._replace(local=None)
    if operator == "!=":
        return not clause_matches(Clause("==", wanted, is_prefix), version)
    if operator == "~=":
        at_least = clause_matches(Clause(">=", wanted, False), version)
        return at_least and begins_with(version, wanted.epoch, wanted.release[:-1])
    if is_prefix:
        return begins_with(version, wanted.epoch, wanted.release)
    if operator == "==":
        return order_key(version if wanted.local else bare) == order_key(wanted)
    ours, theirs = order_key(bare), order_key(wanted)
    if operator == "<":
        return ours < theirs and not (is_pre(bare) and not is_pre(wanted) and is_of(bare, wanted))
    if operator == ">":
        return ours > theirs and not (bare.post is not None and wanted.post is None and is_of(bare, wanted))
    return ours <= theirs if operator == "<=" else ours >= theirs


def matches(clauses, version):
    return all(clause_matches(clause, version) for clause in clauses)


# Markers


def tokens_of(text):
    depth = 0
    for piece in re.findall(r"'[^']*(?:'|\Z)|\"[^\"]*(?:\"|\Z)|[()]", text):
        depth += {"(": 1, ")": -1}.get(piece, 0)
        want(depth <= MOST_OPEN, "fewer parentheses")
    text, tokens, place = text.strip(BLANK), [], 0
    while place < len(text):
        token = TOKEN.match(text, place)
        want(token, "a token")
        tokens.append(token[1])
        place = token.end()
    return tokens


class MarkerReader:
    """Reads the tokens of a marker from the left into a tree: ("or", ..), ("and", ..), or (left, operator, right)."""

    def __init__(self, text):
        self.tokens = tokens_of(text)[::-1]

    def next(self):
        want(self.tokens, "more tokens")
        return self.tokens.pop()

    def joined(self, word, read):
        parts = [read()]
        while self.tokens and self.tokens[-1] == word:
            self.tokens.pop()
            parts.append(read())
        return word, parts

    def marker(self):
        return self.joined("or", lambda: self.joined("and", self.atom))

    def atom(self):
        if self.tokens and self.tokens[-1] == "(":
            self.tokens.pop()
            inner = self.marker()
            want(self.next() == ")", "a parenthesis")
            return inner
        left, operator = self.operand(), self.next()
        if operator == "not":
            want(self.next() == "in", "in")
            operator = "not in"
        want(operator in (*OPERATORS, "in", "not in"), "an operator")
        right = self.operand()
        if "extra" in (left, right):
            others = [side for side in (left, right) if side != "extra"]
            want(operator in ("==", "!=") and others and others[0][0] in "'\"", "extra beside a quoted text")
        return left, operator, right

    def operand(self):
        token = self.next()
        if token[0] in "'\"":
            want(all(" " <= character <= "~" and character != "\\" for character in token), "printable ASCII")
        else:
            want(token in TEXTS or token == "extra", "a variable")
        return token


@lru_cache(2**12)
def read_marker(text):
    reader = MarkerReader(text)
    tree = reader.marker()
    want(not reader.tokens, "an end")
    return tree


def texts_compare(left, operator, right):
    if operator in ("in", "not in"):
        return (left in right) == (operator == "in")
    version = read_version(left)
    try:
        want("," not in right, "one clause")
        clauses = read_set(operator + right)
    except Fault:
        clauses = []
    if version is not None and clauses:
        return matches(clauses, version)
    return {
        "==": left == right, "!=": left != right, "<": left < right, "<=": left <= right, ">": left > right,
        ">=": left >= right, "~=": False,
    }[operator]


def extra_is(quoted, extra):
    text = quoted[1:-1]
    return extra is not None and re.fullmatch(NAME, text) is not None and normal(text) == extra


def holds(tree, environment, extra=None):
    """Whether a marker holds with an extra, which is a normal name, or with none."""
    if tree[0] == "or":
        return any(holds(part, environment, extra) for part in tree[1])
    if tree[0] == "and":
        return all(holds(part, environment, extra) for part in tree[1])
    left, operator, right = tree
    if "extra" in (left, right):
        return extra_is(right if left == "extra" else left, extra) == (operator == "==")
    texts = [side[1:-1] if side[0] in "'\"" else environment[side] for side in (left, right)]
    return texts_compare(texts[0], operator, texts[1])


# Environments


def read_environment(variables):
    """The eleven texts of a JSON object."""
    want(isinstance(variables, dict), "an object")
    texts = {name: variables.get(name) for name in TEXTS}
    for text in texts.values():
        want(isinstance(text, str), "a text")
        want(all(" " <= character <= "~" and character not in '"\\' for character in text), "printable ASCII")
    texts["python_full_version"] = texts["python_full_version"].removesuffix("+")
    for name in "python_version", "python_full_version":
        want(read_version(texts[name]) is not None, "a version")
    return texts


def marker_text(environment):
    return " and ".join(f'{name} == "{environment[name]}"' for name in sorted(TEXTS))


# Lines


def read_requirement(text):
    """A requirement text, without a comment."""
    text = text.strip(BLANK)
    name = re.match("[A-Za-z0-9._-]*", text)[0]
    rest, extras = text[len(name) :].lstrip(BLANK), []
    normal_name = read_name(name)
    if rest.startswith("["):
        inside, bracket, rest = rest[1:].partition("]")
        want(bracket, "an end of the extras")
        extras = [read_name(part.strip(BLANK)) for part in inside.split(",")] if inside.strip(BLANK) else []
        rest = rest.lstrip(BLANK)
    want(not rest.startswith("@"), "no URL")
    part, semicolon, marker = rest.partition(";")
    part = part.strip(BLANK)
    if part.startswith("(") and part.endswith(")"):
        part = part[1:-1]
    return Requirement(normal_name, extras, read_set(part), read_marker(marker) if semicolon else None)


@lru_cache(2**12)
def read_line(line):
    """What a line asks for; None for a blank line or a comment."""
    body = line.removesuffix("\n")
    body = body.removesuffix("\r") if body != line else body
    want(not re.search("[\0-\x08\x0a-\x1f\x7f\x85\u2028\u2029]", body) and not body.startswith("\ufeff"), "no odd one")
    want(not body.endswith("\\"), "no continuation")
    want(not body.lstrip(BLANK).startswith("-"), "no option")
    text = re.split(r"(?:^|(?<=[ \t]))#", body, maxsplit=1)[0]
    return read_requirement(text) if text.strip(BLANK) else None


def cut_lines(text):
    """The lines of a text, each with its LF."""
    return re.findall(r"[^\n]*\n|[^\n]+\Z", text)


def read_lines(data):
    """The lines of a file, each of which reads."""
    try:
        lines = cut_lines(data.decode("utf-8"))
    except UnicodeDecodeError:
        raise Fault("UTF-8") from None
    for line in lines:
        read_line(line)
    return lines


def active_requirements(lines, environment):
    asked = [requirement for requirement in map(read_line, lines) if requirement is not None]
    return [requirement for requirement in asked if requirement.marker is None or holds(requirement.marker, environment)]
