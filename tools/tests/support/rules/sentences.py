"""What the sentences of `why --explain` say, word by word: a conclusion, or a sentence in front that tells it all; and numbered steps, each
with the terms that can't be had together, who asks for which releases of a node, and what excludes them. A chain of steps may be told by
the first one and the last one. Only the words are read here; whether they are true is asked in explanations.py. Names of packages and
extras begin with a letter here, so that no name reads as a version. A text that isn't of these forms is a Fault."""

import re
from typing import NamedTuple

from support.rules.requirements import want

NAME = "[a-z][a-z0-9]*(?:-[a-z0-9]+)*"
NODE = rf"{NAME}(?:\[{NAME}\])?"
VERSION = r"(?:[0-9]+!)?[0-9]+(?:\.[0-9]+)*(?:(?:a|b|rc)[0-9]+)?(?:\.post[0-9]+)?(?:\.dev[0-9]+)?(?:\+[a-z0-9.]*[a-z0-9])?"
CLAUSE = rf"(?:~=|==|!=|<=|>=|<|>){VERSION}(?:\.\*)?"
REQUIREMENT = rf"{NAME}(?:\[{NAME}(?:,{NAME})*\])?(?:{CLAUSE}(?:,{CLAUSE})*)?"
RUN = rf"{VERSION}(?: to {VERSION})?"


def listed(item, word):
    """The pattern of items with commas between them and a word before the last one."""
    return rf"{item}(?:(?:, {item})* {word} {item})?"


VERSIONS = rf"(?:[0-9]+ releases between {VERSION} and {VERSION}|{listed(RUN, 'and')})"
RELEASES = rf"(?:every release|{VERSIONS})"
TERM = rf"(?:(?:every|any|the only) release of {NODE}|{NODE} {VERSIONS})"
# one with which something doesn't go
OTHER = rf"(?:(?:any|the only) release of {NODE}|{NODE} {VERSIONS})"
REQUIREMENTS = listed(REQUIREMENT, "or")
# releases that are asked for: runs, the last one of which may have no end
PIECE = rf"{VERSION}(?: to {VERSION}| or newer)?"
RANGE = rf"(?:between {VERSION} and {VERSION}|{PIECE}(?:(?:, {PIECE})*,? or {PIECE})?)"
ABSENT = " in versions that the index doesn't have"
# what is asked for, with the name of the node
ASKED = rf"(?:{NODE} {RANGE}|{NODE}{ABSENT}|{REQUIREMENTS})"
MISSING = rf"the index has no (?:package ({NAME})(?:; near names: {NAME}(?:, {NAME})*)?|release of ({NAME}) that can be used)"
LACKING = "the index has no such release"
NEWEST = "; the newest in the index is "
HELD = rf"the lock keeps {VERSION}(?:, which the index doesn't have)?"
CHAIN = (
    rf"So it goes on through (?P<count>[0-9]+) packages, from (?P<first>{NODE}) to (?P<last>{NODE}): "
    rf"each needs the one before it, which is ruled out by the step before(?: with (?P<beside>{listed(OTHER, 'and')}))?"
)
# who asks: a line, as it is told in short or with what it asks for, or each release of a term, which is told by its node
WHO = rf"line [0-9]+(?: as constrained)?(?: \(.*\))?|the new line(?: \(.*\))?|the version asked for(?: \(.*\))?|{NODE}"
# what may exclude releases, by what is told
CAUSES = {
    "step": rf"(?P<releases>{RELEASES}) (?:is|are) ruled out by (?P<step>[0-9]+)",
    "none": rf"none matches (?P<clause>{CLAUSE})(?: of (?P<who>{WHO}))?",
    "clause": rf"(?P<releases>{RELEASES}) do(?:es)?n't match (?P<clause>{CLAUSE})(?: of (?P<who>{WHO}))?",
    "refused": rf"(?:none matches|(?P<releases>{RELEASES}) do(?:es)?n't match) what (?P<who>{NODE}) needs(?: \((?P<wanted>{RANGE})\))?",
    "unadmitted": rf"(?:none is admitted|(?P<releases>{RELEASES}) (?:isn't|aren't) admitted)(?: by (?P<who>{NODE}))?",
    "python": rf"(?P<releases>{RELEASES}) needs? Python (?P<python>.+), the environment has (?P<version>{VERSION})",
    "needs": rf"(?P<releases>{RELEASES}) needs? (?P<asked>{ASKED})",
    "yanked": rf"(?P<releases>{RELEASES}) (?:is|are) yanked, and no line pins it with ==",
    "pre": rf"(?P<releases>{RELEASES}) (?:is a pre-release|are pre-releases), "
    "which counts where a line names one or no final release fits",
    "both": rf"(?P<releases>{RELEASES}) (?:is a yanked pre-release|are yanked pre-releases), and the lines don't let in both",
    "apart": rf"(?:none goes|(?P<releases>{RELEASES}) do(?:es)?n't go) with (?P<who>{NODE})",
}
# how a sentence begins that doesn't say who needs a node: with the releases, and that they aren't left or don't go with others
EXCLUDED = rf"(?:no release of (?P<node>{NODE}) (?:is left|goes with )|(?P<term>{TERM}) (?:(?:isn't|aren't) left|do(?:es)?n't go with ))"


class Term(NamedTuple):
    """Some releases at a node, as they are told: `every release`, `the only release`, or versions; or `from V on`."""

    node: str
    releases: str


class Cause(NamedTuple):
    """What excludes releases of a node: a kind of CAUSES, these releases as they are told, and what else is told by its name. They are
    None where all are meant that are asked for."""

    kind: str
    releases: str | None
    told: dict


class Side(NamedTuple):
    """Who asks for releases: a term, or the text of a line or its name in short, or None for the lock; and what, as it is told. It is
    `any` where each release will do, and `none` where no release does, of a line; then the newest version of the index is told."""

    who: Term | str | None
    asked: str
    newest: str | None = None


class Step(NamedTuple):
    """A numbered sentence. With one side alone, or none, `causes` say what excludes the releases of `node` that it asks for, beside the
    terms of `beside`; without a side these are the releases of the first term. Where the releases need what is told, `beside` may be left
    away: then what they need excludes all others of its name. With more sides, or where `lacks` says that the index hasn't what is asked
    for, these leave none. `missing` says what the index lacks where no release is told of; `held` which version of the name the lock
    keeps, where no other one counts."""

    sides: list[Side]
    beside: list[Term]
    node: str | None
    causes: list[Cause]
    missing: str | None = None
    held: str | None = None
    lacks: bool = False


class Chain(NamedTuple):
    """Steps that are told together: their numbers, how many packages they tell of, the first and the last one, and the terms beside which
    each says what it says."""

    numbers: range
    count: int
    first: str
    last: str
    beside: list[Term]


class Front(NamedTuple):
    """Two lines that don't go together, by their texts; and a term with what it needs, or the name of which no release matches both. Of
    what is needed it may be told what that needs; or there is a second term, and what this needs."""

    lines: list[str]
    term: Term | None
    asked: str
    beyond: str | None = None
    second: tuple[Term, str] | None = None


class Explanation(NamedTuple):
    conclusion: str
    steps: list[tuple[range, str]]
    left_out: list[str]


class Words:
    """A text that is taken from the left."""

    def __init__(self, text):
        self.rest = text

    def take(self, pattern):
        match = re.match(pattern, self.rest)
        self.rest = self.rest[match.end() :] if match else self.rest
        return match and match[0]

    def must(self, pattern):
        taken = self.take(pattern)
        want(taken is not None, f"{pattern} before {self.rest}")
        return taken

    def take_one(self, texts, behind):
        """One of some texts, with what stands behind it."""
        taken = next((text for text in texts if self.rest.startswith(text + behind)), None)
        self.rest = self.rest if taken is None else self.rest.removeprefix(taken + behind)
        return taken

    def end(self):
        want(not self.rest, f"an end before {self.rest}")


def plain(text):
    """A text in which no two spaces stand side by side: lines end between words, so one of them may be lost."""
    return re.sub(" +", " ", text)


def cut(text):
    """The sentences of a printed text, without their full stops and with their numbers apart, and the lines on releases that were left
    out."""
    want(text.endswith("\n"), "an end of the last line")
    parts, numbers, left_out = [""], [range(1)], []
    for line in text.removesuffix("\n").split("\n"):
        begins = re.match(r"([0-9]+)(?: to ([0-9]+))?\. ", line)
        if begins:
            numbers.append(range(int(begins[1]), int(begins[2] or begins[1]) + 1))
            want(numbers[-1] and numbers[-1].start == numbers[-2].stop and not left_out, "the next number")
            parts.append(line[begins.end() :])
        elif line.startswith("   ") and len(parts) > 1 and not left_out:
            parts[-1] += line[2:]
        elif len(parts) == 1:
            parts[-1] += f" {line}" if parts[-1] else line
        else:
            left_out.append(line)
    want(all(part.endswith(".") for part in parts), "full stops")
    conclusion, *steps = (plain(part[:-1]) for part in parts)
    return Explanation(conclusion, list(zip(numbers[1:], steps)), left_out)


def read_term(text):
    for front, told in ("every release", "every release"), ("any release", "every release"), ("the only release", "the only release"):
        if text.startswith(f"{front} of "):
            return Term(text.removeprefix(f"{front} of "), told)
    node, _, releases = text.partition(" ")
    return Term(node, releases)


def take_others(words):
    """Terms with commas between them and `and` before the last one."""
    return list(map(read_term, re.findall(OTHER, words.must(listed(OTHER, "and")))))


def read_cause(text):
    for kind, pattern in CAUSES.items():
        match = re.fullmatch(pattern, text)
        if match:
            told = match.groupdict()
            return Cause(kind, told.pop("releases", None) or "every release", told)
    want(False, f"a cause: {text}")


def read_causes(text):
    return list(map(read_cause, text.split("; ")))


def take_side(words, lines):
    """Who asks for releases, first: one of these lines, told with what it asks for, or a term."""
    for verb, asked in (" needs ", NODE), (" allows no release of ", NODE), (" allows ", rf"{NODE} {RANGE}"):
        line = words.take_one(lines, verb)
        if line is not None and " no " in verb:
            return Side(line, "none of " + words.must(asked), words.must(NEWEST + VERSION).removeprefix(NEWEST))
        if line is not None:
            return Side(line, words.must(asked))
    term = read_term(words.must(TERM))
    words.must(" needs? ")
    return Side(term, words.must(ASKED))


def take_next_side(words, lines, shorts):
    """Who asks for releases behind another one: a line may be told in short."""
    held = words.take(HELD)
    if held is not None:
        return Side(None, held)
    line = words.take_one(lines, " allows ") or words.take_one(shorts, " allows ")
    if line is not None:
        return Side(line, words.must(RANGE))
    term = words.take(TERM)
    if term is None:
        return None
    words.must(" needs? ")
    return Side(read_term(term), words.must(ASKED))


def take_sides(words, first, lines, shorts):
    """More sides behind the first one; none where the words go on otherwise."""
    rest, sides = words.rest, [first]
    while words.rest.startswith(", "):
        is_last = words.take(", and ") is not None
        words.take(", ")
        side = take_next_side(words, lines, shorts)
        if side is None:
            break
        sides.append(side)
        if is_last:
            words.end()
            return sides
    words.rest = rest
    return [first]


def read_step(text, lines, shorts):
    """A sentence; the lines are those that may ask for something, each with what it asks for, and in short."""
    words = Words(text)
    excluded = re.match(EXCLUDED, text)
    if excluded:
        front = words.must(EXCLUDED)
        terms = [Term(excluded["node"], "every release") if excluded["node"] else read_term(excluded["term"])]
        terms += take_others(words) if front.endswith(" with ") else []
        words.must(": ")
        return Step([], terms, terms[0].node, read_causes(words.rest))
    side = take_side(words, lines)
    if not words.rest:
        want(side.asked.startswith("none of ") or side.asked.endswith(ABSENT), f"what excludes releases: {text}")
        return Step([side], [], None, [], lacks=True)
    missing = re.fullmatch(f", and ({MISSING})", words.rest)
    if missing:
        return Step([side], [], None, [], missing=missing[1])
    if words.rest == f", and {LACKING}":
        return Step([side], [], None, [], lacks=True)
    sides = take_sides(words, side, lines, shorts)
    if len(sides) > 1:
        return Step(sides, [], None, [])
    number = words.take(", which is ruled out by [0-9]+")
    if number is not None:
        beside = take_others(words) if words.take(" with ") else []
        words.end()
        return Step([side], beside, None, [Cause("step", None, {"step": number.rpartition(" ")[2]})])
    if words.take(", which needs ") is not None:
        asked = words.must(ASKED)
        beside = [read_term(words.must(TERM))] if words.take(" and not ") else []
        words.end()
        return Step([side], beside, None, [Cause("needs", None, {"asked": asked})])
    return read_none_left(words, side)


def read_none_left(words, side):
    words.must(", and ")
    beside = take_others(words) if words.take("with ") else []
    words.take(" ")
    node = None
    if words.take("no such release is left: ") is None:
        words.must("no release of ")
        node = words.must(NODE)
        words.must(" is left: ")
    held = words.take(HELD)
    if held is not None and words.rest:
        words.must("; ")
    return Step([side], beside, node, read_causes(words.rest) if words.rest or held is None else [], held=held)


def read_chain(numbers, text):
    match = re.fullmatch(CHAIN, text)
    want(match, f"a chain: {text}")
    beside = take_others(Words(match["beside"])) if match["beside"] else []
    return Chain(numbers, int(match["count"]), match["first"], match["last"], beside)


def read_front(text, lines):
    """The sentence in front; None of another conclusion."""
    words = Words(text)
    one = words.take_one(lines, " and ")
    if one is None:
        return None
    other = words.take_one(lines, " don't go together: ")
    want(other is not None, f"two lines: {text}")
    both = re.fullmatch(f"no release of ({NAME}) matches both", words.rest)
    if both:
        return Front([one, other], None, both[1])
    front = Front([one, other], *take_needing(words))
    if words.take(", which needs "):
        front = front._replace(beyond=words.must(ASKED))
    elif words.take(", and "):
        front = front._replace(second=take_needing(words))
    words.end()
    return front


def take_needing(words):
    """A term of the sentence in front, and what it needs."""
    begins = re.match(rf"({NODE}) (from {VERSION} on) needs ", words.rest)
    term = Term(begins[1], begins[2]) if begins else read_term(words.must(TERM))
    words.must(re.escape(begins[0]) if begins else " needs? ")
    return term, words.must(ASKED)
