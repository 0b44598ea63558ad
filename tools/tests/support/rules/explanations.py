"""Whether what `why --explain` tells is true: each sentence is taken at its word (sentences.py) and held against the lines, the index
and the sentences above it. Each states a conflict of sets, which has to follow by the rules of set_refutations.py from those that the
cited sentences state, and from those that a line or two terms give by themselves. The sentence in front has to be true by itself."""

import re

from support.rules import sentences
from support.rules.left_out_releases import could_matter
from support.rules.locks import Choice, lacks, needs_of_choice
from support.rules.requirements import Fault, holds, read_line, want
from support.rules.set_refutations import Term, case_of, completes
from support.rules.told_causes import CauseReader
from support.rules.told_releases import LONG, SHORT, Line, keys_of, node_of, read_needed, read_requirements, text_of
from support.rules.versions import canonical

# of how many packages the sentence in front tells
MOST_PACKAGES = 3


def numbered(file):
    """The lines of a file, with their names in short."""
    return [(f"line {number}", text) for number, text in enumerate(file, 1)]


def lines_of(problem, named):
    """The active ones of lines with their names in short."""
    read = [(short, text.strip(), read_line(text)) for short, text in named]
    active = [line for line in read if line[2] and (line[2].marker is None or holds(line[2].marker, problem.environment))]
    return [Line(short, sentences.plain(f"{short} ({text})"), requirement) for short, text, requirement in active]


class Reader(CauseReader):
    """Reads sentences over a problem, whose active lines are these. It keeps the names that they are about, and who asks for releases of
    each."""

    def __init__(self, problem, lines, limits):
        super().__init__(problem, lines, limits)
        self.texts, self.shorts = [line.text for line in lines], [line.short for line in lines]
        self.names, self.asking = set(), []

    def source(self, side):
        """The line or the term that asks; a line that does is one on which the sentence rests."""
        if isinstance(side.who, str):
            line = self.line(side.who)
            self.rested.append({line.short})
            return line
        return self.term(side.who)

    def outside(self, source, node, asked):
        """The conflict of what asks with the releases that it doesn't ask for, where there are some."""
        others = frozenset(keys_of(self.problem, node[0])) - asked
        beside = [] if isinstance(source, Line) else [source]
        return [[Term(*node, others), *beside]] if others else []

    def is_missing(self, told, name):
        """Whether the index has no package of the name, or nothing of it that can be used."""
        match = re.fullmatch(sentences.MISSING, told)
        want(name in (match[1], match[2]), f"the name that is needed: {told}")
        if match[2]:
            return self.problem.releases.get(name) == []
        near = told.partition("; near names: ")[2]
        others = near.split(", ") if near else []
        return name not in self.problem.releases and all(other in self.problem.releases for other in others)

    def held(self, name):
        """What is told of a name of which no version counts beside the kept one; None of another name."""
        version = self.problem.held.get(name)
        if version is None:
            return None
        return f"the lock keeps {canonical(version)}" + ("" if self.problem.candidates(name) else ", which the index doesn't have")

    def state(self, terms, node, earlier):
        """Keeps the conflict that a sentence states, which follows from earlier ones."""
        want(len({term[:2] for term in terms}) == len(terms), "one term at each node")
        want(case_of(self.problem, terms, earlier), f"a conflict that follows: {terms}")
        self.conflicts.append(terms)
        self.names |= {node[0], *(term.name for term in terms)}

    def needs_missing(self, step):
        """A node of which the index has nothing is needed."""
        (side,) = step.sides
        source = self.source(side)
        terms = [] if isinstance(source, Line) else [source]
        told = read_requirements(side.asked)
        node = node_of(side.asked) if isinstance(source, Line) else (told[0][0], None)
        want(self.is_missing(step.missing, node[0]), f"what the index lacks: {step.missing}")
        if terms:
            needed = self.wanted(source, node)[1]
            is_short = len(needed) > self.limits.requirements and told == [(node[0], (), ())]
            want(needed == set(told) or is_short, f"what {source} needs")
        else:
            want(node in self.problem.need_of(source.requirement).nodes, f"a line that needs {node}")
        self.asking.append((node[0], [source]))
        self.state(terms, node, [])

    def leave_nothing(self, step):
        """What some sides ask for leaves no release."""
        name, terms, earlier, left, sources = None, [], [], None, []
        for place, side in enumerate(step.sides):
            if side.who is None:
                want(side.asked == self.held(name), f"what the lock keeps: {side.asked}")
                left &= self.problem.candidate_keys(name)
                continue
            source = self.source(side)
            if place and re.fullmatch(sentences.RANGE, side.asked):
                keys = self.asked_range(source, (name, None), side.asked)
            else:
                (own, _), keys = self.asked(source, side.asked)
                want(place == 0 or own == name, f"one name: {side}")
                name = own
            sources.append(source)
            left = keys if left is None else left & keys
            terms += [] if isinstance(source, Line) else [source]
            earlier += self.outside(source, (name, None), keys)
        want(not left, f"no release that is left: {left}")
        want(not step.lacks or len(step.sides) == 1, "one side")
        newest = step.sides[0].newest
        want(newest in (None, self.newest(name)), f"the newest release of {name}: {newest}")
        self.asking.append((name, sources))
        self.follows_alone(earlier)
        self.state(terms, (name, None), earlier)

    def newest(self, name):
        """The version of the newest release of a name."""
        return canonical(self.release(name, keys_of(self.problem, name)[-1]).version)

    def leave_none(self, step):
        """The same of a sentence which may not say whether the node of an extra is meant."""
        kept = self.rested, self.possible, self.asking, self.cited
        for extra in (None, *self.extras_meant(step)):
            self.rested, self.possible, self.asking, self.cited = (type(record)(record) for record in kept)
            try:
                return self.leave_none_at(step, extra)
            except Fault as fault:
                last = fault
        raise last

    def extras_meant(self, step):
        """The extras that a requirement names, where it tells of a version too."""
        if not step.sides or not re.fullmatch(sentences.REQUIREMENT, step.sides[0].asked):
            return []
        (_, extras, clauses) = read_needed(step.sides[0].asked)
        return extras if clauses else []

    def leave_none_at(self, step, extra):
        """None of the releases that something needs is left beside the other terms; or none of those of a term. The node may be that of
        an extra which the requirement names."""
        beside = list(map(self.term, step.beside))
        if not step.sides:
            node, terms, need, wanted, earlier = node_of(step.node), beside, None, beside[0].keys, []
        else:
            need = self.source(step.sides[0])
            node, asked_keys = self.asked(need, step.sides[0].asked)
            node = (node[0], extra or node[1])
            terms = beside if isinstance(need, Line) else [need, *beside]
            all_told = asked_keys == set(keys_of(self.problem, node[0]))
            is_short = any(cause.releases is None for cause in step.causes)
            want(is_short or (step.node is None) == (not all_told) and step.node in (None, text_of(node)), f"which are left: {step.node}")
            want(step.held == self.held(node[0]), f"what the lock keeps: {step.held}")
            wanted, earlier = self.problem.candidate_keys(node[0]) & asked_keys, self.outside(need, node, asked_keys)
            terms += self.others_than_needed(step, Term(*node, frozenset(wanted)))
            self.follows_alone(earlier)
            self.asking.append((node[0], [need]))
        told = []
        for cause in step.causes:
            keys, conflicts = self.excluded(cause, terms, node, need, frozenset(wanted))
            want(all(completes(terms, node, key, conflicts) for key in keys), f"what excludes each of the releases: {cause}")
            told += keys
            earlier = earlier + conflicts
        want(sorted(told) == sorted(wanted), f"each release of {node} excluded once")
        self.state(terms, node, earlier)

    def others_than_needed(self, step, term):
        """Where it is told what the releases of a term need, and no term that they don't need: all others of the name."""
        needed = [cause.told["asked"] for cause in step.causes if cause.kind == "needs" and cause.releases is None and not step.beside]
        asked = [self.asked(term, told) for told in needed]
        others = [Term(name, None, frozenset(keys_of(self.problem, name)) - keys) for (name, _), keys in asked]
        want(all(other.keys for other in others), f"others than what is needed: {needed}")
        return others

    def step(self, text):
        """Reads a sentence, and keeps the conflict that it states."""
        step = sentences.read_step(text, self.texts, self.shorts)
        if step.missing is not None:
            self.needs_missing(step)
        elif step.lacks or len(step.sides) > 1:
            self.leave_nothing(step)
        else:
            self.leave_none(step)

    # Chains

    def links(self, before):
        """For each node the releases that need a node of which only the releases of a conflict are left, of several: by their nodes."""
        keys_by_node = {}
        nodes = {(name, None) for name in self.problem.releases}
        nodes |= {node for name in self.problem.releases for place in range(len(self.problem.releases[name]))
                  for need in self.problem.needs_at((name, None), place) for node in need.nodes}
        for node in nodes:
            keys = frozenset(key for key in keys_of(self.problem, node[0]) if any(self.is_link(node, key, left) for left in before.items()))
            if keys:
                keys_by_node[node] = keys
        return keys_by_node

    def is_link(self, node, key, before):
        """Whether a release needs another node, and each candidate of that is one of these releases or isn't admitted."""
        other, ruled_out = before
        needs = needs_of_choice(self.problem, Choice(*node, key))
        if not any(other in need.nodes for need in needs):
            return False
        return all(
            candidate in ruled_out or any(lacks(self.problem, need, Choice(*other, candidate)) for need in needs)
            for candidate in self.problem.candidate_keys(other[0])
        )

    def chain(self, numbers, text):
        """Reads which steps are left out: there are as many that lead from the step before to the last one of them."""
        chain = sentences.read_chain(numbers, text)
        beside, before = list(map(self.term, chain.beside)), self.conflicts[-1] or []
        starts = [term for term in before if term not in beside]
        want(chain.count == len(numbers) and len(starts) == 1 and len(before) == len(beside) + 1, f"a step before: {text}")
        (start,) = starts
        self.cited.add(len(self.conflicts))
        reached = {start[:2]: start.keys}
        for place in range(chain.count):
            reached = self.links(reached)
            if place == 0:
                first = node_of(chain.first)
                reached = {first: reached[first]} if first in reached else {}
        last = node_of(chain.last)
        want(last in reached, f"a chain of as many packages: {text}")
        self.conflicts += [None] * (chain.count - 1) + [[Term(*last, reached[last]), *beside]]
        self.cited |= set(numbers) - {numbers[-1]}
        self.names |= {node_of(chain.first)[0], last[0]}

    # Conclusions

    def front(self, front):
        """Whether the sentence in front is true by itself, and about the lines on which the sentences rest and no others."""
        one, other = map(self.line, front.lines)
        want(one is not other and not self.problem.only_kept and len(self.names) <= MOST_PACKAGES, "two lines, and a few packages")
        self.rests_on({one.short, other.short}, 0)
        allowed = self.matching(other.requirement)
        if front.term is None:
            keys = self.matching(one.requirement)
            want(front.asked == one.requirement.name == other.requirement.name and keys and allowed, f"two lines on {front.asked}")
        else:
            (name, keys), last = self.needed_by(one, front.term, front.asked), other.requirement.name
            if front.beyond is not None:
                (name, _), keys = self.asked(Term(name, None, keys), front.beyond)
            elif front.second is not None:
                last, allowed = self.needed_by(other, *front.second)
            want(name == last, f"what {other.short} is about")
        want(not keys & allowed, "what doesn't go together")

    def needed_by(self, line, told, asked):
        """Of which name the releases that a line allows need which releases."""
        term = self.term(told)
        want(term.name == line.requirement.name and term.extra in (None, *line.requirement.extras), f"what {line.short} needs")
        want(term.keys == self.matching(line.requirement), f"the releases that {line.short} allows")
        (name, _), keys = self.asked(term, asked)
        return name, keys

    def conclusion(self, text):
        """Whether the lines on which the sentences rest, and no others, are told with what they ask for."""
        front = sentences.read_front(text, self.texts)
        if front is not None:
            self.front(front)
            return list(map(self.line, front.lines))
        words = sentences.Words(text)
        words.must("No choice of versions that keeps what is locked meets " if self.problem.only_kept else "No choice of versions meets ")
        named = []
        while words.rest:
            line = next((line for line in self.lines if words.rest.startswith(line.text)), None)
            more = words.take(r"[0-9]+ more\Z")
            want(line or more and len(named) == self.limits.lines, f"a line: {words.rest}")
            named.append(line or int(more.split()[0]))
            words.rest = words.rest[len(line.text) :] if line else ""
            want(not words.rest or words.take(", | and "), f"a next line: {words.rest}")
        told = [line for line in named if isinstance(line, Line)]
        want(told == [line for line in self.lines if line in told], "lines in their order")
        self.rests_on({line.short for line in told}, sum(number for number in named if isinstance(number, int)))
        return told

    def rests_on(self, told, more):
        certain = {line for lines in self.rested for line in lines if len(lines) == 1}
        want(all(lines & told or more for lines in self.rested), "each line on which a sentence rests")
        want(told <= certain | self.possible, "no other line")
        want(len(certain) <= len(told) + more <= len(certain | self.possible), "as many lines")

    def left_out(self, lines, releases, told):
        """Whether those of some releases are told that are of a name in the sentences and could have mattered, each once."""
        matches = [re.fullmatch(r"([a-z0-9-]+)(?: .*)?: release ([0-9]+): [a-z0-9 -]+", line) for line in lines]
        want(all(matches), f"releases that were left out: {lines}")
        named = [(match[1], int(match[2])) for match in matches]
        wanted = sorted(
            (name, place) for (name, place), version in releases.items() if name in self.names and could_matter(self, name, version, told)
        )
        want(named == wanted, f"the releases that were left out: {lines}, and not {wanted}")


def check(problem, lines, text, releases=(), is_long=False):
    """Checks a printed text, and gives the conflicts that its sentences state. What isn't true is a Fault, and where it is a long one,
    what is left out. Releases that were left out of the index are given as `left_out` gives them."""
    told, reader = sentences.cut(text), Reader(problem, lines, LONG if is_long else SHORT)
    want(told.steps, "a sentence")
    for numbers, step in told.steps:
        if len(numbers) > 1:
            want(not is_long, f"each step: {step}")
            reader.chain(numbers, step)
        else:
            reader.step(step)
    want(reader.conflicts[-1] == [], "the empty conflict in the last sentence")
    want(reader.cited == set(range(1, len(reader.conflicts))), "each sentence but the last cited")
    named = reader.conclusion(told.conclusion)
    reader.left_out(told.left_out, dict(releases), named)
    return reader.conflicts
