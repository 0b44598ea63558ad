"""What a set refutation is: when a conflict of sets of versions follows from earlier ones. The rules are read plainly, for tests
that ask what an answer must be, and from the rules alone."""

import re
from typing import NamedTuple

from support.rules.locks import Choice, lacks, needs_of_choice
from support.rules.requirements import NAME, order_key, read_version, want


class Term(NamedTuple):
    """A node with some versions, which are held by their keys in the order of versions."""

    name: str
    extra: str | None
    keys: frozenset

    def at(self, key):
        return Choice(self.name, self.extra, key)


# Texts of conflicts


def read_term(text):
    """The term of a text such as `x[e]==1,2`; of no version, `x[e]==`."""
    match = re.fullmatch(rf"({NAME})(?:\[({NAME})\])?==(.*)", text)
    want(match, "a term")
    return Term(match[1], match[2], frozenset(order_key(read_version(version)) for version in match[3].split(",") if version))


def read_conflict(text):
    return [] if text == "-" else list(map(read_term, text.split(" ")))


# When a conflict follows


def is_refused(problem, term):
    """Whether an active line on its name admits none of its versions."""
    return any(need.name == term.name and all(lacks(problem, need, term.at(key)) for key in term.keys) for need in problem.active)


def refuses(problem, choice, other):
    return any(lacks(problem, need, other) for need in needs_of_choice(problem, choice))


def stand_apart(problem, choice, other):
    """Whether two choices can't be in one solution: they are two versions of one name, or one of them refuses the other."""
    if choice.name == other.name and choice.key != other.key:
        return True
    return refuses(problem, choice, other) or refuses(problem, other, choice)


def clash(problem, one, other):
    return all(stand_apart(problem, one.at(key), other.at(another)) for key in one.keys for another in other.keys)


def is_bound(term, conflict):
    """Whether the conflict has a term on the same node, whose versions are among the term's."""
    return any(other[:2] == term[:2] and other.keys <= term.keys for other in conflict)


def completes(conflict, node, key, earlier):
    """Whether the conflict with this version alone at the node has an earlier one in it."""
    return any(all(is_bound(term, conflict) or term[:2] == node and key in term.keys for term in old) for old in earlier)


def needed_nodes(problem, conflict):
    """The nodes that a line needs, or each version of one of the terms. Each of the terms has a version."""
    nodes = {node for need in problem.active for node in need.nodes}
    for term in conflict:
        needs = [needs_of_choice(problem, term.at(key)) for key in term.keys]
        nodes |= set.intersection(*({node for need in those for node in need.nodes} for those in needs))
    return nodes


def case_of(problem, conflict, earlier):
    """By which case a conflict follows from earlier ones, or None."""
    if any(is_refused(problem, term) for term in conflict):
        return "a line admits none of a term's versions"
    if any(clash(problem, one, other) for one in conflict for other in conflict):
        return "two terms clash"
    if any(all(completes(conflict, term[:2], key, earlier) for key in term.keys) for term in conflict):
        return "each version of a term has an earlier conflict"
    for node in needed_nodes(problem, conflict):
        if all(completes(conflict, node, key, earlier) for key in problem.candidate_keys(node[0])):
            return "no candidate of a needed node is left"
    return None


def is_set_refutation(problem, conflicts):
    """Whether each conflict follows from those before it, and the last one is empty."""
    followed = (case_of(problem, conflict, conflicts[:place]) for place, conflict in enumerate(conflicts))
    return bool(conflicts) and not conflicts[-1] and all(followed)


def is_accepted(problem, conflicts):
    """Whether a list of texts is a set refutation."""
    return is_set_refutation(problem, list(map(read_conflict, conflicts)))
