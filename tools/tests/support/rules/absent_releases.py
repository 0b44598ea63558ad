"""Why a lock hasn't a release that could be had: what the walk takes first, by a second reading of the rules."""

from support.rules.locks import needed_nodes, solutions


def first_given_way(problem, asked, name):
    """The first name that is taken before this one and that no solution of `asked`, the problem with a line on the release, keeps at its
    locked version beside what is taken before it, with the place of the newest release that goes with that; None where each stays."""
    left, taken = list(solutions(asked)), {}
    while True:
        other = min((needed for needed, _ in needed_nodes(problem, taken) if needed not in taken), default=name)
        if other == name:
            return None
        kept = [solution for solution in left if solution[other] == problem.kept.get(other)]
        if not kept:
            return other, min(solution[other] for solution in left)
        left, taken[other] = kept, problem.kept[other]
