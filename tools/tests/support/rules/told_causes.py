"""Whether what excludes releases, as a sentence of `why --explain` tells it, does so: a line or a term that refuses them, what they need
themselves, or a sentence above."""

from support.rules import sentences
from support.rules.requirements import clause_matches, is_pre, read_set, want
from support.rules.set_refutations import Term, case_of, clash
from support.rules.told_releases import Line, ReleaseReader, node_of, releases_told
from support.rules.versions import canonical, read_version


class CauseReader(ReleaseReader):
    """Reads what excludes releases. It keeps the conflicts of the sentences, which of them are named, and on which lines they rest: the
    lines of which one has to be named in the conclusion, and those that may be."""

    def __init__(self, problem, lines, limits):
        super().__init__(problem, lines, limits)
        self.conflicts, self.cited = [], set()
        self.rested, self.possible = [], set()

    # Reasons: whether a requirement refuses a release for what is told

    def is_reason(self, cause, requirement, release):
        if cause.kind in ("none", "clause"):
            (clause,) = read_set(cause.told["clause"])
            return clause in requirement.clauses and not clause_matches(clause, release.version)
        if cause.kind == "python":
            version = canonical(read_version(self.problem.environment["python_full_version"]))
            told = cause.told["python"], cause.told["version"]
            return not self.problem.runs(release) and told == (sentences.plain(release.python.strip()), version)
        if cause.kind == "yanked":
            return release.is_yanked and not self.problem.takes_yanked(requirement)
        if cause.kind == "pre":
            return is_pre(release.version) and not self.problem.takes_pre(requirement)
        refused = not self.problem.admits(requirement, release)
        return refused and (cause.kind != "both" or release.is_yanked and is_pre(release.version))

    def refuses(self, cause, source, name, key):
        """Whether a line, or each release of a term, refuses a release for what is told."""
        release = self.release(name, key)
        if isinstance(source, Line):
            return source.requirement.name == name and self.is_reason(cause, source.requirement, release)
        wanted = (self.requirements_at(source[:2], own, name) for own in source.keys)
        return all(any(self.is_reason(cause, requirement, release) for requirement in each) for each in wanted)

    def sources(self, cause, step, node, keys, need):
        """Who may be meant: who is named; or else what needs the node; or, of a reason that names nobody, also another term or line.
        Each is given with the conflicts that it makes with the releases. Behind them stand the releases themselves, where their own
        dependencies may be meant."""
        who = cause.told.get("who")
        beside = [(term, [[Term(*node, keys), term]]) for term in step]
        alone = [(line, [[Term(*node, keys)]]) for line in self.lines]
        itself = [(Term(*node, frozenset([key])), [[Term(*node, frozenset([key]))]]) for key in keys]
        if who is not None:
            named = [pair for pair in alone if who in (pair[0].short, pair[0].text)]
            named += [pair for pair in beside if not named and pair[0][:2] == node_of(who)]
            return named, itself if not named and node_of(who) == node else []
        own = [pair for pair in alone + beside if pair[0] is need]
        if cause.kind in ("python", "yanked", "pre", "both"):
            return own + [pair for pair in beside + alone if pair[0] is not need], itself
        return own, []

    def is_wanted(self, told, source, name):
        """Whether a term asks for these releases of a name; none is told where there is none."""
        matched, _ = self.wanted(source, (name, None))
        return not matched if told is None else bool(self.asked_range(source, (name, None), told))

    def refused(self, cause, step, node, keys, need):
        """The conflicts by which releases are excluded for a reason."""
        sources, itself = self.sources(cause, step, node, keys, need)
        if cause.kind == "refused":
            sources = [pair for pair in sources if self.is_wanted(cause.told["wanted"], pair[0], node[0])]
            itself = itself if sources == [] and self.is_wanted(cause.told["wanted"], Term(*node, keys), node[0]) else []
        holding = [pair for pair in sources if all(self.refuses(cause, pair[0], node[0], key) for key in keys)]
        if not holding and itself and all(self.refuses(cause, own, node[0], key) for own, _ in itself for key in own.keys):
            return [conflict for _, conflicts in itself for conflict in conflicts]
        want(holding, f"what refuses {cause}")
        lines = [source.short for source, _ in holding if isinstance(source, Line)]
        self.possible.update(lines)
        if len(lines) == len(holding):
            self.rested.append(set(lines))
        return [conflict for _, conflicts in holding for conflict in conflicts]

    # Other causes

    def stated_by(self, cause):
        """The conflict of a sentence above."""
        number = int(cause.told["step"])
        want(0 < number <= len(self.conflicts) and self.conflicts[number - 1] is not None, f"a sentence above: {number}")
        self.cited.add(number)
        return [self.conflicts[number - 1]]

    def wanting(self, cause, step, node, keys):
        """The conflicts of releases that need what a term doesn't have."""
        (name, _), _ = self.asked(Term(*node, keys), cause.told["asked"])
        return [[Term(*node, keys), term] for term in step if term.name == name]

    def apart(self, cause, step, node, keys):
        who = node_of(cause.told["who"])
        itself = [[Term(*node, frozenset([key]))] for key in keys] if who == node else []
        return [[Term(*node, keys), term] for term in step if term[:2] == who] or itself

    def clashing(self, conflicts):
        """Those of some conflicts in which two terms, or one of them twice, clash. There is one."""
        clashes = [conflict for conflict in conflicts if clash(self.problem, conflict[0], conflict[-1])]
        want(clashes, f"terms that clash: {conflicts}")
        return clashes

    def excluded(self, cause, step, node, need, left):
        """The releases that a cause excludes, all of `left` where none are told, and the conflicts by which it does."""
        keys = left if cause.releases is None else releases_told(self.problem, node[0], cause.releases)
        if cause.kind == "step":
            return keys, self.stated_by(cause)
        if cause.kind == "needs":
            return keys, self.clashing(self.wanting(cause, step, node, keys))
        if cause.kind == "apart":
            return keys, self.clashing(self.apart(cause, step, node, keys))
        conflicts = self.refused(cause, step, node, keys, need)
        self.follows_alone(conflicts)
        return keys, conflicts

    def follows_alone(self, conflicts):
        want(all(case_of(self.problem, conflict, []) for conflict in conflicts), f"conflicts that follow by themselves: {conflicts}")
