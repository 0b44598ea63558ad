"""What edits make of a requirements file and its locks, what is refused, and the history of states that undo and redo go through.
The rules are read plainly, for tests that ask what an answer must be. It is written from the rules alone, so that it shares no
mistake with the program. A command is a tuple of words, as they stand on the command line; an edit may have KEEP in front."""

import re

from support.rules.locks import Problem, best_solution, entries_of
from support.rules.requirements import BLANK, Fault, read_line, read_name, read_set, read_version
from support.rules.states import State, Target

KEEP = "--keep-locked"


class Refused(Exception):
    """An edit is refused, with this word."""

    def __init__(self, word):
        super().__init__(word)
        self.word = word


def refuse_where(holds, word):
    if holds:
        raise Refused(word)


def read_or_refuse(read, text):
    try:
        return read(text)
    except Fault:
        raise Refused("bad-text") from None


# Lines


def lines_on(lines, name):
    """The places of the lines on a name, whether their markers hold or not."""
    asked = map(read_line, lines)
    return [place for place, requirement in enumerate(asked) if requirement is not None and requirement.name == name]


def the_line_on(lines, name):
    places = lines_on(lines, name)
    refuse_where(not places, "not-present")
    refuse_where(len(places) > 1, "ambiguous")
    return places[0]


def ending_of(line):
    return re.search(r"(\r?\n)?\Z", line)[0]


def added(lines, text):
    """The lines with one more behind them. It ends as the first line does that has an ending, else by LF, and so does from now on
    a last line that had none."""
    requirement = None if "\n" in text else read_or_refuse(read_line, text)
    refuse_where(requirement is None, "bad-text")
    refuse_where(lines_on(lines, requirement.name), "already-present")
    ending = next(filter(None, map(ending_of, lines)), "\n")
    before = [line if ending_of(line) else line + ending for line in lines]
    return [*before, text + ending]


def removed(lines, name):
    place = the_line_on(lines, read_or_refuse(read_name, name))
    return lines[:place] + lines[place + 1 :]


def with_set(line, text):
    """A line with another set of specifiers, in the place of the old one and its parentheses, or where there is none directly
    behind name and extras."""
    body = re.split(r"(?:^|(?<=[ \t]))#", line.removesuffix(ending_of(line)), maxsplit=1)[0]
    start = re.match(r"[ \t]*[A-Za-z0-9._-]+(?:[ \t]*\[[^]]*\])?", body).end()
    part = body[start:].partition(";")[0]
    if not part.strip(BLANK):
        return line[:start] + text + line[start:]
    start += len(part) - len(part.lstrip(BLANK))
    return line[:start] + text + line[start + len(part.strip(BLANK)) :]


def constrained(lines, name, text=""):
    normal, text = read_or_refuse(read_name, name), text.strip(BLANK)
    read_or_refuse(read_set, text)
    place = the_line_on(lines, normal)
    return [*lines[:place], with_set(lines[place], text), *lines[place + 1 :]]


# Edits


def lines_after(lines, command):
    change = {"add": added, "remove": removed, "constrain": constrained}.get(command[0])
    return lines if change is None else change(lines, *command[1:])


def is_locked(state, name):
    return any(name in target.entries for target in state.targets.values())


def names_given_up(state, command):
    """The names of an upgrade whose versions aren't kept. Each of them has to be in some lock. Without names all are given up."""
    names = [read_or_refuse(read_name, name) for name in command[1:]]
    refuse_where(any(not is_locked(state, name) for name in names), "not-locked")
    return names or [name for target in state.targets.values() for name in target.entries]


def kept_after(entries, given_up):
    """The versions that a target keeps: its own, without those that are given up."""
    return {name: read_version(entry["version"]) for name, entry in entries.items() if name not in given_up}


def problems_after(state, command, index):
    """What an edit would lock: the edited lines, and the problem of each target by name."""
    only_kept = command[0] == KEEP
    command = command[only_kept:]
    lines = lines_after(state.lines, command)
    given_up = names_given_up(state, command) if command[0] == "upgrade" else []
    targets = state.targets.items()
    return lines, {name: Problem(lines, target.environment, index, kept_after(target.entries, given_up), only_kept) for name, target in targets}


def locked(lines, problems, index):
    """The state with a lock for each target, or none where one of them has no solution."""
    targets = {}
    for name, problem in problems.items():
        solution = best_solution(problem)
        refuse_where(solution is None, "no-solution")
        targets[name] = Target(problem.environment, entries_of(problem, solution))
    return State(lines, index.digest, targets)


def begun(lines, environments, index):
    """The first state of a history, for environments by the names of targets. It keeps no versions."""
    return locked(lines, {name: Problem(lines, environments[name], index, {}) for name in sorted(environments)}, index)


def edited(state, command, index):
    return locked(*problems_after(state, command, index), index)


# Histories


class History:
    """All states that were accepted, but those that a later edit cut off, and the place of the present one."""

    def __init__(self, state):
        self.states = [state]
        self.cursor = 0

    def state(self):
        return self.states[self.cursor]

    def move(self, steps, word):
        cursor = self.cursor + steps
        refuse_where(not 0 <= cursor < len(self.states), word)
        self.cursor = cursor
        return f"ok {cursor}"

    def edit(self, command, index):
        state = edited(self.state(), command, index)
        if state == self.state():
            return "same"
        self.states[self.cursor + 1 :] = [state]
        return self.move(1, "")

    def reply(self, command, index):
        """The reply to a command, which leads on to the state behind it."""
        try:
            if command[0] == "undo":
                return self.move(-1, "nothing-to-undo")
            if command[0] == "redo":
                return self.move(1, "nothing-to-redo")
            return self.edit(command, index)
        except Refused as refused:
            return f"refused {refused.word}"


def status_of(reply):
    """The status of the program that prints a reply."""
    return 3 if reply == "refused no-solution" else int(reply.startswith("refused"))
