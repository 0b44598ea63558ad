"""The base class of tests of drawn sessions (made/sessions.py): the program must answer each command as the rules of locks and edits do,
and so what `why` is asked of it."""

import json
from collections import Counter

from support.drawn_files import DrawnFiles
from support.made.sessions import Draw
from support.rules.edits import KEEP, History, Refused, is_locked, problems_after, status_of
from support.rules.journals import file_name, opens_in
from support.rules.lock_tables import read_lock_table
from support.rules.locks import best_solution, is_refutation, read_refutation
from support.rules.requirements import marker_text, read_line

EDITS = 6
# what some session must have come to
SEEN = {
    "ok", "same", "bad-text", "already-present", "not-present", "ambiguous", "not-locked", "no-solution", "nothing-to-undo",
    "nothing-to-redo", "refused init", "refuted", "solvable", "refused drop",
}
# and with several targets
SEEN_OF_TARGETS = SEEN | {
    "targets: 1", "targets: 2", "targets: 3", "locks that differ", "a lock that alone changes", "some solution, but not of each",
    "an upgrade of what not each has", "refuted for a second target",
}


def names_on(lines):
    """The names of lines, each once, in the order of bytes."""
    return sorted({requirement.name for requirement in map(read_line, lines) if requirement is not None})


def locked_names(state):
    return sorted({name for target in state.targets.values() for name in target.entries})


def option_of(command):
    """The option of a command, as a list, and the command without it."""
    return list(command[: command[0] == KEEP]), command[command[0] == KEEP :]


def question_of(command):
    """What `why` is asked about an edit."""
    option, (kind, *words) = option_of(command)
    return [*option, "why", *([] if kind in ("add", "relock") else [f"--{kind}"]), *words]


class DrawnSessions(DrawnFiles):
    """Each session begins with a drawn index and file. Each command is a process over the files that the last one saved."""

    drawing = Draw

    def play_all(self, environments, wanted, count):
        self.seen = Counter()
        for seed in range(count):
            with self.subTest(seed=seed):
                draw = self.drawing(seed)
                self.lock_for(environments(draw, seed))
                self.seen[f"targets: {len(self.environments)}"] += 1
                self.play(draw)
        self.assertLessEqual(wanted, set(+self.seen), self.seen)

    def play(self, draw):
        self.put({})
        self.take_index(draw.index())
        state, refused = self.begun_session(draw)
        self.seen["refused init"] += refused
        history = History(state)
        self.check_files(history)
        for _ in range(EDITS):
            if draw.happens(40):
                self.take_index(draw.index())
            state = history.state()
            command = self.drawn_command(draw, state)
            reply = self.check_command(history, command)
            if reply == "refused no-solution":
                self.check_why(history.state(), command)
            elif draw.happens(15):
                self.check_why(history.state(), ("add", draw.line()) if draw.happens(50) else ("relock",))

    def drawn_command(self, draw, state):
        return draw.command(names_on(state.lines), locked_names(state))

    def check_command(self, history, command):
        """A command is answered as the rules do, and where it isn't accepted the files stay. It gives the reply."""
        before, state = self.files(), history.state()
        reply = history.reply(command, self.index)
        self.seen[reply.removeprefix("refused ").split()[0]] += 1
        self.assertEqual(self.told(*command), (status_of(reply), f"{reply}\n", ""), command)
        if reply.startswith("ok"):
            self.check_files(history)
            self.count(state, history.state(), command)
        else:
            self.assertEqual(self.files(), before, command)
        return reply

    def count(self, old, new, command):
        """Counts what only sessions of several targets come to."""
        changed = [old.entries(name) != new.entries(name) for name in new.targets]
        self.seen["a lock that alone changes"] += any(changed) and not all(changed)
        self.seen["locks that differ"] += len({json.dumps(target.entries) for target in new.targets.values()}) > 1
        _, command = option_of(command)
        if command[0] == "upgrade" and len(command) > 1:
            has = [all(name in target.entries for name in command[1:]) for target in old.targets.values()]
            self.seen["an upgrade of what not each has"] += not all(has) and is_locked(old, command[1])

    def check_files(self, history):
        """The files are those of the present state of a history."""
        files, state = self.files(), history.state()
        self.assertEqual(sorted(files), sorted(self.names()))
        self.assertEqual(files["requirements.txt"].decode(), "".join(state.lines))
        for name, target in state.targets.items():
            wanted = marker_text(target.environment), state.digest, target.entries
            self.assertEqual(read_lock_table(files[file_name(name)]), wanted)
        self.assertEqual(opens_in(files), ("ok", history.cursor, len(history.states) - 1))

    def check_why(self, state, command):
        """`why` answers of an edit what the rules do. The first target without a solution is told, with a refutation."""
        before = self.files()
        status, output, error = self.told(*question_of(command))
        self.assertEqual((self.files(), error), (before, ""), command)
        try:
            problems = problems_after(state, command, self.index)[1]
        except Refused as refused:
            self.assertEqual((status, output), (1, f"refused {refused.word}\n"), command)
            return
        unsolved = [name for name, problem in problems.items() if best_solution(problem) is None]
        if not unsolved:
            self.seen["solvable"] += 1
            self.assertEqual((status, output), (0, "solvable\n"), command)
            return
        self.seen["refuted"] += 1
        self.seen["some solution, but not of each"] += len(unsolved) < len(problems)
        self.seen["refuted for a second target"] += unsolved[0] != next(iter(problems))
        self.assertEqual(status, 3)
        head = f"target {unsolved[0]}\n" if unsolved[0] else ""
        self.assertEqual(output[: len(head)], head)
        present = problems_after(state, (*option_of(command)[0], "relock"), self.index)[1][unsolved[0]]
        self.check_refutation(problems[unsolved[0]], read_refutation(output[len(head) :]), present)

    def check_refutation(self, problem, conflicts, present):
        """A printed list is accepted. Altered lists aren't, and neither is it of the present problem, where that has a solution."""
        self.assertTrue(is_refutation(problem, conflicts), conflicts)
        self.assertFalse(is_refutation(problem, conflicts[:-1]))
        self.assertFalse(is_refutation(problem, [*conflicts[:-1], *read_refutation("a==1\n")]))
        for place in range(len(conflicts) - 1):
            is_kept = is_refutation(problem, conflicts[:place] + conflicts[place + 1 :])
            self.seen["needless conflict" if is_kept else "refused drop"] += 1
        if best_solution(present) is not None:
            self.assertFalse(is_refutation(present, conflicts))
