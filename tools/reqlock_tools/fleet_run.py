"""How the folders of a fleet are gone through: a few at a time, in their order, until all are done or Ctrl-C is pressed."""

import signal
import subprocess
import threading
from collections import deque
from collections.abc import Callable
from functools import partial
from queue import Empty, SimpleQueue
from types import FrameType, TracebackType
from typing import Any, Protocol

from reqlock_tools.fleet_call import NO_PROGRAM, Answer, ask
from reqlock_tools.fleet_request import Task
from reqlock_tools.fleet_row import Row, broken_row, folder_call, row_of, waiting_row
from reqlock_tools.refusal import Say

SECONDS_OF_A_WAIT = 0.1
Rows = dict[int, Row]
Show = Callable[[Rows], None]
SIGNALS = signal.SIGINT, signal.SIGTERM


class Stop:
    """Whether Ctrl-C was pressed, or the system asked for an end. Once, no new call begins; twice, nothing is waited for."""

    def __init__(self) -> None:
        self.number, self.count = 0, 0
        self.before: dict[signal.Signals, Any] = {}

    def __enter__(self) -> "Stop":
        self.before = {number: signal.signal(number, self.note) for number in SIGNALS}
        return self

    def __exit__(self, kind: type[BaseException] | None, value: BaseException | None, trace: TracebackType | None) -> None:
        for number, before in self.before.items():
            signal.signal(number, before)

    def note(self, number: int, frame: FrameType | None) -> None:
        self.number, self.count = self.number or number, self.count + 1

    def is_wanted(self) -> bool:
        return self.count > 0

    def is_urgent(self) -> bool:
        return self.count > 1


class Engine(Protocol):
    """What makes calls. `ended` gives the rows of those that came to an end, and the tasks that are to be begun once more."""

    def begin(self, task: Task) -> bool:
        """Begins a task, where there is room for one more."""

    def ended(self, seconds: float) -> tuple[list[tuple[Task, Row]], list[Task]]:
        """What came to an end; where nothing did, some seconds are waited."""

    def unfinished(self) -> list[Task]:
        """The tasks that are begun and not at their end."""

    def is_lost(self) -> str:
        """Why no task can be begun any more; empty where one can."""

    def leave(self) -> None:
        """Waits for nothing any more. Calls that save nothing are ended, others go on to their end."""


class Here:
    """The engine of this machine: a thread for each call, so many at a time."""

    def __init__(self, jobs: int, is_dry: bool, stop: Stop) -> None:
        self.jobs, self.is_dry, self.stop = jobs, is_dry, stop
        self.running: dict[int, Task] = {}
        self.answers: SimpleQueue[tuple[Task, Answer]] = SimpleQueue()
        # the last call of each place, where it may be ended at any time
        self.processes: dict[int, "subprocess.Popen[bytes]"] = {}

    def begin(self, task: Task) -> bool:
        if len(self.running) >= self.jobs:
            return False
        self.running[task.place] = task
        threading.Thread(target=self.work, args=(task,), daemon=True).start()
        return True

    def work(self, task: Task) -> None:
        begun = partial(self.processes.__setitem__, task.place) if self.is_dry else None
        try:
            answer = ask(task.command, task.why, task.path, begun, self.stop.is_wanted)
        except Exception as error:  # (whatever it is, the row of the folder tells it)
            answer = NO_PROGRAM, "", str(error), "", None
        self.answers.put((task, answer))

    def ended(self, seconds: float) -> tuple[list[tuple[Task, Row]], list[Task]]:
        try:
            task, answer = self.answers.get(timeout=seconds)
        except Empty:
            return [], []
        del self.running[task.place]
        self.processes.pop(task.place, None)
        return [(task, row_of(task, answer))], []

    def unfinished(self) -> list[Task]:
        return list(self.running.values())

    def is_lost(self) -> str:
        return ""

    def leave(self) -> None:
        for process in list(self.processes.values()):
            process.kill()


class Run:
    """The rows of a fleet, as they come."""

    def __init__(self, tasks: list[Task], engine: Engine, stop: Stop, say: Say, show: Show) -> None:
        self.tasks, self.engine, self.stop, self.say, self.show = tasks, engine, stop, say, show
        self.waiting = deque(tasks)
        self.rows: Rows = {}
        self.is_told = False

    def rows_in_order(self) -> list[Row]:
        """Makes the calls, and answers a row for each folder, in their order."""
        while not self.is_over():
            while self.waiting and not self.stop.is_wanted() and self.engine.begin(self.waiting[0]):
                self.waiting.popleft()
            self.tell_stop()
            ended, again = self.engine.ended(SECONDS_OF_A_WAIT)
            self.waiting.extendleft(reversed(again))
            self.rows |= {task.place: row for task, row in ended}
            self.show(self.rows)
        self.give_up()
        return [self.rows[task.place] for task in self.tasks]

    def is_over(self) -> bool:
        rests = not self.waiting or self.stop.is_wanted() or bool(self.engine.is_lost())
        return self.stop.is_urgent() or (rests and not self.engine.unfinished())

    def tell_stop(self) -> None:
        if self.stop.is_wanted() and not self.is_told:
            self.is_told = True
            count = len(self.engine.unfinished())
            self.say(f"stopping: no new call begins, and {count} running are let end; Ctrl-C once more waits for none")

    def give_up(self) -> None:
        """Gives each folder that has none a row."""
        left = self.engine.unfinished()
        if left:
            self.engine.leave()
        for task in left:
            text = f"the call wasn't waited for: {folder_call(task, 'check')} tells whether the files are whole"
            self.rows[task.place] = broken_row(task, None, text)
        for task in self.tasks:
            if task.place not in self.rows:
                self.rows[task.place] = waiting_row(task, self.engine.is_lost())
