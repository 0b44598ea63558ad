"""A bar on the terminal at standard error, where that is one: the library `rich` draws it."""

import sys
import time
from typing import TYPE_CHECKING

from reqlock_tools.libraries import library, rich_console, rich_progress

if TYPE_CHECKING:
    from rich.progress import Progress as Bar

SECONDS_BETWEEN_LOOKS = 0.1


def bar_of(text: str) -> "Bar":
    """A bar with one task."""
    rich = rich_progress
    columns = rich.TextColumn("{task.description}", markup=False), rich.BarColumn(), rich.TimeElapsedColumn()
    console = rich_console.Console(stderr=True)
    bar = rich.Progress(*columns, console=console, transient=True, redirect_stdout=False, redirect_stderr=False)
    bar.add_task(text)
    return bar


class Progress:
    """What is done so far. It is shown now and then, and leaves nothing behind."""

    def __init__(self) -> None:
        self.start, self.looked = time.monotonic(), 0.0
        self.is_shown = sys.stderr.isatty() and library("rich.progress") is not None
        self.bar: Bar | None = None

    def seconds(self) -> float:
        return time.monotonic() - self.start

    def is_due(self) -> bool:
        """Whether it is worth while to show what is done."""
        return self.is_shown and time.monotonic() - self.looked >= SECONDS_BETWEEN_LOOKS

    def show(self, text: str, done: int, count: int) -> None:
        if not self.is_due():
            return
        self.looked = time.monotonic()
        if self.bar is None:
            self.bar = bar_of(text)
            self.bar.start()
        self.bar.update(self.bar.task_ids[0], description=text, completed=done, total=max(count, 1))

    def clear(self) -> None:
        if self.bar is not None:
            self.bar.stop()
            self.bar = None
