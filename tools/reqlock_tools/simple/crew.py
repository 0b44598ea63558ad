"""Threads that ask, while one thread takes what they have found."""

import heapq
import itertools
import queue
import time
from collections import deque
from collections.abc import Callable
from concurrent.futures import Future, ThreadPoolExecutor
from functools import partial
from typing import Any

from reqlock_tools.progress import SECONDS_BETWEEN_LOOKS

# So many pieces of work are given to each thread ahead.
AHEAD = 4
# While the threads have enough to do, what they have done is taken a few pieces at a time: each taking stops them all.
SECONDS_BETWEEN_TAKES = 0.004

Work = Callable[[], Any]
Take = Callable[[Any], None]


class Crew:
    """Threads that work, while one thread takes what they have done. Work of a lower rank comes first. What waits for nobody is done by
    the thread that takes, while it has nothing to take."""

    def __init__(self, count: int) -> None:
        self.executor, self.free = ThreadPoolExecutor(count), count * AHEAD
        self.waiting: list[tuple[int, int, Work, Take]] = []
        self.own: deque[tuple[Work, Take]] = deque()
        self.done: queue.SimpleQueue[tuple[Take, Future[Any]]] = queue.SimpleQueue()
        self.order, self.under_way = itertools.count(), 0

    def start(self, rank: int, work: Work, take: Take) -> None:
        """Has work done by some thread; then `take` is called with what it gave, in the thread that runs."""
        heapq.heappush(self.waiting, (rank, next(self.order), work, take))

    def start_own(self, work: Work, take: Take) -> None:
        """Has work done by the thread that runs, which then calls `take` with what it gave."""
        self.own.append((work, take))

    def give(self) -> None:
        """Gives the threads what they may begin."""
        while self.waiting and self.under_way < self.free:
            _, _, work, take = heapq.heappop(self.waiting)
            self.under_way += 1
            self.executor.submit(work).add_done_callback(partial(self.put, take))

    def put(self, take: Take, future: "Future[Any]") -> None:
        self.done.put((take, future))

    def run(self, show: Callable[[], None]) -> None:
        """Takes what is done, until nothing is under way. The first fault ends it. `show` is called now and then."""
        self.give()
        while self.under_way or self.own:
            self.take_one()
            self.give()
            show()
            if self.done.empty() and self.under_way == self.free and not self.own:
                time.sleep(SECONDS_BETWEEN_TAKES)

    def take_one(self) -> None:
        """Takes a piece that is done. While none is, a piece of its own work is done, or it waits for a moment."""
        try:
            take, future = self.done.get(block=not self.own, timeout=SECONDS_BETWEEN_LOOKS)
        except queue.Empty:
            if self.own:
                work, take = self.own.popleft()
                take(work())
            return
        self.under_way -= 1
        take(future.result())

    def end(self) -> None:
        """Ends each thread behind what it does now."""
        self.waiting.clear()
        self.executor.shutdown(wait=True, cancel_futures=True)
