"""The engine of several machines: a scheduler of dask, whose workers make the calls.

Each call is given to one worker, and to no other process. dask begins a task again where its worker died; here such a call is
answered as lost instead, since it may have saved. Only where it saves nothing is it given to another worker.
"""

import contextlib
import logging
import platform
import re
import time
import uuid
from queue import Empty, SimpleQueue
from typing import Any, NamedTuple

from reqlock_tools import fleet_call
from reqlock_tools.fleet_request import Request, Task
from reqlock_tools.fleet_row import Row, broken_row, fault_row, folder_call, row_of
from reqlock_tools.fleet_run import Stop
from reqlock_tools.libraries import library
from reqlock_tools.refusal import Refusal, Say

SECONDS_OF_AN_ANSWER = 10
SECONDS_BETWEEN_LOOKS = 0.5
SECONDS_WITHOUT_WORKERS = 10
MOST_LOSSES = 3
INSTALL = "apt-get install python3-distributed, or python3 -m pip install distributed"


# These tell on standard error, at any time, of workers and schedulers that are gone, which is told here in its place.
QUIET = "asyncio", "distributed", "distributed.client", "distributed.core", "distributed.comm"
# (dask takes addresses of more kinds, and of some that it doesn't know it says so only after a while)
ADDRESS = re.compile(r"(?:(?:tcp|tls|ucx|ws|wss)://)?[^/\s]+:[0-9]+")


class Worker(NamedTuple):
    """A worker that sees what is here: its name, by which no other process goes, and its threads."""

    name: str
    threads: int


class Call(NamedTuple):
    task: Task
    address: str
    future: Any


class Dask:
    def __init__(self, address: str, request: Request, folders: list[str], jobs: int | None, say: Say, stop: Stop) -> None:
        self.address, self.request, self.folders, self.jobs, self.say = address, request, folders, jobs, say
        self.workers: dict[str, Worker] = {}
        # those that don't see what is here
        self.blind: set[str] = set()
        self.running: dict[int, Call] = {}
        self.losses: dict[int, int] = {}
        self.events: SimpleQueue[tuple[int, Any]] = SimpleQueue()
        self.looked = self.seen = time.monotonic()
        self.fault = ""
        self.files = [fleet_call.digest_of(path) for path in request.files()]
        self.version = fleet_call.tell([request.program, "--version"])
        self.client = client_of(address)
        self.wait_for_workers(stop)

    def wait_for_workers(self, stop: Stop) -> None:
        """Goes on once there is a worker."""
        while not self.fault and not self.workers and not stop.is_wanted():
            self.look()
            if not self.workers:
                time.sleep(SECONDS_BETWEEN_LOOKS)
        if self.fault:
            self.client.close()
            raise Refusal(self.fault)

    # Workers

    def look(self) -> None:
        """Asks which workers there are, and each new one what it sees."""
        self.looked = time.monotonic()
        try:
            threads = dict(self.client.nthreads())
            new = [address for address in threads if address not in self.workers and address not in self.blind]
            seen = self.sights(new) if new else {}
        except Exception:  # (whatever dask raises where its scheduler is gone)
            self.fault = f"{self.address}: the scheduler doesn't answer any more"
            return
        self.workers = {address: worker for address, worker in self.workers.items() if address in threads}
        for address, sight in seen.items():
            self.meet(address, threads[address], sight)
        if self.workers:
            self.seen = self.looked
        elif self.looked - self.seen > SECONDS_WITHOUT_WORKERS:
            which = "no worker that sees what is here" if self.blind else "no worker"
            self.fault = f"{self.address}: the scheduler has {which}; start some: dask worker {self.address}"

    def sights(self, new: list[str]) -> dict[str, Any]:
        """What new workers see. What they are sent is read by the Python that wrote it, so that is asked first."""
        here, there = platform.python_version(), self.client.run(platform.python_version, workers=new, on_error="return")
        same = [address for address in new if str(there.get(address)).split(".")[:2] == here.split(".")[:2]]
        words = self.request.program, self.request.files(), self.folders
        seen = self.client.run(fleet_call.look, *words, workers=same, on_error="return") if same else {}
        return {address: seen.get(address, f"it has Python {there.get(address)}, and here is {here}") for address in new}

    def meet(self, address: str, threads: int, sight: Any) -> None:
        """Takes a worker, where it sees what is here; else it is told what it doesn't see."""
        faults = [str(sight)] if isinstance(sight, (str, BaseException)) else self.differences(*sight[1:])
        if faults:
            self.blind.add(address)
            self.say(f"{address}: this worker gets no folder: {'; '.join(faults)}")
        else:
            self.workers[address] = Worker(sight[0], threads)

    def differences(self, version: fleet_call.Told, files: list[str], absent: list[str]) -> list[str]:
        """What a worker sees otherwise than it is here."""
        faults = []
        if version != self.version:
            faults.append(version[2].strip() or f"{self.request.program}: it is another version than here")
        for path, there, here in zip(self.request.files(), files, self.files):
            if there != here:
                faults.append(f"{path}: it isn't the file that is here")
        return faults + [f"{folder}: it isn't there, or not under this path" for folder in absent[:1]]

    # Calls

    def begin(self, task: Task) -> bool:
        """Gives a task to the worker that has the most room."""
        if self.fault:
            return False
        loads = dict.fromkeys(self.workers, 0)
        for call in self.running.values():
            if call.address in loads:
                loads[call.address] += 1
        room, address = max(((self.workers[worker].threads - load, worker) for worker, load in loads.items()), default=(0, ""))
        if room <= 0 or (self.jobs is not None and len(self.running) >= self.jobs):
            return False
        future = self.client.submit(
            fleet_call.ask_at, self.workers[address].name, task.command, task.why, task.path,
            key=f"reqlock-{uuid.uuid4().hex}", workers=[address], allow_other_workers=False, pure=False,
        )
        self.running[task.place] = Call(task, address, future)
        future.add_done_callback(lambda done: self.events.put((task.place, done)))
        return True

    def ended(self, seconds: float) -> tuple[list[tuple[Task, Row]], list[Task]]:
        rows: list[tuple[Task, Row]] = []
        again: list[Task] = []
        try:
            place, future = self.events.get(timeout=seconds)
        except Empty:
            pass
        else:
            call = self.running.get(place)
            if call is not None and call.future is future:
                self.finish(call, rows, again)
        if time.monotonic() - self.looked >= SECONDS_BETWEEN_LOOKS and not self.fault:
            self.look()
        for call in [running for running in self.running.values() if self.fault or running.address not in self.workers]:
            if not call.future.done():
                self.lose(call, rows, again)
        return rows, again

    def finish(self, call: Call, rows: list[tuple[Task, Row]], again: list[Task]) -> None:
        """Takes the answer of a call that dask has done with."""
        status = call.future.status
        answer = call.future.result() if status == "finished" else None
        if status == "error" and not is_death(call.future):
            del self.running[call.task.place]
            rows.append((call.task, fault_row(call.task, f"{call.address}: {call.future.exception()}")))
        elif answer is None:
            self.lose(call, rows, again)
        else:
            del self.running[call.task.place]
            rows.append((call.task, row_of(call.task, answer)))

    def lose(self, call: Call, rows: list[tuple[Task, Row]], again: list[Task]) -> None:
        """What becomes of a call whose worker is gone."""
        task, place = call.task, call.task.place
        del self.running[place]
        self.workers.pop(call.address, None)
        if self.client.status != "running":
            self.fault = self.fault or f"{self.address}: the scheduler doesn't answer any more"
        forget(call.future)
        self.losses[place] = self.losses.get(place, 0) + 1
        gone = "the scheduler is gone" if self.fault else f"the worker at {call.address} is gone"
        is_dry = self.request.words.is_dry()
        if is_dry and not self.fault and self.losses[place] < MOST_LOSSES:
            self.say(f"{task.folder}: {gone}; it is asked again elsewhere")
            again.append(task)
            return
        tells = "check tells whether the files are whole" if is_dry else "log tells whether the call had saved"
        rows.append((task, broken_row(task, None, f"{gone}: {folder_call(task, tells)}")))

    def unfinished(self) -> list[Task]:
        return [call.task for call in self.running.values()]

    def is_lost(self) -> str:
        return self.fault

    def leave(self) -> None:
        for call in self.running.values():
            forget(call.future)

    def close(self) -> None:
        with contextlib.suppress(Exception):
            self.client.close()


def client_of(address: str) -> Any:
    """A client of the scheduler. What workers are to do is sent to them, so they needn't have these tools."""
    distributed, pickle = library("distributed"), library("cloudpickle")
    if distributed is None or pickle is None:
        raise Refusal(f"--dask needs the library distributed, which python3 hasn't: {INSTALL}")
    if not ADDRESS.fullmatch(address):
        raise Refusal(f"{address}: the address of a scheduler is wanted, as tcp://scheduler.example:8786")
    pickle.register_pickle_by_value(fleet_call)
    for name in QUIET:
        logging.getLogger(name).setLevel(logging.CRITICAL)
    try:
        return distributed.Client(address, timeout=SECONDS_OF_AN_ANSWER, set_as_default=False)
    except (OSError, ValueError) as error:
        raise Refusal(f"{address}: no scheduler of dask answers: {error}; start one: dask scheduler") from None


def forget(future: Any) -> None:
    """Tells dask that nobody waits for a call any more, where it still listens."""
    with contextlib.suppress(Exception):
        future.cancel()


def is_death(future: Any) -> bool:
    """Whether dask gave a task up since its workers died."""
    return type(future.exception()).__name__ == "KilledWorker"
