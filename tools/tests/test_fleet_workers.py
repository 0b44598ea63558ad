"""Tests of tools/fleet.py --dask, with a scheduler and two workers on 127.0.0.1."""

import json
import os
import re
import shutil
import signal
import subprocess
import sys
import time
import unittest

from support.fleets import ASKED, Fleet, table
from support.places import PROGRAM, TOP, needs_program, new_folder

from reqlock_tools.fleet_dask import INSTALL, Dask
from reqlock_tools.fleet_request import Request, read_words


def dask_python():
    """A Python that has the library distributed, or None."""
    finds = "import importlib.util, sys; sys.exit(importlib.util.find_spec('distributed') is None)"
    for python in sys.executable, "/usr/bin/python3":
        if shutil.which(python) and subprocess.run([python, "-c", finds], check=False).returncode == 0:
            return python
    return None


class Cluster:
    """A scheduler of dask on 127.0.0.1, and workers that come and go."""

    def __init__(self, python, folder):
        self.python, self.folder, self.processes = python, folder, []
        self.start("scheduler", "--port", "0", "--scheduler-file", "scheduler.json")
        self.address = self.wait_for(self.read_address)

    def start(self, name, *words):
        command = [self.python, "-m", f"distributed.cli.dask_{name}", *words, "--host", "127.0.0.1", "--no-dashboard"]
        log = open(self.folder / f"{len(self.processes)}.log", "wb")
        self.processes.append(subprocess.Popen(command, cwd=self.folder, stdin=subprocess.DEVNULL, stdout=log, stderr=log))
        log.close()
        return self.processes[-1]

    def worker(self):
        """A worker that makes one call at a time, once it is there."""
        worker = self.start("worker", self.address, "--nthreads", "1", "--no-nanny")
        log = self.folder / f"{len(self.processes) - 1}.log"
        self.wait_for(lambda: "Registered to" in log.read_text(encoding="utf-8"))
        return worker

    def read_address(self):
        try:
            return json.loads((self.folder / "scheduler.json").read_text(encoding="utf-8"))["address"]
        except (OSError, ValueError):
            return None

    @staticmethod
    def wait_for(find):
        end = time.monotonic() + 120
        while not (value := find()):
            if time.monotonic() > end:
                raise AssertionError("dask doesn't come up")
            time.sleep(0.1)
        return value

    def close(self):
        for process in reversed(self.processes):
            process.kill()
            process.wait()


class Workers(Fleet):
    """Calls that workers of dask make."""

    @classmethod
    def setUpClass(cls):
        cls.python = dask_python()
        if cls.python is None:
            raise unittest.SkipTest("no python3 has the library distributed: apt-get install python3-distributed")
        cls.cluster = Cluster(cls.python, new_folder(cls.addClassCleanup))
        cls.addClassCleanup(cls.cluster.close)
        cls.workers = [cls.cluster.worker() for _ in range(2)]

    def setUp(self):
        super().setUp()
        while sum(worker.poll() is None for worker in self.workers) < 2:
            self.workers.append(self.cluster.worker())

    def asked(self, *words):
        return self.start("--dask", self.cluster.address, *words)

    def end_of(self, call):
        """The same, with ADDRESS in the place of a worker's."""
        status, output, errors = super().end_of(call)
        return status, *(re.sub(r"tcp://127\.0\.0\.1:[0-9]+", "ADDRESS", text) for text in (output, errors))

    def kill_worker_of(self, name):
        """Kills the worker that makes the call in a folder."""
        process = (self.folder / name / "worker").read_text(encoding="utf-8").strip()
        [worker] = [worker for worker in self.workers if worker.pid == int(process)]
        worker.kill()
        worker.wait()

    def test_the_table_is_that_of_one_machine(self):
        self.answers(
            a="echo $PPID >worker; sleep 1; echo ok 1", b="echo $PPID >worker; sleep 1; echo refused no-solution; exit 3", c="kill -9 $$",
            d="echo refused not-present; exit 1",
        )
        words = ["a", "b", "c", "d", "none", *ASKED]
        here = self.fleet(*words)
        self.assertEqual(here[0], 4)
        self.assertEqual(self.end_of(self.asked(*words)), here)
        processes = {int((self.folder / name / "worker").read_text(encoding="utf-8")) for name in "ab"}
        self.assertEqual(processes, {worker.pid for worker in self.workers if worker.poll() is None})

    @needs_program
    def test_the_program_saves_at_workers(self):
        self.program = PROGRAM
        shutil.copytree(TOP / "examples" / "fleet", self.folder / "fleet")
        shutil.copy(TOP / "examples" / "web" / "environment.json", self.folder)
        folders = sorted(f"fleet/services/{path.name}" for path in (self.folder / "fleet" / "services").iterdir())
        call = self.asked("--index", "fleet/index.json", "--env", "environment.json", *folders, "--", "init")
        rows = [(folder, "ok 0", "") for folder in folders]
        self.assertEqual(self.end_of(call), (0, f"{table(*rows)}\n5 folders: 5 ok\n", ""))
        words = ["--index", "fleet/index.json", "--explain", *folders, *ASKED]
        here = self.fleet(*words)
        self.assertEqual(here[0], 1)
        self.assertEqual(self.end_of(self.asked(*words)), here)

    def begin(self, *flags):
        """A call over three folders, once a call is running in a, which goes on when it is said."""
        waits = "echo $PPID >worker; while [ ! -e ../go -a -e ../stand-in ]; do sleep 0.05; done; echo ok 1"
        self.answers(a=waits, b="echo ok 2", c="echo ok 3")
        call = self.asked("a", "b", "c", "--", "relock", *flags)
        self.wait_for_calls("a")
        Cluster.wait_for(lambda: (self.folder / "a" / "worker").exists() and (self.folder / "a" / "worker").read_text(encoding="utf-8"))
        return call

    def test_a_worker_that_dies_in_a_call_that_saves(self):
        call = self.begin()
        self.kill_worker_of("a")
        told = "the worker at ADDRESS is gone: reqlock --dir a log tells whether the call had saved"
        rows = ("a", "broken", told), ("b", "ok 2", ""), ("c", "ok 3", "")
        self.assertEqual(self.end_of(call), (4, f"{table(*rows)}\n3 folders: 2 ok, 1 broken\n", ""))
        (self.folder / "go").write_bytes(b"")
        self.assertEqual([len(self.calls(name)) for name in "abc"], [1, 1, 1])

    def test_a_worker_that_dies_in_a_call_that_saves_nothing(self):
        call = self.begin("--dry-run")
        self.kill_worker_of("a")
        (self.folder / "go").write_bytes(b"")
        rows = ("a", "ok 1", ""), ("b", "ok 2", ""), ("c", "ok 3", "")
        told = "a: the worker at ADDRESS is gone; it is asked again elsewhere\n"
        self.assertEqual(self.end_of(call), (0, f"{table(*rows)}\n3 folders: 3 ok\n", told))
        self.assertEqual([len(self.calls(name)) for name in "abc"], [2, 1, 1])

    def test_ctrl_c(self):
        call = self.begin()
        Cluster.wait_for(lambda: self.calls("b") and self.calls("c"))
        call.send_signal(signal.SIGINT)
        self.assertIn("1 running are let end", call.stderr.readline())
        (self.folder / "go").write_bytes(b"")
        rows = ("a", "ok 1", ""), ("b", "ok 2", ""), ("c", "ok 3", "")
        self.assertEqual(self.end_of(call)[:2], (130, f"{table(*rows)}\n3 folders: 3 ok\n"))

    def test_a_worker_that_does_not_see_the_folders(self):
        """A stand-in for a worker of another machine: the folders that it is asked about aren't where it looks."""
        told = []
        dask = object.__new__(Dask)
        dask.say, dask.blind, dask.workers, dask.version, dask.files = told.append, set(), {}, (0, "reqlock 1\n", ""), ["0" * 64]
        dask.request = Request(read_words(["relock"]), "/bin/reqlock", "/index.json", [], False)
        dask.meet("tcp://one:1", 2, ("Worker-1", (0, "reqlock 1\n", ""), ["0" * 64], []))
        dask.meet("tcp://two:1", 2, ("Worker-2", (0, "reqlock 2\n", ""), ["1" * 64], ["/s/a", "/s/b"]))
        dask.meet("tcp://three:1", 2, ("Worker-3", (127, "", "/bin/reqlock: No such file or directory"), ["0" * 64], []))
        dask.meet("tcp://four:1", 2, "it has Python 3.9.2, and here is 3.11.2")
        self.assertEqual(list(dask.workers), ["tcp://one:1"])
        self.assertEqual(told, [
            "tcp://two:1: this worker gets no folder: /bin/reqlock: it is another version than here; "
            "/index.json: it isn't the file that is here; /s/a: it isn't there, or not under this path",
            "tcp://three:1: this worker gets no folder: /bin/reqlock: No such file or directory",
            "tcp://four:1: this worker gets no folder: it has Python 3.9.2, and here is 3.11.2",
        ])

    def test_a_scheduler_that_is_not_there(self):
        told = "nonsense://x: the address of a scheduler is wanted, as tcp://scheduler.example:8786\n"
        self.assertEqual(self.fleet("--dask", "nonsense://x", "a", *ASKED), (4, "", told))


class WithoutDask(Fleet):
    def test_what_is_missing_is_told(self):
        # (a module of that name stands before the library, where python3 has it, and is none that can be imported)
        (self.folder / "modules").mkdir()
        (self.folder / "modules" / "distributed.py").write_text("raise ImportError\n", encoding="utf-8")
        variables = {**os.environ, "PYTHONPATH": str(self.folder / "modules")}
        status, output, errors = self.end_of(self.start("--dask", "tcp://127.0.0.1:1", "a", *ASKED, env=variables))
        told = f"--dask needs the library distributed, which python3 hasn't: {INSTALL}\n"
        self.assertEqual((status, output, errors), (4, "", told))


if __name__ == "__main__":
    unittest.main()
