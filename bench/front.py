#!/usr/bin/env python3
"""Prints how long calls of rql take until the program is called, beside a Python that does nothing, in turn: bench/front.py [ROUNDS [PYTHON]]

The program is `true`, so that what is measured is rql alone. `add` takes its index from the cache; `sync` finds nothing to do. Times are those
of processors, the least of all rounds, and the ratio to that of `python3 -c pass` in the same run."""

import os
import platform
import resource
import subprocess
import sys
import tempfile
from pathlib import Path

TOP = Path(__file__).resolve().parent.parent
sys.path[:0] = [str(TOP / "tools" / "tests"), str(TOP / "tools")]

from support.made.served_index import MadeIndex, wheel_of  # noqa: E402

CALLS = "log", "show", "check", "undo", "remove rich", "lock --check", "--offline add flask", "sync"
SETTINGS = 'index = ["{}"]\nenvironment = {{ python = "{}", platform = "linux-x86_64" }}\n'


def seconds(command: list[str], folder: Path, variables: dict[str, str]) -> float:
    """The processor time of a call."""
    before = resource.getrusage(resource.RUSAGE_CHILDREN)
    done = subprocess.run(command, cwd=folder, env=variables, stdin=subprocess.DEVNULL, capture_output=True, check=False)
    if done.returncode != 0:
        sys.exit(f"{' '.join(command)}: {done.stderr.decode()}")
    after = resource.getrusage(resource.RUSAGE_CHILDREN)
    return after.ru_utime + after.ru_stime - before.ru_utime - before.ru_stime


def begin(folder: Path, rql: list[str], variables: dict[str, str]) -> None:
    """Begins a project by the built program, installs what it locks, and fills the cache for what is added later."""
    index = MadeIndex()
    for name, *needs in ("rich",), ("flask", "werkzeug"), ("werkzeug",):
        index.add(name, *(wheel_of(name, version, *needs) for version in ("1", "2")))
    (folder / "requirements.txt").write_text("rich\n", encoding="utf-8")
    (folder / "reqlock.toml").write_text(SETTINGS.format(index.url, platform.python_version()), encoding="utf-8")
    seconds([*rql, "init"], folder, variables)
    seconds([*rql, "add", "--dry-run", "flask"], folder, variables)
    seconds([rql[0], "-m", "venv", ".venv"], folder, variables)
    seconds([*rql, "sync"], folder, variables)
    index.close()


def main() -> None:
    rounds, python = int((sys.argv[1:] or ["15"])[0]), (sys.argv[2:] or [sys.executable])[0]
    rql = [python, str(TOP / "tools" / "rql.py")]
    with tempfile.TemporaryDirectory() as name:
        folder = Path(name)
        kept = {key: it for key, it in os.environ.items() if not key.startswith(("REQLOCK_", "PIP_", "UV_", "XDG_", "CI", "VIRTUAL_ENV"))}
        variables = {**kept, "XDG_CACHE_HOME": f"{name}/cache", "NO_PROXY": "*", "no_proxy": "*"}
        begin(folder, rql, {**variables, "PATH": f"{TOP}/crates/reqlock/out:{os.environ['PATH']}"})
        calls = {"python3 -c pass": [python, "-c", "pass"]}
        calls |= {f"rql {words}": [*rql, "--program", "/bin/true", *words.split()] for words in CALLS}
        least = dict.fromkeys(calls, float("inf"))
        for _ in range(rounds):
            for told, command in calls.items():
                least[told] = min(least[told], seconds(command, folder, variables))
    for told, it in least.items():
        print(f"{told:<24}{it * 1000:7.0f} ms {it / least['python3 -c pass']:6.1f}")


if __name__ == "__main__":
    main()
