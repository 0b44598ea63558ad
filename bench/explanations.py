#!/usr/bin/env python3
"""Prints what tools say of problems without a solution: explanations.py [--only WORD ..] [--tools NAME ..] [--seconds SECONDS] [--whole]

Each problem of tools/tests/support/made/refused.py is put into an index of its own on 127.0.0.1, and told to the pip of the Python that runs
this, to `pdm`, `poetry` and `reqlock` of the PATH, of reqlock by `why --init --explain`. What a person reads is printed, without progress,
without what is fetched and without the address of the index; with --whole all of it. What has no answer in so many seconds (120) is
cut off. No other index is asked. docs/EXPLANATIONS.md has reqlock's answers, and docs/OTHER_TOOLS.md those of the others.
"""
import argparse
import json
import os
import re
import shutil
import subprocess
import sys
import tempfile
import time
from pathlib import Path

TOP = Path(__file__).resolve().parent.parent
sys.path.insert(0, str(TOP / "tools" / "tests"))
from support.made.environments import LINUX  # noqa: E402
from support.made.refused import PROBLEMS  # noqa: E402
from support.made.served_index import MadeIndex, wheel_of  # noqa: E402

PYTHON = ".".join(map(str, sys.version_info[:3]))
HERE = LINUX | {"python_full_version": PYTHON, "implementation_version": PYTHON, "python_version": PYTHON.rpartition(".")[0]}


def served(packages):
    """An index of these packages of a snapshot, each release as a wheel that can be installed."""
    index = MadeIndex(is_html=True)
    for package in packages:
        name = package["name"].lower()
        for release in package["releases"]:
            python, needs = release.get("requires_python"), release.get("requires_dist", [])
            told = {key: value for key, value in (("requires-python", python), ("yanked", release.get("yanked"))) if value}
            extras = sorted(set(re.findall("extra == [\"']([^\"']+)", " ".join(needs))))
            more = {"provides_extra": extras[0]} if extras else {}
            index.add(name, wheel_of(name, release["version"], *needs, python=python, told=told, **more))
    return index


def pip_call(folder, url):
    words = ["install", "--dry-run", "--ignore-installed", "--isolated", "--no-cache-dir", "--disable-pip-version-check", "--no-color"]
    return [sys.executable, "-m", "pip", *words, "--index-url", url, "--requirement", "requirements.txt"]


def split_line(line):
    """The name, the extras and the specifiers of a line without a marker."""
    name, extras, specifiers = re.fullmatch(r"([\w.-]+)(?:\[([^]]*)\])?(.*)", line.replace(" ", "")).groups()
    return name, extras.split(",") if extras else [], specifiers


def poetry_call(folder, url):
    lines = ['[tool.poetry]', 'name = "project"', 'version = "1"', 'description = ""', 'authors = []']
    lines += ['[tool.poetry.dependencies]', f'python = "{PYTHON}"']
    for line in (folder / "requirements.txt").read_text(encoding="utf-8").splitlines():
        name, extras, specifiers = split_line(line)
        lines.append(f'{name} = {{version = {json.dumps(specifiers or "*")}, extras = {json.dumps(extras)}}}')
    lines += ['[[tool.poetry.source]]', 'name = "made"', f'url = "{url}"', 'default = true', '']
    (folder / "pyproject.toml").write_text("\n".join(lines), encoding="utf-8")
    return ["poetry", "lock", "--no-ansi", "--no-cache", "--no-interaction"]


def pdm_call(folder, url):
    lines = (folder / "requirements.txt").read_text(encoding="utf-8").splitlines()
    texts = ['[project]', 'name = "project"', 'version = "1"', f'requires-python = "=={PYTHON}"', f"dependencies = {json.dumps(lines)}"]
    texts += ['[[tool.pdm.source]]', 'name = "pypi"', f'url = "{url}"', 'verify_ssl = false', '']
    (folder / "pyproject.toml").write_text("\n".join(texts), encoding="utf-8")
    (folder / ".pdm.toml").write_text(f'[python]\npath = "{sys.executable}"\n', encoding="utf-8")
    return ["pdm", "lock"]


def reqlock_call(folder, url):
    (folder / "environment.json").write_text(json.dumps(HERE), encoding="utf-8")
    return ["reqlock", "--index", "index.json", "--env", "environment.json", "why", "--init", "--explain"]


CALLS = {"pip": pip_call, "pdm": pdm_call, "poetry": poetry_call, "reqlock": reqlock_call}


def asked(name, lines, packages, index, seconds):
    """What a tool says of lines over an index, its status (None where it was cut off), and the seconds."""
    with tempfile.TemporaryDirectory() as place:
        folder = Path(place) / "project"
        folder.mkdir()
        (folder / "requirements.txt").write_text("".join(f"{line}\n" for line in lines), encoding="utf-8")
        (folder / "index.json").write_text(json.dumps({"snapshot": 1, "packages": packages}), encoding="utf-8")
        variables = {key: os.environ[key] for key in ("PATH", "LANG") if key in os.environ}
        variables |= {"HOME": place, "NO_COLOR": "1", "no_proxy": "*", "PDM_CHECK_UPDATE": "0", "COLUMNS": "100"}
        start = time.monotonic()
        try:
            done = subprocess.run(
                CALLS[name](folder, index.url), cwd=folder, env=variables, stdin=subprocess.DEVNULL, stdout=subprocess.PIPE,
                stderr=subprocess.STDOUT, encoding="utf-8", check=False, timeout=seconds,
            )
            status, told = done.returncode, done.stdout
        except subprocess.TimeoutExpired as end:
            status, told = None, (end.stdout or b"").decode()
        for address in index.url, index.url.removesuffix("/"), place:
            told = told.replace(address, "..")
        return told, status, time.monotonic() - start


# What tools tell of their progress, and of where more is told.
PASSED = re.compile(
    r"Looking in indexes:| *Downloading |Collecting | *Using |  Obtaining |Updating dep|Resolving dep|Creating |INFO: |"
    r"The currently activated|Trying to find|See .*log for|Add '-v'|\s*$"
)


def shortened(told):
    return "\n".join(line for line in told.splitlines() if not PASSED.match(line))


def main():
    parser = argparse.ArgumentParser(description=__doc__, formatter_class=argparse.RawDescriptionHelpFormatter)
    parser.add_argument("--only", nargs="*", default=[""])
    parser.add_argument("--tools", nargs="*", default=list(CALLS))
    parser.add_argument("--seconds", type=float, default=120)
    parser.add_argument("--whole", action="store_true")
    given = parser.parse_args()
    tools = [name for name in CALLS if name in given.tools and (name == "pip" or shutil.which(name))]
    for title, (lines, make) in PROBLEMS.items():
        if not any(word in title for word in given.only):
            continue
        print(f"## {title}\n\n    " + "\n    ".join(lines))
        packages = make()
        index = served(packages)
        for name in tools:
            told, status, seconds = asked(name, lines, packages, index, given.seconds)
            told = told if given.whole else shortened(told)
            end = "cut off" if status is None else f"status {status}"
            print(f"\n### {name}: {end}, {seconds:.1f} s, {len(told.splitlines())} lines\n\n{told}\n", flush=True)
        index.close()


if __name__ == "__main__":
    main()
