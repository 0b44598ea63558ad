"""Calls of pip that install what is locked and take out what isn't. Hashes are always asked for, and dependencies never followed; what
pip is told elsewhere counts for the way to the index alone, and not for what is installed."""

import ast
import contextlib
import html
import os
import re
import signal
import subprocess
import sys
import tempfile
import urllib.parse
from collections.abc import Iterable, Iterator, Mapping, Sequence
from dataclasses import dataclass
from fnmatch import fnmatchcase
from pathlib import Path
from types import FrameType

from reqlock_tools.rql.calls import tell_call
from reqlock_tools.rql.faults import STOPPED, SettingsFault
from reqlock_tools.rql.pip_files import may_be_configured
from reqlock_tools.rql.sync_installed import VirtualEnvironment
from reqlock_tools.rql.sync_locked import Locked
from reqlock_tools.simple.plan import IndexAddress
from reqlock_tools.versions import read_version, version_of

# The options of pip that tell how the index is reached, which stay as they are configured.
WAYS = (
    "cache-dir", "cert", "client-cert", "default-timeout", "no-cache-dir", "proxy", "resume-retries", "retries", "timeout", "trusted-host",
    "use-deprecated", "use-feature",
)
CONFIGURED = re.compile(r"(?:global|install)\.([a-z-]+)=(.*)")
SECONDS = 60
# From this pip on, one can work in the environment of another Python.
FOREIGN = 22, 3
# From this pip on, a variable tells where a netrc file is.
HEEDING = "20.3"


class Stopped(SystemExit):
    """The process was told to end by a signal."""


def end(number: int, frame: FrameType | None) -> None:
    raise Stopped(128 + number)


@contextlib.contextmanager
def mended_end() -> Iterator[None]:
    """Has a signal that ends the process run what is to be done at the end: files with passwords are removed."""
    before = {number: signal.signal(number, end) for number in (signal.SIGTERM, signal.SIGHUP)}
    try:
        yield
    finally:
        for number, handler in before.items():
            signal.signal(number, handler)


def asked(command: Sequence[str]) -> str | None:
    """What a call prints; None where it fails."""
    try:
        done = subprocess.run(
            command, stdin=subprocess.DEVNULL, capture_output=True, encoding="utf-8", errors="replace", timeout=SECONDS, check=True
        )
    except (OSError, subprocess.SubprocessError):
        return None
    return done.stdout


def pip_of(environment: VirtualEnvironment) -> tuple[str, ...]:
    """How pip is called: that of the environment, or where it has none that of this Python, which works in the environment. Neither takes
    modules of the folder in which the call is made."""
    own = (str(environment.python), "-I", "-m", "pip")
    if "pip" in environment.installed or asked([*own, "--version"]) is not None:
        return own
    other = (sys.executable, "-I", "-m", "pip")
    told = re.match(r"pip ([0-9]+)\.([0-9]+)", asked([*other, "--version"]) or "")
    if told is None or (int(told[1]), int(told[2])) < FOREIGN:
        raise SettingsFault(f"{environment.place}: it has no pip: {environment.python} -m ensurepip puts it there")
    return (*other, "--python", str(environment.python))


def heeds_netrc(environment: VirtualEnvironment) -> bool:
    """Whether the pip that is called takes the place of a netrc file from a variable. An older one looks into the home alone."""
    pip = environment.installed.get("pip")
    version = read_version(pip.version) if pip is not None else None
    return version is None or version >= version_of(HEEDING)


def variable_of(option: str) -> str:
    return f"PIP_{option.upper().replace('-', '_')}"


def variables_for(pip: Sequence[str], environment: VirtualEnvironment, netrc: Path) -> dict[str, str]:
    """The variables of a call of pip. Of its configuration the way to the index alone is taken over: of its files, and of variables, which
    count more."""
    variables = {name: value for name, value in os.environ.items() if not name.startswith(("PIP_", "PYTHON"))}
    configuration = asked([*pip, "config", "list"]) if may_be_configured(str(environment.place)) else None
    for line in (configuration or "").splitlines():
        told = CONFIGURED.fullmatch(line)
        if told is not None and told[1] in WAYS:
            with contextlib.suppress(ValueError, SyntaxError):
                variables[variable_of(told[1])] = str(ast.literal_eval(told[2]))
    for name, value in os.environ.items():
        option = name.removeprefix("PIP_").lower().replace("_", "-")
        if name.startswith("PIP_") and option in WAYS:
            variables[variable_of(option)] = value
    if not heeds_netrc(environment):
        variables.setdefault("XDG_CACHE_HOME", os.path.expanduser("~/.cache"))
        variables["HOME"] = str(netrc.parent)
    return variables | {"PIP_CONFIG_FILE": os.devnull, "PIP_DISABLE_PIP_VERSION_CHECK": "1", "PIP_NO_INPUT": "1", "NETRC": str(netrc)}


def page_of(locked: Iterable[Locked]) -> str:
    """A page of links to the files that are locked, each with its hash. pip takes of it the one that fits best."""
    links = []
    for package in locked:
        for file in package.files:
            if file.is_linked:
                url = html.escape(f"{urllib.parse.urldefrag(file.url).url}#sha256={file.sha256}")
                links.append(f'<a href="{url}">{html.escape(file.name)}</a><br>\n')
    return f"<!DOCTYPE html><html><body>\n{''.join(links)}</body></html>\n"


def indexes_for(name: str, indexes: Sequence[IndexAddress]) -> tuple[str, ...]:
    """The indexes that are asked for a name: those of whose patterns it is, or else those without patterns."""
    bound = [index for index in indexes if any(fnmatchcase(name, pattern) for pattern in index.only)]
    return tuple(index.url for index in bound or [index for index in indexes if not index.only])


def index_words(urls: Sequence[str]) -> list[str]:
    """The options that tell pip of indexes."""
    if not urls:
        return ["--no-index"]
    return ["--index-url", urls[0], *(word for url in urls[1:] for word in ("--extra-index-url", url))]


def calls_for(locked: Sequence[Locked], indexes: Sequence[IndexAddress]) -> dict[tuple[str, ...], list[Locked]]:
    """What each call of pip installs, by its words for indexes. Wheels to which the lock has links come first, and no index is asked for
    them; of what has none, or has to be built, no index is told a name that it isn't asked for."""
    calls: dict[tuple[str, ...], list[Locked]] = {}
    for package in sorted(locked, key=lambda one: not one.is_linked):
        words = ("--no-index", "--only-binary", ":all:") if package.is_linked else tuple(index_words(indexes_for(package.name, indexes)))
        calls.setdefault(words, []).append(package)
    return calls


def quiet_words() -> list[str]:
    """What has pip tell its progress at a terminal alone."""
    return [] if sys.stderr.isatty() else ["--quiet"]


def install_words(folder: Path, locked: Sequence[Locked], *others: str) -> list[str]:
    """The words that have pip install these packages. The lines and the links are put into a folder."""
    lines, page = folder / "locked.txt", folder / "links.html"
    lines.write_text("".join(f"{package.line()}\n" for package in locked), encoding="utf-8")
    page.write_text(page_of(locked), encoding="utf-8")
    # (each is installed anew: those that are as they should be aren't among them)
    fixed = ["--require-hashes", "--no-deps", "--force-reinstall", "--no-input", "--no-warn-script-location", *quiet_words()]
    return ["install", *fixed, *others, "--find-links", str(page), "--requirement", str(lines)]


@dataclass(frozen=True)
class Pip:
    """Calls of pip in an environment. With `is_told` each is told so that it can be typed."""

    words: tuple[str, ...]
    variables: Mapping[str, str]
    is_told: bool

    def run(self, *words: str) -> int:
        """The status of a call, which tells what it does on standard error. Ctrl-C reaches it too, and it is waited for."""
        command = [*self.words, *words]
        if self.is_told:
            tell_call(command)
        sys.stderr.flush()
        child = subprocess.Popen(command, stdin=subprocess.DEVNULL, stdout=2, env=self.variables)
        try:
            return child.wait()
        except KeyboardInterrupt:
            child.wait()
            return STOPPED
        except Stopped:
            child.terminate()
            child.wait()
            raise

    def install(self, locked: Sequence[Locked], indexes: Sequence[IndexAddress], ways: Sequence[str] = ()) -> int:
        """The status of installing what is locked: that of the first call that fails, behind which nothing is installed. `ways` are words
        of how a server is asked."""
        for words, several in calls_for(locked, indexes).items():
            with tempfile.TemporaryDirectory(prefix="rql-") as name:
                status = self.run(*install_words(Path(name), several, *words, *ways))
            if status != 0:
                return status
        return 0

    def uninstall(self, names: Sequence[str]) -> int:
        """The status of taking out what has these names."""
        return self.run("uninstall", "--yes", *quiet_words(), *names)
