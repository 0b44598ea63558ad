"""User and password for an index: of the environment's variables, a netrc file, or the command keyring. None of them is told, and
nothing but the index at its own host and port is told any."""

import netrc
import os
import re
import shutil
import stat
import subprocess
import threading
import urllib.parse
from collections.abc import Iterable

from reqlock_tools.refusal import Refusal, Say
from reqlock_tools.simple.addresses import Address, address_of, basic, credentials_of, is_loopback, parts_of, without_password

Origin = tuple[str, str, int]
SECONDS = 60


def variable_of(url: str) -> str:
    """What the names of an index's variables begin with: its host, and its port where the URL has one, in upper case."""
    host = parts_of(url).netloc.rpartition("@")[2]
    return "REQLOCK_INDEX_" + re.sub("[^A-Z0-9]", "_", host.upper())


def way(url: str) -> str:
    """Where a password is put, so that nobody else reads it."""
    host, variable = parts_of(url).hostname, variable_of(url)
    return f"put it into ~/.netrc, as `machine {host} login USER password PASSWORD`, or into {variable}_USERNAME and {variable}_PASSWORD"


def netrc_path() -> str | None:
    """Where a netrc file stands; None where there is none."""
    names = [os.environ["NETRC"]] if "NETRC" in os.environ else ["~/.netrc", "~/_netrc"]
    paths = [os.path.expanduser(name) for name in names]
    return next((path for path in paths if os.path.exists(path) and stat.S_ISREG(os.stat(path).st_mode)), None)


class Credentials:
    """The header's values for the indexes, by where they are. Of a URL's own user and password, the variables and netrc the first one
    that tells counts; keyring is asked once the index wants more. An address that a file tells is told none over plain http."""

    def __init__(self, urls: Iterable[str], say: Say, are_typed: bool = True) -> None:
        self.say, self.lock, self.are_typed = say, threading.Lock(), are_typed
        self.urls: dict[Origin, str] = {}
        for url in urls:
            self.take(url)
        self.refuse_alike()
        self.machines = self.read_netrc()
        self.values = {origin: value for origin, url in self.urls.items() if (value := self.value_of(url)) is not None}
        self.asked: set[Origin] = set()

    def take(self, url: str) -> None:
        """Takes an index. Two at one host and port have one user and password, since each is told them."""
        origin = address_of(url).origin
        other = self.urls.get(origin, url)
        given = {credentials_of(either) for either in (other, url)} - {None}
        if len(given) > 1:
            raise Refusal(f"{without_password(url)}: another index at its host and port has another user or password")
        self.urls[origin] = url if credentials_of(url) is not None else other

    def get(self, address: Address) -> str | None:
        return self.values.get(address.origin)

    def told_of(self, url: str) -> str:
        """Where user and password for a URL stand, behind these words; or why it is told none."""
        index = self.urls.get(address_of(url).origin)
        if index is None:
            return "are told to an index at its own host and port alone, and this is another one"
        if not self.may_have(index):
            return "are told over https alone to an index that settings or a snapshot name"
        return f"stand in ~/.netrc, or in {variable_of(index)}_USERNAME and {variable_of(index)}_PASSWORD"

    def refuse_alike(self) -> None:
        """Refuses variables that could be meant for either of two indexes."""
        known: dict[str, str] = {}
        for url in self.urls.values():
            variable, host = variable_of(url), parts_of(url).netloc.rpartition("@")[2].lower()
            other = known.setdefault(variable, host)
            if other != host and f"{variable}_PASSWORD" in os.environ:
                raise Refusal(f"{variable}_PASSWORD: it could be meant for {other} or for {host}; ~/.netrc tells them apart")

    def read_netrc(self) -> dict[str, tuple[str, str]]:
        """User and password by machine. An entry for all others isn't taken, since it would be told to any index."""
        path = netrc_path()
        if path is None:
            return {}
        try:
            hosts = netrc.netrc(path).hosts
        except netrc.NetrcParseError as error:  # (what it says could have a password in it)
            self.say(f"{path}: line {error.lineno}: it can't be read, so no password of it is taken")
            return {}
        except (OSError, UnicodeDecodeError):
            self.say(f"{path}: it can't be read, so no password of it is taken")
            return {}
        return {host: (user or "", password or "") for host, (user, _, password) in hosts.items() if host != "default"}

    def may_have(self, url: str) -> bool:
        address = address_of(url)
        return self.are_typed or address.scheme == "https" or is_loopback(address.host)

    def value_of(self, url: str) -> str | None:
        """The value for an index; None where nothing tells a password."""
        parts = parts_of(url)
        if not self.may_have(url) or parts.password is not None:
            return credentials_of(url)
        user, variable = urllib.parse.unquote(parts.username or ""), variable_of(url)
        if f"{variable}_PASSWORD" in os.environ:
            return basic(os.environ.get(f"{variable}_USERNAME", user), os.environ[f"{variable}_PASSWORD"])
        known = self.machines.get(parts.hostname or "")
        if known is not None and user in ("", known[0]):
            return basic(*known)
        return credentials_of(url)

    def find_more(self, address: Address, used: str | None) -> bool:
        """Whether there is something else for an index that refused what was used: what keyring has, which is asked once."""
        url = self.urls.get(address.origin)
        if url is None or not self.may_have(url):
            return False
        with self.lock:
            if address.origin not in self.asked:
                self.asked.add(address.origin)
                value = keyring_value(url)
                if value is not None:
                    self.values[address.origin] = value
            return self.values.get(address.origin) != used


def keyring_value(url: str) -> str | None:
    """The value of what the command keyring has for an index, by its address or its host; None where it has nothing or isn't there."""
    program, parts = shutil.which("keyring"), parts_of(url)
    user = urllib.parse.unquote(parts.username or "") or os.environ.get(f"{variable_of(url)}_USERNAME", "")
    if program is None or parts.password is not None:
        return None
    for service in without_password(url), parts.hostname or "":
        words = ["get", service, user] if user else ["--mode", "creds", "get", service]
        lines = printed_by([program, *words])
        if user and len(lines) == 1:
            return basic(user, lines[0])
        if not user and len(lines) == 2:
            return basic(*lines)
    return None


def printed_by(command: list[str]) -> list[str]:
    """The lines that a command prints; none where it fails or takes long."""
    try:
        done = subprocess.run(
            command, stdin=subprocess.DEVNULL, stdout=subprocess.PIPE, stderr=subprocess.DEVNULL, encoding="utf-8", timeout=SECONDS,
            check=True,
        )
    except (OSError, UnicodeDecodeError, subprocess.SubprocessError):
        return []
    return done.stdout.splitlines()
