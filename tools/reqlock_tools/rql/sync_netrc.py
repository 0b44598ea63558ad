"""User and password of indexes, handed to pip in a netrc file that is its user's alone and is removed afterwards."""

import base64
import contextlib
import os
import re
import tempfile
from collections.abc import Iterable, Iterator
from pathlib import Path

from reqlock_tools.refusal import Say
from reqlock_tools.rql.faults import SettingsFault
from reqlock_tools.simple.addresses import Unfetched, address_of
from reqlock_tools.simple.credentials import Credentials

# From this Python on a netrc file has texts in double quotes; before it a text begins and ends at spaces.
QUOTING = 3, 11
PLAIN = re.compile("[!-~]+")


def word(text: str, version: tuple[int, ...], host: str) -> str:
    """A text as the netrc file of a Python has it. What it can't have is refused; the text isn't told."""
    if version >= QUOTING and text.isprintable():
        escaped = text.replace("\\", "\\\\").replace('"', '\\"')
        return f'"{escaped}"'
    if PLAIN.fullmatch(text):
        return text
    raise SettingsFault(f"user or password for {host} has a character that a netrc file can't have, which is how pip is told it")


def known_credentials(urls: Iterable[str], say: Say) -> dict[str, tuple[str, str]]:
    """User and password by index, of variables, netrc or keyring, for the indexes that have some."""
    urls = list(urls)
    credentials = Credentials(urls, say, are_typed=False)
    by_url = {}
    for url in urls:
        address = address_of(url)
        if credentials.get(address) is None:
            credentials.find_more(address, None)
        value = credentials.get(address)
        if value is not None:
            user, _, password = base64.b64decode(value.removeprefix("Basic ")).decode().partition(":")
            by_url[url] = (user, password)
    return by_url


def refuse_elsewhere(known: dict[str, tuple[str, str]], files: Iterable[str]) -> None:
    """Refuses files at the host of an index with a password, but at another port or without its encryption: a netrc file tells a
    password by the name of the host alone."""
    origins = {address_of(url).host: address_of(url).origin for url in known}
    for url in files:
        try:
            address = address_of(url)
        except Unfetched:
            continue
        if origins.get(address.host, address.origin) != address.origin:
            raise SettingsFault(f"{url}: the password for {address.host} is for {'{}://{}:{}'.format(*origins[address.host])} alone")


def netrc_text(known: dict[str, tuple[str, str]], version: tuple[int, ...]) -> str:
    """The lines of a netrc file. Two indexes at one host need the same user and password."""
    hosts: dict[str, tuple[str, str]] = {}
    for url, pair in known.items():
        host = address_of(url).host
        if hosts.setdefault(host, pair) != pair:
            raise SettingsFault(f"{host}: two of its indexes have other passwords, and pip is told one for each host")
    return "".join(
        f"machine {host} login {word(user, version, host)} password {word(password, version, host)}\n"
        for host, (user, password) in hosts.items()
    )


@contextlib.contextmanager
def netrc_file(text: str) -> Iterator[Path]:
    """A netrc file of this text, for as long as it is needed."""
    with tempfile.TemporaryDirectory(prefix="rql-") as folder:  # (others can't enter it)
        path = Path(folder) / ".netrc"
        number = os.open(path, os.O_WRONLY | os.O_CREAT | os.O_EXCL, 0o600)
        with open(number, "w", encoding="utf-8") as file:
            file.write(text)
        yield path
