"""URLs of an index: what is asked of whom, and what may be shown and written of them."""

import base64
import ipaddress
import re
import urllib.parse
from functools import lru_cache
from typing import NamedTuple

from reqlock_tools.refusal import Refusal

# So much is shown of what is no URL.
LONGEST = 200
PORTS = {"http": 80, "https": 443}
PATH_CHARACTERS = "/%:@!$&'()*+,;=~-._"
# A URL in which there is nothing to quote or to leave out, as most are.
PLAIN = re.compile(r"https?://[A-Za-z0-9.-]+(?::[1-9][0-9]{0,3})?/[A-Za-z0-9/%:!$&'()*+,;=~._-]*")
# Two slashes, and the user and password of the URL that they begin, as JSON and HTML may write them too.
SLASH = rb"(?:\\?/|\\u002[Ff]|&#0*47;|&#[Xx]0*2[Ff];|&sol;)"
AT = rb"(?:@|\\u0040|&#0*64;|&#[Xx]0*40;|&commat;)"
CREDENTIALS = re.compile(rb"(%b{2})(?:(?!%b)(?:[^/?\\\s\"'<>]|\\u[0-9A-Fa-f]{4})){0,999}%b" % (SLASH, SLASH, AT))


class Unfetched(Refusal):
    """Why something can't be had of the index, which ends the run. It begins with the URL."""


class Unreachable(Unfetched):
    """Nobody is there: the host is unknown, or its port refuses."""


class Address(NamedTuple):
    """Where a URL leads: a host, and what is asked of it."""

    scheme: str
    host: str
    port: int
    target: str

    @property
    def origin(self) -> tuple[str, str, int]:
        return self.scheme, self.host, self.port


def parts_of(url: str) -> urllib.parse.SplitResult:
    try:
        parts = urllib.parse.urlsplit(url)
        is_port = parts.port != 0
    except ValueError:
        is_port = False
    if not is_port:
        # (what Python says of it could be a part of a password)
        raise Unfetched(f"{without_password(url)}: no URL: its host and port can't be read")
    return parts


@lru_cache(maxsize=2**12)
def address_of(url: str) -> Address:
    parts = parts_of(url)
    if parts.scheme not in PORTS or not parts.hostname:
        raise Unfetched(f"{without_password(url)}: an http or https URL with a host is wanted, as https://HOST/simple/")
    target = (parts.path or "/") + (f"?{parts.query}" if parts.query else "")
    return Address(parts.scheme, parts.hostname, parts.port or PORTS[parts.scheme], target)


def joined(base: str, url: str) -> str:
    """A URL that another one leads to, with odd characters quoted, and without user, password and fragment."""
    try:
        return plain_url(url if url.startswith(("https://", "http://")) else urllib.parse.urljoin(base, url))
    except (ValueError, Unfetched):
        raise Unfetched(f"{without_password(base)}: it leads to {without_password(url)[:LONGEST]!a}, which is no URL") from None


def plain_url(url: str) -> str:
    """A URL with odd characters quoted, and without user, password and fragment."""
    if PLAIN.fullmatch(url):
        return url
    parts = parts_of(url)
    path, query = (urllib.parse.quote(text, safe=PATH_CHARACTERS + extra) for text, extra in ((parts.path, ""), (parts.query, "?")))
    return urllib.parse.urlunsplit((parts.scheme, parts.netloc.rpartition("@")[2], path, query, ""))


def is_index(url: str) -> bool:
    """Whether a URL can be the address of an index."""
    parts = parts_of(url)
    return parts.scheme in PORTS and bool(parts.hostname) and not (parts.query or parts.fragment or is_odd(url))


def without_password(text: str) -> str:
    """A text with a URL as it may be shown. The URL need not be a lawful one: all before the last `@` may be a password."""
    beginning, slashes, rest = text.partition("//")
    return beginning + slashes + rest.rpartition("@")[2]


def is_odd(url: str) -> bool:
    """Whether a URL may have a password with a `/` in it, as http://USER:12/34@HOST/ has, so that it leads to a host named USER."""
    return "@" in parts_of(url).path


def without_passwords(data: bytes) -> bytes:
    """A page in which no URL has a user and a password. Nobody is told those that stand there."""
    return CREDENTIALS.sub(rb"\1", data)


def basic(user: str, password: str) -> str:
    """The header's value that tells user and password."""
    return "Basic " + base64.b64encode(f"{user}:{password}".encode()).decode()


def credentials_of(url: str) -> str | None:
    """The header's value for the user and password that a URL has; None where it has none."""
    parts = parts_of(url)
    if parts.username is None:
        return None
    return basic(urllib.parse.unquote(parts.username), urllib.parse.unquote(parts.password or ""))


@lru_cache(maxsize=2**10)
def is_loopback(host: str) -> bool:
    try:
        return ipaddress.ip_address(host).is_loopback
    except ValueError:
        return host == "localhost" or host.endswith(".localhost")
