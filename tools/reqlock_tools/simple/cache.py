"""What earlier runs fetched: each entry a file with the digest of the rest, a line of JSON with what stands beside the body, and the
body."""

import hashlib
import json
import os
import stat
import threading
from typing import Any

from reqlock_tools.files import OWN, is_own, write_whole
from reqlock_tools.libraries import library
from reqlock_tools.names import is_of_rql
from reqlock_tools.refusal import Refusal, Say
from reqlock_tools.regular_file import open_at_once
from reqlock_tools.simple.addresses import Unfetched

VERSION = "2"
Beside = dict[str, Any]
# What stands beside the bodies of each kind.
KEYS: dict[str, set[str]] = {
    "page": {"url", "type", "etag", "modified", "is_absent"}, "metadata": set(), "absent": set(), "archive": set(), "size": {"size"},
    "project": set(),
}


def default_folder() -> str | None:
    """The user's folder for caches, and in it one for these; None where it can't be told."""
    platformdirs = library("platformdirs")
    return None if platformdirs is None else str(platformdirs.user_cache_dir("reqlock", appauthor=False))


def beside_of(line: bytes) -> Beside:
    """What a line of JSON tells; nothing where it is no object."""
    try:
        beside = json.loads(line)
    except (ValueError, RecursionError):
        return {}
    return beside if isinstance(beside, dict) else {}


class Cache:
    """Entries by a kind and a key. Where the folder can't be written, that is said once, and nothing is kept. What another user could
    have put there isn't read."""

    def __init__(self, folder: str, is_offline: bool, say: Say) -> None:
        self.folder, self.is_offline, self.say = folder, is_offline, say
        self.lock = threading.Lock()
        self.is_kept, self.made = True, set[str]()
        for path in folder, os.path.join(folder, VERSION):
            if os.path.lexists(path) and not (is_own(os.lstat(path)) and (not os.path.exists(path) or is_own(os.stat(path)))):
                way = "XDG_CACHE_HOME" if is_of_rql() else "--cache"
                raise Refusal(f"{path}: it belongs to another user, who could change what is locked; {way} names another folder")

    def path(self, kind: str, key: str) -> str:
        name = hashlib.sha256(key.encode()).hexdigest()
        return os.path.join(self.folder, VERSION, kind, name[:2], name[2:])

    def get(self, kind: str, key: str) -> tuple[Beside, bytes] | None:
        """What stood beside a body, and the body; None where it isn't kept, or not as it was put there."""
        try:
            with open(self.path(kind, key), "rb", opener=open_at_once) as file:
                status = os.fstat(file.fileno())
                if not (is_own(status) and stat.S_ISREG(status.st_mode)):
                    return None
                digest, _, data = file.read().partition(b"\n")
        except OSError:
            return None
        if digest != hashlib.sha256(data).hexdigest().encode():
            return None
        line, _, body = data.partition(b"\n")
        beside = beside_of(line)
        is_whole = beside.get("key") == key and KEYS[kind] <= beside.keys()
        return (beside, body) if is_whole else None

    def has(self, kind: str, key: str) -> bool:
        """Whether something stands there, which may be no entry."""
        return os.path.exists(self.path(kind, key))

    def put(self, kind: str, key: str, beside: Beside, body: bytes) -> None:
        path = self.path(kind, key)
        data = json.dumps({**beside, "key": key}).encode() + b"\n" + body
        data = hashlib.sha256(data).hexdigest().encode() + b"\n" + data
        # No lock is held meanwhile: the other threads would wait for this one to be woken behind each call of the system.
        if not self.is_kept:
            return
        try:
            self.make_folder(os.path.dirname(path))
            write_whole(path, data, OWN)
        except OSError as error:
            self.give_up(error)

    def give_up(self, error: OSError) -> None:
        """Keeps nothing more, which the first thread that can't write says."""
        with self.lock:
            is_first, self.is_kept = self.is_kept, False
        if is_first:
            self.say(f"{self.folder}: nothing is kept in it for the next run: {error.strerror}; --cache names another folder")

    def make_folder(self, path: str) -> None:
        if path not in self.made:
            os.makedirs(path, mode=0o700, exist_ok=True)
            self.made.add(path)

    def refuse_absent(self, url: str) -> None:
        """Refuses offline what the cache doesn't have."""
        if self.is_offline:
            raise Unfetched(f"{url}: it isn't in {self.folder}, and --offline asks nobody; run once without --offline")

    def close(self) -> None:
        """No file is begun any more. Those that are begun are ended by their threads."""
        with self.lock:
            self.is_kept = False
