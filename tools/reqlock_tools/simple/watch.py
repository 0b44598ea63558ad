"""Connections whose answers take no longer as a whole, and have no longer headers, than is allowed."""

import http.client
import socket
import threading
import time
from collections.abc import Iterator
from contextlib import contextmanager, suppress
from typing import Any

from reqlock_tools.libraries import urllib3_connection, urllib3_pools
from reqlock_tools.limits import Limits

SECONDS_BETWEEN_LOOKS = 0.1


class TooLong(Exception):
    """A limit was met, which asking again doesn't help: its name."""


class Exchange:
    """A request with its answer, and the sockets that it goes over."""

    def __init__(self, deadline: float) -> None:
        self.deadline, self.is_over = deadline, False
        self.sockets: list[socket.socket] = []

    def stop(self) -> None:
        """Makes whoever reads or writes there see the connection cut."""
        self.is_over = True
        for open_socket in self.sockets:
            with suppress(OSError):
                socket.socket.shutdown(open_socket, socket.SHUT_RDWR)


class Watch:
    """Looks now and then whether an exchange is to be stopped. Each thread has one exchange at a time."""

    def __init__(self, limits: Limits) -> None:
        self.limits, self.own = limits, threading.local()
        self.lock, self.stopped = threading.Lock(), threading.Event()
        self.under_way: set[Exchange] = set()
        threading.Thread(target=self.look, daemon=True).start()

    def look(self) -> None:
        while not self.stopped.wait(SECONDS_BETWEEN_LOOKS):
            self.stop_overdue(time.monotonic())

    def stop_overdue(self, now: float) -> None:
        with self.lock:
            for exchange in self.under_way:
                if exchange.deadline <= now:
                    exchange.stop()

    def stop(self) -> None:
        """Stops all, from now on."""
        self.stopped.set()
        self.stop_overdue(float("inf"))

    @contextmanager
    def exchange(self) -> Iterator[None]:
        """An exchange of this thread. One that was stopped ends by TooLong, also where it seems whole."""
        exchange = self.own.exchange = Exchange(time.monotonic() + self.limits.seconds)
        with self.lock:
            self.under_way.add(exchange)
        try:
            yield
        except Exception:
            if not exchange.is_over or self.stopped.is_set():
                raise
        finally:
            self.own.exchange = None
            with self.lock:
                self.under_way.discard(exchange)
        if exchange.is_over:
            raise TooLong("seconds")

    def over(self, sock: socket.socket) -> None:
        """The exchange of this thread goes over a socket."""
        exchange: Exchange | None = getattr(self.own, "exchange", None)
        if exchange is not None:
            with self.lock:
                exchange.sockets.append(sock)
                if exchange.is_over or self.stopped.is_set():
                    exchange.stop()


class Header:
    """The lines of a header, counted. All else is that of the file."""

    def __init__(self, file: Any, most: int) -> None:
        self.file, self.left = file, most

    def readline(self, size: int = -1) -> bytes:
        line: bytes = self.file.readline(size)
        self.left -= len(line)
        if self.left < 0:
            raise TooLong("header")
        return line

    def __getattr__(self, name: str) -> Any:
        return getattr(self.file, name)


def response_of(limits: Limits) -> type[http.client.HTTPResponse]:
    """The class of answers whose headers and pieces are no longer than is allowed."""

    class Response(http.client.HTTPResponse):
        def begin(self) -> None:
            file = self.fp
            self.fp = Header(file, limits.header)  # type: ignore[assignment]
            super().begin()
            if self.fp is not None:
                self.fp = file

        def _read_next_chunk_size(self) -> int:
            """A size below 0 would stand for all that is sent, however much."""
            size: int = super()._read_next_chunk_size()  # type: ignore[misc]
            if size < 0:
                raise ValueError
            return size

    return Response


def pools_of(watch: Watch) -> dict[str, Any]:
    """The classes of urllib3's pools, by scheme, whose connections are watched."""
    class Watched:
        """What a connection does more than urllib3's own."""

        response_class = response_of(watch.limits)
        sock: Any

        def _new_conn(self) -> Any:
            sock = super()._new_conn()  # type: ignore[misc]
            watch.over(sock)
            return sock

        def putrequest(self, *words: Any, **options: Any) -> Any:
            if self.sock is not None:
                watch.over(self.sock)
            return super().putrequest(*words, **options)  # type: ignore[misc]

    plain = type("PlainConnection", (Watched, urllib3_connection.HTTPConnection), {})
    encrypted = type("EncryptedConnection", (Watched, urllib3_connection.HTTPSConnection), {})
    return {
        "http": type("PlainPool", (urllib3_pools.HTTPConnectionPool,), {"ConnectionCls": plain}),
        "https": type("EncryptedPool", (urllib3_pools.HTTPSConnectionPool,), {"ConnectionCls": encrypted}),
    }
