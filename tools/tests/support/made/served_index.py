"""A package index of the tests' own, on 127.0.0.1: its files are in memory, and it counts what is asked of it."""

import hashlib
import html
import json
import re
import select
import socket
import ssl
import sys
import threading
import urllib.parse
from collections import Counter
from dataclasses import dataclass, field
from http.server import BaseHTTPRequestHandler, ThreadingHTTPServer

from support.made.archives import headers, record_line, tarred, zipped

JSON_TYPE = "application/vnd.pypi.simple.v1+json"
HTML_TYPE = "text/html; charset=utf-8"
LONGEST_LIFE = 600


@dataclass
class Served:
    """A file of the index. `metadata` is what is served beside it, None for nothing; `told` goes into the page as it stands."""

    name: str
    data: bytes
    metadata: bytes | None = None
    told: dict = field(default_factory=dict)

    @property
    def sha256(self):
        return hashlib.sha256(self.data).hexdigest()


def wheel_of(name, version, *requires, tag="py3-none-any", beside=True, told=None, **others):
    """A wheel that pip can install, in memory."""
    inner = f"{name.replace('-', '_')}-{version}"
    text = headers(name, version, requires, **others)
    members = {
        f"{name.replace('-', '_')}.py": f"version = {version!r}\n",
        f"{inner}.dist-info/METADATA": text,
        f"{inner}.dist-info/WHEEL": f"Wheel-Version: 1.0\nRoot-Is-Purelib: true\nTag: {tag}\n",
    }
    record = f"{inner}.dist-info/RECORD"
    members[record] = "".join(record_line(*member) for member in members.items()) + f"{record},,\n"
    return Served(f"{inner}-{tag}.whl", zipped(members), text.encode() if beside else None, told or {})


def sdist_of(name, version, *requires, metadata="2.2", told=None, **others):
    inner = f"{name}-{version}"
    data = tarred({f"{inner}/PKG-INFO": headers(name, version, requires, metadata=metadata, **others)})
    return Served(f"{inner}.tar.gz", data, None, told or {})


class Answers(BaseHTTPRequestHandler):
    """Answers from the index that the server belongs to."""

    protocol_version = "HTTP/1.1"
    wbufsize = -1
    timeout = 60

    def do_GET(self):
        index = self.server.index
        path = urllib.parse.unquote(self.path.removeprefix(f"http://{self.headers['Host']}"))
        with index.lock:
            index.asked.append((self.command, path))
            index.headers.append(dict(self.headers))
            waiting = index.instead.get(path, [])
            instead = waiting.pop(0) if len(waiting) > 1 else waiting[0] if waiting else None
        if instead is not None and instead is not index.usual:
            instead(self)
        elif path.startswith(index.prefix):
            self.give_page(index, path.removeprefix(index.prefix).strip("/"))
        else:
            self.give_file(index, path.removeprefix("/files/"))
        self.wfile.flush()

    do_HEAD = do_GET

    def do_CONNECT(self):
        """Stands between the client and another server, as a proxy does."""
        self.server.index.asked.append((self.command, self.path))
        self.server.index.headers.append(dict(self.headers))
        host, _, port = self.path.partition(":")
        with socket.create_connection((host, int(port)), timeout=LONGEST_LIFE) as other:
            self.send_response(200)
            self.end_headers()
            self.wfile.flush()
            sides = {self.connection: other, other: self.connection}
            is_open = True
            while is_open:
                for side in select.select(list(sides), [], [])[0]:
                    data = side.recv(2**16)
                    sides[side].sendall(data)
                    is_open = is_open and data != b""
        self.close_connection = True

    def log_message(self, *words):
        pass

    def give(self, status, body=b"", kind="text/plain", **more):
        self.send_response(status)
        self.send_header("Content-Type", kind)
        self.send_header("Content-Length", str(len(body)))
        for name, value in more.items():
            self.send_header(name.replace("_", "-"), value)
        self.end_headers()
        if self.command != "HEAD":
            self.wfile.write(body)

    def give_page(self, index, name):
        if name not in index.projects:
            return self.give(404, b"no such project")
        body = index.page(name)
        tag = f'"{hashlib.sha256(body).hexdigest()}"'
        more = {} if index.max_age is None else {"Cache_Control": f"max-age={index.max_age}"}
        if self.headers.get("If-None-Match") == tag:
            return self.give(304, ETag=tag, **more)
        return self.give(200, body, HTML_TYPE if index.is_html else JSON_TYPE, ETag=tag, **more)

    def give_file(self, index, name):
        data = index.content(name)
        if data is None:
            return self.give(404, b"no such file")
        asked = re.fullmatch("bytes=([0-9]*)-([0-9]*)", self.headers.get("Range", ""))
        if not index.has_ranges or asked is None:
            return self.give(200, data)
        last = len(data) - 1
        first = max(0, len(data) - int(asked[2])) if asked[1] == "" else int(asked[1])
        last = min(last, int(asked[2])) if asked[1] and asked[2] else last
        part = data[first : last + 1]
        return self.give(206, part, Content_Range=f"bytes {first}-{last}/{len(data)}")


class Server(ThreadingHTTPServer):
    """Says nothing of clients that go, which tests have do so."""

    daemon_threads = True
    # As many connections as come at once: one that finds no room is tried again a second later.
    request_queue_size = 256

    def handle_error(self, request, client_address):
        if not isinstance(sys.exc_info()[1], OSError):
            super().handle_error(request, client_address)


class MadeIndex:
    """The index. `instead` has for a path what answers in turn in place of the usual, and the last of these from then on. With a
    certificate, a path with a key in it, it is asked over TLS."""

    usual = object()

    def __init__(self, *files, is_html=False, has_ranges=True, has_sizes=True, prefix="/simple/", certificate=None, max_age=None):
        self.max_age = max_age
        self.is_html, self.has_ranges, self.has_sizes, self.prefix = is_html, has_ranges, has_sizes, prefix
        self.projects, self.files, self.instead = {}, {}, {}
        self.asked, self.headers, self.lock = [], [], threading.Lock()
        self.version, self.scheme = "1.1", "http" if certificate is None else "https"
        for name, file in files:
            self.add(name, file)
        self.server = Server(("127.0.0.1", 0), Answers)
        self.server.index = self
        if certificate is not None:
            context = ssl.SSLContext(ssl.PROTOCOL_TLS_SERVER)
            context.load_cert_chain(certificate)
            self.server.socket = context.wrap_socket(self.server.socket, server_side=True, do_handshake_on_connect=False)
        threading.Thread(target=self.server.serve_forever, kwargs={"poll_interval": 0.02}, daemon=True).start()
        self.end = threading.Timer(LONGEST_LIFE, self.server.shutdown)
        self.end.daemon = True
        self.end.start()

    def close(self):
        self.end.cancel()
        self.server.shutdown()
        self.server.server_close()

    @property
    def url(self):
        return f"{self.scheme}://127.0.0.1:{self.server.server_port}{self.prefix}"

    def add(self, name, *files):
        for file in files:
            self.projects.setdefault(name, []).append(file)
            self.files[file.name] = file

    def content(self, name):
        if name in self.files:
            return self.files[name].data
        file = self.files.get(name.removesuffix(".metadata")) if name.endswith(".metadata") else None
        return file and file.metadata

    def counts(self):
        """How often each path was asked for, by method, since this was asked last."""
        with self.lock:
            asked, self.asked = self.asked, []
            self.headers.clear()
        return Counter(asked)

    def page(self, name):
        texts = [(self.html_line if self.is_html else self.json_item)(file) for file in self.projects[name]]
        if self.is_html:
            head = f'<meta name="pypi:repository-version" content="{self.version}">'
            return f"<!DOCTYPE html><html><head>{head}</head><body>{''.join(texts)}</body></html>".encode()
        versions = sorted({file.name.split("-")[1] for file in self.projects[name]})
        return json.dumps({"meta": {"api-version": self.version}, "name": name, "versions": versions, "files": texts}).encode()

    def json_item(self, file):
        item = {"filename": file.name, "url": f"../../files/{urllib.parse.quote(file.name)}", "hashes": {"sha256": file.sha256}}
        if self.has_sizes:
            item["size"] = len(file.data)
        if file.metadata is not None:
            item["core-metadata"] = {"sha256": hashlib.sha256(file.metadata).hexdigest()}
        return item | file.told

    def html_line(self, file):
        marks = {}
        if file.metadata is not None:
            marks["data-core-metadata"] = f"sha256={hashlib.sha256(file.metadata).hexdigest()}"
        marks |= {f"data-{key}": "" if value is True else value for key, value in file.told.items()}
        attributes = "".join(f' {key}="{html.escape(value)}"' for key, value in marks.items())
        url = f"../../files/{urllib.parse.quote(file.name)}#sha256={file.sha256}"
        return f'<a href="{url}"{attributes}>{html.escape(file.name)}</a><br/>\n'
