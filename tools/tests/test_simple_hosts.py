"""Tests of `tools/snapshot.py simple` where nobody is at the address of a file: an unknown host, or a port that refuses."""

import socket
import time
import unittest
from unittest import mock

from support.made.served_index import sdist_of, wheel_of
from support.simple_index import Simple


def free_port():
    """A port that refuses."""
    with socket.create_server(("127.0.0.1", 0)) as server:
        return server.getsockname()[1]


class Hosts(Simple):
    def setUp(self):
        super().setUp()
        self.port = free_port()
        self.gone = f"http://127.0.0.1:{self.port}/"
        self.cause = f"left out as nobody answers at 127.0.0.1:{self.port}"

    def moved(self, file):
        """The file, whose link leads to where nobody is."""
        file.told["url"] = f"{self.gone}{file.name}"
        return file

    def lock(self, version):
        path = self.folder / "cache" / "pylock.toml"
        path.parent.mkdir(exist_ok=True)
        path.write_text(f"[[packages]]\nname = 'a'\nversion = '{version}'\n", encoding="utf-8")
        return path

    def test_a_link_to_a_refused_port_leaves_that_file_out(self):
        index = self.serve({"a": [wheel_of("a", "1"), self.moved(wheel_of("a", "2")), self.moved(sdist_of("a", "3"))]})
        wanted = {"a": ["1"]}, [f"{self.cause}: 2 files, with 2 whole releases"]
        for _ in range(2):
            self.assertEqual(self.versions(index, "a"), wanted)

    def test_a_link_to_an_unknown_host_leaves_that_file_out(self):
        index = self.serve({"a": [wheel_of("a", "1"), wheel_of("a", "2", told={"url": "http://nobody.invalid/a-2-py3-none-any.whl"})]})
        real = socket.getaddrinfo

        def known(host, *words, **more):
            if host == "nobody.invalid":
                raise socket.gaierror(socket.EAI_NONAME, "Name or service not known")
            return real(host, *words, **more)

        with mock.patch("socket.getaddrinfo", side_effect=known):
            versions, lines = self.versions(index, "a")
        self.assertEqual(versions, {"a": ["1"]})
        self.assertEqual(lines[-1], "left out as nobody answers at nobody.invalid:80: 1 file, with 1 whole release")

    def test_the_other_files_of_a_release_stay(self):
        files = [self.moved(wheel_of("a", "1")), sdist_of("a", "1", "b"), wheel_of("a", "2"), self.moved(sdist_of("a", "2"))]
        index = self.serve({"a": files, "b": [wheel_of("b", "1")]})
        made, lines = self.made(index, "a")
        names = {version: [file["name"] for file in release["files"]] for version, release in made["a"].items()}
        self.assertEqual(names, {"1": ["a-1.tar.gz"], "2": ["a-2-py3-none-any.whl", "a-2.tar.gz"]})
        self.assertEqual((made["a"]["1"]["requires_dist"], lines), (["b"], [f"{self.cause}: 1 file"]))

    def test_a_file_of_a_locked_release_is_never_left_out(self):
        index = self.serve({"a": [wheel_of("a", "1"), self.moved(wheel_of("a", "2"))]})
        fault = "a-2-py3-none-any.whl.metadata: Connection refused; is the address right.*, and it is a file of a locked release$"
        self.check_refused(index, "a", "--keep", self.lock("2"), fault=fault)
        self.assertEqual(self.versions(index, "a", "--keep", self.lock("1"))[0], {"a": ["1"]})

    def test_outages_end_the_run(self):
        """What a server that is there answers late, cut or with a fault leaves nothing out."""
        index = self.serve({"a": [wheel_of("a", "1"), wheel_of("a", "2")]})
        path = "/files/a-2-py3-none-any.whl.metadata"
        for status in 401, 403, 500, 503:
            index.instead[path] = [lambda to, status=status: to.give(status)]
            self.check_refused(index, "a", "--retries", "0", fault=f"^{path}: {status} ")
        index.instead[path] = [lambda to: setattr(to, "close_connection", True)]
        self.check_refused(index, "a", "--retries", "0", fault=f"^{path}: the connection was cut")
        index.instead[path] = [lambda to: time.sleep(1)]
        self.check_refused(index, "a", "--retries", "0", "--timeout", "0.2", fault=f"^{path}: no answer in 0.2 s")

    def test_what_the_index_serves_itself_is_no_link_to_nobody(self):
        """Its page is fresh in the cache, and then it goes down: what it tells of an older release isn't there."""
        index = self.serve({"a": [wheel_of("a", "1"), wheel_of("a", "2")]}, max_age=600)
        self.assertEqual(self.versions(index, "a", "--newest", "1")[0], {"a": ["2"]})
        index.close()
        self.assertEqual(self.versions(index, "a", "--newest", "1")[0], {"a": ["2"]})
        self.check_refused(index, "a", fault="^/files/a-1-py3-none-any.whl.metadata: Connection refused")


if __name__ == "__main__":
    unittest.main()
