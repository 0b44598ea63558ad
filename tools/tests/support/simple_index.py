"""What tests of `snapshot.py simple` share: an index of their own, and a call of the script in this process."""

import contextlib
import io
import json
import os
import re
import unittest
from unittest import mock

from support.made.served_index import MadeIndex
from support.places import TOP, new_folder
from support.wanted_libraries import ASKING, want_libraries

from reqlock_tools import snapshot

LINUX = TOP / "examples" / "web" / "environment.json"


@want_libraries(*ASKING)
class Simple(unittest.TestCase):
    """A test with a folder, where a cache and the snapshot are, and an index."""

    def setUp(self):
        self.folder = new_folder(self.addCleanup)
        self.output = self.folder / "index.json"
        own = mock.patch.dict(os.environ, {"no_proxy": "*", "NO_PROXY": "*", "NETRC": os.devnull})
        own.start()
        self.addCleanup(own.stop)

    def serve(self, packages, **options):
        """An index of these packages, each a list of files by its name."""
        index = MadeIndex(**options)
        self.addCleanup(index.close)
        for name, files in packages.items():
            index.add(name, *files)
        return index

    def call(self, url, *words):
        """The status of a call, and the lines of standard error without the script's name and the server's address."""
        self.output.unlink(missing_ok=True)
        return self.told(url, "simple", url, *words)

    def again(self, index, *words):
        """The same of a call that makes the snapshot again."""
        return self.told(index.url, "again", *words)

    def told(self, url, *words):
        """The status of a call with these words, and what it tells but the address of a URL."""
        errors = io.StringIO()
        options = "--output", self.output, "--cache", self.folder / "cache"
        with contextlib.redirect_stderr(errors):
            try:
                status = snapshot.main([*map(str, [words[0], *options, *words[1:]])])
            except SystemExit as end:
                status = end.code
        address = url.partition("://")[2].rpartition("@")[2].partition("/")[0]
        lines = re.sub(f"https?://{re.escape(address)}", "", errors.getvalue()).splitlines()
        return status, [line.removeprefix("snapshot.py: ") for line in lines]

    def read(self):
        """The snapshot."""
        return json.loads(self.output.read_text(encoding="utf-8"))

    def made(self, index, *words, url=None):
        """The releases by package and version, and the lines of standard error but the last, which counts."""
        status, lines = self.call(url or index.url, *words)
        self.assertEqual(status, 0, lines)
        self.assertRegex(lines[-1], r"^[0-9]+ packages?, [0-9]+ releases?, [0-9]+ requests?, [0-9.]+ [kM]B, [0-9.]+ s$")
        packages = json.loads(self.output.read_text(encoding="utf-8"))["packages"]
        return {package["name"]: {release["version"]: release for release in package["releases"]} for package in packages}, lines[:-1]

    def versions(self, index, *words):
        """The versions by package, and the lines of standard error."""
        packages, lines = self.made(index, *words)
        return {name: list(releases) for name, releases in packages.items()}, lines

    def check_refused(self, index, *words, fault, url=None):
        """The call ends with status 1 and one line, and writes nothing."""
        status, lines = self.call(url or index.url, *words)
        self.assertEqual((status, len(lines)), (1, 1), lines)
        self.assertRegex(lines[0], fault)
        self.assertEqual([path.name for path in self.folder.iterdir() if path.name != "cache"], [])
