"""Tests of bench/shapes.py and of the words of bench/ladder.py: the problems have the sizes that they are told to have, each release asks
for packages that are there, and the same words give the same bytes."""

import json
import subprocess
import sys
import tempfile
import unittest
from pathlib import Path

from support.places import TOP
from support.rules.requirements import read_requirement

BENCH = TOP / "bench"
sys.path.append(str(BENCH))
from shapes import SHAPES, write  # noqa: E402

# of the smallest problem of a family: how many packages, releases and lines it has
SIZES = {
    "boto": ("200 releases", 18, 1501, 6), "planted": ("100 packages, seed 1", 100, 2000, 30),
    "planted from all releases": ("100 packages, seed 5", 100, 2000, 30), "airflow": ("seed 1", 301, 15030, 1),
    "chain": ("10,000 packages", 10000, 10000, 1), "chain back": ("10,000 packages", 10000, 10000, 1),
}


class Shapes(unittest.TestCase):
    def test_each_family(self):
        self.assertEqual(set(SIZES), set(SHAPES))
        with tempfile.TemporaryDirectory() as folder:
            for family, (name, *sizes) in SIZES.items():
                written = []
                for _ in range(2):
                    write(family, name, folder)
                    written.append([(Path(folder) / file).read_bytes() for file in ("index.json", "requirements.txt")])
                self.assertEqual(written[0], written[1])
                packages, lines = json.loads(written[0][0])["packages"], written[0][1].decode().splitlines()
                releases = [release for package in packages for release in package["releases"]]
                self.assertEqual([len(packages), len(releases), len(lines)], sizes, family)
                texts = {text for release in releases for text in release["requires_dist"]} | set(lines)
                names = {package["name"] for package in packages}
                self.assertEqual([text for text in texts if read_requirement(text).name not in names], [])

    def test_faulty_words(self):
        for words, told in (
            (["none", "x"], "none is no program"), (["/bin/true", "x", "--only", "none"], "no shape has none in its name"),
            (["/bin/true", "x", "--jobs", "0"], "take a number from 1 on"), (["/bin/true"], "usage: ladder.py"),
            (["/bin/true", "x", "--seconds", "x"], "invalid int value"),
        ):
            done = subprocess.run([sys.executable, "-B", BENCH / "ladder.py", *words], capture_output=True, encoding="utf-8", check=False)
            self.assertEqual((done.returncode, done.stdout), (2, ""))
            self.assertIn(told, done.stderr)


if __name__ == "__main__":
    unittest.main()
