"""An index is read in one pass over its text, and where that can't tell, from its whole JSON value. Of drawn indexes, right and
faulty ones, both readers have to tell the same. The pass begins at `snapshot`, so the same index with its keys turned around is read
from the value."""

import json
import re
import unittest

from support.made.chance import Chance
from support.made.releases import file_of
from support.program import Program

DRAWS = 150
VERSIONS = "1", "1.0", "2", "3.0rc1", "2.0.post1", "one", ""
REQUIREMENTS = "b", "b>=2", "c<3; python_version > '3'", "a[e]~=1.0", "b ==", "", "é"
PYTHONS = ">=3.8", "", " ", "3", None, ">=3,<4"
ENDINGS = "-py3-none-any.whl", "-py2-none-any.whl", ".tar.gz", ".zip", ".egg"
# what may stand at a key that the format doesn't know
UNKNOWN = "text", True, None, 3, -3, 1.5, 10**30, [], {"version": "9", "files": []}, [{"name": "x"}], {"name": {"name": 1}}
# what has another shape wherever it stands
MISSHAPEN = 0, -1, 1.5, True, "", "x", None, [], {}, [0], 2**63, 2**64


def drawn_file(chance, name, version):
    file = file_of(name, version or "0", chance.one(ENDINGS))
    if chance.happens(20):
        file["sha256"] = "AbCd" * 16
    if chance.happens(5):
        file["name"] = chance.one(["../", "é", " ", "C:"]) + file["name"]
    if chance.happens(20):
        file["url"] = "https://files.example/ü \"\\/\n"
    return file


def drawn_release(chance, name):
    version = chance.one(VERSIONS)
    release = {"version": version, "files": [drawn_file(chance, name, version) for _ in range(chance.one([0, 1, 1, 2, 3, 5]))]}
    if chance.happens(60):
        release["requires_dist"] = chance.one([None, [], [chance.one(REQUIREMENTS)], [chance.one(REQUIREMENTS) for _ in range(3)]])
    if chance.happens(50):
        release["requires_python"] = chance.one(PYTHONS)
    if chance.happens(30):
        release["yanked"] = chance.happens(50)
    return release


def drawn_index(chance):
    names = ["a", "b", "c", chance.one(["D.d", "a", "-"])][: chance.one([1, 3, 3, 4])]
    packages = [{"name": name, "releases": [drawn_release(chance, name) for _ in range(chance.one([0, 1, 3, 6]))]} for name in names]
    return {"snapshot": 1, "packages": packages}


def places(value):
    """The arrays and objects of a value, each with the keys that lead on."""
    if isinstance(value, (dict, list)):
        keys = list(value) if isinstance(value, dict) else list(range(len(value)))
        yield value, keys
        for key in keys:
            yield from places(value[key])


def bend(chance, index):
    """Changes something somewhere: a value, a key that is taken away, or one that nobody knows."""
    value, keys = chance.one([place for place in places(index) if place[1]])
    key = chance.one(keys)
    if chance.happens(60):
        value[key] = chance.one(MISSHAPEN)
    elif isinstance(value, dict) and chance.happens(50):
        value["metadata"] = chance.one(UNKNOWN)
    else:
        del value[key]


def twice(chance, text):
    """The text with a key that stands twice in one of its objects, the wrong value first."""
    keys = [match.start() for match in re.finditer('"(name|version|url|size|sha256|files|releases)": ', text)]
    if not keys:
        return text
    start = chance.one(keys)
    return f"{text[:start]}{text[start : text.index(':', start)]}: {json.dumps(chance.one(UNKNOWN))}, {text[start:]}"


def spaced(chance, text):
    return text if chance.happens(70) else text.replace(", ", "\n ,\t").replace("{", "{ ")


class Readers(Program):
    def told_of(self, text):
        """What is told of an index, and what is locked over it, without its digest."""
        (self.outside / "index.json").write_text(text, encoding="utf-8")
        for path in self.folder.iterdir():
            path.unlink()
        (self.folder / "requirements.txt").write_text("a\nb\n", encoding="utf-8")
        told = [self.told("skipped"), self.told("init")]
        files = {name: re.sub(rb"[0-9a-f]{64}", b"digest", content) for name, content in self.files().items()}
        return told, files

    def test_both_readers_tell_the_same(self):
        chance = Chance(7)
        refused = 0
        for draw in range(DRAWS):
            index = drawn_index(chance)
            for _ in range(chance.one([0, 0, 1, 1, 2])):
                bend(chance, index)
            if list(index) != ["snapshot", "packages"]:
                continue
            format_, packages = (json.dumps(index[key], ensure_ascii=chance.happens(50)) for key in index)
            packages = spaced(chance, twice(chance, packages) if chance.happens(20) else packages)
            with self.subTest(draw=draw, packages=packages):
                passed = self.told_of(f'{{"snapshot": {format_}, "packages": {packages}}}')
                whole = self.told_of(f'{{"packages": {packages}, "snapshot": {format_}}}')
                self.assertEqual(passed, whole)
            refused += passed[0][0][0] != 0
        self.assertTrue(DRAWS // 10 < refused < DRAWS * 9 // 10, refused)

    def test_a_text_that_goes_on_is_no_index(self):
        for more in (" 1", "]", "{}", ","):
            with self.subTest(more=more):
                (self.outside / "index.json").write_text(f'{{"snapshot": 1, "packages": []}}{more}', encoding="utf-8")
                self.assertEqual(self.told("skipped"), (4, "", "reqlock: index: not-json\n"))


if __name__ == "__main__":
    unittest.main()
