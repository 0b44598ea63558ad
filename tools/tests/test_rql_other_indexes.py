"""Tests of the indexes that a pyproject.toml names for uv or Poetry: which one `rql init` takes, and what it tells of the others. The rules
are those of their pages: docs.astral.sh/uv/concepts/indexes, python-poetry.org/docs/repositories."""

import contextlib
import io
import re
import unittest

from support.made.served_index import MadeIndex, wheel_of
from support.rql_projects import Projects, Served

from reqlock_tools.rql.other_indexes import default_of, other_indexes, tell_others

PROJECT = '[project]\nname = "app"\ndependencies = ["rich"]\n'
ONE, TWO, THREE = (f"https://{name}.example/simple/" for name in ("one", "two", "three"))


class Named(Projects):
    """What the tables tell, by the rules of the two tools."""

    def indexes_in(self, text):
        self.put("pyproject.toml", text)
        indexes = other_indexes(self.folder)
        return [(index.place, index.url, index.kind, index.only) for index in indexes], default_of(indexes)

    def test_of_uv(self):
        told, default = self.indexes_in(
            f'[tool.uv]\nextra-index-url = ["{TWO}"]\n[tool.uv.sources]\ntorch = {{ index = "gpu" }}\nx = {{ path = "../x" }}\n'
            f'[[tool.uv.index]]\nname = "gpu"\nurl = "{THREE}"\nexplicit = true\n[[tool.uv.index]]\n# {ONE}\nurl = "{ONE}"\ndefault = true\n'
        )
        self.assertEqual(told, [
            ("pyproject.toml: line 8: tool.uv.index[0]", THREE, "bound", ("torch",)),
            ("pyproject.toml: line 2: tool.uv.extra-index-url", TWO, "before", ()),
            ("pyproject.toml: line 12: tool.uv.index[1]", ONE, "default", ()),
        ])
        self.assertEqual(default, (ONE, "pyproject.toml: line 12: tool.uv.index[1]"))

    def test_of_poetry(self):
        told, default = self.indexes_in(
            f'[[tool.poetry.source]]\nname = "one"\nurl = "{ONE}"\n[[tool.poetry.source]]\nname = "two"\nurl = "{TWO}"\npriority = "supplemental"\n'
            f'[[tool.poetry.source]]\nname = "three"\nurl = "{THREE}"\npriority = "explicit"\n'
            '[tool.poetry.group.gpu.dependencies]\ntorch = { version = "*", source = "three" }\n'
        )
        self.assertEqual([(kind, only) for _, _, kind, only in told], [("bound", ("torch",)), ("default", ()), ("behind", ())])
        self.assertEqual(default, (ONE, "pyproject.toml: line 3: tool.poetry.source[0]"))

    def test_none_is_taken_of_several_defaults(self):
        for text in (
            f'[[tool.poetry.source]]\nname = "one"\nurl = "{ONE}"\n[[tool.poetry.source]]\nname = "PyPI"\npriority = "primary"\n',
            f'[tool.uv]\nindex-url = "{ONE}"\n[[tool.uv.index]]\nurl = "{TWO}"\ndefault = true\n',
            f'[[tool.uv.index]]\nurl = "{ONE}"\n', "[tool.uv]\nindex = 3\nindex-url = 4\nextra-index-url = 5\n", "",
        ):
            self.assertIsNone(self.indexes_in(text)[1], text)
        same = f'[tool.uv]\nindex-url = "{ONE}"\n[[tool.poetry.source]]\nname = "one"\nurl = "{ONE[:-1]}"\n'
        self.assertEqual(self.indexes_in(same)[1][0].rstrip("/"), ONE.rstrip("/"))


    def test_how_the_settings_have_them(self):
        """Each is asked where its tool asks it: Poetry's supplemental sources behind the others."""
        source = '[[tool.poetry.source]]\nname = "{0}"\nurl = "{0}"\npriority = "{1}"\n'
        for text, wanted in (
            (source.format(TWO, "supplemental"), f'["{ONE}", "{TWO}"]'), (f'[tool.uv]\nextra-index-url = ["{TWO}"]\n', f'["{TWO}", "{ONE}"]'),
            (source.format(TWO, "primary") + source.format(THREE, "primary"), f'["{TWO}", "{THREE}"]'),
        ):
            self.put("pyproject.toml", text)
            with contextlib.redirect_stderr(io.StringIO()) as told:
                tell_others(other_indexes(self.folder), ONE)
            words = wanted.strip("[]").replace('"', "").replace(",", "").replace("https", "--index https")
            self.assertIn(f" too, write index = {wanted} into the settings, and call rql relock; or begin with rql init {words}\n", told.getvalue())


class Taken(Served):
    def setUp(self):
        super().setUp()
        self.serve(rich=[wheel_of("rich", "1")])

    def init(self, tables, **variables):
        self.put("pyproject.toml", f"{PROJECT}{tables}")
        status, output, errors = self.rql("init", "--python", "3.11", "--platform", "linux-x86_64", **variables)
        self.assertEqual((status, output), (0, "ok 0\n"), errors)
        return errors

    def setting(self):
        text = (self.folder / "pyproject.toml").read_text(encoding="utf-8").partition("[tool.reqlock]")[2]
        return re.search("(?m)^index = (.*?)  #", text)[1]

    def test_the_default_is_asked_without_its_password(self):
        """The one that pip asks isn't: it could be nobody's."""
        url = self.index.url.replace("//", "//me:s3cret@")
        told = self.init(f'[[tool.uv.index]]\nname = "ours"\nurl = "{url}"\ndefault = true\n', PIP_INDEX_URL=ONE)
        self.assertIn(f"index {self.index.url}, as pyproject.toml: line 6: tool.uv.index[0] says\n", told)
        self.assertIn("tool.uv.index[0]: user and password aren't written into settings: put it into ~/.netrc", told)
        self.assertEqual(self.setting(), f'["{self.index.url}"]')
        self.assertNotIn("s3cret", told)

    def test_what_is_told_of_others_has_them_asked(self):
        """An index beside the default, which alone has a package."""
        more = MadeIndex()
        self.addCleanup(more.close)
        more.add("own", wheel_of("own", "1"))
        told = self.init(f'[[tool.uv.index]]\nname = "more"\nurl = "{more.url}"\n', PIP_INDEX_URL=self.index.url)
        self.assertIn(f"index {self.index.url}, as PIP_INDEX_URL says\n", told)
        self.assertIn(f"pyproject.toml: line 6: tool.uv.index[0]: {more.url} isn't followed: it is asked before the default\n", told)
        line = re.search(r"to ask it too, write (index = .*) into the settings, and call rql relock; or begin", told)[1]
        self.assertEqual(line, f'index = ["{more.url}", "{self.index.url}"]')
        path = self.folder / "pyproject.toml"
        path.write_text(path.read_text(encoding="utf-8").replace(f"index = {self.setting()}", line), encoding="utf-8")
        self.accepts("relock")
        self.accepts("add", "own")

    def test_one_that_is_bound_to_packages(self):
        tables = f'[tool.uv.sources]\ntorch = {{ index = "gpu" }}\n[[tool.uv.index]]\nname = "gpu"\nurl = "{THREE}"\nexplicit = true\n'
        told = self.init(f'[tool.uv]\nindex-url = "{self.index.url}"\n{tables}')
        self.assertIn(f"tool.uv.index[0]: {THREE} isn't followed: it is for some packages alone\n", told)
        line = f'index = [{{ url = "{THREE}", only = ["torch"] }}, "{self.index.url}"]'
        self.assertIn(f"to ask it too, write {line} into the settings, and call rql relock\n", told)
        path = self.folder / "pyproject.toml"
        path.write_text(path.read_text(encoding="utf-8").replace(f"index = {self.setting()}", line), encoding="utf-8")
        self.accepts("relock")

    def test_a_default_that_is_no_address_is_refused(self):
        self.put("pyproject.toml", f'{PROJECT}[tool.uv]\nindex-url = "../wheels"\n')
        before = self.files()
        self.assertIn("pyproject.toml: line 5: tool.uv.index-url: ", self.refuses("init"))
        self.assertEqual(self.files(), before)


if __name__ == "__main__":
    unittest.main()
