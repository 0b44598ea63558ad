"""Tests of where requirements come from: what is gathered, what is refused, and how edits, undo and redo change the sources. What
pyproject.toml means is told by PEP 621, 685 and 735, and what files of lines mean by pip."""

import os
import tomllib
import unittest
from pathlib import Path

from support.made.chance import drawing
from support.made.served_index import wheel_of
from support.places import new_folder
from support.rql_projects import ENVIRONMENT, Served
from support.wanted_libraries import want_libraries

from reqlock_tools.rql.faults import SettingsFault
from reqlock_tools.rql.sources import differences, gather, gathered
from reqlock_tools.rql.sources_change import Sources

PYPROJECT = """\
# of a team
[build-system]
requires = ["hatchling"]   # stays

[project]
name = "My.Service"
dependencies = [
    # web
    "flask>=2",   # the frame
    "requests [socks] >= 2.8 ; python_version < '4'",
]

[project.optional-dependencies]
dev = ["my-service[Test]", "ruff"]
test = ["pytest>=8"]

[dependency-groups]
docs = ["sphinx", {include-group = "Base_Docs"}]
base-docs = ["myst-parser"]
all = [{ include-group = "docs" }, "my_service[test]"]

[tool.x]
y =   1
"""


@want_libraries("packaging.requirements", "tomlkit")
class Sourced(unittest.TestCase):
    """A test with a checkout, in which settings stand at the top."""

    def setUp(self):
        self.top = Path(os.path.realpath(new_folder(self.addCleanup)))
        self.write("pyproject.toml", PYPROJECT)

    def write(self, name, text):
        path = self.top / name
        path.parent.mkdir(parents=True, exist_ok=True)
        path.write_bytes(text.encode())
        return path

    def gathers(self, sources, *lines):
        """Each line is its text and the label of its source."""
        data = gather(self.top, sources).decode()
        self.assertEqual(data, "".join(f"{text}  # from {label}\n" for text, label in lines))

    def refuses(self, source, pattern):
        with self.assertRaisesRegex(SettingsFault, pattern):
            gather(self.top, [source])


class Pyproject(Sourced):
    def test_dependencies_extras_and_groups(self):
        p = "pyproject.toml"
        web = [("flask>=2", p), ("requests [socks] >= 2.8 ; python_version < '4'", p)]
        test, docs = ("pytest>=8", f"{p}[test]"), [("sphinx", f"{p}:docs"), ("myst-parser", f"{p}:base-docs")]
        self.gathers([p], *web)
        self.gathers([f"{p}[TEST]"], test)
        with self.subTest("the project's own extras"):
            self.gathers([f"{p}[dev]"], test, ("ruff", f"{p}[dev]"))
        with self.subTest("a group includes another one"):
            self.gathers([f"{p}:docs"], *docs)
        with self.subTest("a group that needs the project needs its dependencies too"):
            self.gathers([f"{p}:all"], *docs, *web, test)
        with self.subTest("each list once"):
            self.gathers([p, f"{p}[test]", f"{p}[dev]"], *web, test, ("ruff", f"{p}[dev]"))

    def test_settings_below_the_top(self):
        self.write("services/one/extra.in", "six\n")
        gathered_lines = gathered(self.top, self.top / "services" / "one", ["extra.in", "../../pyproject.toml[test]"])
        self.assertEqual(gathered_lines.data, b"six  # from extra.in\npytest>=8  # from ../../pyproject.toml[test]\n")

    def test_what_is_refused_has_its_place(self):
        for text, source, pattern in (
            ("[project]\nname = 'x'\ndynamic = ['dependencies']\n", "", "project.dynamic: dependencies are made by the build"),
            ("[project]\nname = 'x'\ndynamic = ['optional-dependencies']\n", "[a]", "project.dynamic: optional-dependencies are made"),
            ("[project]\nname = 'x'\ndependencies = ['a', 'b>>1']\n", "", r"project.dependencies\[1\]: 'b>>1': "),
            ("[project]\nname = 'x'\ndependencies = ['a', 'b @ https://e.example/b.whl']\n", "", r"dependencies\[1\]: .*: reqlock takes no URL"),
            ("[project]\nname = 'x'\ndependencies = [\"a\\n--index-url=x\"]\n", "", r"dependencies\[0\]: .* visible characters"),
            ("[project]\nname = 'x'\ndependencies = ['-r x']\n", "", r"dependencies\[0\]: .*it is an option"),
            ("[project]\nname = 'x'\ndependencies = [1]\n", "", r"dependencies\[0\]: a requirement is wanted"),
            ("[project]\nname = 'x'\ndependencies = 'a'\n", "", "project.dependencies: an array is wanted"),
            ("[project]\nname = 'x'\n[project.optional-dependencies]\na = []\n", "[b]", "no extra is named 'b'; there are a"),
            ("[project]\nname = 'x'\n", ":b", "dependency-groups: no dependency group is named 'b'; there is none"),
            ("[dependency-groups]\na = [{include-group = 'c'}]\nc = [{include-group = 'A'}]\n", ":a", r"toml:a -> .*toml:c -> .*toml:a$"),
            ("[dependency-groups]\na_b = []\nA-b = []\n", ":a-b", "a_b and A-b are one name"),
            ("[dependency-groups]\na = [{set = 'x'}]\n", ":a", r"groups.a\[0\]: a requirement, or a table with include-group, is wanted"),
            ("[project]\nname = 'x'\n[project.optional-dependencies]\na = ['x[b]']\nb = ['X[a]']\n", "[a]", r"\[a\] -> .*\[b\] -> .*\[a\]$"),
            ("[project]\nname = 'x'\ndependencies = [\"x[a] ; os_name == 'nt'\"]\n", "", "own name is followed without a marker"),
            ("[tool.poetry.dependencies]\npython = '^3.9'\n", "", "project: it isn't there: rql init translates tool.poetry.dependencies"),
            ("[project\n", "", "it is no TOML"),
        ):
            with self.subTest(text=text):
                path = self.write("pyproject.toml", text)
                self.refuses(f"pyproject.toml{source}", f"^{path}: .*{pattern}")

    def test_a_link_out_of_the_checkout_is_refused(self):
        elsewhere = new_folder(self.addCleanup)
        (elsewhere / "pyproject.toml").write_text("[project]\nname = 'x'\ndependencies = ['secret']\n", encoding="utf-8")
        (self.top / "linked").symlink_to(elsewhere)
        self.refuses("linked/pyproject.toml", "linked is a link, which isn't followed")
        self.refuses(f"{elsewhere}/pyproject.toml", "a path from the settings' folder is wanted")
        self.refuses("../x/pyproject.toml", "it leads out of")
        self.refuses(".git/pyproject.toml", "no setting leads into .git")


class Lines(Sourced):
    def test_files_are_followed(self):
        self.write("requirements/base.in", "# all\r\n\r\nsix>=1  # small\r\n-r more/db.in\r\n-c ../bounds.txt\r\nrich # last")
        self.write("requirements/more/db.in", "psycopg[binary]>=3 ; os_name == 'posix'\n--requirement=../../top.in\n")
        self.write("top.in", "-cbounds.txt\nattrs\n")
        self.write("bounds.txt", "six<2\n")
        base = "requirements/base.in"
        self.gathers(
            [base, "top.in"], ("six>=1", base), ("psycopg[binary]>=3 ; os_name == 'posix'", "requirements/more/db.in"), ("attrs", "top.in"),
            ("rich", base),
        )
        self.assertEqual(gathered(self.top, self.top, [base]).constraints, ("bounds.txt",))

    def test_what_is_refused_has_its_line(self):
        for text, pattern in (
            ("a\n--index-url https://e.example/simple/\n", "line 2: .*of options -r and -c alone are followed"),
            ("-e .\n", "line 1: '-e .': of options"),
            ("a --hash=sha256:00\n", "line 1: .*of options"),
            ("a==1 \\\n  --hash=sha256:00\n", "line 1: .*a compiled file is no source"),
            ("\nb>>1\n", "line 2: 'b>>1': "),
            ("./wheels/a.whl\n", "line 1: "),
            ("a @ file:///x\n", "line 1: .*reqlock takes no URL"),
            ("-r none.in\n", "line 1: .*none.in: No such file"),
            ("-r https://e.example/x.in\n", "line 1: .*a file of the checkout is wanted"),
            ("-r ../out.in\n", "line 1: .*it leads out of"),
            ("-c /etc/passwd\n", "line 1: .*a path from the settings' folder is wanted"),
            ("-r base.in\n", r"line 1: it leads to itself: base.in -> base.in$"),
            ("-r sub\n", "line 1: .*sub: Is a directory"),
            ("a\x1b[31m\n", "line 1: .*visible characters"),
            ("-r a\x1b[31m.in\n", "line 1: .*visible characters"),
        ):
            with self.subTest(text=text):
                (self.top / "sub").mkdir(exist_ok=True)
                path = self.write("base.in", text)
                self.refuses("base.in", f"^{path}: .*{pattern}")

    def test_a_link_is_refused(self):
        elsewhere = new_folder(self.addCleanup) / "secret"
        elsewhere.write_text("secret\n", encoding="utf-8")
        (self.top / "linked.in").symlink_to(elsewhere)
        self.write("base.in", "-r linked.in\n")
        self.refuses("base.in", "line 1: .*linked.in is a link, which isn't followed")


class Changes(Sourced):
    ALL = "pyproject.toml", "pyproject.toml[dev]", "base.in"

    def setUp(self):
        super().setUp()
        self.base = self.write("base.in", "# of a team\r\nsix>=1  # small\r\n\r\nrich")
        self.path = self.top / "pyproject.toml"

    def edit(self, word, *texts, sources=ALL):
        """The files as an edit leaves them. What is gathered of them is what the edit tells."""
        before = {path: path.read_bytes() for path in (self.path, self.base)}
        change = Sources(self.top, self.top, sources).edited(word, texts)
        self.assertEqual({path: path.read_bytes() for path in before}, before)
        change.write()
        self.assertEqual(gather(self.top, sources), change.data)

    def changes(self, old, new, word, *texts, text=PYPROJECT):
        """An edit puts a text in the place of another one in pyproject.toml, and nothing else changes."""
        self.assertEqual(text.count(old), 1)
        self.write("pyproject.toml", text)
        self.edit(word, *texts)
        self.assertEqual(self.path.read_bytes().decode(), text.replace(old, new))
        self.assertEqual(self.base.read_bytes(), b"# of a team\r\nsix>=1  # small\r\n\r\nrich")

    def refused(self, pattern, word, *texts, sources=ALL):
        before = {path: path.read_bytes() for path in (self.path, self.base)}
        with self.assertRaisesRegex(SettingsFault, pattern):
            Sources(self.top, self.top, sources).edited(word, texts)
        self.assertEqual({path: path.read_bytes() for path in before}, before)

    def test_of_pyproject_are_exact_to_the_byte(self):
        last = "\"requests [socks] >= 2.8 ; python_version < '4'\",\n"
        self.changes(last, last + '    "httpx>=0.27",\n', "add", "httpx>=0.27")
        self.changes(last, last + '    "httpx>=0.27",\n    "rich2",\n', "add", "httpx>=0.27", "rich2")
        self.changes('    "flask>=2",   # the frame\n', "", "remove", "Flask")
        self.changes('"flask>=2"', '"flask[async]>=3"', "set", "flask[async]>=3")
        self.changes('"flask>=2"', '"flask<4,>=3"', "constrain", "flask", "<4,>=3")
        self.changes('"flask>=2"', '"flask"', "constrain", "flask")
        self.changes("[socks] >= 2.8 ; py", "[socks] <3 ; py", "constrain", "requests", "<3")
        self.changes('["pytest>=8"]', "[]", "remove", "pytest")
        self.changes('["my-service[Test]", "ruff"]', '["my-service[Test]"]', "remove", "ruff")

    def test_of_files_with_windows_endings_are_exact_to_the_byte(self):
        text = PYPROJECT.replace("\n", "\r\n")
        last = "\"requests [socks] >= 2.8 ; python_version < '4'\",\r\n"
        self.changes(last, last + '    "httpx",\r\n', "add", "httpx", text=text)
        self.changes('    "flask>=2",   # the frame\r\n', "", "remove", "flask", text=text)

    def test_of_files_of_lines(self):
        self.edit("constrain", "six", "<2")
        self.assertEqual(self.base.read_bytes(), b"# of a team\r\nsix<2  # small\r\n\r\nrich")
        self.edit("set", "six[x]>=1 ; os_name == 'nt'")
        self.assertEqual(self.base.read_bytes(), b"# of a team\r\nsix[x]>=1 ; os_name == 'nt'  # small\r\n\r\nrich")
        self.edit("remove", "six")
        self.assertEqual(self.base.read_bytes(), b"# of a team\r\n\r\nrich")
        self.edit("add", "attrs", "zope", sources=["base.in"])
        self.assertEqual(self.base.read_bytes(), b"# of a team\r\n\r\nrich\r\nattrs\r\nzope\r\n")
        self.assertEqual(self.path.read_bytes(), PYPROJECT.encode())

    def test_what_can_not_be_done_is_refused_before_anything_is_written(self):
        self.refused("base.in: line 2 has a line of this name already: rql set Six puts this in its place", "add", "httpx", "Six")
        self.refused("^none: no source has a line of this name", "remove", "flask", "none")
        self.refused("'b>>1'", "add", "b>>1")
        self.refused("no name", "remove", "a b")
        self.write("base.in", "six\nflask<3\n")
        self.refused(r"^flask: it stands in several places, .*: .*dependencies\[0\], .*base.in: line 2$", "remove", "flask")
        self.write("pyproject.toml", "[project]\nname = 'x'\n")
        self.refused("project.dependencies: there is no such array: write it as", "add", "x2", sources=["pyproject.toml"])
        self.write("pyproject.toml", "[project]\nname = 'x'\ndependencies = ['a'\n  , 'b']\n")
        self.refused("written so that it can't be changed here: change it by hand, and then rql lock$", "remove", "a", sources=["pyproject.toml"])

    def test_undo_and_redo_change_them_too(self):
        self.write("pyproject.toml", PYPROJECT)
        states = [(self.path.read_bytes(), self.base.read_bytes(), gather(self.top, self.ALL))]
        for words in ("add", "httpx>=0.27", "attrs"), ("remove", "ruff"), ("constrain", "six", "<2"), ("set", "requests==2.9"), ("remove", "six"):
            self.edit(*words)
            states.append((self.path.read_bytes(), self.base.read_bytes(), gather(self.top, self.ALL)))
        places = [*range(len(states) - 2, -1, -1), *range(1, len(states))]
        for place in places:
            change = Sources(self.top, self.top, self.ALL).followed(states[place][2])
            change.write()
            with self.subTest(place=place):
                self.assertEqual(gather(self.top, self.ALL), states[place][2])
                self.assertEqual(tomllib.loads(self.path.read_text(encoding="utf-8")), tomllib.loads(states[place][0].decode()))
                if place < len(states) - 1 and place > 0:
                    self.assertEqual(self.path.read_bytes(), states[place][0])

    def test_drawn_lists_lead_to_each_other(self):
        chance = drawing(7)
        for _ in range(60):
            old, new = (chance.sample("abcdefgh", chance.randrange(8)) for _ in "12")
            for name, text in ("base.in", "# of all\n{}# end\n"), ("pyproject.toml", "[project]\nname = 'x'\ndependencies = [{}]\n"):
                form = "{}\n" if name == "base.in" else "'{}', "
                self.write(name, text.format("".join(map(form.format, old))))
                data = "".join(f"{requirement}  # from {name}\n" for requirement in new).encode()
                with self.subTest(name=name, old=old, new=new):
                    change = Sources(self.top, self.top, [name]).followed(data)
                    change.write()
                    self.assertEqual(gather(self.top, [name]), data)
                    if name == "base.in":
                        self.assertEqual(sorted(self.base.read_text(encoding="utf-8").split("\n")), sorted(["# of all", *new, "# end", ""]))

    def test_undo_that_does_not_fit_is_refused(self):
        sources = Sources(self.top, self.top, self.ALL)
        for data, pattern in (
            (b"six\n", "line 1: 'six': it doesn't tell from which source it came"),
            (b"six  # from gone.in\n", "the sources as they are now can't have the lines from there, so nothing is changed"),
            (sources.present.data.replace(b"pytest>=8", b"six>>1"), "six>>1"),
        ):
            with self.subTest(data=data), self.assertRaisesRegex(SettingsFault, pattern):
                sources.followed(data)

    def test_what_was_changed_by_hand_is_told(self):
        data = gather(self.top, self.ALL)
        self.assertEqual(differences(gathered(self.top, self.top, self.ALL), data), [])
        self.write("base.in", "six>=2\nrich\n")
        self.assertEqual(differences(gathered(self.top, self.top, self.ALL), data), [
            f"{self.base}: line 1: 'six>=2' isn't in requirements.txt", "requirements.txt: 'six>=1' isn't in base.in any more",
        ])
        self.write("base.in", "rich\nsix>=1\n")
        told = differences(gathered(self.top, self.top, self.ALL), data)
        self.assertEqual(told, ["requirements.txt: its lines have another order than those of the sources"])


@want_libraries("tomlkit")
class Calls(Served):
    """Words of rql over the built program."""

    P = "  # from pyproject.toml\n"

    def setUp(self):
        super().setUp()
        for name, versions in {"six": "12", "rich": "1", "attrs": "1"}.items():
            self.serve(**{name: [wheel_of(name, version) for version in versions]})
        self.path = self.put("pyproject.toml", "[project]\nname = 'x'\ndependencies = [\n    'six',   # small\n]\n")
        self.put("reqlock.toml", f'index = ["{self.index.url}"]\nsources = ["pyproject.toml", "more.in"]\n{ENVIRONMENT}')
        self.put("more.in", "rich\n-c bounds.txt\n")
        self.put("bounds.txt", "six<2\n")
        self.put("requirements.txt", f"six{self.P}rich  # from more.in\n")
        self.accepts("init", answer="ok 0\n")

    def states(self):
        return self.path.read_text(encoding="utf-8"), self.lines()

    def test_several_sources_change_together(self):
        before = self.states()
        self.accepts("remove", "six", "rich", answer="ok 1\n")
        self.assertEqual(self.states(), ("[project]\nname = 'x'\ndependencies = [\n]\n", ""))
        self.assertEqual((self.folder / "more.in").read_bytes(), b"-c bounds.txt\n")
        self.accepts("undo", answer="ok 0\n")
        self.assertEqual(self.lines(), before[1])
        self.assertEqual((self.folder / "more.in").read_bytes(), b"-c bounds.txt\nrich\n")
        self.accepts("check", answer="ok 0\n")

    def test_what_is_refused_changes_nothing(self):
        before = self.files()
        for words, status in (
            (("add", "none"), 3), (("remove", "none"), 2), (("remove", "six", "none"), 2), (("constrain", "six", ">=9"), 3), (("undo",), 1),
        ):
            with self.subTest(words=words):
                exit_status, output, errors = self.rql(*words)
                self.assertEqual(exit_status, status, output + errors)
                self.assertEqual(self.files(), before)

    def test_what_came_apart_is_told_and_mended(self):
        self.put("more.in", "rich\nattrs\n-c bounds.txt\n")
        status, _, errors = self.rql("check")
        self.assertEqual(status, 1)
        self.assertIn("more.in: line 2: 'attrs' isn't in requirements.txt\n", errors)
        self.assertIn("sources and lines came apart: rql lock takes the sources over", errors)
        before = self.files()
        for words in ("add", "zope"), ("upgrade",), ("undo",):
            self.assertIn("rql lock takes the sources over", self.refuses(*words))
        self.assertIn("the sources have other lines than those that are locked: rql check tells which", self.refuses("sync"))
        self.assertEqual(self.files(), before)
        self.assertEqual(self.rql("lock", "--check")[0], 1)
        self.accepts("lock", answer="ok 1\n")
        self.assertEqual(self.lines(), f"six{self.P}rich  # from more.in\nattrs  # from more.in\n")
        self.accepts("check", answer="ok 1\n")

    def test_a_group_in_a_folder_of_its_own_is_bound_to_the_other(self):
        (self.folder / ".git").mkdir()
        self.serve(six=[wheel_of("six", "1.5")])
        self.put("dev/reqlock.toml", f'index = ["{self.index.url}"]\nsources = ["dev.in"]\nconstraints = ["../pylock.toml"]\n{ENVIRONMENT}')
        self.put("dev/dev.in", "six\n")
        for words, version in (("init",), "1"), (("upgrade",), "1"):
            self.assertEqual(self.rql(*words, folder=self.folder / "dev")[0], 0)
            self.assertIn(f'version = "{version}"\n', (self.folder / "dev" / "pylock.toml").read_text(encoding="utf-8"))


if __name__ == "__main__":
    unittest.main()
