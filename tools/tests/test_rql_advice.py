"""Tests that what rql advises leads on: each advice that is told here is followed to its end."""

import contextlib
import io
import json
import re
import shlex
import subprocess
import unittest

from support.completed import SHARE
from support.made.served_index import wheel_of
from support.places import TOP
from support.rql_projects import ENVIRONMENT, Served
from support.synced import Synced, variables

from reqlock_tools.rql.parser import BUILDERS, FLAGS, VALUES, parsed, parser_of
from reqlock_tools.rql.texts import outside
from reqlock_tools.rql.words import COMMANDS, OPTIONS


class Server(Served):
    """A server that answers late, or not at once."""

    def setUp(self):
        super().setUp()
        self.serve(rich=[wheel_of("rich", "1")])
        self.begin()

    def test_more_retries(self):
        place = self.index.instead
        path = f"{self.index.prefix}rich/"
        failing = [lambda answer: answer.give(500)] * 2
        place[path] = [*failing, self.index.usual]
        told = self.refuses("add", "rich", "--retries", "0", status=6)
        self.assertIn("asked 1 time, so try again later, or with a larger --retries or --timeout", told)
        place[path] = [*failing, self.index.usual]
        self.accepts("--retries", "2", "add", "rich", answer="ok 1\n")

    def test_a_longer_timeout(self):
        self.index.instead[f"{self.index.prefix}rich/"] = [lambda answer: None]
        told = self.refuses("--retries", "0", "--timeout", "0.3", "add", "rich", status=6)
        self.assertIn("no answer in 0.3 s; asked 1 time, so try again later, or with a larger --retries or --timeout", told)
        self.index.instead.clear()
        self.accepts("add", "rich", "--timeout=60", answer="ok 1\n")

    def test_they_stand_in_front_of_a_word_that_is_handed_on(self):
        self.accepts("--timeout", "5", "--retries", "1", "log")
        self.assertIn("--retries: invalid number from 0 to", self.rql("--retries", "-1", "log")[2])


class First(Served):
    """A name that is mistyped before the index has given anything."""

    def setUp(self):
        super().setUp()
        self.serve(flask=[wheel_of("flask", "1")])

    def refused(self, *words, told=True):
        status, output, errors = self.rql(*words)
        self.assertEqual((status, output), (3, "refused no-solution\n"), errors)
        self.assertEqual("/simple/: it has no file of flsk; is the name right? And is it the address of a Simple API" in errors, told, errors)

    def test_in_an_empty_project(self):
        self.begin()
        self.refused("add", "flsk")
        self.assertEqual(self.rql("-q", "add", "flsk"), (3, "refused no-solution\n", ""))
        self.accepts("add", "flask", answer="ok 1\n")
        with self.subTest("a later one ends so too"):
            self.refused("add", "flsk", told=False)

    def test_in_the_lines_that_a_project_begins_with(self):
        self.put("requirements.txt", "flsk\n")
        self.refused("init", "--index", self.index.url)
        self.assertEqual([path.name for path in self.folder.iterdir()], ["requirements.txt"])

    def test_an_index_that_has_nothing_any_more_takes_no_place(self):
        self.begin("flask\n")
        before = (self.folder / ".reqlock" / "index.json").read_bytes()
        self.index.instead[f"{self.index.prefix}flask/"] = [lambda answer: answer.give(404)]
        for words in ["upgrade"], ["relock"], ["index"]:
            self.assertIn("it has no file of flask; is it the address of a Simple API", self.rql(*words)[2])
        self.assertEqual((self.folder / ".reqlock" / "index.json").read_bytes(), before)

    def test_a_url_is_no_name_to_ask_for(self):
        self.begin("flask\n")
        self.index.counts()
        self.assertEqual(self.rql("add", "git+https://git.example/x")[:2], (1, "refused bad-text\n"))
        self.assertNotIn(("GET", f"{self.index.prefix}git/"), self.index.counts())


class Coming(Served):
    """A project of another tool, over an index that has what it locked."""

    def setUp(self):
        super().setUp()
        self.serve(**{
            name: [wheel_of(name, version, *needs) for version in ("1", "2")]
            for name, *needs in (["flask"], ["rich"], ["pytest", "iniconfig"], ["iniconfig"], ["ruff"], ["sphinx"])
        })

    def init(self, pyproject, **others):
        """What `rql init` tells of these files, which pin the versions 1 of uv.lock, or of poetry.lock."""
        self.put("pyproject.toml", pyproject)
        for name, names in others.items():
            source = '\nsource = { registry = "https://index.example/simple" }' if name == "uv" else ""
            packages = (f'[[package]]\nname = "{package}"\nversion = "1"{source}\n' for package in names)
            self.put(f"{name}.lock", "\n".join(packages))
        status, output, errors = self.rql("init", "--index", self.index.url, "--python", "3.11", "--platform", "linux-x86_64")
        self.assertEqual((status, output), (0, "ok 0\n"), errors)
        return errors.splitlines()

    def locked(self):
        return [row.split()[:2] for row in self.rql("show")[1].splitlines()[1:]]

    def write_sources(self, *sources):
        path = self.folder / "pyproject.toml"
        text = path.read_text(encoding="utf-8")
        path.write_text(re.sub(r"sources = \[.*\]", f"sources = {json.dumps(sources)}", text), encoding="utf-8")


UV = """[project]
name = "app"
dependencies = ["flask"]

[project.optional-dependencies]
net = ["rich"]

[dependency-groups]
dev = ["pytest", { include-group = "lint" }]
lint = ["ruff"]
docs = ["sphinx"]
"""


class Groups(Coming):
    def test_what_uv_installs_by_itself_is_locked_with_its_pins(self):
        told = self.init(UV, uv=["flask", "pytest", "iniconfig", "ruff", "sphinx"])
        self.assertEqual(self.lines(), "flask  # from pyproject.toml\npytest  # from pyproject.toml:dev\nruff  # from pyproject.toml:lint\n")
        self.assertEqual(self.locked(), [["flask", "1"], ["iniconfig", "1"], ["pytest", "1"], ["ruff", "1"]])
        self.assertIn("sphinx 1: it isn't taken over: nothing needs it", told)
        names = "pyproject.toml:docs", "pyproject.toml[net]"
        way = f'to lock them too, write "{names[0]}", "{names[1]}" into sources in the settings, and call rql lock'
        self.assertIn(f"{', '.join(names)}: not locked; {way}", told)
        with self.subTest("which takes them in"):
            self.write_sources("pyproject.toml", "pyproject.toml:dev", *names)
            self.accepts("lock", answer="ok 1\n")
            self.assertEqual([name for name, _ in self.locked()], ["flask", "iniconfig", "pytest", "rich", "ruff", "sphinx"])
        with self.subTest("what is taken out of sources isn't locked"):
            self.assertTrue(any(line.startswith("pyproject.toml:dev: locked too, as `uv sync` installs it") for line in told), told)
            self.write_sources("pyproject.toml")
            self.accepts("lock", answer="ok 2\n")
            self.assertEqual(self.locked(), [["flask", "1"]])

    def test_of_a_project_that_is_none_of_uv(self):
        told = self.init(UV)
        self.assertEqual(self.lines(), "flask  # from pyproject.toml\n")
        names = "pyproject.toml:dev, pyproject.toml:lint, pyproject.toml:docs, pyproject.toml[net]"
        self.assertTrue(any(line.startswith(f"{names}: not locked") for line in told), told)

    def test_what_uv_knows_in_tables_of_its_own(self):
        tables = '[tool.uv]\ndefault-groups = ["docs"]\ndev-dependencies = ["rich"]\n[tool.uv.sources]\nflask = { path = "../flask" }\n'
        told = self.init(f"{UV}{tables}")
        self.assertEqual(self.lines(), "flask  # from pyproject.toml\nsphinx  # from pyproject.toml:docs\n")
        self.assertIn(
            "tool.uv.dev-dependencies: not locked: put its lines into dev in [dependency-groups], which uv reads too, write \"pyproject.toml:dev\""
            " into sources in the settings, and call rql lock", told,
        )
        self.assertIn("tool.uv.sources isn't followed: flask: the index is asked for it, whose package of this name may be another one", told)
        self.assertNotIn("rich", self.lines())

    def test_a_group_with_a_url_is_told_and_left(self):
        told = self.init(UV.replace('"pytest",', '"x @ git+https://git.example/x",'), uv=["flask"])
        self.assertEqual(self.lines(), "flask  # from pyproject.toml\n")
        pattern = r"dependency-groups.dev\[0\]: .*only what an index has can be locked, and not x: .*: so pyproject.toml:dev isn't locked$"
        self.assertRegex(told[0], pattern)

    def test_of_poetry(self):
        told = self.init(
            '[tool.poetry.dependencies]\nflask = "*"\nnear = { path = "../near" }\n[tool.poetry.dev-dependencies]\nruff = "^1"\n'
            '[tool.poetry.group.test.dependencies]\npytest = "*"\nflask = "*"\nmine = { git = "https://git.example/mine" }\n'
            '[tool.poetry.group.docs]\noptional = true\n[tool.poetry.group.docs.dependencies]\nsphinx = "^1"\n',
            poetry=["flask", "pytest", "iniconfig", "ruff"],
        )
        self.assertEqual(self.lines(), "flask\nruff>=1,<2  # group dev\npytest  # group test\n")
        self.assertEqual(self.locked(), [["flask", "1"], ["iniconfig", "1"], ["pytest", "1"], ["ruff", "1"]])
        group = "tool.poetry.group"
        self.assertIn("tool.poetry.dependencies: translated once into requirements.txt: from now on its lines count", told)
        self.assertIn(f"{group}.test.dependencies: it is locked too, as `poetry install` installs it: rql remove takes a line out", told)
        self.assertIn(f"{group}.docs.dependencies: sphinx: it is optional, so it isn't taken over: rql add 'sphinx>=1,<2' adds it", told)
        self.accepts("add", "sphinx>=1,<2", answer="ok 1\n")
        self.accepts("remove", "pytest", answer="ok 2\n")
        self.assertTrue(any(line.startswith("only what an index has can be locked, and not near, mine: publish it") for line in told), told)

    def test_of_poetry_beside_dependencies_of_the_project(self):
        told = self.init('[project]\nname = "app"\ndependencies = ["flask"]\n[tool.poetry.group.test.dependencies]\npytest = "^1"\n')
        line = 'test = ["pytest>=1,<2"]'
        self.assertIn(
            f"tool.poetry.group.test.dependencies: it isn't locked: write {line} in [dependency-groups], write \"pyproject.toml:test\" into sources"
            " in the settings, and call rql lock", told,
        )
        self.put("pyproject.toml", f"[dependency-groups]\n{line}\n{(self.folder / 'pyproject.toml').read_text(encoding='utf-8')}")
        self.write_sources("pyproject.toml", "pyproject.toml:test")
        self.accepts("lock", answer="ok 1\n")
        self.assertEqual([name for name, _ in self.locked()], ["flask", "iniconfig", "pytest"])


class Pins(Coming):
    def test_of_what_nothing_leads_to(self):
        told = self.init('[project]\nname = "app"\ndependencies = ["rich"]\n', uv=["rich", "pytest"])
        self.assertIn("pytest 1: it isn't taken over: nothing needs it", told)

    def test_of_what_the_index_was_asked_for_and_lacks(self):
        self.serve(app=[wheel_of("app", "1"), wheel_of("app", "2", "gone")])
        told = self.init('[project]\nname = "own"\ndependencies = ["app"]\n', uv=["app", "gone"])
        self.assertIn("gone 1: it isn't taken over: the index hasn't the package", told)


class Outside(Synced):
    """What no index has is installed beside what is locked, and stays as it is told."""

    def test_it_stays(self):
        told = outside(["b"])
        self.assertEqual(told.rpartition(" by ")[2], "rql sync --keep b")
        self.lock({"a": "1"})
        wheel = self.project / self.files["b", "1"].name
        wheel.write_bytes(self.files["b", "1"].data)
        self.syncs("+ a 1")
        subprocess.run([self.venv / "bin" / "python", "-m", "pip", "install", "--quiet", "--no-deps", wheel], env=variables(), check=True)
        self.syncs("nothing to do", told=["b 1 stays: --keep"], keep=["b"])
        self.syncs("- b 1")


class OfSync(Synced):
    def test_pip_gets_them_too(self):
        self.lock({"a": "1"})
        status, output, errors = self.call(is_verbose=True, ways=["--timeout", "7.0", "--retries", "0"])
        self.assertEqual((status, output), (0, ["+ a 1"]), errors)
        self.assertIn(" --timeout 7.0 --retries 0 ", errors[0])


class Words(unittest.TestCase):
    """Words of other tools: what is told in their place are words that rql takes."""

    def told(self, *words):
        errors = io.StringIO()
        with contextlib.redirect_stderr(errors), self.assertRaises(SystemExit) as end:
            parsed(words)
        self.assertEqual(end.exception.code, 2)
        return errors.getvalue().splitlines()[-1]

    def test_of_commands(self):
        known = ((command, COMMANDS[command]) for command in ("install", "portable-lock"))
        for word, told in *known, ("ad", "rql add?"), ("zzz", "rql --help names all"):
            self.assertEqual(self.told("-q", word, "x"), f"rql: error: there is no command {word!r}: {told}")
        for word, meant in ("instal", "install"), ("uninstal", "uninstall"), ("freez", "freeze"):
            self.assertEqual(self.told(word), f"rql: error: there is no command {word!r}: {COMMANDS[meant]}")

    def test_of_options(self):
        for command, option, *more in ("add", "--dev", "pytest"), ("add", "-r", "more.txt"), ("upgrade", "--all"), ("sync", "--frozen"), ("check", "--fix"):
            self.assertEqual(self.told(command, option, *more), f"rql {command}: error: it doesn't take {option}: {OPTIONS[command][option]}")
        self.assertEqual(self.told("lock", "more"), "rql lock: error: it doesn't take more")
        self.assertEqual(self.told("--bogus", "log"), "rql: error: it doesn't take --bogus")

    def test_that_are_told_are_taken(self):
        texts = {*COMMANDS.values(), *(text for told in OPTIONS.values() for text in told.values())}
        calls = {call for text in texts for call in re.findall(r"\brql ([a-z]+)", text)}
        self.assertGreater(len(calls), 8)
        self.assertLessEqual(calls, BUILDERS.keys())
        for text in "env add NAME --python VERSION", "export --format hashes":
            self.assertTrue(any(f"rql {text}" in advice for advice in texts), text)
        parsed(["env", "add", "one", "--python", "3.12"])


class Told(Served):
    """What rql tells of a call that isn't as it was meant."""

    def setUp(self):
        super().setUp()
        self.serve(rich=[wheel_of("rich", "1"), wheel_of("rich", "2")], flask=[wheel_of("flask", "1")])
        self.begin("rich\n")

    def test_a_name_that_no_index_has_is_not_remembered(self):
        before = (self.folder / ".reqlock" / "index.json").read_bytes()
        self.assertIn("no index of the settings has flsk: nothing is changed; is the name right?", self.refuses("index", "flask", "flsk", status=6))
        self.assertIn("'https://x'", self.refuses("index", "https://x"))
        self.assertEqual((self.folder / ".reqlock" / "index.json").read_bytes(), before)
        self.accepts("index", "flask")

    def test_of_several_the_one_that_is_refused_is_told_with_a_question(self):
        status, output, errors = self.rql("add", "flask", "ricj")
        self.assertEqual((status, output), (3, "refused no-solution\n"))
        call = re.search("'ricj' is refused: rql (why .*) tells why\n", errors)[1]
        self.assertIn("the index has no package ricj; near names: rich", " ".join(self.rql(*call.split())[1].split()))

    def test_of_several_the_one_that_has_a_line_is_told_with_what_tells_more(self):
        call = re.search("'rich>=1' is refused: rql (.*) tells why\n", self.rql("add", "flask", "rich>=1")[2])[1]
        self.assertIn("line 1 has this name", self.rql(*shlex.split(call))[2])
        call = re.search("'flask>=9' is refused: rql (.*) tells why\n", self.rql("set", "rich>=1", "flask>=9")[2])[1]
        self.assertIn("no line has this name", self.rql(*shlex.split(call))[2])

    def test_a_name_that_no_index_has_is_told_with_a_near_one_and_what_asks_again(self):
        told = "ricj isn't in the index; did you mean rich? (`rql add {}`); to ask the index for ricj again: `rql --refresh add {}`"
        status, output, errors = self.rql("-v", "add", "ricj>=1")
        self.assertEqual((status, output), (3, "refused no-solution\n"))
        self.assertIn(told.format("'rich>=1'", "'ricj>=1'"), errors)
        for other in "no packages of these names", "no release of ricj", "no package ricj", "the same edit by rql":
            self.assertNotIn(other, errors)
        with self.subTest("of several"):
            errors = self.rql("add", "flask", "ricj", CI="1")[2]
            self.assertIn(told.format("rich", "ricj"), errors)
            self.assertNotIn("tells why", errors)
        with self.subTest("that has no near one"):
            errors = self.rql("add", "zzz", CI="1")[2]
            self.assertIn("\nzzz isn't in the index; to ask the index for zzz again: `rql --refresh add zzz`\n", errors)
        self.serve(ricj=[wheel_of("ricj", "1")])
        self.accepts("--refresh", "add", "ricj", answer="ok 1\n")

    def test_an_environment_that_there_is_not(self):
        self.assertIn("'x' isn't among them: rql env list prints them", self.refuses("env", "remove", "x"))


class OfSources(Served):
    """The same where the lines come from a source, which an edit changes too."""

    def test_a_version_alone_is_no_part_of_a_name(self):
        self.serve(rich=[wheel_of("rich", "1"), wheel_of("rich", "2")])
        self.put("requirements.in", "rich\n")
        self.put("reqlock.toml", f'folder = "locks"\nsources = ["requirements.in"]\nindex = ["{self.index.url}"]\n{ENVIRONMENT}')
        self.accepts("init", answer="ok 0\n")
        self.index.counts()
        for text, hint in ("1", "'==1' takes this version alone"), ("rich==1", "as '>=2,<3'"), ("latest", "as '>=2,<3'"):
            self.assertIn(f"{text!r}: specifiers are wanted, each with a comparison: {hint}", self.refuses("constrain", "rich", text))
        self.assertEqual(self.index.counts(), {})
        self.accepts("constrain", "rich", "==1", answer="ok 1\n")
        self.assertEqual((self.folder / "requirements.in").read_text(encoding="utf-8"), "rich==1\n")
        with self.subTest("a name that no index has"):
            self.assertIn("\nricj isn't in the index; did you mean rich? (`rql add rich`); to ask", self.rql("add", "ricj", CI="1")[2])


class Unwritten(Served):
    """Output and errors that can't be written. What the program has saved stays a project that is whole."""

    def setUp(self):
        super().setUp()
        self.serve(rich=[wheel_of("rich", "1"), wheel_of("rich", "2")], flask=[wheel_of("flask", "1")])

    def shell(self, text):
        """The status of a call of rql in a shell, and what it writes elsewhere."""
        self.put_on_path()
        done = subprocess.run(["sh", "-c", text], cwd=self.folder, env=self.variables, capture_output=True, encoding="utf-8", check=False)
        self.assertNotIn("Traceback", done.stdout + done.stderr)
        return done.returncode, done.stdout, done.stderr

    def test_of_what_is_saved(self):
        self.put("pyproject.toml", '[project]\nname = "app"\ndependencies = ["rich"]\n')
        self.assertEqual(self.shell(f"rql -q init --index {self.index.url} >/dev/full")[0], 5)
        self.accepts("check", answer="ok 0\n")
        for words, wanted in ("add flask", "ok 1\n"), ("constrain rich '<2'", "ok 2\n"), ("undo", "ok 1\n"), ("redo", "ok 2\n"):
            with self.subTest(words=words):
                self.assertEqual(self.shell(f"rql {words} >/dev/full")[0], 5)
                self.accepts("check", answer=wanted)
                self.assertEqual((self.folder / ".reqlock" / "requirements.txt").read_text(encoding="utf-8"), self.lines())

    def test_of_several(self):
        self.begin()
        status, _, errors = self.shell("rql add rich flask >/dev/full")
        self.assertEqual(status, 5)
        self.assertIn("standard output: No space left on device", errors)
        self.assertEqual((self.folder / ".reqlock" / "requirements.txt").read_text(encoding="utf-8"), "rich\nflask\n")
        self.accepts("check", answer="ok 2\n")

    def test_of_its_own_prints(self):
        self.begin("rich\n")
        for words in "env list", "fleet . -- check", "fleet show rich", "--help":
            for output in ">/dev/full", ">&-":
                self.assertEqual(self.shell(f"PYTHONUNBUFFERED= rql {words} {output}")[0], 5, words)
        self.assertEqual(self.shell("rql env list | true")[0], 0)

    def test_of_errors(self):
        self.begin()
        for place, name in ("2>/dev/full", "rich"), ("2>&-", "flask"):
            status, output, _ = self.shell(f"CI=1 rql add {name} {place}")
            self.assertEqual((status, output), (0, f"ok {1 if name == 'rich' else 2}\n"))


class Help(unittest.TestCase):
    def test_what_it_names_is_installed(self):
        """A page of the checkout isn't: the wheel has the manual page."""
        text = parser_of().format_help()
        self.assertNotIn("docs/", text)
        self.assertIn("man rql", text)
        self.assertIn('"share/man" = "share/man/man1"', (TOP / "pyproject.toml").read_text(encoding="utf-8"))
        manual = (SHARE / "man" / "rql.1").read_text(encoding="utf-8").replace("\\-", "-")
        for word in [*BUILDERS, *(forms[-1] for forms in FLAGS), *VALUES]:
            self.assertRegex(manual, rf"\\fB{re.escape(word)}( \w+)?\\fR")


if __name__ == "__main__":
    unittest.main()
