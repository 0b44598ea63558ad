"""Tests that what the program tells of its own calls is told by rql as calls of rql: each form that stands in its sources, and with the real
program what is advised at a terminal, typed as it is shown."""

import re
import subprocess
import unittest

from support.made.served_index import wheel_of
from support.places import TOP
from support.rql_projects import ENVIRONMENT, Served

from reqlock_tools.rql.own_calls import Here, own_call
from reqlock_tools.rql.own_words import SENTENCES, has_call, in_own_words, without_lacking

OPTIONS = " --dir web --index .reqlock/index.asked.json"
# Each line of the program's sources that names a call, with calls as they are then printed, and what rql has for them. A form for which
# rql has nothing has None.
FORMS = {
    "reqlock{options} add": {f"reqlock{OPTIONS} add 'flask>=2'": "rql add 'flask>=2'"},
    "reqlock{options} remove {name}": {f"reqlock{OPTIONS} remove flask": "rql remove flask"},
    "reqlock{options} constrain {name}": {
        f"reqlock{OPTIONS} constrain flask '>=2,<3'": "rql constrain flask '>=2,<3'",
        f"reqlock{OPTIONS} constrain flask '==2'": "rql constrain flask '==2'",
    },
    "reqlock{options} upgrade {name}": {f"reqlock{OPTIONS} upgrade flask": "rql upgrade flask"},
    "reqlock{options} upgrade": {f"reqlock{OPTIONS} --dry-run upgrade": "rql upgrade --dry-run"},
    "reqlock{options} replace --line {name}": {f"reqlock{OPTIONS} replace --line flask 'flask[async]'": "rql set 'flask[async]'"},
    "reqlock{options} {words}": {f"reqlock{OPTIONS} relock": "rql relock", "reqlock --dir web show --tree": "rql tree"},
    "reqlock{options} retarget --env environment.json": {f"reqlock{OPTIONS} retarget --env environment.json": "rql retarget"},
    "reqlock{options} outdated": {f"reqlock{OPTIONS} outdated": "rql outdated"},
    "reqlock{options} {subcommand}": {f"reqlock{OPTIONS} undo": "rql undo", f"reqlock{OPTIONS} redo": "rql redo"},
    "reqlock show": {"reqlock show": "rql show"},
    "reqlock show --tree": {"reqlock show --tree": "rql tree"},
    "reqlock show {normal}": {"reqlock show flask": "rql show flask"},
    "reqlock log": {"reqlock log": "rql log"},
    "reqlock{folder} log": {"reqlock --dir web log": "rql log"},
    "reqlock{folder} check -v": {"reqlock --dir web check -v": "rql check -v"},
    "reqlock{folder} diff --json": {"reqlock --dir web diff --json": "rql diff --json"},
    "reqlock{folder} export --format hashes": {"reqlock --dir web export --format hashes": "rql export --format hashes"},
    "reqlock{folder} export >locked.txt": {"reqlock --dir web export >locked.txt": "rql export >locked.txt"},
    "reqlock {option} {value}": {
        "reqlock --index index.json --dir web skipped": "rql skipped",
        "reqlock --env environment.json --dir web --index index.json why --explain --init": "rql why --explain --init",
    },
    # `init`, and `replace` of lines that were changed by hand
    "reqlock": {
        f"reqlock{OPTIONS} --env e.json init --pins web/pylock.toml": "rql init --from web/pylock.toml",
        "reqlock --index index.json --env environment.json init": "rql init",
        f"reqlock{OPTIONS} replace --was COPY": "rql lock",
    },
    "`reqlock init": {
        "reqlock init --pins a=pylock.a.toml --pins b=pylock.b.toml": "rql init --from pylock.a.toml --from pylock.b.toml",
    },
    "`reqlock init` begins a history here": {"reqlock init": "rql init"},
    "`reqlock init` begins a new history with requirements.txt as it stands.": {"reqlock init": "rql init"},
    "; `reqlock": {"reqlock --dir web check -v": "rql check -v"},
    "ask: reqlock{options} why --explain": {
        f"reqlock{OPTIONS} --keep-locked why --explain 'flask<2'": "rql why --keep-locked --explain 'flask<2'",
        f"reqlock{OPTIONS} why --explain --remove flask": "rql why --explain --remove flask",
        f"reqlock{OPTIONS} why --explain --replace": "rql why --explain --replace new.txt",
    },
    "ask: reqlock{options} why --explain --init": {f"reqlock{OPTIONS} --env e.json why --explain --init": "rql why --explain --init"},
    "reqlock-snapshot again": {"reqlock-snapshot again 'flask[async]' rich --output i.json": "rql index 'flask[async]' rich"},
    "reqlock-snapshot simple": {
        "reqlock-snapshot simple https://index.example/simple/ rich --for requirements.txt --env e.json --output i.json": "rql index rich",
    },
    "reqlock-merge": {"reqlock-merge --dir web --index index.json": "rql lock"},
    "reqlock-environment >": {"reqlock-environment >environment.json": None},
    "reqlock-environment --python 3.12 --platform linux-x86_64 >environment.json": {
        "reqlock-environment --python 3.12 --platform linux-x86_64 >environment.json": None,
    },
    "reqlock-environment --python {path} --platform linux-x86_64 >environment.json": {
        "reqlock-environment --python 3.11 --platform linux-x86_64 >environment.json": None,
    },
}
# What names no call to type: who saved a file, and what other tools are for.
MENTIONS = {
    "reqlock", "reqlock has no such subcommand", "[tool.reqlock", ".reqlock", 'created-by = \\"reqlock\\"',
    "requirements.txt was changed since reqlock saved it. ", "The file of --was isn't requirements.txt as reqlock saved it. ",
    "reqlock: requirements.txt was changed since reqlock saved it. This is ",
    ", which is none of reqlock's files: remove the link, so that a file is written here",
    # (of this rql says what it has: rql.words)
    "reqlock installs nothing: `rql sync` does, in a project that `rql init` began. Else pip installs what is locked:",
    "What stands behind @ is a URL, and reqlock locks releases of an index: write the name.",
    " looks like a page of an index: reqlock-snapshot makes a snapshot of such pages. ",
    " isn't as this reqlock reads a snapshot: the reqlock-snapshot beside it makes one:",
    "requirements.in is there: reqlock-adopt takes it over, with the pins of its compiled file",
}
LITERAL = re.compile(r'"((?:[^"\\]|\\.)*)"')


def texts():
    """The lines of all texts in the program's sources."""
    lines = set()
    for path in (TOP / "crates").glob("*/src/**/*.rt"):
        code = "\n".join(line for line in path.read_text(encoding="utf-8").splitlines() if not line.lstrip().startswith("//"))
        lines.update(line for text in LITERAL.findall(code) for line in text.split("\\n"))
    return lines


def printed():
    """Those that name the program or one of its tools. An example of help, and a usage line, is the program's."""
    return {
        line for line in texts()
        if re.search(r"\breqlock\b(?![:.])", line) and not re.match(r"Example: |reqlock [a-z]+ \[OPTIONS\] ", line)
    }


class Forms(unittest.TestCase):
    def test_of_each_it_is_decided_what_rql_has(self):
        lines = printed()
        self.assertEqual(lines, {*FORMS, *MENTIONS, *lines.intersection(SENTENCES)})

    def test_the_program_says_each_sentence(self):
        """That names it: in one text, or in one for each of its parts."""
        lines = texts()
        for part in (part for sentence in SENTENCES if "reqlock" in sentence for part in sentence.split(". ")):
            self.assertTrue(any(part in text for text in lines), part)

    def test_they_are_told_so(self):
        here = Here(question=("--replace", "new.txt"))
        for form, calls in FORMS.items():
            for call, wanted in calls.items():
                with self.subTest(form=form, call=call):
                    self.assertEqual(own_call(call, here), wanted)
                    front, end = ("ask: ", "") if form.startswith("ask") else ("`", "` begins") if "`" in form else ("    ", "")
                    self.assertEqual(in_own_words(f"{front}{call}{end}\n", here), f"{front}{wanted or call}{end}\n")

    def test_where_they_are_typed(self):
        self.assertEqual(own_call("reqlock --dir=../web show", Here(start="..")), "rql -C .. show")
        self.assertEqual(own_call("reqlock --dir web forget --keep 5", Here(start="web")), "rql -C web forget --keep 5")
        call = "reqlock init --pins sub/locks/pylock.toml"
        self.assertEqual(own_call(call, Here(start="sub/deep", base="sub")), "rql -C sub init --from locks/pylock.toml")

    def test_of_what_rql_has_no_word(self):
        for call in "reqlock batch", "reqlock replace new.txt", "reqlock", "reqlock --version", "reqlock show 'x", "cat reqlock show":
            self.assertIsNone(own_call(call, Here()), call)
        self.assertTrue(has_call(in_own_words("    reqlock try\n", Here())))


class Texts(unittest.TestCase):
    def test_what_somebody_typed_stays(self):
        for text in (
            "line 1: flask  # `reqlock init` begins a history here\n", "line 2: rich  #    reqlock show\n", "reqlock: index: no file\n",
            "error: unexpected argument '`reqlock show` says' found\n", "Usage: reqlock show [OPTIONS]\n", "column 5: ask: reqlock show\n",
            "1. flask needs `reqlock show` says.\n",
        ):
            self.assertEqual(in_own_words(text, Here()), text)

    def test_a_lock_of_no_target(self):
        told = "reqlock: pylock.win.toml is of no target of this history, and no edit changes it: remove it"
        way = f"{told}, or move it elsewhere and lock for it too by"
        others = "beside those of the other targets"
        wanted = f"{way} rql -C 'a b' env add win --pins win=FILE\n"
        self.assertEqual(in_own_words(f"{way} retarget, with --env win=FILE {others}\n", Here(start="a b")), wanted)
        self.assertEqual(in_own_words(f"{told}\nline 1: {told}\n", Here()), f"{told}\nline 1: {told}\n")

    def test_colours(self):
        self.assertEqual(in_own_words("    \x1b[1mreqlock --dir a upgrade b\x1b[0m\n", Here()), "    \x1b[1mrql upgrade b\x1b[0m\n")

    def test_sentences_that_are_broken_for_a_terminal(self):
        """As the program breaks them: no line has more characters than that, and each has as many words as fit."""
        told = "Where the newer journal is lost, `reqlock\ninit --pins web/pylock.toml` begins a new\nhistory\n"
        self.assertEqual(in_own_words(told, Here(), 41), "Where the newer journal is lost,\n`rql init --from web/pylock.toml` begins a new\nhistory\n")
        told = "ask: reqlock --dir web why\n--explain 'flask <2'\nThe newest is 3.\n"
        self.assertEqual(in_own_words(told, Here(), 27), "ask: rql why --explain 'flask <2'\nThe newest is 3.\n")
        told = "Take the line out: reqlock-snapshot is told the\nindex and what of it counts.\n"
        wanted = "Take the line out: the settings of rql name the\nindex and what of it counts.\n"
        self.assertEqual(in_own_words(told, Here(), 50), wanted)


    def test_what_the_index_lacks_is_left_out_where_rql_tells_it(self):
        near = "the index has no release of flsk; near names: flask\n"
        both = "the snapshot has no package flsk, which a line asks for\nthe snapshot has no package x, which a line asks for\n"
        end = "Where the package index has them, the same edit by rql takes them in.\n"
        self.assertEqual(without_lacking(near + both + end, lambda: {"flsk", "x"}), "")
        self.assertEqual(without_lacking(near + both + end, lambda: {"flsk"}), f"{both.splitlines(keepends=True)[1]}{end}")
        self.assertEqual(without_lacking(near + both + end, frozenset), near + both + end)

    def test_sentences_of_what_the_index_lacks_are_those_of_the_program(self):
        code = (TOP / "crates" / "notes" / "src" / "lacks.rt").read_text(encoding="utf-8")
        self.assertIn('"Where the package index has {them}, "', code)
        self.assertIn('"the same edit by rql takes {them} in.\\n"', code)


class Advised(Served):
    """Projects with a line that an edit is refused for, and what is advised at a terminal."""

    def setUp(self):
        super().setUp()
        self.serve(rich=[wheel_of("rich", "1"), wheel_of("rich", "2")], flask=[wheel_of("flask", "1")])
        self.put_on_path()

    def advice(self, *words, status=1, **variables):
        """The calls that a terminal shows where a call is refused. None of them is of the program."""
        exit_status, shown = self.shown(*words, **variables)
        self.assertEqual(exit_status, status, shown)
        self.assertNotRegex(shown, r"(?m)^    reqlock|ask: reqlock|`reqlock")
        return re.findall(r"(?m)^(?:    |ask: )(rql .*)$", shown)

    def types(self, call):
        """What a call prints that is typed as it was shown."""
        done = subprocess.run(["sh", "-c", call], cwd=self.folder, env=self.variables, capture_output=True, encoding="utf-8", check=False)
        self.assertEqual(done.returncode, 0, done.stderr)
        return done.stdout

    def begin_from_sources(self):
        self.put("requirements.in", "-r more.in\nrich<2\n")
        self.put("more.in", "flask\n")
        self.put("reqlock.toml", f'folder = "locks"\nsources = ["requirements.in"]\nindex = ["{self.index.url}"]\n{ENVIRONMENT}')
        self.accepts("init", answer="ok 0\n")

    def test_with_sources_what_is_advised_brings_nothing_apart(self):
        self.begin_from_sources()
        self.assertEqual(self.advice("upgrade", "flask>=1"), ["rql constrain flask '>=1'"])
        self.assertEqual(self.types("rql constrain flask '>=1'"), "ok 1\n")
        self.assertEqual((self.folder / "more.in").read_text(encoding="utf-8"), "flask>=1\n")
        self.accepts("check", answer="ok 1\n")
        self.assertEqual(self.advice("upgrade", "ricj"), ["rql show"])
        self.assertRegex(self.types("rql show"), "(?m)^rich +1 ")

    def test_with_sources_a_question_names_the_edit(self):
        self.begin_from_sources()
        call = "rql why --explain --constrain rich '>=9'"
        status, _, errors = self.rql("-v", "constrain", "rich", ">=9")
        self.assertEqual(status, 3)
        self.assertIn(f"ask: {call}\n", errors)
        done = subprocess.run(["sh", "-c", call], cwd=self.folder, env=self.variables, capture_output=True, encoding="utf-8", check=False)
        self.assertEqual(done.returncode, 3)
        self.assertIn("allows no release of rich", done.stdout)
        self.accepts("check", answer="ok 0\n")

    def test_of_lines(self):
        self.begin("rich\n")
        self.assertEqual(self.advice("add", "rich==1"), ["rql constrain rich '==1'"])
        self.assertEqual(self.types("rql constrain rich '==1'"), "ok 1\n")
        self.assertEqual(self.advice("add", "rich"), ["rql upgrade rich"])
        self.assertEqual(self.types("rql upgrade rich"), "same\n")
        deep = self.put("deep/x", "").parent
        self.assertEqual(self.advice("-C", "deep", "add", "rich[x]"), ["rql -C deep set 'rich[x]'"])
        self.assertEqual(self.types("rql -C deep set 'rich[x]'"), "ok 2\n")
        self.assertEqual(self.shown("show", folder=deep)[0], 0)

    def test_of_lines_that_were_changed_by_hand(self):
        self.begin("rich\n")
        self.put("requirements.txt", "rich\nflask\n")
        self.assertIn("; `rql check -v` says what to type\n", self.rql("log")[2])
        status, shown = self.shown("check")
        self.assertEqual(status, 4)
        self.assertIn("    rql lock\n", shown)
        self.assertEqual(self.types("rql lock"), "ok 1\n")

    def test_of_a_lock_that_is_gone(self):
        self.begin("rich<2\n")
        (self.folder / "pylock.toml").unlink()
        status, shown = self.shown("check")
        self.assertEqual(status, 4)
        self.assertIn("\n`rql init` begins a new history with requirements.txt as it stands.\n", shown)
        self.assertIn("pylock.toml: gone, so a new history begins", self.accepts("init", answer="ok 0\n"))
        self.accepts("check", answer="ok 0\n")

    def test_of_lines_that_are_gone(self):
        self.begin("rich\n")
        (self.folder / "requirements.txt").unlink()
        self.assertIn("The lines that were saved last stand in .reqlock/requirements.txt beside the settings", self.shown("lock")[1])
        (self.folder / ".reqlock" / "requirements.txt").rename(self.folder / "requirements.txt")
        self.accepts("lock", answer="ok 0\n")

    def test_a_call_that_rql_makes_is_shown_as_it_is(self):
        self.begin("rich\n")
        errors = self.rql("-v", "add", "rich==1")[2]
        self.assertIn("+ reqlock -v --dir . --index .reqlock/index.json add rich==1\n", errors)

    def test_a_first_lock_that_has_no_solution_says_why(self):
        """Nothing is left of it that could be asked."""
        self.put("requirements.txt", "rich>=9\n")
        status, _, errors = self.rql("-v", "init", "--index", self.index.url)
        self.assertEqual(status, 3)
        self.assertIn("allows no release of rich", errors)
        self.assertNotIn("ask:", errors)
        self.put("reqlock.toml", f'index = ["{self.index.url}"]\n{ENVIRONMENT}')
        self.assertEqual(self.rql("why", "--explain", "--init")[0], 3)


if __name__ == "__main__":
    unittest.main()
