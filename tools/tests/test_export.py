"""What `export` prints: the requirements for pip, against the tool that prints them of the lock's file, and installed by the machine's
own pip; the graph, as Graphviz reads it and draws it; and which targets are told. They need the program, which ./check builds first."""

import re
import shlex
import shutil
import subprocess
import tomllib
import unittest
from xml.etree import ElementTree

from support.installed import compares_no_version, entries_installed, without_environments
from support.made.environments import LINUX, WINDOWS
from support.places import TOP, needs_program, new_folder
from support.program import Program
from support.rules.journals import file_name
from support.rules.lock_tables import read_lock_table
from support.shown import indented_blocks, typed_blocks
from support.tool_calls import called
from test_wheels import FIRST, HEAD, Shell, make_wheels, section

from picture_makers.lock import answered

TWO = {"linux": LINUX, "win": WINDOWS}
RELEASES = (
    ("a", "1.0rc1", []),
    ("a", "1.0", ["b-c>=1", 'w; os_name=="nt"', 'x; extra=="e"']),
    ("b-c", "1!2.0.post1", ["d"]),
    ("d", "0", []),
    ("w", "1", []),
    ("x", "1", ["b-c"]),
)
# what a line of the file can hold that Graphviz has a meaning for
ODD = 'd  # "]; \\N \\" <b> &amp; {|} \t é -> "a"\n'
LINES = f"a[e]>=1\n# only a comment\nw; os_name == 'nt'\n{ODD}"
SVG = "{http://www.w3.org/2000/svg}"


def hashed(path):
    """What the tool prints of a lock's file."""
    done = called("hashed_requirements", [path])
    return done.returncode, done.stdout, done.stderr


def drawn(text):
    """The root of the picture that Graphviz draws."""
    done = subprocess.run(["dot", "-Tsvg"], input=text.encode(), capture_output=True, check=False)
    if done.returncode != 0 or done.stderr:
        raise AssertionError(done.stderr.decode())
    return ElementTree.fromstring(done.stdout)


def texts_of(picture, kind):
    """Each node, edge or cluster of a picture: its title, and the text that it shows."""
    texts = {}
    for group in picture.iter(f"{SVG}g"):
        if group.get("class") == kind:
            shown = "".join(text.text or "" for text in group.iter(f"{SVG}text"))
            texts[group.find(f"{SVG}title").text] = shown.replace("\N{NO-BREAK SPACE}", " ")
    return texts


def graph_of(lock, target, lines):
    """The nodes and edges of a lock, where these lines are active: each a number, a text and a name."""
    nodes = {f"{target}:{name}": f"{name} {entry['version']}" for name, entry in lock.items()}
    edges = {f"{target}:{name}->{target}:{dependency}" for name, entry in lock.items() for dependency in entry["dependencies"]}
    for number, text, name in lines:
        nodes[f"{target}:line {number}"] = f"line {number}: {text}"
        edges.add(f"{target}:line {number}->{target}:{name}")
    return nodes, edges


@needs_program
class Export(Program):
    def lock_of(self, target):
        return read_lock_table((self.folder / file_name(target)).read_bytes())[2]

    def begin_odd(self):
        self.begin(LINES.encode(), *RELEASES)
        self.assertEqual(self.call("init"), (0, "ok 0\n"))

    def check_hashes(self, *words, target=""):
        wanted = hashed(self.folder / file_name(target))
        self.assertEqual(wanted[::2], (0, ""))
        self.assertEqual(self.told("export", *words), wanted)

    def test_hashes_are_those_of_the_tool(self):
        self.begin_odd()
        self.check_hashes()
        self.check_hashes("--format", "hashes")
        self.begin(b"", *RELEASES)
        self.call("init")
        self.check_hashes()

    def test_each_text_of_a_line_is_shown_as_it_stands(self):
        self.begin_odd()
        status, text, error = self.told("export", "--format", "dot")
        self.assertEqual((status, error), (0, ""))
        self.check_drawn(text, {"": [(1, "a[e]>=1", "a"), (4, ODD.strip(), "d")]})

    @unittest.skipUnless(shutil.which("dot"), "there is no Graphviz: apt-get install graphviz")
    def check_drawn(self, text, lines):
        """The picture has these active lines of each target, and its entries."""
        picture = drawn(text)
        nodes, edges = {}, set()
        for target, active in lines.items():
            more = graph_of(self.lock_of(target), target, active)
            nodes |= more[0]
            edges |= more[1]
        shown = texts_of(picture, "node")
        shown, nodes = ({name: " ".join(words.split()) for name, words in texts.items()} for texts in (shown, nodes))
        self.assertEqual(shown, nodes)
        self.assertEqual(set(texts_of(picture, "edge")), edges)
        self.assertEqual(texts_of(picture, "cluster"), {f"cluster {name}": name for name in lines if name and lines[name]})

    def test_a_lock_of_nothing_is_a_graph(self):
        self.begin(b"# nothing\n", *RELEASES)
        self.call("init")
        self.check_drawn(self.told("export", "--format", "dot")[1], {"": []})

    def test_refuses_a_folder_without_a_history(self):
        self.begin(LINES.encode(), *RELEASES)
        self.assertEqual(self.told("export"), self.told("show"))


@needs_program
class Targets(Export):
    environments = TWO

    def begin_odd(self):
        super().begin_odd()
        self.words = "--target", "linux"

    def check_hashes(self, *words, target="linux"):
        for name in TWO:
            super().check_hashes(*words, "--target", name, target=name)

    def test_each_text_of_a_line_is_shown_as_it_stands(self):
        self.begin_odd()
        linux = [(1, "a[e]>=1", "a"), (4, ODD.strip(), "d")]
        win = [linux[0], (3, "w; os_name == 'nt'", "w"), linux[1]]
        self.check_drawn(self.told("export", "--format", "dot")[1], {"linux": linux, "win": win})
        self.check_drawn(self.told("export", "--format", "dot", "--target", "win")[1], {"win": win})

    def test_a_lock_of_nothing_is_a_graph(self):
        self.begin(b"# nothing\n", *RELEASES)
        self.call("init")
        self.check_drawn(self.told("export", "--format", "dot")[1], {"linux": [], "win": []})

    def test_says_what_to_type(self):
        self.begin_odd()
        status, output, error = self.told("export")
        self.assertEqual((status, output, error.splitlines()[0]), (2, "", "error: '--target <NAME>' is needed, as there are several: the targets are linux, win"))
        status, output, error = self.told("export", "--format", "dot", "--target", "mac")
        self.assertEqual((status, output, error.splitlines()[0]), (2, "", "error: no target has the name 'mac' of '--target <NAME>': the targets are linux, win"))


@needs_program
class Installed(Shell):
    def test_pip_installs_by_the_hashes(self):
        make_wheels(self.folder / "wheels")
        begin, install, *_ = indented_blocks(section(HEAD))
        self.check_runs(begin, "ok 0", "ok 1")
        lines = install.replace("python3 tools/hashed_requirements.py pylock.toml", "reqlock export")
        self.assertNotEqual(lines, install)
        self.check_runs(lines)
        self.check_installed("pylock.toml", "site", FIRST)


# what releases ask of Python and of the system, also those that no lock has
ASKING = (
    ("a", "1", ["b"], {"requires_python": ">=3.8, <4"}),
    ("a", "2", [], {"requires_python": ">=3.12"}),
    ("b", "1", ['c; python_version<"3.9"', 'c; sys_platform=="win32"', 'd; extra=="e" and platform_machine in "x86_64 amd64"'], {"requires_python": "!=3.9.1"}),
    ("c", "1", []),
    ("d", "1", []),
)
TOLD = (
    'platform_machine in "x86_64 amd64" and python_full_version >= "3.8" and python_full_version < "3.12"'
    ' and python_full_version != "3.9.1" and python_version >= "3.9" and sys_platform != "win32"'
)
# what is told where a release asks so, for a machine with this `platform_release`
ANSWERED = (
    ("6.1", 'platform_release < "9.0"', 'platform_release < "9.0"'),
    ("6.1", "platform_release >= '9.0'", 'platform_release < "9.0"'),
    ("5.10", 'platform_release == "6.*"', 'platform_release != "6.*"'),
    ("6.1-amd", "'amd' not in platform_release", '"amd" in platform_release'),
    ("6.1-amd", 'platform_release == "x"', 'platform_release != "x"'),
    ("6.1-amd", 'platform_release <= "b"', 'platform_release <= "b"'),
    ("6.1-amd", 'platform_release > "b"', 'platform_release <= "b"'),
    ("6.1", "'5.9' < platform_release", '"5.9" < platform_release'),
    ("6.1-amd", "'x' != platform_release", '"x" != platform_release'),
)
# and where the whole text is: no opposite means the same everywhere, or installers answer otherwise here
UNANSWERED = (
    ("x", 'platform_release <= "=9.0"'),
    ("6.1", 'platform_release ~= "6.2"'),
    ("6.1", 'platform_release >= "9.0rc1"'),
    ("9.0rc1", 'platform_release >= "9.0"'),
    ("6.1-amd", 'platform_release < "9.0"'),
    ("6.1-amd", 'platform_release == "6.*"'),
    ("6.1", "'7.9' < platform_release"),
    ("6.1", "'x' == platform_release"),
    ("6.1", "'x' != platform_release"),
    ("6.1-amd", "'x' == platform_release"),
    ("6.1", """platform_release != 'a"b'"""),
)
PYTHONS = "3.7.9", "3.8.1", "3.9.0", "3.9.1", "3.10.2", "3.11.0rc1", "3.11.8", "3.12.0a1", "3.12.0rc1", "3.12.0", "3.13.1", "4.0.1"
# no release of `a` can be taken there
UNLOCKED = "3.7.9", "3.9.1"


@needs_program
class Pylock(Program):
    """The lock that travels: it is a lock of the same packages, and where an installer takes it a new lock has these too."""

    def begin_asking(self, python="3.11.7"):
        self.lock_for({"": self.environment_of(python)})
        self.begin(b"a\n", *ASKING)
        self.assertEqual(self.call("init"), (0, "ok 0\n"))

    def environment_of(self, python, **more):
        minor = ".".join(python.split(".")[:2])
        return LINUX | {"python_full_version": python, "implementation_version": python, "python_version": minor} | more

    def travelling(self):
        """The lock that travels, where all but the environments is that of the lock."""
        status, output, error = self.told("export", "--format", "pylock")
        self.assertEqual((status, error), (0, ""))
        data, own = output.encode(), (self.folder / "pylock.toml").read_bytes()
        self.assertEqual(without_environments(data), without_environments(own))
        return data

    def exported(self):
        """The marker of the lock that travels."""
        [marker] = tomllib.loads(self.travelling().decode()).get("environments", [""])
        return marker

    def entries(self):
        return read_lock_table((self.folder / "pylock.toml").read_bytes())[2]

    def test_keeps_what_is_asked(self):
        self.begin_asking()
        self.assertEqual(self.exported(), TOLD)

    def test_a_version_before_its_release_is_kept_as_it_is(self):
        self.begin_asking("3.12.0rc1")
        self.assertIn('python_full_version in "3.12.0rc1" and "3.12.0rc1" in python_full_version', self.exported())

    def told_of(self, text, asked):
        """The marker where a release asks so of a machine with this `platform_release`, which holds here to `packaging` too."""
        environment = LINUX | {"platform_release": text}
        self.lock_for({"": environment})
        self.begin(b"a\n", ("a", "1", [f"b; {asked}"]), ("b", "1", []))
        self.assertEqual(self.call("init"), (0, "ok 0\n"))
        marker = self.exported()
        self.assertFalse(compares_no_version(marker, environment))
        self.assertEqual(entries_installed(self.travelling(), environment), self.entries())
        return marker

    def test_what_was_asked_is_kept_with_its_answer(self):
        for text, asked, told in ANSWERED:
            with self.subTest(text=text, asked=asked):
                self.assertEqual(self.told_of(text, asked), told)

    def test_else_the_text_is_kept(self):
        for text, asked in UNANSWERED:
            with self.subTest(text=text, asked=asked):
                one, both = f'platform_release == "{text}"', f'platform_release in "{text}" and "{text}" in platform_release'
                self.assertIn(self.told_of(text, asked), (one, both))

    def test_no_bound_stands_for_another_where_texts_may_be_compared(self):
        asking = ("a", "1", ['b; platform_release >= "9.0"', 'c; platform_release >= "20.0"']), ("b", "1", []), ("c", "1", [])
        self.lock_for({"": LINUX | {"platform_release": "23.4.0"}})
        self.begin(b"a\n", *asking)
        self.assertEqual((self.call("init"), sorted(self.locked())), ((0, "ok 0\n"), ["a", "b", "c"]))
        data = self.travelling()
        self.assertEqual(entries_installed(data, LINUX | {"platform_release": "23.4.0"}), self.entries())
        other = LINUX | {"platform_release": "6.1.0-13-amd64"}
        self.lock_for({"": other})
        self.begin(b"a\n", *asking)
        self.assertEqual((self.call("init"), sorted(self.locked())), ((0, "ok 0\n"), ["a", "c"]))
        self.assertIsNone(entries_installed(data, other))

    def test_nothing_is_kept_where_nothing_is_asked(self):
        self.begin(b"x\n", ("x", "1", []))
        self.call("init")
        self.assertEqual(self.exported(), "")

    def test_only_what_the_lines_can_lead_to_is_asked(self):
        index = (
            ("a", "1", ["b<2"]),
            ("a", "2", ["b>=2"]),
            ("b", "1", ['c; os_name=="nt"'], {"requires_python": ">=3.8"}),
            ("b", "2", []),
            ("c", "1", []),
            ("z", "1", ['c; sys_platform=="win32"']),
        )
        for lines, asked in (b"a>=2\n", ""), (b"a\n", 'os_name != "nt" and python_full_version >= "3.8"'):
            self.begin(lines, *index)
            self.assertEqual(self.call("init"), (0, "ok 0\n"))
            self.assertEqual(self.exported(), asked)

    def test_a_ring_of_clauses_on_pre_releases_ends(self):
        """None of these clauses is known to say itself, so that all of the index is asked."""
        index = ("a", "1", ["b>=1a1,!=2.post1"]), ("b", "1", ["a>=1.dev0", 'z; os_name=="nt"']), ("z", "1", ['a; sys_platform=="win32"'])
        self.begin(b"a>=1a1\n", *index)
        self.assertEqual(self.call("init"), (0, "ok 0\n"))
        self.assertEqual(self.exported(), 'os_name != "nt" and sys_platform != "win32"')

    def test_a_new_lock_is_the_same_wherever_the_marker_holds(self):
        others = [self.environment_of(python) for python in PYTHONS]
        others += [self.environment_of("3.11.7", sys_platform="win32"), self.environment_of("3.10.4", platform_release="x", os_name="y")]
        for python in [version for version in PYTHONS if version not in UNLOCKED]:
            self.begin_asking(python)
            data, locked = self.travelling(), self.entries()
            self.assertEqual(entries_installed(data, self.environments[""]), locked)
            for other in others:
                with self.subTest(python=python, other=other):
                    self.check_elsewhere(data, locked, other)

    def check_elsewhere(self, data, locked, other):
        """The lock isn't for another environment, or installs there what is locked here and would be there."""
        installed = entries_installed(data, other)
        if installed is None:
            return
        self.lock_for({"": other})
        self.begin(b"a\n", *ASKING)
        self.assertEqual(self.call("init"), (0, "ok 0\n"))
        self.assertEqual((installed, self.entries()), (locked, locked))

    def test_of_several_targets_the_one_that_is_named(self):
        self.lock_for(TWO)
        self.begin(LINES.encode(), *RELEASES)
        self.assertEqual(self.call("init"), (0, "ok 0\n"))
        for name, sign in ("linux", "!="), ("win", "=="):
            status, output, error = self.told("export", "--format", "pylock", "--target", name)
            self.assertEqual((status, error), (0, ""))
            after, before = tomllib.loads(output), tomllib.loads((self.folder / file_name(name)).read_text())
            self.assertEqual(after.pop("environments"), [f'os_name {sign} "nt"'])
            del before["environments"]
            self.assertEqual(after, before)
        status, output, error = self.told("export", "--format", "pylock", "--target", "mac")
        self.assertEqual((status, output), (2, ""))
        self.assertTrue(error.startswith("error: no target has the name 'mac' of"), error)

    def test_says_what_is_lacking(self):
        self.begin_asking()
        status, output, error = self.answered("--dir", self.folder, "export", "--format", "pylock")
        self.assertEqual((status, output), (2, ""))
        self.assertIn("without '--index <FILE>' nothing is known of what was asked", error)
        self.begin(b"a\n", *ASKING[:2])
        status, output, error = self.told("export", "--format", "pylock")
        self.assertEqual((status, output), (2, ""))
        self.assertIn("the lock was made of another index; relock over this one first", error)


class Page(unittest.TestCase):
    """docs/EXPORT.md. Its picture is made anew in test_pictures.py."""

    @needs_program
    def test_what_is_printed(self):
        page = (TOP / "docs" / "EXPORT.md").read_text(encoding="utf-8")
        for command, shown in [call for block in typed_blocks(page) for call in block]:
            done = answered(new_folder(self.addCleanup), *shlex.split(command)[1:])
            printed = re.sub("[0-9a-f]{64}", "..", re.sub("(?<=^# for ).*", "..", (done.stdout + done.stderr).decode(), flags=re.M))
            self.assertEqual(printed.splitlines(), shown, command)


if __name__ == "__main__":
    unittest.main()
