"""From a folder of wheels to an installed environment, as docs/WHEELS.md tells it: each line of that page is run by a shell, with
wheels that the test makes, the program, and the machine's own pip. Nothing is fetched."""

import json
import os
import re
import shutil
import subprocess
import tomllib
import unittest

from support.made.archives import wheel
from support.made.environments import LINUX, MACOS, WINDOWS
from support.places import PROGRAM, TOP, needs_program, new_folder
from support.program import FILES
from support.rules.installs import Installing, installed_by
from support.shown import indented_blocks, typed_blocks

HEAD = "# From a folder of wheels to an installed environment"
ATTRIBUTES = TOP / "examples" / "git" / ".gitattributes"
REQUIREMENTS = b"# web\r\nclick<8  # the old one\r\n"
FIRST = {"asgiref": "3.1", "click": "7.0", "flask": "2.0", "werkzeug": "2.0"}
UPGRADED = {"asgiref": "3.2", "click": "7.0", "flask": "2.1", "werkzeug": "2.1"}
# A repository that makes every line end in CRLF keeps the files, and two clones give them out: one does so too, one doesn't.
KEEPING = """
    git init --quiet
    git config core.autocrlf true
    git add .gitattributes requirements.txt pylock.toml reqlock.journal
    git -c user.name=name -c user.email=name@host.example commit --quiet --message first
    git clone --quiet --config core.autocrlf=true . true
    git clone --quiet --config core.autocrlf=false . false
    reqlock --dir true check
    reqlock --dir false check
"""


def section(head):
    """The text of the page behind a head line, up to the next one."""
    return (TOP / "docs" / "WHEELS.md").read_text(encoding="utf-8").split(f"{head}\n")[1].split("\n## ")[0]


def make_wheels(folder):
    """Two versions of each package, of which not all go together."""
    for version in "3.0", "3.1":
        wheel(folder, "asgiref", version)
    for version in "7.0", "8.0":
        wheel(folder, "click", version, 'colorama ; platform_system == "Windows"')
    for version in "2.0", "2.1":
        wheel(folder, "Werkzeug", version, python=">=3.6")
    wheel(folder, "Flask", "1.9", "Werkzeug", "click")
    wheel(folder, "Flask", "2.0", "Werkzeug<2.1,>=2.0", "click (>=7)", "asgiref>=3; extra == 'async'")


def make_newer_wheels(folder):
    wheel(folder, "asgiref", "3.2")
    wheel(folder, "Flask", "2.1", "Werkzeug>=2.1", "click (>=7)", "asgiref>=3.2; extra == 'async'")


@needs_program
class Shell(unittest.TestCase):
    """A test of lines that a shell runs in a folder with the repository's tools and a requirements file."""

    def setUp(self):
        if subprocess.run(["python3", "-m", "pip", "--version"], capture_output=True, check=False).returncode != 0:
            self.skipTest("python3 has no pip")
        self.folder = new_folder(self.addCleanup)
        os.symlink(TOP / "tools", self.folder / "tools")
        (self.folder / "requirements.txt").write_bytes(REQUIREMENTS)

    def run_lines(self, text):
        """The status and the output of the lines, of which the first that fails ends the run."""
        kept = {name: value for name, value in os.environ.items() if not name.startswith(("PIP_", "PYTHON", "GIT_"))}
        variables = {
            **kept,
            "PATH": f"{PROGRAM.parent}:{os.environ['PATH']}",
            "HOME": str(self.folder),
            "PIP_CONFIG_FILE": os.devnull,
            "PIP_DISABLE_PIP_VERSION_CHECK": "1",
            "PIP_NO_CACHE_DIR": "1",
            "PYTHONDONTWRITEBYTECODE": "1",
        }
        done = subprocess.run(
            ["bash", "-e"], input=text, env=variables, cwd=self.folder, stdout=subprocess.PIPE,
            stderr=subprocess.STDOUT, encoding="utf-8", check=False,
        )
        return done.returncode, done.stdout

    def check_runs(self, text, *replies):
        """The lines all end well, and the program gives these replies."""
        status, output = self.run_lines(text)
        self.assertEqual(status, 0, output)
        answers = [line for line in output.splitlines() if re.match("ok |same|refused ", line)]
        self.assertEqual(answers, list(replies), output)

    def check_installed(self, lock, site, wanted):
        """What is installed in a folder is what a lock says, and that is what is wanted."""
        table = tomllib.loads((self.folder / lock).read_text(encoding="utf-8"))
        self.assertEqual({package["name"]: package["version"] for package in table["packages"]}, wanted)
        stems = [path.name.removesuffix(".dist-info") for path in (self.folder / site).glob("*.dist-info")]
        self.assertEqual({name.lower(): version for name, version in (stem.split("-") for stem in stems)}, wanted)


class Wheels(Shell):
    def setUp(self):
        super().setUp()
        self.begin, self.install, self.later, self.job = indented_blocks(section(HEAD))

    def check_installs(self, wanted):
        """What is installed anew is what the lock says, and that is what is wanted."""
        shutil.rmtree(self.folder / "site", ignore_errors=True)
        self.check_runs(self.install)
        self.check_installed("pylock.toml", "site", wanted)

    def files(self):
        return [(self.folder / name).read_bytes() for name in ("requirements.txt", "pylock.toml")]

    def test_the_lines_of_the_readme(self):
        make_wheels(self.folder / "wheels")
        self.check_runs(self.begin, "ok 0", "ok 1")
        before = self.files()
        self.assertEqual(before[0], REQUIREMENTS + b"flask[async]>=2\r\n")
        self.check_installs(FIRST)
        make_newer_wheels(self.folder / "wheels")
        upgrade, undo = self.later.split("reqlock undo")
        self.check_runs(upgrade, "ok 2")
        self.check_installs(UPGRADED)
        self.check_runs(f"reqlock undo{undo}", "ok 1")
        self.check_installs(FIRST)
        self.assertEqual(self.files(), before)
        self.check_refuses_another_wheel()

    def check_refuses_another_wheel(self):
        """pip refuses a wheel of which one byte is another one than when it was locked."""
        path = self.folder / "wheels" / "Flask-2.0-py3-none-any.whl"
        data = bytearray(path.read_bytes())
        data[-30] ^= 1
        path.write_bytes(data)
        status, output = self.run_lines(self.install)
        self.assertNotEqual(status, 0)
        self.assertIn("DO NOT MATCH THE HASHES", output)

    def test_what_is_printed(self):
        """The block with commands: what they print, with `..` for the environment and for digests."""
        make_wheels(self.folder / "wheels")
        self.check_runs(self.begin, "ok 0", "ok 1")
        [block] = typed_blocks(section("## What is printed"))
        for command, shown in block:
            status, output = self.run_lines(f"{command}\n")
            self.assertEqual(status, 0, output)
            self.assertEqual(re.sub("(?m)[0-9a-f]{64}|(?<=^# for ).*", "..", output).splitlines(), shown)

    @unittest.skipUnless(shutil.which("git"), "there is no git")
    def test_the_attributes_keep_all_bytes(self):
        make_wheels(self.folder / "wheels")
        self.check_runs(self.begin, "ok 0", "ok 1")
        shutil.copy(ATTRIBUTES, self.folder)
        self.check_runs(KEEPING, "ok 1", "ok 1")
        for name in FILES:
            stands = (self.folder / name).read_bytes()
            self.assertEqual([(self.folder / clone / name).read_bytes() for clone in ("true", "false")], [stands] * 2)

    def test_the_job_that_checks(self):
        lines = [line.removeprefix("  - run: ") for line in self.job.splitlines()[1:]]
        make_wheels(self.folder / "wheels")
        self.check_runs(self.begin, "ok 0", "ok 1")
        job = "\n".join(lines) + " --target site\n"
        stands = {path: path.read_bytes() for path in self.folder.glob("*") if path.is_file()}
        self.check_runs(job, "ok 1")
        self.assertEqual({path: path.read_bytes() for path in stands}, stands)
        for name in "requirements.txt", "pylock.toml":
            (self.folder / name).write_bytes(stands[self.folder / name] + b"# by hand\n")
            status, output = self.run_lines(job)
            fault, *advice = output.splitlines()
            self.assertEqual((status, fault), (4, f"reqlock: {name}: files-disagree"))
            # (a red log says what to do next)
            self.assertIn("reqlock init --pins pylock.toml", " ".join(advice))
            (self.folder / name).write_bytes(stands[self.folder / name])


class TwoPlatforms(Shell):
    """The section on two platforms, with wheels that only one of them takes. pip installs for each into a folder of its own."""

    PLATFORMS = {"linux": "manylinux2014_x86_64", "windows": "win_amd64"}
    WANTED = {
        "linux": {"kettle": "1.0", "click": "8.0"}, "windows": {"kettle": "1.0", "click": "8.0", "colorama": "0.4"},
    }

    def setUp(self):
        super().setUp()
        [self.typed] = typed_blocks(section("## Two platforms"))
        _, self.install, self.again = indented_blocks(section("## Two platforms"))
        wheels = self.folder / "wheels"
        for platform in self.PLATFORMS.values():
            wheel(wheels, "kettle", "1.0", tag=f"py3-none-{platform}")
        wheel(wheels, "click", "7.0")
        wheel(wheels, "click", "8.0", 'colorama ; platform_system == "Windows"')
        wheel(wheels, "colorama", "0.4")
        (self.folder / "requirements.txt").write_bytes(b"kettle\n")
        for name, environment in ("linux", LINUX), ("windows", WINDOWS):
            (self.folder / f"{name}.json").write_text(json.dumps(environment), encoding="utf-8")

    def type_all(self):
        """Types what the page shows; what is printed is what is shown."""
        for command, shown in self.typed:
            status, output = self.run_lines(f"{command}\n")
            self.assertEqual((status, output.splitlines()), (0, shown))

    def install_each(self):
        """Installs what each lock says, by the lines of the page."""
        *print_lines, install = self.install.splitlines(keepends=True)
        self.check_runs("".join(print_lines))
        for name, platform in self.PLATFORMS.items():
            line = install.rstrip("\n").replace("hashed-linux", f"hashed-{name}")
            self.check_runs(f"{line} --only-binary :all: --platform {platform} --target {name}\n")

    def test_each_gets_what_its_lock_says(self):
        self.type_all()
        self.install_each()
        for name, platform in self.PLATFORMS.items():
            self.check_installed(f"pylock.{name}.toml", name, self.WANTED[name])
            told = (self.folder / name / "kettle-1.0.dist-info" / "WHEEL").read_text(encoding="utf-8")
            self.assertIn(f"Tag: py3-none-{platform}\n", told)
        self.check_runs("reqlock undo\nreqlock check\n", "ok 0", "ok 0")

    def test_one_file_has_both(self):
        """By the reading of PEP 751: the pip here may be older."""
        self.type_all()
        [line] = re.findall(r"`(reqlock [^`]*--format pylock >\S+)`", section("## Two platforms"))
        self.check_runs(f"{line}\n")
        data = (self.folder / line.split(">")[1]).read_bytes()
        for name, environment in ("linux", LINUX), ("windows", WINDOWS):
            installed = installed_by(data, Installing(environment, (f"py3-none-{self.PLATFORMS[name]}", "py3-none-any")))
            self.assertEqual({item.package["name"]: item.package["version"] for item in installed}, self.WANTED[name])
            [kettle] = [item.source["name"] for item in installed if item.package["name"] == "kettle"]
            self.assertEqual(kettle, f"kettle-1.0-py3-none-{self.PLATFORMS[name]}.whl")

    def test_a_wheel_of_another_platform_is_refused_by_its_hash(self):
        self.type_all()
        self.install_each()
        path = self.folder / "wheels" / f"kettle-1.0-py3-none-{self.PLATFORMS['windows']}.whl"
        path.write_bytes(path.read_bytes() + b"x")
        line = self.install.splitlines()[-1].replace("hashed-linux", "hashed-windows")
        status, output = self.run_lines(f"{line} --only-binary :all: --platform win_amd64 --target other\n")
        self.assertNotEqual(status, 0)
        self.assertIn("DO NOT MATCH THE HASHES", output)

    def test_a_new_python_keeps_what_fits(self):
        self.type_all()
        for version in "8.1", "8.2":
            wheel(self.folder / "wheels", "click", version)
        new = LINUX | {"python_version": "3.13", "python_full_version": "3.13.1"}
        for name, environment in ("new", new), ("macos", MACOS):
            (self.folder / f"{name}.json").write_text(json.dumps(environment), encoding="utf-8")
        self.check_runs(f"python3 tools/snapshot.py wheels --output index.json\n{self.again}", "ok 2")
        self.check_locks(linux=self.WANTED["linux"], macos=self.WANTED["linux"])
        self.check_runs("reqlock undo\n", "ok 1")
        self.check_locks(**self.WANTED)

    def check_locks(self, **targets):
        """These targets have locks and no others, each with these versions."""
        locks = {path.name.split(".")[1]: path.read_text(encoding="utf-8") for path in self.folder.glob("pylock.*.toml")}
        self.assertEqual({name: dict(re.findall('name = "([a-z]+)"\nversion = "(.*)"', lock)) for name, lock in locks.items()}, targets)

    @unittest.skipUnless(shutil.which("git"), "there is no git")
    def test_the_attributes_keep_both_locks(self):
        self.type_all()
        shutil.copy(ATTRIBUTES, self.folder)
        self.check_runs(KEEPING.replace("pylock.toml", "pylock.linux.toml pylock.windows.toml"), "ok 1", "ok 1")
        for name in "requirements.txt", "pylock.linux.toml", "pylock.windows.toml", "reqlock.journal":
            stands = (self.folder / name).read_bytes()
            self.assertEqual([(self.folder / clone / name).read_bytes() for clone in ("true", "false")], [stands] * 2)


if __name__ == "__main__":
    unittest.main()
