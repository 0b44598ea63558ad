"""What tests of `rql sync` share: a virtual environment of the system's Python with its pip, an index, and locks over it."""

import json
import os
import re
import subprocess
import unittest
from importlib.metadata import distributions
from pathlib import Path
from urllib.parse import urljoin

from support import venvs
from support.made.journals import journal_of_targets, lock_text
from support.made.served_index import MadeIndex, wheel_of
from support.places import TOOLS, new_folder
from support.tool_calls import copied
from support.venvs import site_of
from support.wanted_libraries import want_libraries

from reqlock_tools.environment import VARIABLES
from reqlock_tools.rql.sync_installed import read_environment
from reqlock_tools.versions import normal

PYTHON = "/usr/bin/python3"
CALL = """
import json, pathlib, sys
sys.path.insert(0, sys.argv[1])
from reqlock_tools.refusal import Refusal
from reqlock_tools.rql.faults import status_of
from reqlock_tools.rql.sync import Sync, say, sync
from reqlock_tools.simple.plan import IndexAddress
asked = json.loads(sys.argv[2])
asked = {key: tuple(it) if isinstance(it, list) else it for key, it in asked.items()}
asked["indexes"] = tuple(IndexAddress(url, tuple(only)) for url, only in asked.pop("indexes"))
base, folder = pathlib.Path(asked.pop("base")), pathlib.Path(asked.pop("folder"))
try:
    sys.exit(sync(Sync(base, folder, **asked)))
except Refusal as fault:
    for line in str(fault).splitlines():
        say(line)
    sys.exit(status_of(fault))
"""


def variables(**more):
    """The variables of a person for whom nothing is configured."""
    strange = "PIP_", "PYTHON", "REQLOCK_", "VIRTUAL_ENV", "XDG_"
    kept = {name: value for name, value in os.environ.items() if not name.startswith(strange) and "proxy" not in name.lower()}
    return {**kept, "PIP_CONFIG_FILE": os.devnull, "PIP_RETRIES": "0", "NETRC": os.devnull, **more}


def template():
    """An environment of which tests make copies; None where none can be made."""
    return venvs.template(PYTHON, variables())


def locked_entry(index, name, version, *files, dependencies=()):
    """The entry of a lock with these files of an index."""
    told = [
        {"name": file.name, "sha256": file.sha256, "size": len(file.data), "url": urljoin(index.url, f"../files/{file.name}")}
        for file in files
    ]
    wheels = [file for file in told if file["name"].endswith(".whl")]
    sdist = next((file for file in told if not file["name"].endswith(".whl")), None)
    return {"dependencies": list(dependencies), "requires_python": None, "sdist": sdist, "version": version, "wheels": wheels}


@want_libraries("packaging.version")
class Synced(unittest.TestCase):
    """A test with a project, whose environment .venv has pip, and an index with two versions of a and of b, b needing a."""

    @classmethod
    def setUpClass(cls):
        super().setUpClass()
        cls.template = template()
        if cls.template is None:
            raise unittest.SkipTest("the system's python3 makes no venv: apt-get install python3-venv")
        cls.told = {name: read_environment(cls.template).told[name] for name in VARIABLES}

    def setUp(self):
        self.project = Path(os.path.realpath(new_folder(self.addCleanup)))
        self.venv = self.project / ".venv"
        venvs.copy(self.template, self.venv)
        self.home = self.project / "home"
        self.home.mkdir()
        self.index = MadeIndex()
        self.addCleanup(self.index.close)
        self.files = {}
        for name, version, *needs in ("a", "1"), ("a", "2"), ("b", "1", "a"), ("b", "2", "a"):
            self.files[name, version] = wheel_of(name, version, *needs)
            self.index.add(name, self.files[name, version])

    def lock(self, versions, target="", environment=None, others=None):
        """Writes the lock of these versions by name, and the journal; `others` are more targets, each an environment and its lock."""
        entries = {name: locked_entry(self.index, name, version, self.files[name, version]) for name, version in versions.items()}
        self.write_locks({target: (environment or self.told, lock_text(environment or self.told, entries)), **(others or {})})

    def write_locks(self, targets):
        (self.project / "requirements.txt").write_bytes(b"b\n")
        for name, (_, text) in targets.items():
            (self.project / (f"pylock.{name}.toml" if name else "pylock.toml")).write_bytes(text)
        environments, locks = ({name: target[place] for name, target in targets.items()} for place in (0, 1))
        (self.project / "reqlock.journal").write_bytes(journal_of_targets(b"b\n", locks, environments, 0))

    def given(self, asked):
        """What a call is given: the words of CALL."""
        told = {"base": str(self.project), "folder": str(self.project), "indexes": [[self.index.url, []]], **asked}
        return [str(TOOLS), json.dumps(told)]

    def variables(self, more):
        return variables(HOME=str(self.home), **(more or {}))

    def start(self, more=None, python=PYTHON, **asked):
        """A call that is a process of its own, and goes on by itself."""
        return subprocess.Popen(
            [python, "-B", "-c", CALL, *self.given(asked)], env=self.variables(more), cwd=self.project, stdin=subprocess.DEVNULL,
            stdout=subprocess.PIPE, stderr=subprocess.PIPE, encoding="utf-8", start_new_session=True,
        )

    def call(self, more=None, python=None, **asked):
        """The status of a call, and the lines of its output and of its errors: in a copy of this process where no Python is named."""
        if python is None:
            done = copied(["rql", *self.given(asked)], lambda: exec(CALL, {}) or 0, self.project, self.variables(more))
            status, output, errors = done.returncode, done.stdout, done.stderr
        else:
            with self.start(more, python, **asked) as child:
                output, errors = child.communicate(timeout=120)
            status = child.returncode
        return status, output.splitlines(), [re.sub(r"^rql(\.py)?: ", "", line) for line in errors.splitlines()]

    def syncs(self, *lines, told=(), **asked):
        """A call prints these lines, tells these on standard error, and its status is 0."""
        status, output, errors = self.call(**asked)
        self.assertEqual((status, output, errors), (0, list(lines), list(told)))

    def refuses(self, pattern, status=2, **asked):
        """A call is refused with a text, and changes nothing."""
        before = self.installed()
        exit_status, output, errors = self.call(**asked)
        self.assertEqual(exit_status, status, errors)
        self.assertRegex("\n".join(errors), pattern)
        self.assertEqual(self.installed(), before)

    def installed(self, venv=None):
        """The versions by name of what an environment has beside pip."""
        installed = distributions(path=[str(site_of(venv or self.venv))])
        return {normal(distribution.name): distribution.version for distribution in installed if normal(distribution.name) != "pip"}

    def pip(self, *words):
        """Has the environment's pip do something."""
        own = variables(HOME=str(self.home), PIP_DISABLE_PIP_VERSION_CHECK="1")
        command = [self.venv / "bin" / "python", "-m", "pip", "--quiet", *words]
        done = subprocess.run(command, cwd=self.project, env=own, capture_output=True, encoding="utf-8", check=False)
        self.assertEqual(done.returncode, 0, done.stderr)

    def put(self, name, version, requires=(), origin=None):
        """Has a distribution stand in the environment as if it was installed. `origin` is what PEP 610 tells."""
        place = site_of(self.venv) / f"{name}-{version}.dist-info"
        place.mkdir()
        needs = "".join(f"Requires-Dist: {requirement}\n" for requirement in requires)
        head = f"Metadata-Version: 2.1\nName: {name}\nVersion: {version}\n{needs}"
        (place / "METADATA").write_text(head, encoding="utf-8")
        (place / "INSTALLER").write_text("pip\n", encoding="utf-8")
        members = ["METADATA", "INSTALLER", "RECORD"]
        if origin is not None:
            (place / "direct_url.json").write_text(json.dumps(origin), encoding="utf-8")
            members.append("direct_url.json")
        (place / "RECORD").write_text("".join(f"{place.name}/{member},,\n" for member in members), encoding="utf-8")
