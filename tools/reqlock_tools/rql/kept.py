"""What rql keeps in `.reqlock/`: the index that the present lock was made over and the two before it, the environments, and the lines that
were saved last. All of it may be removed at any time."""

import contextlib
import json
import os
import stat
from collections.abc import Iterator, Mapping
from pathlib import Path

from reqlock_tools.files import is_own, write_whole
from reqlock_tools.folder_lock import alone_in
from reqlock_tools.rql.calls import typed_path
from reqlock_tools.rql.faults import SettingsFault
from reqlock_tools.rql.project import REQUIREMENTS, Project

NAME = ".reqlock"
IGNORED = b"# All of this folder can be made again, or be removed.\n*\n"
MODE = 0o644


class Kept:
    """The folder of a project. It is made where something is written."""

    def __init__(self, project: Project) -> None:
        self.project = project
        self.folder = project.base / NAME
        self.refuse_strange()

    def refuse_strange(self) -> None:
        """Refuses a link, a file and a folder of another user."""
        try:
            status = os.lstat(self.folder)
        except FileNotFoundError:
            return
        if not stat.S_ISDIR(status.st_mode):
            raise SettingsFault(f"{self.folder}: it is no folder; remove it")
        if not is_own(status) and status.st_uid != os.stat(self.project.base).st_uid:
            raise SettingsFault(f"{self.folder}: it belongs to another user; remove it")

    def make(self) -> None:
        self.folder.mkdir(exist_ok=True)
        if not os.path.lexists(self.folder / ".gitignore"):
            write_whole(str(self.folder / ".gitignore"), IGNORED, MODE)

    @contextlib.contextmanager
    def locked(self) -> Iterator[None]:
        """Waits for other calls of rql in this project, and has others wait."""
        self.make()
        with alone_in(self.folder):
            yield

    def path(self, name: str) -> Path:
        return self.folder / name

    def write(self, name: str, data: bytes) -> Path:
        """Writes a file whole. A link that stands in its place is not followed."""
        self.make()
        path = self.path(name)
        if os.path.islink(path):
            path.unlink()
        if not path.is_file() or path.read_bytes() != data:
            write_whole(str(path), data, MODE)
        return path

    # The index

    @property
    def index(self) -> Path:
        """The index that the present lock was made over."""
        return self.path("index.json")

    @property
    def asked(self) -> Path:
        """An index that was made for what is asked, and takes the place of the other one with an accepted reply."""
        return self.path("index.asked.json")

    def earlier(self) -> list[Path]:
        """The indexes that are there, the present one first."""
        return [path for path in (self.index, self.path("index.1.json"), self.path("index.2.json")) if path.is_file() and not path.is_symlink()]

    def accept(self, index: Path) -> None:
        """Has an index take the place of the present one, of which two are kept."""
        if index == self.index:
            return
        for old, new in ("index.1.json", "index.2.json"), ("index.json", "index.1.json"):
            if self.path(old).is_file():
                os.replace(self.path(old), self.path(new))
        os.replace(index, self.index)

    # Environments and lines

    def environment(self, name: str, told: Mapping[str, object]) -> Path:
        """Keeps an environment, and answers its file."""
        file = f"environment.{name}.json" if name else "environment.json"
        return self.write(file, (json.dumps(dict(told), sort_keys=True) + "\n").encode())

    def environment_words(self) -> list[str]:
        """The words that tell the program what is locked for."""
        from reqlock_tools.rql.environments import environments

        files = [(name, typed_path(self.environment(name, described))) for name, described in environments(self.project.settings).items()]
        return [word for name, path in files for word in ("--env", f"{name}={path}" if name else path)]

    @property
    def saved(self) -> Path:
        """The lines that were saved last."""
        return self.path(REQUIREMENTS)

    def save_lines(self) -> None:
        """Keeps the lines that the program has saved."""
        path = self.project.folder / REQUIREMENTS
        if path.is_file() and not path.is_symlink():
            self.write(REQUIREMENTS, path.read_bytes())
