"""Which lock is for an environment. Locks and journal tell it, so no index is needed."""

import re
from collections.abc import Mapping
from dataclasses import dataclass
from pathlib import Path

from reqlock_tools.hashed_requirements import read_locked_packages
from reqlock_tools.markers import Comparison, Junction, Tree, tree_of
from reqlock_tools.merge_sides import JOURNAL, digest_of, lock_name, read_journal
from reqlock_tools.refusal import Refusal
from reqlock_tools.regular_file import read_bytes
from reqlock_tools.rql.faults import SettingsFault
from reqlock_tools.rql.sync_installed import label_of

LOCK = re.compile(r"pylock(?:\.([a-z][a-z0-9-]{0,31}))?\.toml")
# What makes two environments the same for what is installed, as a person reads it.
TELLING = {
    "implementation_name": "implementation", "python_version": "Python", "sys_platform": "platform", "platform_machine": "machine",
}


@dataclass(frozen=True)
class Target:
    """A lock with its environment, by the name of its target, which is empty where it has none."""

    name: str
    path: Path
    text: str
    environment: Mapping[str, object]

    def label(self) -> str:
        return f"target {self.name}" if self.name else self.path.name

    def differences(self, told: Mapping[str, object]) -> list[str]:
        """What an environment has otherwise than this lock asks."""
        pairs = ((word, self.environment.get(key), told.get(key)) for key, word in TELLING.items())
        return [f"{word} {wanted} and not {has}" for word, wanted, has in pairs if wanted != has]


def content(path: Path) -> bytes:
    """What a file of the program holds. A link is followed by nobody."""
    if path.is_symlink():
        raise SettingsFault(f"{path}: it is a link, which isn't followed")
    return read_bytes(str(path))


def text_of(path: Path, data: bytes) -> str:
    try:
        return data.decode()
    except UnicodeDecodeError:
        raise SettingsFault(f"{path}: it isn't UTF-8: rql check tells more") from None


def targets_in(folder: Path) -> list[Target]:
    """The locks of a folder with their environments: those of the journal, or where there is none those that the locks tell."""
    return journal_targets(folder) if (folder / JOURNAL).exists() else told_targets(folder)


def journal_targets(folder: Path) -> list[Target]:
    """The targets of a journal. A lock that isn't the one that was saved with it is refused."""
    try:
        journal = read_journal(str(folder / JOURNAL), content(folder / JOURNAL))
    except Refusal as fault:
        raise SettingsFault(f"{fault}: rql lock mends what git merged") from None
    targets = []
    for name, environment in sorted(journal.environments.items()):
        path = folder / lock_name(name)
        if not path.exists():
            raise SettingsFault(f"{path}: it isn't there, and the journal has it: rql check tells more")
        data = content(path)
        if digest_of(data) != journal.locks[name]:
            raise SettingsFault(f"{path}: it isn't the lock that was saved with the journal: rql check tells more, rql lock mends what git merged")
        targets.append(Target(name, path, text_of(path, data), environment))
    return targets


def told_targets(folder: Path) -> list[Target]:
    """The targets of locks that stand alone, as in an image that has nothing else."""
    targets = []
    for path in sorted(folder.glob("pylock*.toml")):
        name = LOCK.fullmatch(path.name)
        if name is None:
            continue
        text = text_of(path, content(path))
        try:
            markers = read_locked_packages(text)[0]
        except Refusal as fault:
            raise SettingsFault(f"{path}: {fault}") from None
        targets += [Target(name[1] or "", path, text, told_by(path, marker)) for marker in markers]
    return targets


def told_by(path: Path, marker: str) -> dict[str, object]:
    """The variables that the marker of a lock's environment asks for: VARIABLE == TEXT, joined by `and`."""
    tree = tree_of(marker)
    values = equalities(tree) if tree is not None else None
    if values is None or not values.keys() >= TELLING.keys():
        raise SettingsFault(f"{path}: environments: it tells no whole environment, and no journal beside it does: rql init --from {path.name}")
    return dict(values)


def equalities(tree: Tree) -> dict[str, str] | None:
    """The texts that variables must have; None where a marker asks anything else."""
    values: dict[str, str] = {}
    for part in tree.parts if isinstance(tree, Junction) and not tree.takes_one else (tree,):
        if not isinstance(part, Comparison) or part.sign != "==" or not part.left.is_name or part.right.is_name:
            return None
        values[part.left.text] = part.right.text
    return values


def chosen_target(folder: Path, name: str | None, told: Mapping[str, object]) -> Target:
    """The target of an environment; the one that is named where several are for it. None and several are refused."""
    targets = targets_in(folder)
    if not targets:
        raise SettingsFault(f"{folder}: no lock stands there: rql init, or rql lock, makes one")
    named = [target for target in targets if name is None or target.name == name]
    if not named:
        raise SettingsFault(f"--target {name}: one of {', '.join(target.name or '(without a name)' for target in targets)} is wanted")
    fitting = [target for target in named if not target.differences(told)]
    if len(fitting) > 1:
        raise SettingsFault(f"{' and '.join(target.label() for target in fitting)} are for {label_of(told)}: rql sync --target {fitting[0].name}")
    if not fitting:
        raise SettingsFault(no_target(named, told))
    return fitting[0]


def no_target(targets: list[Target], told: Mapping[str, object]) -> str:
    """What is told where no lock is for an environment."""
    lines = [f"no lock is for {label_of(told)}:"]
    lines += [f"  {target.label()} is for {', '.join(target.differences(told))}" for target in targets]
    version, name = told["python_version"], "NAME " if any(target.name for target in targets) else ""
    more = f"rql env add NAME --python {version} --platform PLATFORM locks for it too"
    lines.append(f"{more}, rql env set {name}--python {version} in the place of another Python, or --venv DIR names another one")
    return "\n".join(lines)
