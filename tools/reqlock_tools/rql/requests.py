"""What the words of rql ask for: one tuple with names for each kind of call, which is sooner made than a dataclass."""

from typing import NamedTuple


class Options(NamedTuple):
    """What counts for each call: where it begins to look for settings, and how it asks and tells. How long an answer is waited for, and how
    often a request is tried again, is None where nobody typed it."""

    start: str
    is_offline: bool
    is_refreshed: bool
    is_verbose: bool
    is_quiet: bool
    program: str | None
    timeout: float | None = None
    retries: int | None = None

    def ways(self) -> list[str]:
        """What was typed of how a server is asked, as pip takes it too."""
        told = {"--timeout": self.timeout, "--retries": self.retries}
        return [word for option, value in told.items() if value is not None for word in (option, str(value))]


class InitRequest(NamedTuple):
    """Begin a project: settings, environments, index and lock. `pinned` are files whose pins are kept."""

    indexes: tuple[str, ...]
    python: str | None
    platforms: tuple[str, ...]
    pinned: tuple[str, ...]


class EditRequest(NamedTuple):
    """An edit: `word` is add, remove, constrain, set, upgrade, relock or retarget, and `texts` is what stands behind it. `pins` are files whose
    pins a new target begins with, each as FILE or NAME=FILE."""

    word: str
    texts: tuple[str, ...]
    keeps_locked: bool
    is_dry: bool
    pins: tuple[str, ...] = ()


class LockRequest(NamedTuple):
    """Have the lock fit the lines again, or tell whether it does."""

    is_check: bool


class SyncRequest(NamedTuple):
    """Have a virtual environment hold exactly what is locked."""

    venv: str | None
    target: str | None
    keep: tuple[str, ...]
    is_exact: bool
    is_dry: bool


class CheckRequest(NamedTuple):
    """Tell whether all belongs together, and with `is_current` whether a relock over today's index changes nothing."""

    is_current: bool
    is_json: bool


class IndexRequest(NamedTuple):
    """Make the index anew, with these names too."""

    names: tuple[str, ...]


class EnvRequest(NamedTuple):
    """Change or list the environments: `word` is add, set, remove or list, and `name` is None where nobody typed one. `retarget` is the edit
    that has the history follow."""

    word: str
    name: str | None
    python: str
    platform: str
    retarget: EditRequest


class PassedRequest(NamedTuple):
    """A call of the program, or of a tool, with the words that stand behind its name."""

    word: str
    words: tuple[str, ...]


Request = (
    InitRequest | EditRequest | LockRequest | SyncRequest | CheckRequest | IndexRequest | EnvRequest | PassedRequest
)
