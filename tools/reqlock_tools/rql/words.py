"""Words of other tools, and words that are mistyped: what rql has in their place."""

import importlib
from collections.abc import Iterable, Sequence

ADDED = "put the lines into requirements.txt, or into the file that sources in the settings names, and then: rql lock"
GROUPED = (
    'write the line into its group or extra in pyproject.toml, have sources in the settings name it, as "pyproject.toml:dev", and then: rql lock'
)
UPGRADED = "rql upgrade takes newer releases of all that is locked, and rql upgrade NAME of one"
SYNCED = "rql sync installs what is locked, and changes no lock; what is locked is said by sources in the settings"
ANOTHER = "rql env set --python VERSION locks for another Python"
LISTED = "rql env list prints what is locked for, and rql env add, set and remove change it"
OF_SETTINGS = "what is locked for stands in the settings, where rql env add, set and remove change it"
NAMED = "add, set and remove take one name, without an option in front; list takes none"
# What does the work of a word behind `env` of another tool, or of an older rql.
KINDS = {
    **dict.fromkeys(("lock", "retarget", "update", "sync"), "rql retarget locks for the environments of the settings"),
    **dict.fromkeys(("change", "use", "edit", "python"), ANOTHER),
    **dict.fromkeys(("rm", "delete", "del"), "rql env remove NAME"), **dict.fromkeys(("new", "create"), "rql env add NAME"),
    **dict.fromkeys(("show", "ls", "info"), "rql env list"),
}
# What does the work of a command of pip, uv, Poetry or pip-tools, or of an older reqlock.
COMMANDS = {
    "install": "rql sync installs what is locked, and rql add NAME puts a line there",
    "update": UPGRADED, "up": UPGRADED, "outdate": "rql outdated", "delete": "rql remove NAME", "rm": "rql remove NAME",
    "uninstall": "rql remove NAME, and then rql sync",
    "list": "rql show", "freeze": "rql show, or rql export --format hashes for pip", "compile": "rql lock",
    "run": "rql sync, and then .venv/bin/python", "shell": "rql sync, and then . .venv/bin/activate",
    "venv": "python3 -m venv .venv, and then rql sync",
    "pip": "rql sync installs what is locked; pip itself stays as it is",
    "python": f"{ANOTHER}, and rql env add NAME --python VERSION for one more",
    **dict.fromkeys(("environment", "environments", "target", "targets", "platform", "platforms"), LISTED),
    "portable-lock": "rql export --format pylock, for all environments in one file",
    "status": "rql check", "history": "rql log", "new": "rql init", "verify": "rql check",
}
# What does the work of an option of theirs, by the commands of rql; and under an empty text, of a word that is none.
OPTIONS = {
    "add": {
        **dict.fromkeys(("-r", "--requirement", "--requirements"), ADDED), **dict.fromkeys(("--dev", "-D", "--group", "-G", "--optional"), GROUPED),
        **dict.fromkeys(("-e", "--editable"), "a folder isn't locked: rql sync leaves what pip install -e put into the environment"),
        **dict.fromkeys(("-U", "--upgrade"), UPGRADED),
    },
    "remove": dict.fromkeys(("--dev", "-D", "--group", "-G", "--optional"), "rql remove NAME takes the line out wherever it stands"),
    "upgrade": dict.fromkeys(("-a", "--all", "-U", "--upgrade"), UPGRADED),
    "lock": dict.fromkeys(("-U", "--upgrade", "-P", "--upgrade-package"), UPGRADED),
    "check": {"--fix": "rql lock has the lock fit the lines again"},
    "sync": dict.fromkeys(("--frozen", "--locked", "--dev", "--no-dev", "--group", "--no-group", "--extra", "--all-extras", "--only"), SYNCED),
    "retarget": dict.fromkeys(("--env", "--python", "--platform", ""), OF_SETTINGS),
    "env": {
        "--anew": "the history goes on, and rql undo takes the change back: it is left out", "--name": NAMED, "": NAMED,
        **dict.fromkeys(("--env", "--index"), "--python VERSION and --platform NAME say what is locked for; the settings have the index"),
    },
    "init": dict.fromkeys(("--index-url", "-i", "--extra-index-url"), "--index URL, several times where there are several, in order"),
}


def nearest(word: str, words: Sequence[str]) -> list[str]:
    """The one of words that is most like another, where one is. (What compares them is read for a mistake alone.)"""
    near: list[str] = importlib.import_module("difflib").get_close_matches(word, words, 1)
    return near


def in_place_of_command(word: str, commands: Iterable[str]) -> str:
    """What to type in the place of a command that there isn't."""
    if word in COMMANDS:
        return COMMANDS[word]
    near = nearest(word, [*commands, *COMMANDS])
    if not near:
        return "rql --help names all"
    return COMMANDS.get(near[0], f"rql {near[0]}?")


def in_place_of_kind(word: str, kinds: Iterable[str]) -> str:
    """What to type in the place of a word behind `env` that there isn't."""
    if word in KINDS:
        return KINDS[word]
    near = nearest(word, list(kinds))
    return f"rql env {near[0]}?" if near else "rql env --help names all"


def in_place_of_options(command: str, words: Sequence[str]) -> str | None:
    """What to type in the place of words that a command doesn't take; None where nobody knows."""
    texts = (OPTIONS.get(command, {}).get(word.partition("=")[0] if word.startswith("-") else "") for word in words)
    return next((text for text in texts if text is not None), None)
