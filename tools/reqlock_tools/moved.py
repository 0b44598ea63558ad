"""Where commands went whose work a word of rql does. They stay for scripts; a person is told once."""

import os
import sys

from reqlock_tools.names import COMMANDS, is_installed
from reqlock_tools.refusal import speaker

# The words of rql that do the same, by the module of each command. (The others have no word of rql.)
WORDS = {
    "adopt": "rql init, or rql init --from COMPILED, with settings and an index of its own",
    "check_refutation": "rql check-refutation",
    "environment": "rql env add NAME",
    "fleet": "rql fleet",
    "merge": "rql lock, with folder and index filled in; with options, as rql merge --ours",
    "snapshot": "rql index, as the settings of the project say",
}


def tell_moved(module: str) -> None:
    """Tells at a terminal which word of rql does the same: once for each command, which an empty file in the user's cache remembers. Where
    nothing can be remembered nothing is told."""
    if module in WORDS and is_installed() and sys.stderr.isatty() and "CI" not in os.environ and is_first(module):
        speaker(module)(f"rql does this too: {WORDS[module]} (told once; this name stays)")


def is_first(module: str) -> bool:
    """Whether nobody was told of this command yet; from here on somebody was."""
    from reqlock_tools.simple.cache import default_folder

    cache = default_folder()
    if cache is None:
        return False
    folder = os.path.join(cache, "told")
    try:
        os.makedirs(folder, mode=0o700, exist_ok=True)
        os.close(os.open(os.path.join(folder, COMMANDS[module]), os.O_CREAT | os.O_EXCL | os.O_WRONLY, 0o600))
    except OSError:
        return False
    return True
