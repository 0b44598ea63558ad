"""Places that settings name. Settings may be a stranger's, so each place is below the top of the checkout, is reached through no link,
and is nothing of git's or of rql's own."""

import os
import stat
from pathlib import Path

from reqlock_tools.rql.faults import SettingsFault

# Folders into which no setting leads.
CLOSED = ".git", ".reqlock"


def is_closed(name: str) -> bool:
    """Whether a part of a path is a folder into which no setting leads. File systems that pass over case, or over dots and spaces at the
    end of a name, have others of the same meaning."""
    return name.casefold().rstrip(". ") in CLOSED or name.casefold().startswith("git~")


def place_in(top: Path, base: Path, text: str, key: str) -> Path:
    """The place that a setting names, told from the folder `base`. Only what is below `top` counts, and no link on the way."""
    if text == "" or "\0" in text or "\\" in text or os.path.isabs(text):
        raise SettingsFault(f"{key}: {text!a}: a path from the settings' folder is wanted, with / between its parts")
    place = Path(os.path.normpath(base / text))
    if place != top and top not in place.parents:
        raise SettingsFault(f"{key}: {text!a}: it leads out of {top}")
    way = top
    for part in place.relative_to(top).parts:
        way /= part
        if is_closed(part):
            raise SettingsFault(f"{key}: {text!a}: no setting leads into {part}")
        if is_link(way):
            raise SettingsFault(f"{key}: {text!a}: {way} is a link, which isn't followed")
    return place


def is_link(path: Path) -> bool:
    try:
        return stat.S_ISLNK(os.lstat(path).st_mode)
    except OSError:
        return False
