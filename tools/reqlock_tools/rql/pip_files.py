"""The files in which pip has its configuration, so that pip is asked for it only where there is some."""

import os
import sys

NAME = "pip.conf"


def pip_files(prefix: str) -> list[str]:
    """The files that pip reads on Linux in a Python of this prefix: the named one, those of the system, of the environment and of the person."""
    named = os.environ.get("PIP_CONFIG_FILE", "")
    if named == os.devnull:
        return []
    home = os.path.expanduser("~")
    systems = os.environ.get("XDG_CONFIG_DIRS", "").strip() or "/etc/xdg"
    own = os.environ.get("XDG_CONFIG_HOME", "").strip() or os.path.join(home, ".config")
    folders = [
        *(os.path.join(os.path.expanduser(system), "pip") for system in systems.split(os.pathsep)), "/etc", prefix,
        os.path.join(home, ".pip"), os.path.join(os.path.expanduser(own), "pip"),
    ]
    return [*([named] if named else []), *(os.path.join(folder, NAME) for folder in folders)]


def may_be_configured(prefix: str) -> bool:
    """Whether pip has a file of its configuration in a Python of this prefix; or may have one, where it has them elsewhere than on Linux."""
    return sys.platform != "linux" or any(map(os.path.exists, pip_files(prefix)))
