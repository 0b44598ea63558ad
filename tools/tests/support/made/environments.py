"""Environments by their eleven variables: the two of the examples, one of another system, and one of another Python."""

import json

from support.places import TOP

from reqlock_tools.environment import VARIABLES

EXAMPLE = TOP / "examples" / "web"


def variables_of(name):
    """The variables in a file of the example, without what wheels' tags are made of."""
    told = json.loads((EXAMPLE / name).read_text(encoding="utf-8"))
    return {variable: told[variable] for variable in VARIABLES}


LINUX = variables_of("environment.json")
WINDOWS = variables_of("windows.json")
MACOS = LINUX | {
    "platform_machine": "arm64", "platform_release": "23.4.0", "platform_system": "Darwin", "platform_version": "Darwin Kernel Version 23.4.0",
    "sys_platform": "darwin",
}
# an older Python on Linux
OLDER = LINUX | {"implementation_version": "3.9.2", "python_full_version": "3.9.2", "python_version": "3.9"}
