"""The names of the tools: each is a command where it is installed, and a script in a checkout."""

import os
import re
import sys

# The command of each module that has a `main`.
COMMANDS = {
    "adopt": "reqlock-adopt", "check_refutation": "reqlock-check-refutation", "environment": "reqlock-environment",
    "fleet": "reqlock-fleet", "hashed_requirements": "reqlock-hashes", "merge": "reqlock-merge",
    "rql": "rql", "snapshot": "reqlock-snapshot",
}
# The words of rql that do what a tool does.
OF_RQL = {"check_refutation": "check-refutation", "fleet": "fleet", "merge": "merge"}
SCRIPT = re.compile(rf"(?:tools/)?\b({'|'.join(COMMANDS)})\.py\b")


def is_installed() -> bool:
    """Whether the tool that runs was called as a command."""
    return os.path.basename(sys.argv[0]) in COMMANDS.values()


def is_of_rql() -> bool:
    """Whether it is rql that runs, which calls the other tools within its process."""
    return os.path.basename(sys.argv[0]) in ("rql", "rql.py")


def tool(module: str) -> str:
    """How a tool is called here."""
    if is_of_rql() and module in OF_RQL:
        return f"{tool('rql')} {OF_RQL[module]}"
    return COMMANDS[module] if is_installed() else f"{module}.py"


def speaking(module: str) -> str:
    """Who tells the lines of a tool on standard error."""
    return tool("rql" if is_of_rql() else module)


def called(text: str) -> str:
    """A text for the user, in which scripts stand as NAME.py or tools/NAME.py, with the names of the commands where they are
    installed."""
    return SCRIPT.sub(lambda script: COMMANDS[script[1]], text) if is_installed() else text
