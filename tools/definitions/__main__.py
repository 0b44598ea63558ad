"""The definitions of the crates (their folders `specs/`), translated to Python.

usage: python3 tools/definitions            all functions, as one Python module
       python3 tools/definitions CRATE      those of a crate
       python3 tools/definitions --left     what isn't translated, with why
       python3 tools/definitions --page     docs/DEFINITIONS.md: what to read to believe the promises
"""

import sys
from pathlib import Path

TOP = Path(__file__).resolve().parents[2]
sys.path.insert(0, str(TOP / "tools"))

from definitions.page import page  # noqa: E402
from definitions.whole import Definitions, modules_in  # noqa: E402


def left(definitions: Definitions) -> str:
    """What was left, but for statements, of which a line says how many there are."""
    stated = sum(why == "it states something" for why in definitions.left.values())
    rows = [f"{name} of {module}: {why}\n" for (module, name), why in definitions.left.items() if why != "it states something"]
    return "".join(rows) + f"{len(definitions.texts)} functions are translated, {len(rows)} are left, {stated} definitions are statements\n"


def main(words: list[str]) -> None:
    if len(words) > 1 or words[:1] in (["-h"], ["--help"]):
        sys.exit(__doc__)
    if words == ["--page"]:
        sys.stdout.write(page(modules_in(TOP / "crates")))
        return
    definitions = Definitions(TOP / "crates")
    if words == ["--left"]:
        sys.stdout.write(left(definitions))
        return
    keys = [key for key in definitions.texts if not words or key[0].startswith(f"Rattle.{words[0]}.")]
    sys.stdout.write("\n\n".join(map(definitions.text_of, keys)))


main(sys.argv[1:])
