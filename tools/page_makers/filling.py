"""Templates, and how values are put into them."""

import re
from pathlib import Path

TEMPLATES = Path(__file__).resolve().parent / "templates"
MADE = "made by tools/pages.py of what --help says and of {}: python3 tools/pages.py makes it again"
PLACE = re.compile(r"@([A-Z_]+)@(\n?)")


def filled(name: str, **values: str) -> str:
    """The template of this name with values in their places. A value that ends its own line ends that of its place too."""
    values["MADE"] = MADE.format(f"tools/page_makers/templates/{name}")

    def put(place: re.Match[str]) -> str:
        value = values[place[1]]
        return value if value == "" or value.endswith("\n") else value + place[2]

    return PLACE.sub(put, (TEMPLATES / name).read_text(encoding="utf-8"))
