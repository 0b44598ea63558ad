"""Draws what a terminal shows as an SVG picture: light text on a ground of its own, so that pages may be light or dark."""

import re
from collections.abc import Iterable
from html import escape

from picture_makers.terminal import COLUMNS

# what the codes of a terminal look like; the colours are those of a light text on a dark ground
INKS = {"1": "font-weight:bold", "31": "fill:#ff7b72", "32": "fill:#7ee787"}
CODE = re.compile("\x1b\\[([0-9;]*)m")
LINE_HEIGHT, LETTER_WIDTH, MARGIN = 19, 8.4, 16


def spans_of(line: str) -> str:
    """The parts of a line of an SVG text, each with its look."""
    spans: list[tuple[str, list[str]]] = []
    looks: list[str] = []
    end = 0
    for code in CODE.finditer(line):
        spans.append((line[end : code.start()], looks))
        looks = looks + [INKS[code[1]]] if code[1] in INKS else []
        end = code.end()
    spans.append((line[end:], looks))
    return "".join(
        f'<tspan style="{";".join(looks)}">{escape(text)}</tspan>' if looks else escape(text) for text, looks in spans if text
    )


def head(width: int, height: int, title: str, told: str) -> str:
    """The first lines of a picture, with what is told to who can't see it."""
    return (
        f'<svg xmlns="http://www.w3.org/2000/svg" width="{width}" height="{height}" viewBox="0 0 {width} {height}" role="img" '
        f'aria-labelledby="title told">\n<!-- Made by tools/pictures.py: python3 tools/pictures.py makes it again. -->\n'
        f'<title id="title">{escape(title)}</title>\n<desc id="told">{escape(told)}</desc>\n'
    )


def picture_of(lines: Iterable[str], title: str) -> str:
    """The picture of what a terminal shows. Its text stands in the description too."""
    lines = list(lines)
    width, height = round(COLUMNS * LETTER_WIDTH + 2 * MARGIN), LINE_HEIGHT * len(lines) + 2 * MARGIN
    texts = "".join(
        f'<text x="{MARGIN}" y="{MARGIN + LINE_HEIGHT * place + 14}">{spans_of(line)}</text>\n' for place, line in enumerate(lines)
    )
    return (
        f"{head(width, height, title, ' / '.join(CODE.sub('', line) for line in lines))}"
        f'<rect width="{width}" height="{height}" rx="8" fill="#161b22"/>\n'
        '<g font-family="ui-monospace,Menlo,Consolas,monospace" font-size="14" fill="#e6edf3" xml:space="preserve">\n'
        f"{texts}</g>\n</svg>\n"
    )
