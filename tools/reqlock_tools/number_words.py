"""Numbers as words of a call tell them."""

from collections.abc import Callable
from typing import Any


def number(kind: Callable[[str], Any], least: float, most: float = 1_000_000) -> Callable[[str], Any]:
    """What reads a number within bounds, with the name that argparse tells."""

    def read(text: str) -> Any:
        number = kind(text)
        if not least <= number <= most:
            raise ValueError
        return number

    read.__name__ = f"number from {least} to {most}"
    return read
