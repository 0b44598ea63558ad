"""What git leaves in a file that it couldn't merge."""

import re

MARK = re.compile(r"(<{7}|\|{7}|={7}|>{7})( |\r?$)")


def conflict_in(text: str) -> str | None:
    """The lines of the marks of a conflict in a text, with what to do about them; None where there is none."""
    marked = [str(number) for number, line in enumerate(text.split("\n"), 1) if MARK.match(line)]
    lines = f"line{'s' * (len(marked) > 1)} {', '.join(marked)}"
    return f"conflict markers in {lines}: leave the lines that are wanted, then call this again" if marked else None
