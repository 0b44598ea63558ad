"""Files of requirements that another tool compiled, and their pins."""

import re
from typing import NamedTuple

from reqlock_tools.refusal import Refusal, speaker
from reqlock_tools.regular_file import read_bytes
from reqlock_tools.versions import normal, read_version

PIN = re.compile(r"([A-Za-z0-9._-]+)\s*(?:\[[^]]*\]\s*)?==\s*([^\s;,*=]+)\s*(;.*)?", re.DOTALL)

say = speaker("rql")


class Pin(NamedTuple):
    name: str
    version: str
    marker: str
    digests: set[str]

    def told(self) -> str:
        return f"{self.name} {self.version}"


def read_text(path: str) -> str:
    try:
        return read_bytes(path).decode()
    except OSError as error:
        raise Refusal(f"{path}: {error.strerror}") from None
    except UnicodeDecodeError:
        raise Refusal(f"{path}: it isn't UTF-8") from None


def joined_lines(text: str) -> list[tuple[int, str]]:
    """The lines of a file with their numbers, each with those that it goes on in. A comment ends what goes on."""
    whole_lines: list[tuple[int, str]] = []
    begun: list[tuple[int, str]] = []
    for number, line in enumerate([*text.splitlines(), ""], 1):
        goes_on = line.endswith("\\") and not line.lstrip().startswith("#")
        begun.append((number, "" if line.lstrip().startswith("#") else line.removesuffix("\\")))
        if not goes_on:
            whole_lines.append((begun[0][0], " ".join(part for _, part in begun)))
            begun = []
    return whole_lines


def read_compiled(path: str) -> tuple[dict[str, Pin], bool]:
    """The pins by normal name; what can't be taken over is said, and whether that was a pin."""
    pins: dict[str, Pin] = {}
    is_whole = True
    for number, line in joined_lines(read_text(path).removeprefix("\ufeff")):
        text = re.sub(r"(^|\s)#.*", "", line).strip()
        requirement = re.split(r"\s--", text)[0].strip()
        if text.startswith("-"):
            say(f"{path}: line {number}: an option isn't taken over: {text}")
            is_whole = is_whole and not re.match("-e|--editable", text)
        elif requirement:
            parts = PIN.fullmatch(requirement)
            if parts is None or read_version(parts[2]) is None:
                say(f"{path}: line {number}: it isn't NAME==VERSION, so it isn't taken over: {requirement}")
                is_whole = False
                continue
            digests = set(re.findall("--hash[= ]\\s*sha256:([0-9a-f]+)", text))
            pin = Pin(normal(parts[1]), parts[2], parts[3] or "", digests)
            if pins.setdefault(pin.name, pin).version != pin.version:
                say(f"{path}: line {number}: {pin.name} is pinned a second time, to {pin.version}, which isn't taken over")
                is_whole = False
    if not pins:
        raise Refusal(f"{path}: it pins nothing; is it the file that pip-compile made?")
    return pins, is_whole
