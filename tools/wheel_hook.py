"""Tells hatchling for which machines the wheel is: those on which the built program runs."""

import os
import platform
import re
import subprocess
from typing import Any

from hatchling.builders.hooks.plugin.interface import BuildHookInterface

PROGRAM = "crates/reqlock/out/reqlock"
# The processors that heads of programs tell by number.
MACHINES = {3: "i686", 62: "x86_64", 183: "aarch64", 243: "riscv64"}
# What every Linux with the GNU C library has (PEP 600).
USUAL = re.compile(r"lib(c|m|dl|rt|pthread|gcc_s)\.so\.[0-9]+|ld-linux[a-z0-9_-]*\.so\.[0-9]+")


def printed(*words: str) -> str:
    """What a command prints, in English."""
    done = subprocess.run(words, capture_output=True, encoding="utf-8", check=False, env={**os.environ, "LC_ALL": "C"})
    if done.returncode != 0:
        raise SystemExit(f"{words[0]}: {done.stderr.strip()}")
    return done.stdout


def machine_of(program: str) -> str:
    """The processor of a program for Linux, which its head tells."""
    with open(program, "rb") as file:
        head = file.read(20)
    if len(head) < 20 or not head.startswith(b"\x7fELF"):
        raise SystemExit(f"{program}: it is no program for Linux")
    return MACHINES.get(int.from_bytes(head[18:20], "little" if head[5] == 1 else "big"), platform.machine())


def platform_of(program: str) -> str:
    """The platform of a program for Linux, by its processor and the newest version of the C library that it wants."""
    machine = machine_of(program)
    text = printed("readelf", "--wide", "--dynamic", "--version-info", program)
    libraries = re.findall(r"\(NEEDED\)[^\[]*\[([^\]]*)\]", text)
    if others := [name for name in libraries if not USUAL.fullmatch(name)]:
        raise SystemExit(f"{program}: it wants libraries that not every Linux has: {' '.join(others)}")
    wanted = [(int(major), int(minor)) for major, minor in re.findall(r"GLIBC_([0-9]+)\.([0-9]+)", text)]
    if not libraries:
        return f"manylinux_2_5_{machine}.musllinux_1_1_{machine}"
    major, minor = max(wanted, default=(2, 5))
    return f"manylinux_{major}_{max(minor, 5)}_{machine}"


class PlatformHook(BuildHookInterface[Any]):
    def initialize(self, version: str, build_data: dict[str, Any]) -> None:
        build_data["pure_python"] = False
        build_data["tag"] = f"py3-none-{platform_of(os.path.join(self.root, PROGRAM))}"
