"""Print an environment, as reqlock reads it: that of the Python which runs this, of another one, or a described one.

  environment.py
            the environment of the Python that runs it
  environment.py --python PATH
            that of the interpreter at PATH, which is run for it
  environment.py --python 3.9 --platform linux-x86_64
            that of a CPython 3.9 on such a machine, which need not be here. 3.9 means
            3.9.0; the texts that tell of a kernel are empty

It is one JSON object on one line, sorted by name: the eleven environment variables of
PEP 508 ("Environment Markers") that don't depend on a requirement, and beside them, for
wheels' tags, "interpreter", "abis" and "platforms", which reqlock passes over.

This file needs Python 3.6 or later and nothing beside it, so that it can be copied to
where the requirements are installed.

A text with a character other than printable ASCII, or with a double quote or a
backslash, is refused by reqlock: it is told on standard error, nothing is
printed, and the status is 1.
"""

import argparse
import glob
import json
import os
import platform
import re
import shutil
import subprocess
import sys
import sysconfig
from typing import Any, Dict, Iterator, List, NamedTuple, Optional, Tuple

Pair = Tuple[int, int]
# The variables of an environment; `environment` has a value for each.
VARIABLES = (
    "implementation_name", "implementation_version", "os_name", "platform_machine", "platform_python_implementation",
    "platform_release", "platform_system", "platform_version", "python_full_version", "python_version", "sys_platform",
)
VERSION = re.compile(r"(3)\.(0|[1-9][0-9]?)(?:\.(0|[1-9][0-9]{0,2})(?:(a|b|rc)([0-9]{1,3}))?)?")
SECONDS = 60

Described = NamedTuple("Described", [
    ("os_name", str), ("platform_machine", str), ("platform_system", str), ("sys_platform", str), ("family", str),
])
# An environment that is asked for: a version of Python or an interpreter's path, None for the one that runs; the name of a platform,
# None where an interpreter is asked; and the versions of systems that a platform has.
Request = NamedTuple("Request", [("python", Optional[str]), ("platform", Optional[str]), ("versions", Dict[str, Pair])])
# The platforms that have names. `family` tells of which system a version counts, for the platforms of wheels.
PLATFORMS = {
    "linux-x86_64": Described("posix", "x86_64", "Linux", "linux", "glibc"),
    "linux-aarch64": Described("posix", "aarch64", "Linux", "linux", "glibc"),
    "musllinux-x86_64": Described("posix", "x86_64", "Linux", "linux", "musl"),
    "musllinux-aarch64": Described("posix", "aarch64", "Linux", "linux", "musl"),
    "macos-arm64": Described("posix", "arm64", "Darwin", "darwin", "macos"),
    "macos-x86_64": Described("posix", "x86_64", "Darwin", "darwin", "macos"),
    "windows-x86_64": Described("nt", "AMD64", "Windows", "win32", "windows"),
    "windows-arm64": Described("nt", "ARM64", "Windows", "win32", "windows"),
}
# The version of its system that a described platform has, unless another one is told.
SYSTEMS = {"glibc": (2, 28), "musl": (1, 2), "macos": (13, 0)}
LEGACY = {(2, 17): "manylinux2014", (2, 12): "manylinux2010", (2, 5): "manylinux1"}


class Refused(Exception):
    """What is wrong with the words, or with an interpreter that was asked."""


def version_text(info: Any) -> str:
    """The text of a version tuple, as PEP 508 writes implementation_version."""
    text = "{}.{}.{}".format(info.major, info.minor, info.micro)
    if info.releaselevel != "final":
        text += info.releaselevel[0] + str(info.serial)
    return text


def environment() -> Dict[str, str]:
    """The variables of this interpreter, by name."""
    values = (
        sys.implementation.name, version_text(sys.implementation.version), os.name, platform.machine(),
        platform.python_implementation(), platform.release(), platform.system(), platform.version(),
        platform.python_version(), ".".join(platform.python_version_tuple()[:2]), sys.platform,
    )
    return dict(zip(VARIABLES, values))


def is_lawful(text: str) -> bool:
    """Whether reqlock takes the text."""
    return all(" " <= character <= "~" and character not in '"\\' for character in text)


# Platforms of wheels, as the packaging guide's specification of platform compatibility tags has them


def glibc_platforms(version: Pair, machine: str) -> Iterator[str]:
    """The platforms of a Linux with this glibc, the newest first (PEP 600)."""
    oldest = 5 if machine in ("x86_64", "i686") else 17
    for minor in range(version[1] if version[0] == 2 else -1, oldest - 1, -1):
        yield "manylinux_2_{}_{}".format(minor, machine)
        if (2, minor) in LEGACY:
            yield "{}_{}".format(LEGACY[2, minor], machine)
    yield "linux_" + machine


def musl_platforms(version: Pair, machine: str) -> Iterator[str]:
    """The platforms of a Linux with this musl, the newest first (PEP 656)."""
    for minor in range(version[1], -1, -1):
        yield "musllinux_{}_{}_{}".format(version[0], minor, machine)
    yield "linux_" + machine


def macos_formats(version: Pair, machine: str) -> List[str]:
    """The kinds of files that a macOS of a version runs."""
    if machine == "x86_64":
        return ["x86_64", "intel", "fat64", "fat32", "universal2", "universal"] if version >= (10, 4) else []
    return [machine, "universal2"]


def macos_platforms(version: Pair, machine: str) -> Iterator[str]:
    """The platforms of a macOS, the newest first."""
    if version >= (11, 0):
        for major in range(version[0], 10, -1):
            for kind in macos_formats((major, 0), machine):
                yield "macosx_{}_0_{}".format(major, kind)
    for minor in range(16 if version >= (11, 0) else version[1], 3, -1):
        formats = macos_formats((10, minor), machine) if machine == "x86_64" else ["universal2"] if version >= (11, 0) else []
        for kind in formats:
            yield "macosx_10_{}_{}".format(minor, kind)


def windows_platforms(machine: str) -> List[str]:
    return [{"AMD64": "win_amd64", "ARM64": "win_arm64"}.get(machine, "win32")]


def pair_of(text: str) -> Optional[Pair]:
    """The first two numbers of a version."""
    numbers = re.search(r"([0-9]{1,3})\.([0-9]{1,3})", text)
    return (int(numbers.group(1)), int(numbers.group(2))) if numbers else None


def glibc_version() -> Optional[Pair]:
    """The version of this process's glibc; None where it has none."""
    try:
        name, _, version = (os.confstr("CS_GNU_LIBC_VERSION") or "").partition(" ")
    except (AttributeError, OSError, ValueError):
        return None
    return pair_of(version) if name == "glibc" else None


def musl_version() -> Optional[Pair]:
    """The version of the musl that is installed; None where there is none. Its loader tells it where it is called without words."""
    for loader in sorted(glob.glob("/lib/ld-musl-*.so.1")):
        done = subprocess.run([loader], stdin=subprocess.DEVNULL, stdout=subprocess.DEVNULL, stderr=subprocess.PIPE, timeout=SECONDS)
        version_line = re.search(rb"(?m)^Version ([0-9.]+)", done.stderr)
        if version_line:
            return pair_of(version_line.group(1).decode())
    return None


def own_platforms() -> List[str]:
    """The platforms of the Python that runs."""
    plain = re.sub("[-. ]", "_", sysconfig.get_platform())
    if sys.platform == "darwin":
        version, _, machine = platform.mac_ver()
        return list(macos_platforms(pair_of(version) or (10, 4), machine))
    if not plain.startswith("linux_"):
        return [plain]
    machine = plain[len("linux_") :]
    if sys.maxsize < 2**32:
        machine = {"x86_64": "i686", "aarch64": "armv7l"}.get(machine, machine)
    glibc = glibc_version()
    musl = None if glibc else musl_version()
    if glibc:
        return list(glibc_platforms(glibc, machine))
    return list(musl_platforms(musl, machine)) if musl else ["linux_" + machine]


# Interpreters and ABIs


def cpython_abis(version: Pair, is_debug: bool, is_threaded: bool) -> List[str]:
    """The ABIs of a CPython. Until 3.7 their names tell of its memory, and a debug build loads what is made for a usual one from 3.8
    on."""
    name = "cp{}{}".format(*version)
    flags = ("t" if is_threaded else "") + ("d" if is_debug else "") + ("m" if version < (3, 8) else "")
    return [name + flags] + ([name + ("t" if is_threaded else "")] if is_debug and version >= (3, 8) else [])


def own_interpreter() -> Tuple[str, List[str]]:
    """The interpreter of the Python that runs, and its ABIs, as wheels' tags name them."""
    version = sys.version_info[:2]
    short = {"cpython": "cp", "pypy": "pp", "ironpython": "ip", "jython": "jy"}.get(sys.implementation.name, sys.implementation.name)
    interpreter = "{}{}{}".format(short, *version)
    if short == "cp":
        is_debug = bool(sysconfig.get_config_var("Py_DEBUG")) or hasattr(sys, "gettotalrefcount")
        return interpreter, cpython_abis(version, is_debug, bool(sysconfig.get_config_var("Py_GIL_DISABLED")))
    words = str(sysconfig.get_config_var("SOABI") or "").split("-")
    abi = "_".join(words[:2]) if short == "pp" else words[0]
    return interpreter, [re.sub("[-. ]", "_", abi)] if abi else []


def own_environment() -> Dict[str, Any]:
    """The environment of the Python that runs, with what wheels' tags are made of."""
    interpreter, abis = own_interpreter()
    return dict(environment(), interpreter=interpreter, abis=abis, platforms=own_platforms())


# Environments that are described, or asked of another interpreter


def described_platforms(told: Described, versions: Dict[str, Pair]) -> List[str]:
    makers = {"glibc": glibc_platforms, "musl": musl_platforms, "macos": macos_platforms}
    if told.family == "windows":
        return windows_platforms(told.platform_machine)
    return list(makers[told.family](versions[told.family], told.platform_machine))


def described_environment(version: str, name: str, versions: Dict[str, Pair]) -> Dict[str, Any]:
    """The environment of a CPython of a version on a platform that has a name."""
    parts, told = VERSION.fullmatch(version), PLATFORMS[name]
    if parts is None:
        raise Refused("--python: {!a} is no version of Python 3, as 3.9, 3.9.18 or 3.13.0rc1".format(version))
    major, minor, micro, kind, serial = parts.groups()
    plain, short = "{}.{}.{}".format(major, minor, micro or 0), "{}.{}".format(major, minor)
    pair = int(major), int(minor)
    values = (
        "cpython", plain + (kind[0].replace("r", "c") + serial if kind else ""), told.os_name, told.platform_machine, "CPython",
        "", told.platform_system, "", plain + (kind + serial if kind else ""), short, told.sys_platform,
    )
    return dict(
        zip(VARIABLES, values), interpreter="cp{}{}".format(*pair), abis=cpython_abis(pair, False, False),
        platforms=described_platforms(told, versions),
    )


def asked_environment(path: str) -> Dict[str, Any]:
    """The environment of another interpreter, which runs this file."""
    program = shutil.which(path)
    if program is None:
        raise Refused("--python: {!a} is no version, as 3.9, and no program that is here".format(path))
    command = [program, "-I", "-B", os.path.abspath(__file__)]
    try:
        done = subprocess.run(command, stdin=subprocess.DEVNULL, stdout=subprocess.PIPE, stderr=subprocess.PIPE, timeout=SECONDS)
        variables = json.loads(done.stdout.decode())
        if isinstance(variables, dict) and all(isinstance(variables.get(name), str) for name in VARIABLES):
            return variables
    except (OSError, ValueError, subprocess.SubprocessError):
        pass
    raise Refused("--python: {} is no Python of version 3.6 or later that prints its environment".format(path))


# The words


def named(text: str) -> str:
    """A text in which this file has the name by which it is called: a command's, where it is installed as one."""
    name = os.path.basename(sys.argv[0])
    return re.sub(r"\benvironment\.py\b", name, text) if name == "reqlock-environment" else text


def say(text: str) -> None:
    print(named("environment.py: ") + text, file=sys.stderr)


def table() -> str:
    """The platforms with their values, for help."""
    lines = ["platforms, by their names: os_name, platform_machine, platform_system, sys_platform, and what it has:"]
    for name, told in PLATFORMS.items():
        has = "{} {}.{}".format(told.family, *SYSTEMS[told.family]) if told.family in SYSTEMS else "-"
        lines.append("  {:<18} {:<6} {:<8} {:<8} {:<7} {}".format(name, *told[:4], has))
    return "\n".join(lines)


def parser_of() -> argparse.ArgumentParser:
    parser = argparse.ArgumentParser(
        prog=named("environment.py"), description=named(__doc__ or ""), epilog=table(),
        formatter_class=argparse.RawDescriptionHelpFormatter,
    )
    parser.add_argument("--python", metavar="VERSION|PATH", help="a version, with --platform; or an interpreter that is run")
    parser.add_argument("--platform", metavar="NAME", choices=sorted(PLATFORMS), help="one of the platforms below")
    for name, title in ("glibc", "glibc"), ("musl", "musl"), ("macos", "macOS"):
        parser.add_argument("--" + name, metavar="VERSION", help="{} of that machine, not {}.{}".format(title, *SYSTEMS[name]))
    return parser


def versions_of(parser: argparse.ArgumentParser, platform: Optional[str], typed: Dict[str, Optional[str]]) -> Dict[str, Pair]:
    """The versions of systems that a described platform has, of those that were typed."""
    versions = dict(SYSTEMS)
    family = PLATFORMS[platform].family if platform else None
    for name, text in typed.items():
        if text is None:
            continue
        if family != name:
            parser.error("--{} counts with --platform of a machine that has it".format(name))
        pair = pair_of(text if "." in text else text + ".0") if re.fullmatch(r"[0-9.]{1,9}", text) else None
        if pair is None:
            parser.error("--{}: {!a} is no version".format(name, text))
        versions[name] = pair
    return versions


def request_of(words: Optional[List[str]]) -> Request:
    """What the words ask for."""
    parser = parser_of()
    options = parser.parse_args(words)
    versions = versions_of(parser, options.platform, {name: getattr(options, name) for name in SYSTEMS})
    is_version = options.python is not None and re.match(r"[0-9]+(\.|\Z)", options.python) is not None
    if options.platform is not None and not is_version:
        parser.error("--platform describes a machine: --python VERSION tells of which Python, as --python 3.9")
    if options.platform is None and is_version:
        parser.error("--python {}: on which machine? --platform NAME says it".format(options.python))
    return Request(options.python, options.platform, versions)


def wanted(request: Request) -> Dict[str, Any]:
    """The environment that is asked for."""
    if request.python is None:
        return own_environment()
    if request.platform is None:
        return asked_environment(request.python)
    return described_environment(request.python, request.platform, request.versions)


def write(text: str) -> int:
    """The status of writing a line. An output that nobody reads any more ends it without a word."""
    try:
        sys.stdout.buffer.write(text.encode())
        sys.stdout.buffer.flush()
    except OSError as fault:
        os.dup2(os.open(os.devnull, os.O_WRONLY), sys.stdout.fileno())
        if not isinstance(fault, BrokenPipeError):
            say("standard output: {}".format(fault.strerror))
        return 1
    return 0


def main(words: Optional[List[str]] = None) -> int:
    request = request_of(words)
    try:
        variables = wanted(request)
    except Refused as fault:
        say(str(fault))
        return 1
    except KeyboardInterrupt:
        say("stopped")
        return 130
    refused = [name for name in VARIABLES if not is_lawful(variables[name])]
    for name in refused:
        say("reqlock refuses {}: {!a}".format(name, variables[name]))
    return 1 if refused else write(json.dumps(variables, sort_keys=True) + "\n")


if __name__ == "__main__":
    sys.exit(main())
