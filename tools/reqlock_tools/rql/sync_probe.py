"""What the Python of an environment tells of itself: its variables, what wheels' tags are made of, and what is installed in it. That
Python runs this file, so it needs Python 3.6 or later and nothing beside it but the file that is named to it, which describes Pythons."""

import json
import os
import re
import runpy
import sys
import sysconfig
from typing import Any, Dict, Iterator, List, Optional

HEADER = re.compile(r"(Name|Version|Requires-Dist): *(.*)")


def headers_of(path: str) -> Dict[str, List[str]]:
    """The headers of a METADATA or PKG-INFO file that count here; none where it can't be read."""
    headers: Dict[str, List[str]] = {}
    try:
        with open(path, encoding="utf-8", errors="replace") as file:
            for line in file:
                if line in ("\n", "\r\n"):
                    break
                told = HEADER.match(line)
                if told:
                    headers.setdefault(told.group(1), []).append(told.group(2).strip())
    except OSError:
        pass
    return headers


def origin_of(folder: str) -> Optional[Dict[str, Any]]:
    """What PEP 610 tells of where a distribution came from; None where it tells nothing."""
    try:
        with open(os.path.join(folder, "direct_url.json"), encoding="utf-8") as file:
            origin = json.load(file)
    except (OSError, ValueError):
        return None
    return origin if isinstance(origin, dict) else None


def link_of(path: str) -> Dict[str, Any]:
    """What a link of the older kind leads to: a folder whose project is installed so that it can be edited."""
    with open(path, encoding="utf-8", errors="replace") as file:
        place = file.readline().strip()
    name = os.path.basename(path)[: -len(".egg-link")]
    origin = {"url": "file://" + place, "dir_info": {"editable": True}}
    return {"name": name, "version": "", "requires": [], "origin": origin}


def distribution_at(path: str) -> Optional[Dict[str, Any]]:
    """The distribution that an entry of a folder of packages tells of; None where it is none."""
    if path.endswith(".egg-link"):
        return link_of(path)
    if not path.endswith((".dist-info", ".egg-info")):
        return None
    file = path if os.path.isfile(path) else os.path.join(path, "METADATA" if path.endswith(".dist-info") else "PKG-INFO")
    headers = headers_of(file)
    if not headers.get("Name") or not headers.get("Version"):
        return None
    return {
        "name": headers["Name"][0], "version": headers["Version"][0], "requires": headers.get("Requires-Dist", []),
        "origin": origin_of(path),
    }


def distributions() -> Iterator[Dict[str, Any]]:
    """What is installed below the environment's own folder, in the order in which it is found."""
    top = os.path.realpath(sys.prefix) + os.sep
    for folder in dict.fromkeys(sys.path):
        if os.path.isdir(folder) and os.path.realpath(folder).startswith(top):
            for name in sorted(os.listdir(folder)):
                distribution = distribution_at(os.path.join(folder, name))
                if distribution is not None:
                    yield distribution


def main() -> None:
    describe = runpy.run_path(sys.argv[1])["own_environment"]
    told = {
        "prefix": os.path.realpath(sys.prefix), "environment": describe(), "distributions": list(distributions()),
        "places": [os.path.realpath(sysconfig.get_path(path_name)) for path_name in ("purelib", "platlib", "scripts")],
    }
    print(json.dumps(told, sort_keys=True))


if __name__ == "__main__":
    main()
