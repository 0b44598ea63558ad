"""The libraries that the tools use, as python3 has them, or as pip within it has copies. One that is nowhere is None."""

import importlib
import sys
from functools import cache
from typing import TYPE_CHECKING, Any

from reqlock_tools.refusal import Refusal


@cache
def library(name: str) -> Any:
    """A module of a library, or of pip's copy of it."""
    for place in "", "pip._vendor.":
        try:
            return importlib.import_module(place + name)
        except ImportError:
            continue
    return None


def needed(name: str) -> Any:
    """The same of one without which nothing goes on."""
    module = library(name)
    if module is None:
        raise Refusal(absent_text(name.partition(".")[0]))
    return module


__all__ = [
    "absent_text", "library", "needed", "packaging_requirements", "packaging_tags", "packaging_utils", "packaging_version",
    "rich_console", "rich_progress", "urllib3", "urllib3_connection", "urllib3_pools", "urllib3_retry",
]


class Late:
    """A module of a library that is looked for where something of it is used first."""

    def __init__(self, name: str) -> None:
        self.name = name

    def __getattr__(self, attribute: str) -> object:
        value: object = getattr(needed(self.name), attribute)
        setattr(self, attribute, value)
        return value


if TYPE_CHECKING:
    import rich.console as rich_console
    import rich.progress as rich_progress
    import urllib3 as urllib3
    import urllib3.connection as urllib3_connection
    import urllib3.connectionpool as urllib3_pools
    import urllib3.util.retry as urllib3_retry
    from packaging import requirements as packaging_requirements
    from packaging import tags as packaging_tags
    from packaging import utils as packaging_utils
    from packaging import version as packaging_version
else:
    packaging_requirements, packaging_tags = Late("packaging.requirements"), Late("packaging.tags")
    packaging_utils, packaging_version = Late("packaging.utils"), Late("packaging.version")
    rich_console, rich_progress = Late("rich.console"), Late("rich.progress")
    urllib3, urllib3_retry = Late("urllib3"), Late("urllib3.util.retry")
    urllib3_connection, urllib3_pools = Late("urllib3.connection"), Late("urllib3.connectionpool")


def absent_text(package: str) -> str:
    """What is told where a library is absent."""
    return f"{sys.executable} has neither the library {package} nor pip, which has a copy: python3 -m pip install {package}"
