"""Projects that an earlier run read whole, by their pages and by what was chosen of them: all that the run found, but for what an
answer may change while the page stays the same."""

import hashlib
import json
from typing import Any

from reqlock_tools.limits import Limits
from reqlock_tools.simple.cache import Beside, Cache
from reqlock_tools.simple.left import Left
from reqlock_tools.simple.project import Project

KIND, FORM = "project", 1


def key_of(url: str, page: tuple[Beside, bytes], choice: str, limits: Limits) -> str:
    """By what a project is known: its page, where it came from, what is chosen of it, and how much was taken."""
    told, body = page
    return json.dumps([FORM, url, told["url"], told["type"], hashlib.sha256(body).hexdigest(), choice, repr(limits)])


def keep(cache: Cache, key: str, project: Project) -> None:
    """Keeps a project, unless something of it could be there the next time."""
    if project.is_lasting:
        left = [[why, files, project.left.versions[why]] for why, files in project.left.files.items()]
        values = [project.versions, left, project.releases, project.notes, project.untold]
        cache.put(KIND, key, {}, json.dumps(values, ensure_ascii=False, separators=(",", ":")).encode())


def known(cache: Cache, key: str, name: str, base: str) -> Project | None:
    """A project that was kept; None where it wasn't."""
    kept = cache.get(KIND, key)
    if kept is None:
        return None
    values: list[Any] = json.loads(kept[1])
    left = Left()
    for why, files, versions in values[1]:
        left.count(why, files, versions)
    return Project(name, base, values[0], left, values[2], values[3], values[4])
