"""Settings as `rql init` writes them: a line for each key, with a comment."""

import json
from collections.abc import Sequence

from reqlock_tools.rql.settings import EnvironmentSetting, ExportSetting

COMMENTS = {
    "folder": "where requirements.txt, the locks and the journal stand",
    "index": "in order; the first that has a name is asked for it alone",
    "sources": "where the lines come from",
    "exports": "written anew after each accepted call",
    "environment": "what is locked for",
}
# The keys of an environment.
KEYS = "python", "platform", "glibc", "musl", "macos"


def quoted(text: str) -> str:
    return json.dumps(text, ensure_ascii=False)


def array(texts: Sequence[str]) -> str:
    return f"[{', '.join(texts)}]"


def environment_text(environment: EnvironmentSetting) -> str:
    keys = {key: getattr(environment, key) for key in KEYS}
    return "{ " + ", ".join(f"{key} = {quoted(value)}" for key, value in keys.items() if value) + " }"


def export_text(export: ExportSetting) -> str:
    target = f", target = {quoted(export.target)}" if export.target else ""
    return f"{{ file = {quoted(export.file)}, format = {quoted(export.format)}{target} }}"


def settings_text(
    table: str, folder: str, indexes: Sequence[str], sources: Sequence[str], exports: Sequence[ExportSetting],
    environments: Sequence[EnvironmentSetting],
) -> str:
    """The settings, in a table of this name, or at the top of a file of their own where it has none."""
    keys = {"folder": quoted(folder), "index": array([quoted(url) for url in indexes])}
    if sources:
        keys["sources"] = array([quoted(text) for text in sources])
    if exports:
        keys["exports"] = array([export_text(export) for export in exports])
    named = [environment for environment in environments if environment.name]
    for environment in environments:
        if not environment.name:
            keys["environment"] = environment_text(environment)
    lines = [f"[{table}]"] * (table != "") + [f"{key} = {value}  # {COMMENTS[key]}" for key, value in keys.items()]
    if named:
        lines += ["", f"[{f'{table}.' if table else ''}environments]  # {COMMENTS['environment']}, by the names of targets"]
        lines += [f"{environment.name} = {environment_text(environment)}" for environment in named]
    return "\n".join(lines) + "\n"
