"""Virtual environments with pip, of which tests take copies: one is made in a run, for each Python that makes some."""

import os
import shutil
import subprocess
from collections.abc import Mapping
from pathlib import Path

from support.once import made_once


def template(python: str, variables: Mapping[str, str]) -> Path | None:
    """The environment that a Python makes, with pip alone; None where it makes none."""

    def make(folder: Path) -> None:
        place = folder / "venv"
        if subprocess.run([python, "-m", "venv", place], capture_output=True, check=False, env=variables).returncode != 0:
            shutil.rmtree(place, ignore_errors=True)
            return
        site = site_of(place)
        for path in [*site.glob("setuptools*"), *site.glob("pkg_resources*"), *site.glob("*distutils*")]:
            shutil.rmtree(path) if path.is_dir() else path.unlink()

    place = made_once(f"venv{python.replace('/', '-')}", make) / "venv"
    return place if place.exists() else None


def copy(whole: Path, place: Path) -> Path:
    """An environment like the template elsewhere. Its pip is that of the template, which nobody may change."""
    site, linked = site_of(whole), {"pip"}
    shutil.copytree(whole, place, symlinks=True, ignore=lambda folder, _: linked if folder == str(site) else set())
    (site_of(place) / "pip").symlink_to(site / "pip")
    return place


def copy_whole(whole: Path, place: Path) -> Path:
    """An environment like the template elsewhere, whose pip can be removed: its files are links to the same ones."""
    shutil.copytree(whole, place, symlinks=True, copy_function=os.link)
    return place


def site_of(venv: Path) -> Path:
    """Where an environment has its packages."""
    return next((venv / "lib").glob("python3.*")) / "site-packages"
