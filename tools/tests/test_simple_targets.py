"""What reqlock locks for environments that are described can be installed in each: drawn worlds of wheels for some platforms, locked by
the program and fetched by the machine's own pip, which is told platform and Python. Nothing else is asked."""

import json
import subprocess
import sys
import unittest

from support.made.chance import drawing
from support.made.served_index import sdist_of, wheel_of
from support.places import IS_LONG, PROGRAM, TOOLS, needs_program
from support.simple_index import Simple
from test_simple_locks import pip

WORLDS = 40 if IS_LONG else 4
NAMES = "ant", "bee", "cow"
ENVIRONMENTS = {
    "linux": ("3.9", "linux-x86_64"), "mac": ("3.12", "macos-arm64"), "musl": ("3.11", "musllinux-x86_64"), "windows": ("3.8", "windows-x86_64"),
}
TAGS = (
    "py3-none-any", "cp39-cp39-manylinux_2_17_x86_64", "cp37-abi3-manylinux2014_x86_64", "cp312-cp312-macosx_11_0_arm64",
    "cp38-abi3-macosx_10_9_universal2", "cp311-cp311-musllinux_1_1_x86_64", "cp38-cp38-win_amd64", "cp36-abi3-win_amd64", "py2-none-any",
)
MARKERS = "", "; sys_platform == 'win32'", "; sys_platform != 'darwin'", "; python_version < '3.10'"


def releases(chance, name):
    """Releases of a package, each with wheels for some platforms or with an sdist, which need others here and there."""
    archives = []
    for version in "1", "2", "3":
        others = [other for other in NAMES if other > name and chance.random() < 0.6]
        needs = [f"{other} {chance.choice(MARKERS)}" for other in others]
        if version == "1":
            archives.append(wheel_of(name, version, *needs))
        elif chance.random() < 0.2:
            archives.append(sdist_of(name, version, *needs))
        else:
            archives += [wheel_of(name, version, *needs, tag=tag) for tag in chance.sample(TAGS, chance.randint(1, 7))]
    return archives


@needs_program
class Targets(Simple):
    def setUp(self):
        super().setUp()
        if subprocess.run(["python3", "-m", "pip", "--version"], capture_output=True, check=False).returncode != 0:
            self.skipTest("python3 has no pip")
        self.made_environments = {}
        for name, (python, platform) in ENVIRONMENTS.items():
            words = "--python", python, "--platform", platform
            printed = subprocess.run([sys.executable, "-B", TOOLS / "environment.py", *words], capture_output=True, check=True).stdout
            (self.folder / f"{name}.json").write_bytes(printed)
            self.made_environments[name] = json.loads(printed)

    def check_can_be_fetched(self, folder, target, index):
        """pip fetches each file of a target's lock for a machine of that kind, and for no other."""
        command = [sys.executable, "-B", TOOLS / "hashed_requirements.py", folder / f"pylock.{target}.toml"]
        hashed = subprocess.run(command, capture_output=True, encoding="utf-8", check=True).stdout
        wheels = [text for text in hashed.replace("\\\n", " ").splitlines() if text.strip() and not self.has_sdist(text)]
        (folder / f"{target}.txt").write_text("\n".join(wheels) + "\n", encoding="utf-8")
        told = self.made_environments[target]
        words = [word for platform in told["platforms"] for word in ("--platform", platform)]
        status, output = pip(
            "download", "--index-url", index.url, "--require-hashes", "--no-deps", "--only-binary", ":all:", "--requirement",
            folder / f"{target}.txt", "--dest", folder / target, *words, "--python-version", told["python_version"],
            "--implementation", "cp", "--abi", told["abis"][0], "--abi", "abi3", "--abi", "none",
        )
        self.assertEqual(status, 0, output)
        return len(wheels)

    def has_sdist(self, text):
        """Whether a locked release has an sdist, which can be built anywhere."""
        name, _, version = text.split()[0].partition("==")
        return f"{name}-{version}.tar.gz" in self.files

    def test_can_install_what_is_locked_for_them(self):
        chance, count = drawing(5), 0
        for number in range(WORLDS):
            packages = {name: releases(chance, name) for name in NAMES}
            self.files = {file.name for files in packages.values() for file in files}
            index = self.serve(packages)
            folder = self.folder / f"world-{number}"
            folder.mkdir()
            (folder / "requirements.txt").write_text("ant\n", encoding="utf-8")
            self.output = folder / "index.json"
            environments = [word for name in ENVIRONMENTS for word in ("--env", f"{name}={self.folder / name}.json")]
            words = "--for", folder / "requirements.txt", *environments, "--cache", self.folder / f"cache-{number}"
            status, lines = self.call(index.url, *words)
            self.assertEqual(status, 0, lines)
            command = [PROGRAM, "--dir", folder, "--index", self.output, *environments, "init"]
            done = subprocess.run(command, capture_output=True, encoding="utf-8", check=False)
            self.assertEqual(done.stdout, "ok 0\n", done.stderr)
            for target in ENVIRONMENTS:
                with self.subTest(world=number, target=target):
                    count += self.check_can_be_fetched(folder, target, index)
        self.assertGreater(count, WORLDS * 4)


if __name__ == "__main__":
    unittest.main()
