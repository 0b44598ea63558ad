"""Drawn locks of several targets, read by rules/installs.py. Each target asks some questions of an environment, and is for those that
answer as its own does. The lock has each entry once, with the markers of the targets that have it. What is installed is then known by
the answers alone: the entries of the targets that an environment meets."""

import json
import tomllib
import unittest
from collections import Counter
from typing import NamedTuple

from support.installed import check_markers, check_references, entries_of
from support.made.chance import Chance
from support.made.environments import LINUX
from support.made.journals import entry, package_text
from support.places import IS_LONG
from support.rules.installs import Installing, Refused, installed_by

COUNT = 1000 if IS_LONG else 100
ENVIRONMENTS = 15
NAMES = "a", "b-b", "c", "d"
PYTHONS = "3.8.10", "3.9.2", "3.10.0", "3.11.4", "3.11.7", "3.12.1"
SYSTEMS = {"linux": ("posix", "Linux"), "win32": ("nt", "Windows"), "darwin": ("posix", "Darwin")}
PLATFORMS = {"linux": "manylinux_2_17_x86_64", "win32": "win_amd64", "darwin": "macosx_11_0_universal2"}
# a variable, a sign and texts, of which the one or the other is asked
QUESTIONS = (
    ("sys_platform", "==", "linux win32 darwin"), ("os_name", "==", "nt posix"), ("platform_system", "==", "Windows Darwin"),
    ("platform_machine", "==", "x86_64 arm64"), ("platform_machine", "in", "x86_64,arm64 arm64,ppc64"),
    ("python_version", "<", "3.9 3.10 3.12"), ("python_full_version", "<", "3.9.2 3.11.5"), ("implementation_name", "==", "cpython"),
)
OPPOSITES = {"==": "!=", "<": ">=", "in": "not in"}
# what must have come
SEEN = (
    "environments", "ambiguity", "wheels", "one target", "several targets", "a lock for all", "no marker", "markers joined",
    "two entries of a name", "two of one version", "told by markers",
)


class Question(NamedTuple):
    variable: str
    sign: str
    text: str

    def answer(self, environment):
        own = environment[self.variable]
        if self.sign == "<":
            return numbers_of(own) < numbers_of(self.text)
        return own in self.text.split(",") if self.sign == "in" else own == self.text

    def told(self, environment):
        """The comparison that holds where the answer is that of an environment."""
        sign = self.sign if self.answer(environment) else OPPOSITES[self.sign]
        return f'{self.variable} {sign} "{self.text}"'


class Target(NamedTuple):
    environment: dict[str, str]
    questions: list[Question]
    entries: dict[str, dict]

    def is_met(self, environment):
        return all(question.answer(environment) == question.answer(self.environment) for question in self.questions)

    def has(self, pair):
        """Whether it has an entry, which is a pair of a name and a table."""
        return self.entries.get(pair[0]) == pair[1]

    def marker(self):
        return " and ".join(question.told(self.environment) for question in self.questions)


def numbers_of(version):
    return tuple(map(int, version.split(".")))


class DrawnTargets(Chance):
    def environment(self):
        system, python, implementation = self.one(list(SYSTEMS)), self.one(PYTHONS), self.one(("cpython", "cpython", "pypy"))
        return LINUX | {
            "sys_platform": system, "os_name": SYSTEMS[system][0], "platform_system": SYSTEMS[system][1],
            "platform_machine": self.one(("x86_64", "arm64", "ppc64")), "implementation_name": implementation,
            "python_full_version": python, "python_version": ".".join(python.split(".")[:2]),
        }

    def question(self):
        variable, sign, texts = self.one(QUESTIONS)
        return Question(variable, sign, self.one(texts.split()))

    def entry(self, name, others):
        """An entry of one of two versions, with wheels for each platform, for some, or for any, or with an sdist."""
        drawn = entry(name, self.one(("1", "2")), *sorted(self.random.sample(others, min(len(others), self.one((0, 0, 1))))))
        [wheel] = drawn["wheels"]
        platforms = self.one(([], ["linux"], list(PLATFORMS)))
        drawn["wheels"] = [wheel] if not platforms or self.happens(60) else []
        for platform in sorted(platforms, key=PLATFORMS.get):
            file = wheel["name"].replace("any.whl", f"{PLATFORMS[platform]}.whl")
            drawn["wheels"].append(wheel | {"name": file, "url": f"https://files.example/{file}"})
        if self.happens(40):
            drawn["sdist"] = wheel | {"name": f"{name}-{drawn['version']}.zip", "url": f"https://files.example/{name}.zip"}
        return drawn

    def entries(self):
        names = self.random.sample(NAMES, self.one((1, 2, 3)))
        return {name: self.entry(name, [other for other in names if other != name]) for name in names}

    def changed(self, entries):
        """Entries that others are like: all of them, or with another one."""
        name = self.one(list(entries))
        return entries | {name: self.entry(name, [other for other in entries if other != name])} if self.happens(50) else entries

    def targets(self):
        targets = []
        for _ in range(self.one((1, 2, 2, 3))):
            entries = self.changed(targets[-1].entries) if targets and self.happens(70) else self.entries()
            questions = [self.question() for _ in range(0 if self.happens(5) else self.one((1, 1, 2, 3)))]
            targets.append(Target(self.environment(), questions, entries))
        return targets


def pairs_of(targets):
    """Each pair of a name and a whole entry, once."""
    pairs = [(name, entry) for target in targets for name, entry in target.entries.items()]
    return [pair for place, pair in enumerate(pairs) if pair not in pairs[:place]]


def marker_of(pair, targets):
    """The marker of an entry: those of the targets that have it. It has none where all have it, or where one of them asks nothing."""
    having = [target for target in targets if target.has(pair)]
    is_marked = len(having) < len(targets) and all(target.questions for target in having)
    return " or ".join(target.marker() for target in having) if is_marked else None


def dependency_texts(name, having, targets):
    """The tables of a dependency. Where the name has several entries, those that the targets with the entry have are told, by the version and,
    where that isn't enough, the marker."""
    pairs = [pair for pair in pairs_of(targets) if pair[0] == name]
    for pair in pairs_of(having) if len(pairs) > 1 else ():
        if pair in pairs:
            version, marker = pair[1]["version"], marker_of(pair, targets)
            is_enough = [entry["version"] for _, entry in pairs].count(version) == 1 or marker is None
            yield f'{{name = "{name}", version = "{version}"' + ("}" if is_enough else f", marker = {json.dumps(marker)}}}")
    if len(pairs) == 1:
        yield f'{{name = "{name}"}}'


def joint_package(pair, targets):
    """An entry of the lock."""
    having, marker = [target for target in targets if target.has(pair)], marker_of(pair, targets)
    text = package_text(*pair).rstrip("\n")
    for other in pair[1]["dependencies"]:
        text = text.replace(f'{{name = "{other}"}}', ", ".join(dependency_texts(other, having, targets)))
    return text if marker is None else f"{text}\nmarker = {json.dumps(marker)}"


def joint_lock(targets):
    """The lock of several targets. It is for all environments where a target asks nothing."""
    packages = [joint_package(pair, targets) for pair in sorted(pairs_of(targets), key=json.dumps)]
    head = ['lock-version = "1.0"', 'created-by = "drawn"']
    if all(target.questions for target in targets):
        head.append(f"environments = {json.dumps([target.marker() for target in targets])}")
    return "\n".join([*head, *packages, ""]).encode()


def file_taken(entry, environment):
    """The name of the wheel for the platform, else of the one for any, else of the sdist; None where there is none of these."""
    names = [file["name"] for file in entry["wheels"]]
    for end in PLATFORMS[environment["sys_platform"]], "any":
        for name in names:
            if name.endswith(f"-{end}.whl"):
                return name
    return entry["sdist"] and entry["sdist"]["name"]


def wanted_in(targets, environment):
    """What is installed in an environment: the step of an error, or the entries by name with the file that is taken of each."""
    pairs = pairs_of([target for target in targets if target.is_met(environment)])
    chosen = {name: (entry, file_taken(entry, environment)) for name, entry in pairs}
    if not pairs:
        return "environments"
    if len(chosen) < len(pairs):
        return "ambiguity"
    return chosen if all(file for _, file in chosen.values()) else "wheels"


def tags_in(environment):
    """The tags of the wheels that run in an environment."""
    return f"py3-none-{PLATFORMS[environment['sys_platform']]}", "py3-none-any"


def found_in(data, environment):
    """What the rules install there, in the same form."""
    try:
        installed = installed_by(data, Installing(environment, tags_in(environment)))
    except Refused as fault:
        return fault.step
    files = {item.package["name"]: item.source["name"] for item in installed}
    return {name: (entry, files[name]) for name, entry in entries_of(installed).items()}


class Drawn(unittest.TestCase):
    def test_an_environment_gets_the_entries_of_the_targets_that_it_meets(self):
        self.seen = Counter()
        for seed in range(COUNT):
            draw = DrawnTargets(seed)
            targets = draw.targets()
            data = joint_lock(targets)
            self.count_markers(targets, data)
            self.check_told(data)
            for environment in [draw.environment() for _ in range(ENVIRONMENTS)] + [target.environment for target in targets]:
                with self.subTest(seed=seed, environment=environment):
                    self.check(targets, data, environment)
        self.assertLessEqual(set(SEEN), set(+self.seen), self.seen)

    def check(self, targets, data, environment):
        wanted = wanted_in(targets, environment)
        self.assertEqual(found_in(data, environment), wanted, data.decode())
        check_markers(data, environment)
        if isinstance(wanted, str):
            self.seen[wanted] += 1
        else:
            met = sum(target.is_met(environment) for target in targets)
            self.seen["one target" if met == 1 else "several targets"] += len(targets) > 1

    def check_told(self, data):
        """Each dependency tells one entry, where there are no two of one name, version and marker."""
        lock = tomllib.loads(data.decode())
        told = [(package["name"], package["version"], package.get("marker")) for package in lock["packages"]]
        if len(set(told)) == len(told):
            check_references(lock)
            self.seen["told by markers"] += any("marker" in table for package in lock["packages"] for table in package.get("dependencies", []))

    def count_markers(self, targets, data):
        pairs = pairs_of(targets)
        versions = [(name, entry["version"]) for name, entry in pairs]
        text = data.decode()
        self.seen["a lock for all"] += "environments" not in text
        self.seen["no marker"] += len(targets) > 1 and text.count("\nmarker = ") < len(pairs)
        self.seen["markers joined"] += " or " in text
        self.seen["two entries of a name"] += len({name for name, _ in pairs}) < len(pairs)
        self.seen["two of one version"] += len(set(versions)) < len(versions)


if __name__ == "__main__":
    unittest.main()
