"""Inputs that are far larger than any real one, each with what the program must answer. An input is made for a count, of
which SIZES has the largest, and SMALL the one of every run where that is more than a thousandth."""

import json
from dataclasses import dataclass, field

from support.made.environments import LINUX
from support.made.journals import entry, journal, lock_text, step
from support.made.releases import file_of

NAMES = "requirements.txt", "pylock.toml", "reqlock.journal"


@dataclass
class Input:
    """What stands in the folder, what the program is called with, the index, and what is answered: the status, all that is
    written, or a text that it ends with."""

    words: list
    status: int
    ends: str
    files: dict = field(default_factory=dict)
    text: str = ""
    packages: dict = field(default_factory=dict)
    index: str | None = None
    environment: str | None = None

    def index_text(self):
        if self.index is not None:
            return self.index
        packages = [{"name": name, "releases": releases} for name, releases in self.packages.items()]
        return json.dumps({"snapshot": 1, "packages": packages})


def release(name, version, *needs):
    return {"version": version, "requires_dist": list(needs), "files": [file_of(name, version)]}


def requirements(text, *packages, ends="ok 0\n", status=0):
    """A requirements file that is locked."""
    return Input(["init"], status, ends, {"requirements.txt": text.encode()}, packages=dict(packages))


ONE = "a", [release("a", "1")]


def lines(count):
    return requirements("".join(f"p{number} ; os_name == 'nt'  # {number}\n" for number in range(count)))


def blank_lines(count):
    return requirements("\n" * count)


def short_comments(count):
    """None is like the one before it."""
    return requirements("#\n \n" * (count // 2))


def long_line(count):
    return requirements("a  # " + "x" * count, ONE)


def atoms(count):
    return requirements("a ; " + "os_name == 'nt' or " * (count - 1) + "os_name == 'posix'", ONE)


def clauses(count):
    return requirements("a " + ",".join(f"!=0.{number}" for number in range(count)), ONE)


def extras(count):
    return requirements("a[" + ",".join(f"e{number}" for number in range(count)) + "]", ONE)


def extras_of_dependencies(count):
    """Each dependency counts with an extra of its own, and the line asks for all of them."""
    extras = [f"e{number}" for number in range(count)]
    needs = [f"b ; extra == '{extra}'" for extra in extras]
    return requirements("a[" + ",".join(extras) + "]", ("a", [release("a", "1", *needs)]), ("b", [release("b", "1")]))


def extras_beside_dependencies(count, needs, names=("b",)):
    """The line asks for as many extras as the release has dependencies, which all count with none."""
    extras = ",".join(f"e{number}" for number in range(count))
    return requirements(f"a[{extras}]", ("a", [release("a", "1", *needs)]), *((name, [release(name, "1")]) for name in names))


def extras_beside_equal_dependencies(count):
    return extras_beside_dependencies(count, ["b"] * count)


def extras_beside_ranges(count):
    return extras_beside_dependencies(count, [f"b>=0.{number}" for number in range(count)])


def extras_beside_names(count):
    names = [f"p{number}" for number in range(count)]
    return extras_beside_dependencies(count, names, names)


def packages(count):
    names = [f"p{number}" for number in range(count)]
    return requirements(names[-1], *((name, [release(name, "1")]) for name in names))


def releases(count):
    return requirements("a", ("a", [release("a", f"1.{number}") for number in range(count)]))


def lines_that_count(count):
    names = [f"p{number}" for number in range(count)]
    return requirements("".join(f"{name}\n" for name in names), *((name, [release(name, "1")]) for name in names))


def chain(count):
    """Each package needs the next one, in the order of names."""
    width = len(str(count))
    names = [f"p{number:0{width}}" for number in range(count)]
    needs = [[name] for name in names[1:]] + [[]]
    return requirements(names[0], *((name, [release(name, "1", *need)]) for name, need in zip(names, needs)))


def chain_back(count):
    """Each package needs the one before it, in the order of names."""
    width = len(str(count))
    names = [f"p{number:0{width}}" for number in range(count)]
    needs = [[]] + [[name] for name in names[:-1]]
    return requirements(names[-1], *((name, [release(name, "1", *need)]) for name, need in zip(names, needs)))


def saved(count, words, ends):
    """A history of steps that give the one line other specifiers by turns, at its end."""
    texts = ["a>=0.1\n", "a>=0.2\n"]
    steps = [step([[0, [texts[place % 2]], [texts[1 - place % 2]]]]) for place in range(count)]
    text = texts[count % 2].encode()
    lock = lock_text(LINUX, {"a": entry("a", "1")})
    contents = text, lock, journal(text, lock, LINUX, count, *steps)
    return Input(words, 0, ends, dict(zip(NAMES, contents)), packages=dict([ONE]))


def steps_opened(count):
    return saved(count, ["check"], f"ok {count}\n")


def steps_undone(count):
    return saved(count, ["undo"], f"ok {count - 1}\n")


def steps_shown(count):
    return saved(count, ["log"], f"* {count} constrain a {('>=0.1', '>=0.2')[count % 2]}\n")


def commands(count):
    """Half of them are accepted; none adds a step."""
    given = saved(1, ["batch"], "ok 0\nok 1\n")
    given.text = "undo\nredo\n" * (count // 2)
    return given


def commands_refused(count):
    given = saved(1, ["batch"], "refused bad-command\nrefused nothing-to-redo\nrefused already-present\nrefused not-present\n")
    given.text = "bogus\nredo\nadd A\nremove b\n" * (count // 4)
    return given


def commands_that_edit(count):
    """Each adds a step."""
    given = saved(0, ["batch"], f"ok {count}\n")
    given.text = "".join(f"constrain a >=0.{number}\n" for number in range(3, count + 3))
    return given


def long_command(count):
    """A line of more than 65,536 bytes."""
    given = saved(1, ["batch"], "refused bad-command\nok 0\n")
    given.text = "add " + "x" * max(count, 65_536) + "\nundo\n"
    return given


def parentheses(count):
    told = "reqlock: requirements.txt: line 1: marker-too-deep\n"
    return requirements("a ; " + "(" * count, ends=told, status=4)


def arrays_of_an_index(count):
    return Input(["skipped"], 4, "reqlock: index: not-json\n", index="[" * count)


def arrays_of_an_environment(count):
    told = "reqlock: environment: bad-environment\n"
    return Input(["init"], 4, told, {"requirements.txt": b""}, environment="[" * count)


def arrays_of_a_journal(count):
    told = "reqlock: reqlock.journal: line 1: journal-broken\n"
    return Input(["check"], 4, told, {"requirements.txt": b"", "pylock.toml": b"", "reqlock.journal": b"[" * count})


def other_lock(lock):
    """A lock with the digest that the journal tells."""
    contents = b"", lock, journal(b"", lock, LINUX, 0)
    return Input(["check"], 4, "reqlock: pylock.toml: files-disagree\n", dict(zip(NAMES, contents)))


def arrays_of_a_lock(count):
    return other_lock(b"a = " + b"[" * count + b"]" * count + b"\n")


def tables_of_a_lock(count):
    return other_lock(b"a = " + b"{a = " * count + b"1" + b"}" * count + b"\n")


def keys_of_a_lock(count):
    return other_lock(b".".join([b"a"] * count) + b" = 1\n")


# Each input with its largest count.
SIZES = {
    lines: 1_000_000, blank_lines: 10_000_000, short_comments: 5_000_000, long_line: 10_000_000, atoms: 1_000_000,
    clauses: 1_000_000, extras: 200_000, extras_of_dependencies: 100_000, extras_beside_equal_dependencies: 100_000,
    extras_beside_ranges: 100_000, extras_beside_names: 100_000, packages: 100_000, releases: 100_000,
    lines_that_count: 100_000, chain: 100_000, chain_back: 100_000, steps_opened: 100_000, steps_undone: 100_000,
    steps_shown: 100_000, commands: 1_000_000, commands_refused: 1_000_000, commands_that_edit: 100_000,
    long_command: 10_000_000, parentheses: 1_000_000, arrays_of_an_index: 1_000_000,
    arrays_of_an_environment: 1_000_000, arrays_of_a_journal: 1_000_000, arrays_of_a_lock: 1_000_000,
    tables_of_a_lock: 1_000_000, keys_of_a_lock: 1_000_000,
}

SMALL = {
    steps_opened: 10_000, extras_of_dependencies: 2_000, extras_beside_equal_dependencies: 10_000, extras_beside_ranges: 10_000,
    extras_beside_names: 10_000,
}
