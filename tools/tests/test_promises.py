"""The pages of promises cite what stands in the code: each contract is that of a public function of its crate, its clauses rest on the
definitions that a row names behind `over`, and the program calls it."""

import re
import unittest
from collections.abc import Iterator
from dataclasses import dataclass
from functools import cache
from pathlib import Path

from support.places import TOP

from definitions.needed import Uses
from definitions.reading import Import, Module, import_of
from definitions.whole import modules_in

PAGES = "PROMISES", "PROMISES_LIBRARIES", "PROMISES_HISTORIES", "PROMISES_PROGRAM"
# The checker of a list that somebody else made.
FOR_OTHERS = {"check_sets"}
# A law is called by no program: it is a theorem about the definitions.
LAWS = "laws", "marker_laws", "version_one"
# What `==` and `?` call.
BY_SIGNS = {"eq", "from"}
# Each item of a source file at the left margin, to the next one.
ITEM = re.compile(r"^(?!\s|//|#|[})>]).*?(?=^(?!\s|[})>]|where)|\Z)", re.MULTILINE | re.DOTALL)
HEAD = re.compile(r"(?:pub )?(?:(?P<kind>trait|struct|enum) (?P<type>\w+)|impl(?:<[^>]*>)? (?:(?P<trait>.+) for )?&?(?P<self>\w+))")
METHOD = re.compile(r"^    (?P<pub>pub )?fn (?P<name>\w+)\b.*?^    \}$|^    (?P<pub2>pub )?fn (?P<name2>\w+)\b[^{]*?(?:\{[^\n]*\}[^{;]*?)*;", re.MULTILINE | re.DOTALL)
CALL = re.compile(r"(?<!fn )(?<!\w)(\w+)(?:::<[^>]*>)?\(")
CLAUSE = re.compile(r"\b(?:ensures|requires)\b.*?\{(.*)\}", re.DOTALL)


@dataclass(frozen=True)
class Row:
    page: str
    crate: str
    # functions and types, each list with the definitions that its clauses rest on
    cited: tuple[tuple[tuple[str, ...], tuple[str, ...]], ...]


@dataclass(frozen=True)
class Stated:
    """What a name of the code states: the file, whether it is public, and the text with its clauses."""

    path: Path
    is_public: bool
    text: str


def names(text: str) -> tuple[str, ...]:
    return tuple(re.findall(r"`([^`]+)`", text))


def rows() -> Iterator[Row]:
    for page in PAGES:
        crate = ""
        for line in (TOP / "docs" / f"{page}.md").read_text(encoding="utf-8").splitlines():
            cells = [cell.strip() for cell in line.split("|")[1:-1]]
            if len(cells) != 3 or cells[0] in ("Crate", "---"):
                continue
            crate = cells[0].strip("`") or crate
            parts = [part.partition(" over ") for part in cells[2].split(";")]
            yield Row(page, crate, tuple((names(functions), names(definitions)) for functions, _, definitions in parts))


def sources(crate: str) -> list[Path]:
    return sorted((TOP / "crates" / crate / "src").rglob("*.rt"))


@cache
def stated_in(crate: str) -> dict[str, list[Stated]]:
    """What a crate states, by the names that pages have: `function`, `Type` or `Type::method`; a method of a trait is public."""
    by_name: dict[str, list[Stated]] = {}
    for path in sources(crate):
        for item in ITEM.findall(path.read_text(encoding="utf-8")):
            function = re.match(r"(pub )?fn (\w+)", item)
            if function:
                by_name.setdefault(function[2], []).append(Stated(path, bool(function[1]), item))
            head = HEAD.match(item)
            if head is None:
                continue
            owner = head["type"] or head["self"]
            if head["type"]:
                by_name.setdefault(owner, []).append(Stated(path, item.startswith("pub "), item))
            for method in METHOD.finditer(item):
                is_public = bool(head["trait"] or head["kind"] == "trait" or method["pub"] or method["pub2"])
                text = item if head["trait"] else method[0]
                by_name.setdefault(f"{owner}::{method['name'] or method['name2']}", []).append(Stated(path, is_public, text))
    return by_name


def stated(crate: str, name: str) -> list[Stated]:
    """What states a cited name: `laws::a_law` is a function of a module of that name."""
    module, _, last = name.rpartition("::")
    return stated_in(crate).get(last if module.islower() else name, [])


@cache
def modules() -> dict[str, Module]:
    return modules_in(TOP / "crates")


def rests_on(statement: Stated) -> set[str]:
    """The definitions that a text's words rest on, by the imports of its file."""
    imports: list[Import] = []
    for line in re.findall(r"^\s*ghost (use [^;]*);", statement.path.read_text(encoding="utf-8"), re.MULTILINE):
        taken = import_of(line)
        known = modules().get(taken.module)
        imports.append(Import(taken.module, {name: name for name in known.items}) if taken.alias and known else taken)
    here = Module("here", imports, {}, set(), {"here": re.sub(r"\b\w+\.(?=\w+ )", "", statement.text)})
    uses = Uses({**modules(), "here": here}, {}).all_from([("here", "here")])
    return {name for _, name in uses}


@cache
def called_names() -> set[str]:
    """What crates call that the program stands on."""
    called: set[str] = set()
    for crate in sorted(path.name for path in (TOP / "crates").iterdir()):
        for path in sources(crate) if crate != "conformance" else ():
            for line in path.read_text(encoding="utf-8").splitlines():
                if not line.lstrip().startswith(("//", "ghost", "ensures")):
                    called.update(CALL.findall(line))
    return called


class Promises(unittest.TestCase):
    def test_stand_in_the_code(self) -> None:
        for row in rows():
            for functions, definitions in row.cited:
                self.assertTrue(functions, row)
                told: set[str] = set()
                for name in functions:
                    with self.subTest(page=row.page, crate=row.crate, cited=name):
                        statements = stated(row.crate, name)
                        self.assertTrue(statements)
                        self.assertTrue(any(statement.is_public for statement in statements))
                        told.update(*map(rests_on, statements))
                for definition in definitions:
                    with self.subTest(page=row.page, crate=row.crate, cited=functions, over=definition):
                        self.assertIn(definition, told)

    def test_are_of_calls_that_are_made(self) -> None:
        for row in rows():
            for name in (name for functions, _ in row.cited for name in functions):
                module, _, last = name.rpartition("::")
                if module in LAWS or last in FOR_OTHERS | BY_SIGNS or (not module and name[0].isupper()):
                    continue
                with self.subTest(page=row.page, crate=row.crate, cited=name):
                    self.assertTrue(last in called_names())


if __name__ == "__main__":
    unittest.main()
