"""The page of what somebody has to read who wants to believe the promises: for each the definitions that it rests on, in reading order."""

from definitions.needed import Key, Needed, Uses, files_of
from definitions.reading import Module

# Each promise of the README: the contracts that say it, and the definitions that these name.
PROMISES: tuple[tuple[str, str, tuple[tuple[str, str, str], ...]], ...] = (
    (
        "Each lock is the best solution, `no-solution` is exact, undo loses nothing",
        "`Session::apply` and `Session::init_keeping` of `journal`",
        (("journal", "Steps", "Step"), ("journal", "Steps", "BeginsWith")),
    ),
    (
        "What is saved comes back",
        "`Session::save` and `Session::open` of `journal`",
        (("journal", "Saved", "IsSaved"), ("journal", "Saved", "OpensAs"), ("journal", "Opens", "Opens"), ("journal", "Opens", "Tells")),
    ),
    (
        "A call leaves in its folder what was asked for, or what was there, whenever it is stopped",
        "`edit_once`, `step_once`, `forget_once`, `run_batch` and `begin_history` of `saves`, and its law",
        (
            ("saves", "Called", "EditIsDone"),
            ("saves", "Called", "StepIsDone"),
            ("saves", "Called", "ForgetIsDone"),
            ("saves", "Called", "BatchIsDone"),
            ("saves", "Called", "InitIsDone"),
            ("saves", "Called", "Called"),
            ("saves", "Called", "AtAnyMoment"),
            ("saves", "Called", "IsFaultOfSaving"),
            ("saves", "StoppedCalls", "LeavesOldOrNew"),
            ("saves", "StoppedCalls", "LeavesOldOrNewByHand"),
            ("saves", "StoppedCalls", "LeavesOldJournalOrNew"),
        ),
    ),
    (
        "A refutation is accepted exactly where it is one",
        "`check` of `refutations`, `check_sets` of `set_refutations`",
        (("search", "Conflicts", "IsRefutation"), ("search", "SetConflicts", "IsSetRefutation")),
    ),
)
# A function that goes over a text as the program does, and what a law of its crate says of it instead: that holds of its answer, and of no
# other. Who reads the second need not read the first.
TOLD_BY: dict[Key, tuple[str, tuple[Key, ...]]] = {
    ("Rattle.pep440.specs.Tied.Reading", "version_of"): (
        "a_text_reads_as_what_it_spells", (("Rattle.pep440.specs.Grammar", "ParseAnswers"),),
    ),
    ("Rattle.pep440.specs.Tied.Sets", "set_of"): ("a_set_has_one_answer", (("Rattle.pep440.specs.SetGrammar", "SetAnswers"),)),
    ("Rattle.markers.specs.Tied.MarkerReading", "tree_of"): (
        "a_text_reads_as_the_marker_that_it_spells", (("Rattle.markers.specs.MarkerSpelling", "SpellsMarker"),),
    ),
    ("Rattle.pep508.specs.Parts", "comment_place"): (
        "a_comment_begins_where_it_first_may", (("Rattle.pep508.specs.Parts", "IsCommentPlace"),),
    ),
}
# The crates whose definitions are those of the PEPs.
STANDARDS = "pep440", "markers", "pep508"
HEAD = """# What to read to believe the promises

A promise is a theorem over definitions. To know what a promise says, read its definitions, and nothing else of the code: that the code does
what they say is checked by the prover. This page lists for each promise the definitions that it rests on, from the bottom up: a definition
stands behind those that it uses, and a file where its first one is wanted. What an earlier promise has listed isn't listed again.

The lines are those of the definitions that are needed, without comments and imports; a file may have more. `python3 tools/definitions --page`
makes this page. `python3 tools/definitions CRATE` prints the functions of a crate's definitions in Python, as the tests run them beside
second readings of the rules.
"""
TIED = """
Four functions go over a text as the program does. A law of their crate says what holds of their answer, and that it holds of no other, so
this page lists what the law says in place of these functions:
"""


def path_of(module: str) -> str:
    crate, *inner = module.removeprefix("Rattle.").split(".")
    return "/".join(["crates", crate, *inner]) + ".antt"


def is_standard(file: Needed) -> bool:
    return file.module.split(".")[1] in STANDARDS


def counted(files: list[Needed]) -> str:
    """How many lines the files have, and how many of them say what the PEPs say."""
    lines, of_peps = sum(file.lines for file in files), sum(file.lines for file in files if is_standard(file))
    told = f", of which {of_peps} say what the PEPs say ({', '.join(f'`{standard}`' for standard in STANDARDS)})" if of_peps else ""
    return f"{len(files)} files, {lines} lines{told}:"


def row(file: Needed, place: str) -> str:
    shown = ", ".join(f"`{name}`" for name in file.names)
    return f"| [{path_of(file.module)}]({place}{path_of(file.module)}) | {file.lines} | {shown} |"


class Reader:
    """Lists what is needed, each definition once."""

    def __init__(self, modules: dict[str, Module]):
        self.uses = Uses(modules, {key: told for key, (_, told) in TOLD_BY.items()})
        self.listed: set[Key] = set()

    def new(self, roots: tuple[tuple[str, str, str], ...]) -> list[Needed]:
        keys = [key for key in self.uses.all_from([(f"Rattle.{crate}.specs.{module}", name) for crate, module, name in roots]) if key not in TOLD_BY]
        new = [key for key in keys if key not in self.listed]
        self.listed.update(new)
        return files_of(self.uses, new)


def page(modules: dict[str, Module], place: str = "../") -> str:
    """The page, with links that begin at a place."""
    reader, lines = Reader(modules), [HEAD]
    for sentence, contracts, roots in PROMISES:
        files = reader.new(roots)
        lines += [
            f"## {sentence}", "", f"The contracts are those of {contracts}. {counted(files)}", "",
            "| File | Lines | Definitions |", "|---|---|---|", *(row(file, place) for file in files), "",
        ]
    lines += ["## What laws say in place of a loop", TIED]
    lines += [f"- `{name}` of {path_of(module)}: `laws::{law}` of its crate" for (module, name), (law, _) in TOLD_BY.items()]
    return "\n".join(lines) + "\n"
