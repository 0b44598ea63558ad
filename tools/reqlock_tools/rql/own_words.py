"""What the program tells beside an answer, with the words of rql in the place of its own calls. Only what the program says itself is looked
at: what somebody typed, and what a package says, stays as it is."""

import re
import shlex
import textwrap
from collections.abc import Callable, Collection

from reqlock_tools.rql.own_calls import Here, front, own_call

# What stands in front of a call in quotes, where something does.
FRONTS = (
    "The file of --was isn't requirements.txt as reqlock saved it. ",
    "Neither requirements.txt nor the lock is the one that reqlock.journal was saved with. ",
    "(?:requirements.txt|pylock[a-z0-9.-]*) isn't the one that reqlock.journal was saved with. ",
    "Where the newer journal is lost, ", "Else ", "reqlock: requirements.txt was changed since reqlock saved it. This is [^`;]+; ",
)
# Sentences that name other tools, and what they are for a project of rql.
SENTENCES = {
    "requirements.txt was changed since reqlock saved it. With a copy of the saved one this takes the change over:":
        "requirements.txt was changed since reqlock saved it. This takes the change over:",
    "Write one, with a requirement on each line as flask>=2, or give the folder that has it by --dir":
        "Write one, with a requirement on each line as flask>=2. The lines that were saved last stand in .reqlock/requirements.txt beside the"
        " settings, or git has them.",
    "Where the package index has it, the same edit by rql takes it in.": "With --refresh the same call asks the index for it once more.",
    "Where the package index has them, the same edit by rql takes them in.": "With --refresh the same call asks the index for them once more.",
    "The lock has the hashes: take them out here. reqlock-adopt takes over a whole file of pip-tools.":
        "The lock has the hashes: take them out here. `rql init --from FILE` takes over a whole file of pip-tools, where no settings are yet.",
    "That is a URL, and reqlock locks releases of an index: put a wheel of it where reqlock-snapshot finds it, and write the name.":
        "That is a URL, and what is locked are releases of an index: publish a wheel of it to one that the settings name, and write the name.",
    "--env counts for nothing here: the history has its own environments. `reqlock retarget` gives it others.":
        "--env counts for nothing here: the history has its own environments. `rql env set` and `rql env add` give it others.",
    "Take the line out: reqlock-snapshot is told the index and what of it counts.":
        "Take the line out: the settings of rql name the index and what of it counts.",
}


def spaced(pattern: str) -> str:
    """A pattern of sentences that may be broken between words."""
    return pattern.replace(" ", "[ \n]")


# A call in a line of its own, which is bold where there are colours; in a question; in quotes; and of what `reqlock-merge` tells.
LINE = re.compile(r"(?m)^(    (?:\x1b\[1m)?)(reqlock(?:-[a-z]+)? [^\n]*?)((?:\x1b\[0m)?)$")
QUESTION = re.compile(r"(?m)^(ask: )(reqlock [^\n]*)()$")
QUOTED = re.compile(rf"(?m)^((?:{spaced('|'.join(FRONTS))})?`)(reqlock[^`]*)(`[ \n](?:begins|says)\b)")
MERGING = re.compile(r"(?m)^(rql(?:\.py)?: .*(?:begin anew: |no history; |\| ))(reqlock (?:init|why)\b[^\n]*?)((?: begins one)?)$")
# What the program tells of names that the index lacks, and of releases that this rules out.
LACKED = re.compile(spaced(r"(?m)^the index has no release of (\S+)(?:; near names: \S+(?:, \S+)*)?\n|^the snapshot has no package (\S+), which a line asks for\n"))
LACKS = re.compile(spaced(r"(?m)the snapshot has no packages? \S"))
TAKEN_IN = re.compile(spaced(r"(?m)^Where the package index has (?:it|them), the same edit by rql takes (?:it|them) in\.\n"))
# What `check` says of a lock that is of no target.
STRAY = re.compile(
    r"(?m)^(reqlock: pylock\.[^\n]*: remove it, or move it elsewhere and lock for it too by )"
    r"retarget, with --env ([a-z][a-z0-9-]*)=FILE beside those of the other targets$"
)
CALLS = LINE, QUESTION, QUOTED, MERGING
KNOWN = {re.compile(rf"(?m)^{'[ ]'.join(map(re.escape, old.split(' ')))}$".replace("[ ]", "[ \n]")): new for old, new in SENTENCES.items()}


def in_own_words(text: str, here: Here, width: int | None = None) -> str:
    """What the program tells in lines of so many characters, in the words of rql."""
    text = with_whole_questions(text, width)
    for pattern, sentence in KNOWN.items():
        text = pattern.sub(wrapped(sentence, width), text)
    for pattern in CALLS:
        text = pattern.sub(lambda occurrence: own(occurrence, here), text)
    return STRAY.sub(lambda stray: locked_too(stray, here), text)


def locked_too(stray: "re.Match[str]", here: Here) -> str:
    """What `check` tells of a lock that is of no target."""
    way, target = stray.groups()
    return f"{way}{shlex.join(front(here.start))} env add {target} --pins {target}=FILE"


def own(occurrence: "re.Match[str]", here: Here) -> str:
    """What is found, with the call of rql. One that was broken begins a line of its own."""
    before, call, behind = occurrence.groups()
    told = own_call(" ".join(call.split("\n")), here)
    if told is None:
        return occurrence[0]
    return f"{re.sub(' (?=`$)', chr(10), before) if chr(10) in call else before}{told}{behind}"


def without_lacking(text: str, lacking: Callable[[], Collection[str]]) -> str:
    """The text without what it tells of names that the index lacks, and without what to do then where it tells of no others."""
    names = lacking() if LACKED.search(text) else ()
    rest = LACKED.sub(lambda lack: "" if (lack[1] or lack[2]) in names else lack[0], text)
    return rest if rest == text or LACKS.search(rest) else TAKEN_IN.sub("", rest)


def with_whole_questions(text: str, width: int | None) -> str:
    """The text, with each question in one line. It goes on in the next line where no word of that would have fit any more."""
    if width is None:
        return text
    lines: list[str] = []
    last = 0
    for line in text.split("\n"):
        if lines and lines[-1].startswith("ask: reqlock ") and last + 1 + len(line.split(" ")[0]) > width:
            lines[-1] += f" {line}"
        else:
            lines.append(line)
        last = len(line)
    return "\n".join(lines)


def wrapped(sentence: str, width: int | None) -> str:
    return sentence if width is None else textwrap.fill(sentence, width, break_long_words=False, break_on_hyphens=False)


def has_call(text: str) -> bool:
    """Whether a call of the program stands there."""
    return any(pattern.search(text) for pattern in CALLS)
