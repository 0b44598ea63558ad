#!/usr/bin/env python3
"""Prints rows of versions and specifiers for crates/conformance, or what packaging answers: versions_table.py rows|answers.

Run it with Debian's /usr/bin/python3 and python3-packaging. The rows are a part of crates/conformance/stdin, the answers the same
part of crates/conformance/stdout. Pairs on which reqlock's rules differ by design are marked `-` and counted in the first lines.
"""
import re
import sys
from collections.abc import Iterator

import packaging
from conformance_rows import Row, headlines, print_rows, row_of, told
from packaging.specifiers import Specifier, SpecifierSet
from packaging.version import InvalidVersion, Version

LARGEST = 2**64 - 1
SPACE = " \t\n\r\f\v"

# Texts that packaging reads as versions, most of them in several spellings.
READ = """
0 0.0 0.0.0 v0 0.0.1 0.1 0.9 0.9.9.post1 0a1
1 1.0 1.0.0 1.0.0.0.0.0.0.0.0.0 01 001.000 v1 V1.0 0!1 00!1.0 v0!1
0000000000000000000000000000000000000001
1.0a 1.0a0 1a 1.0.a 1.0-a 1.0_a 1.0alpha 1.0.ALPHA 1.0-Alpha-0 1.0_alpha_00 1.0a.0 1.0A
1.0a1 1a1 1a-1 1a_1 1a.1 1.0a01 1.0alpha1 1.0.alpha.1 1.0-ALPHA-1 1.0_aLpHa_1
1.0a--1 1.0a. 1.0_beta- 1.0.post_ 1.0dev- 1.0a..post1
1.0a12 1.0a12.dev456 1.0a1.dev1 1.0a1dev1 1.0a1-dev_1 1.0a1.post1 1.0a1-1 1.0a1.post1.dev2 1.0a.post.dev
1.0b2 1.0beta2 1.0.beta.2 1.0_BETA_2 1.0B02 1.0b2.post345 1.0b2-345.dev456
1.0rc 1.0c 1.0pre 1.0rc1 1.0c1 1.0pre1 1.0preview1 1.0-rc-1 1.0.C.1 1.0_Pre_1 1.0PREVIEW01 1.0RC1
1.0rc1.dev456 1.0rc1.post1 1.0rc2 1.0rc10
1.0.post 1.0post 1.0.rev 1.0-r 1.0-0 1.0.post0 1.0.post1 1.0post1 1.0-post1 1.0_post-1 1.0rev1 1.0.rev.1
1.0-r1 1.0r1 1.0R01 1.0-1 1.0-01 1.0.POST1 1.0.post1.dev0 1.0-1.dev 1.0-1dev 1.0.post456 1.0.post456.dev34
1.0.dev 1.0dev 1.0-dev 1.0_DEV_0 1.0.dev0 1.dev0 1.0.dev1 1.0dev01 1.0-dev-1 1.0.Dev.1 1.0.dev456
1.0+abc 1.0+ABC v1+Abc 1.0+abc.5 1.0+abc-5 1.0+ABC_05 1.0+5 1.0+05 1+5 1.0+10 1.0+0a 1.0+0A 1.0+ubuntu.1
1.0+Ubuntu-01 1.0+5.5 1.0a1+x 1.0.dev1+x 1.0.post1+x 1.0-1+X 1.0.1+x
1.0+00000000000000000000000000000000000000000010
1.0+18446744073709551615
1.0.1 1.0.1.0 1.0.15 1.1.dev1 1.1a1 1.1 1.1.post1 1.2.3 1.2.3.0 1.2.3.4 1.2.3.4.5.6.7.8.9.10.11.12 1.9 1.10 1.010
2.0.dev1 2.0rc1 2 2.0 2.2 2.2.post3.dev1 2.2.post3 2.2-3 2.3 3.0 2012.2 2012.02 18446744073709551615
1!0 1!0.9 1!1.dev0 1!1a1 1!1.0A1 1!1 1!1.0 v1!1 01!01.0 1!1.0+x 1!1.0.post1 1!1.5 1!2 2!0.1
1!02.0_PreView.3.rev-4_dev5+0a.00
18446744073709551615!1
18446744073709551616 1.18446744073709551616 1!2.dev99999999999999999999 1+99999999999999999999
1.0.po\u017ft1 1.0+\u212a
""".split()

# The white space around a version.
SPACED = [" 1.0", "1.0 ", "\t1.1\n", "\r\f\v2.0rc1 \t", "\x1c1.0", "1.0\x85", "1.0\u00a0"]

# Texts that no rule reads.
REFUSED = """
. v + ! - a a1 v.1 vv1 1. .1 1..0 1.0. 1.0.. 1.x x.1 1.0x 1,0 1.0a1a1 1.0a1b2 1.0rc1rc1 1.0post1a1 1.0dev1a1
1.0dev1post1 1.0.dev.dev 1.0.post1.post2 1.0-1-2 1.0--1 1.0-- 1.0- 1.0_ 1.0_1 1.0.-1 1.0.postx 1.0..post1
1.0.._a1 1.0a1. 1.0alph 1.0alphaa1 1.0gamma1 1.0releases1 1.0p1 1! !1 1!!1 1!v1 -1!1 1.0!1 a!1 1!1!1
1.0+ +abc 1.0+a+b 1.0+a..b 1.0+.a 1.0+a. 1.0+a-_b 1.0+a- 1.0+a!b 1.0+a*b 1.0.* 1.* * ==1.0 1e5 0x10 --1 +1
french-toast 1.0@a \uff11 1.0\u00e9 1.0a\u0663 1.0+\uff41
""".split()
REFUSED += ["", " ", "1 .0", "1. 0", "1.0 a1", "1.0 +x", "1.0+ x", "1.0\n1", "1.0;", "v 1", "1 !1"]

SETS = [
    *"==1 ==1.0 ==1.0.0 ==v1.0 ==1.0+abc ==1.0+ABC-05 ==1.0+5 ==1.0a1 ==1-ALPHA-1 ==1.0.dev1 ==1.0-1".split(),
    *"==1!1.0 ==0!1.0 ==2.2-r3 !=1.0 !=1.0+5 !=1!1 !=1.0rc1 !=1.0.post1".split(),
    *"==1.* ==1.0.* ==1.0.0.* ==v01.0.* ==0.* ==1!1.* ==1!1.0.* ==2!0.* ==1.2.3.* ==2.2.*".split(),
    *"!=1.* !=1.0.* !=0.* !=1!1.* ~=1.0 ~=1.0.0 ~=1.0a1 ~=1.0.dev1 ~=1.0rc1 ~=1.0.post1 ~=2.2.post3".split(),
    *"~=0.0 ~=0.9 ~=1.2.3 ~=1!1.0 ~=1!0.9 <=1.0 <=1.0a1 <=1.0.dev1 <=1.0.post1 <=1!1 >=1.0 >=1.0a1".split(),
    *">=1.0.dev0 >=1.0.post1 >=1!0 >=1.0-1.dev0 <1.0 <1.0rc1 <1.0.dev1 <1.0.post1 <1!1 <1.1 <2 >1.0".split(),
    *">1.0a1 >1.0.dev0 >1.0.post1 >1!0 >1.1 >1.0rc1.post1 >0.9".split(),
    *["", ">=1,<2", ">=1,!=1.0.*", ">1,<2,!=1.0.1", " ~=1.0 , <1.2", ">=1.0,", "\t==1.*,>1a1"],
]

TEXTS = "a number of more than 64 bits", "other white space around a text", "a letter outside ASCII"
ABOVE = "`>V` and a candidate above V, of its epoch and release, with a local part"
EPOCHS = "`.*` or `~=` where packaging 23.0 pads or cuts behind an epoch"


def read(text: str) -> Version | None:
    try:
        return Version(text)
    except InvalidVersion:
        return None


def numbers(version: Version) -> list[int]:
    parts = [version.epoch, *version.release, version.post or 0, version.dev or 0]
    parts += [version.pre[1]] if version.pre else []
    return parts + [int(part) for part in re.split(r"\D+", version.local or "") if part]


def text_class(text: str) -> str | None:
    """The class of texts by which reqlock refuses, by design, what packaging reads."""
    if max(numbers(Version(text))) > LARGEST:
        return TEXTS[0]
    if text.strip() != text.strip(SPACE):
        return TEXTS[1]
    return None if text.isascii() else TEXTS[2]


def trimmed(release: tuple[int, ...]) -> list[int]:
    kept = list(release)
    while len(kept) > 1 and kept[-1] == 0:
        kept.pop()
    return kept


def misreads_epoch(specifier: Specifier, candidate: Version) -> bool:
    """Whether packaging keeps an epoch and the number behind it as one part where it compares a prefix."""
    if not (specifier.operator == "~=" or specifier.version.endswith(".*")):
        return False
    version = Version(specifier.version.removesuffix(".*"))
    prefix = version.release[:-1] if specifier.operator == "~=" else version.release
    if candidate.epoch == 0 or version.epoch not in (0, candidate.epoch):
        return False
    if version.epoch == 0:
        return not any(prefix)
    release = trimmed(candidate.release)
    return len(release) < len(prefix) or (len(release) == 1 and candidate.pre is not None)


def pair_class(specifiers: list[Specifier], candidate: Version) -> str | None:
    """The class of pairs by which reqlock's answer differs by design, or packaging's is a mistake."""
    for specifier in specifiers:
        if misreads_epoch(specifier, candidate):
            return EPOCHS
        if specifier.operator == ">" and candidate.local is not None:
            version = Version(specifier.version)
            same_release = Version(candidate.base_version) == Version(version.base_version)
            if same_release and Version(candidate.public) > version:
                return ABOVE
    return None


def answers(text: str, candidates: list[tuple[Version, int]], left_out: dict[str, int]) -> str:
    """A mark for each rank: whether the set accepts the versions of this rank, or `-`."""
    specifiers = [Specifier(piece) for piece in text.split(",") if piece.strip()]
    whole = SpecifierSet(text)
    marks: dict[int, str] = {}
    for version, rank in candidates:
        pair = pair_class(specifiers, version)
        if pair is not None:
            left_out[pair] += 1
        mark = "-" if pair else str(int(whole.contains(version, prereleases=True)))
        if marks.setdefault(rank, mark) != mark:
            sys.exit(f"versions_table: {text!r} tells versions of rank {rank} apart: {version}")
    return "".join(marks[rank] for rank in sorted(marks))


def read_texts(left_out: dict[str, int]) -> list[list[str]]:
    """The texts of versions that are equal, in rising order."""
    texts = []
    for text in READ + SPACED:
        kind = text_class(text)
        if kind is None:
            texts.append(text)
        else:
            left_out[kind] += 1
    ranks: list[list[str]] = []
    for text in sorted(texts, key=Version):
        if ranks and Version(ranks[-1][0]) == Version(text):
            ranks[-1].append(text)
        else:
            ranks.append([text])
    return ranks


def rank_rows(ranks: list[list[str]]) -> Iterator[Row]:
    """A row for the texts of each rank, from the lowest one on."""
    for place, texts in enumerate(ranks):
        yield row_of("above" if place else "lowest", *texts), "; ".join(told(Version(text)) for text in texts)


def set_row(text: str, marks: str) -> Row:
    """A row that asks which ranks a set accepts, but for those that are left out."""
    asked = re.sub("[01]", "?", marks)
    return row_of("accept", text, asked) if "-" in asked else row_of("accept", text), marks


def main() -> None:
    left_out = dict.fromkeys([*TEXTS, ABOVE, EPOCHS], 0)
    ranks = read_texts(left_out)
    for text in REFUSED:
        if read(text) is not None:
            sys.exit(f"versions_table: packaging reads {text!r}")
    candidates = [(Version(text), rank) for rank, texts in enumerate(ranks) for text in texts]
    sets = [set_row(text, answers(text, candidates, left_out)) for text in SETS]
    pairs = len(SETS) * len(candidates)
    counts = f"{len(candidates)} texts of {len(ranks)} ranks, {len(REFUSED)} refused texts, {len(SETS)} sets"

    rows = headlines(
        f"What packaging {packaging.__version__} answers on versions and sets, printed by tools/versions_table.py.",
        f"{counts}, {pairs - left_out[ABOVE] - left_out[EPOCHS]} of {pairs} pairs.",
        "Left out, since our rules differ by design or packaging departs from PEP 440:",
        *(f"- {kind}: {count} {'texts' if kind in TEXTS else 'pairs'}" for kind, count in left_out.items()),
        "",
        "Versions in rising order, those that are equal in one row: the canonical text of each.",
    )
    rows += rank_rows(ranks)
    rows += headlines("", "Texts that are no versions.")
    rows += [(row_of("version", text), "this is no version") for text in REFUSED]
    rows += headlines("", "Sets, and for each row of versions whether they accept it; a dash where that is left out.")
    print_rows("versions_table.py", rows + sets)


main()
