#!/usr/bin/env python3
"""Prints rows of markers and requirements for crates/conformance, or what packaging reads: requirements_table.py rows|answers.

Run it with Debian's /usr/bin/python3 and python3-packaging. The rows are a part of crates/conformance/stdin, the answers the same
part of crates/conformance/stdout. Texts on which reqlock's rules differ by design, or packaging's answer is a mistake, are counted
in the first lines; their class is told from the text, never from reqlock's answer.
"""
import json
import re
import sys
from collections.abc import Callable
from pathlib import Path
from typing import Any

import packaging
from conformance_rows import Row, headlines, print_rows, row_of, told
from packaging._parser import Variable, parse_requirement
from packaging.markers import Marker, UndefinedComparison
from packaging.requirements import InvalidRequirement, Requirement
from packaging.specifiers import InvalidSpecifier, Specifier
from packaging.utils import canonicalize_name
from packaging.version import InvalidVersion, Version
from reqlock_tools import environment

LARGEST = 2**64 - 1
ASKED = "foo-bar"
EXAMPLE = Path(__file__).resolve().parent.parent / "examples" / "web" / "environment.json"
ENVIRONMENT = {name: value for name, value in json.loads(EXAMPLE.read_text()).items() if name in environment.VARIABLES}
VERSIONS = "0.9 1.0.dev1 1.0a1 1.0rc1 1.0 1.0.post1 1.0.1 1.1 1.9 2.0rc1 2.0 2.1 10".split()

MARKERS = [
    *(f"{name} == '{value}'" for name, value in ENVIRONMENT.items() if name != "platform_release"),
    *(f"python_version {sign} '3.12'" for sign in "!= < <= > >= ~=".split()),
    *(f"python_version {sign} '3.9'" for sign in "< > ~=".split()),
    *(f"'3.12.3' {sign} python_full_version" for sign in "!= < <= > >= ~=".split()),
    *(f"python_full_version {sign} '3.12.3rc1'" for sign in "== < <= > ~=".split()),
    *(f"implementation_version == '{right}'" for right in "3.* 3.12.* 3.1.* 3.12.3.0 v3.12.3 3.12.03".split()),
    *(f"sys_platform {sign} 'linux2'" for sign in "== != < <= > >=".split()),
    *(f"'Linux' {sign} platform_system" for sign in "== != < >=".split()),
    *(f"platform_machine {sign} 'x86_64 arm64'" for sign in ("in", "not in", "not \t in")),
    "platform_release == '6.1.0-13-amd64'", "platform_release < '7-amd64'", "platform_release >= '6.1.0-2-amd64'",
    "'amd64' in platform_release", "'Debian' not in platform_version", "'' in os_name", "os_name in ''",
    "python_version in '3.11 3.12'", "python_version not in '3.1, 3.13'", "'3.1' in python_version",
    "python_version == '3.12,'", "python_version >= '3.8,<4'", "python_version == ' 3.12 '",
    "python_version < '=3.12'", "python_version > '=3.12'", "python_version >= '3.12+x'", "python_version < ''",
    "os_name == ''", "os_name != 'it\"s'", "os_name < ')'", "os_name == ';'", "os_name == 'a#b'",
    "os_name == 'Posix'", "os_name > 'POSIX'", "'posix'==os_name", "os_name=='posix'", "\tos_name\t==\t'posix'\t",
    'os_name == "posix"', '"x86" in platform_machine', 'os_name == "it\'s"', "((os_name == 'posix'))",
    "( os_name == 'nt' )", "(" * 30 + "os_name=='nt'" + ")" * 30,
    "os_name == 'nt' and os_name == 'nt' or os_name == 'posix'",
    "os_name == 'posix' or os_name == 'nt' and os_name == 'nt'",
    "(os_name == 'posix' or os_name == 'nt') and os_name == 'nt'",
    "os_name == 'posix' and (os_name == 'nt' or sys_platform == 'linux')",
    "os_name=='posix'and(os_name=='nt'or'x'!=os_name)",
    "(os_name=='posix')or(os_name=='nt')and(os_name=='nt')",
    "os_name == 'nt' or os_name == 'nt' or python_version ~= '3.10'",
    "python_version >= '3.8' and python_version < '4' and sys_platform != 'win32'",
    *(f"extra {sign} '{right}'" for right in "foo-bar Foo_Bar foo.-_bar foo other".split() for sign in ("==", "!=")),
    "'foo-bar' == extra", "'FOO.BAR' != extra", "extra=='x'", "extra == 'no name!'", "extra != 'no name!'",
    "extra == '-foo-bar'", "extra == 'foo-bar '", "extra == ''", "'' != extra",
    "extra == 'x' or extra == 'foo--bar'", "os_name == 'posix' and extra == 'foo-bar'",
    "os_name == 'nt' or extra != 'foo_bar'", "(extra == 'foo_bar' or extra == 'x') and os_name != 'nt'",
    # Of the classes.
    "os.name == 'posix'", "sys.platform == 'linux'", "platform.version == 'x'", "platform.machine == 'x86_64'",
    "platform.python_implementation == 'CPython'", "python_implementation == 'CPython'",
    "os_name === 'posix'", "python_version==='3.12'", "python_version == '=3.12'", "python_version ~= 'abc'",
    "os_name ~= 'posix'", "python_version ~= '3'", "python_full_version ~= '3.12.*'", "platform_release >= '6'",
    "'posix' > python_version", "os_name == '1'", "os_name < '1'", "extra == '1'", "extra != '1.0'",
    "extra in 'foo-bar'", "extra not in 'x'", "extra < 'x'", "extra >= 'x'", "'foo' in extra", "'1' ~= extra",
    "extra == extra", "extra == os_name", "os_name != extra", "os_name == os_name", "sys_platform == os_name",
    "python_version <= python_full_version", "'a' < 'b'", "'posix' == 'os_name'", "'1' in '1 2'",
    r"os_name == 'po\x73ix'", r"os_name == 'a\\b'", r"os_name != '\n'", "os_name == 'po\u017fix'",
    "os_name != '\u00e9'", "os_name == '\t'", "os_name == 'a\x7f'", "os_name == 'posix'\n",
    "python_version < '18446744073709551616'", "'1.99999999999999999999' < python_version",
    "(" * 65 + "os_name == 'posix'" + ")" * 65, "(" * 80 + "os_name == 'nt'" + ")" * 80,
]

REFUSED_MARKERS = [
    *"os_name 'posix' == and or () ( ) os_name== =='posix' 'posix'os_name".split(), "", " ", "os_name == posix",
    "OS_NAME == 'posix'", "Os_Name == 'posix'", "os_name = 'posix'", "os_name <> 'posix'", "os_name < = 'posix'",
    "os_name ! = 'posix'", "os_name => 'posix'", "os_name =< 'posix'", "os_name ~ 'posix'", "os_name is 'posix'",
    "os_name == == 'posix'", "os_name == !'posix'", "os_name notin 'posix'", "os_name not 'posix'", "os_name not",
    "os_name not not in 'x'", "os_name no in 'x'", "os_name in in 'x'", "os_name IN 'x'", "os_name NOT IN 'x'",
    "os_name i n 'x'", "not os_name == 'x'", "os_name == 'posix' and", "or os_name == 'posix'",
    "os_name == 'a' AND os_name == 'b'", "os_name == 'a' and or os_name == 'b'", "os_name == 'a' & os_name == 'b'",
    "os_name == 'a', os_name == 'b'", "os_name == 'a' os_name == 'b'", "os_name == 'a' andos_name == 'b'",
    "os_name == 'a' orx", "os_name == 'a' x", "os_name == 'a' # x", "os_name == 'a';", "os_name == 'a' == 'b'",
    "os_name == 'a", "os_name == a'", "os_name == \"a'", "os_name == 'a' 'b'", "os_name == u'a'", "os_name == '''a'''",
    "os_name == `a`", "os_name == 3", "python_version >= 3.8", "(os_name == 'a'", "os_name == 'a')",
    "((os_name == 'a')", "(os_name == 'a'))", "os_name (== 'a')", "(os_name) == 'a'", "os_name == ('a')",
    "() or os_name == 'a'", "[os_name == 'a']", "os-name == 'a'", "os name == 'a'", "os_name2 == 'a'",
    "xos_name == 'a'", "osname == 'a'", "python == '3'", "platform == 'a'", "platform_python_version == '3'",
    "python_full == '3'", "sys_platforms == 'a'", "extras == 'a'", "dependency_groups == 'a'", "Extra == 'a'",
    "os_name\n== 'posix'", "extra", "extra ==", "extra == foo", "true", "os_name == None",
]

# A version part is written for each of a few forms around it.
SETS = [
    *"==1.0 ===1.0 !=1.0 ==1.* !=1.0.* ~=1.0 ~=1.0.0 ~=1.0rc1 >=1.0 >=1.0a1 <=1.0 <1.0 <1.0rc1 >1.0 >1.0.dev0".split(),
    *">=1,<2 >=1,!=1.0.*,<2.0 ==v1 ==1.0.0 ==01.00 ==1.0-1 >=1.0-ALPHA ==1.0+x <10 >1.0.post0 >=1,".split(),
    ">= 1.0", "==\t1.0", ">=1 , <2", " >=1,<2 , ", "~= 1.1",
]

REQUIREMENTS = [
    *SETS, *(f" ({text})" for text in SETS[8:22]), "", "()", " ( )", " (>=1,) ",
]
REQUIREMENTS = [f"a{text}" for text in REQUIREMENTS] + [
    *"A 1 1a a1 B_b B.b b--b Foo.Bar_-baz FrIeNdLy-._.-bArD a.b..c__d 1.0>=1.0 a_b<2".split(), " a", "\ta ", "  a\t>1",
    "a[]", "a[ ]", "a[x]", "a [x]", "a[x,y]", "a[ y , x ]", "a[X,x]", "a[x_Y.z--w,b]", "a[1]", "a[x\t,\ty]", "a[x]>=1",
    "a[x] >=1", "a[x](>=1)", "a[x] (>=1) ", "a [ x ] ( >=1 , <2 )", "a[x,x-y,x_y] <2", "a[]==1.0", "B.b[Foo.Bar]~=1.0",
    "a;os_name=='posix'", "a;os_name=='nt'", "a ; os_name == \"posix\"", "a; os_name == 'posix' ", "a>=1;os_name=='nt'",
    "a>=1 ; python_version>='3.8'", "a (>=1) ; sys_platform == 'win32'", "a(>=1);extra == 'x'", "a[x];extra!='x'",
    "a[x,y]<2 ; (os_name == 'nt' or 'linux' in sys_platform) and python_version < '4'",
    "a ==1.* ; os_name == ';'", "a;os_name!=';'and'#'in platform_version", "a>=1,;os_name=='posix'",
    "a;(os_name=='nt')", "a ~=1.0\t;\tpython_full_version ~= '3.12.0'", "A_a [ x.y ] ( ==1.0 ) ; 'posix' == os_name",
    # Of the classes.
    "a @ https://x.example/a.whl", "a@file:///a", "a[x] @ https://x.example/a.whl ; os_name == 'posix'", "a (===1.0)",
    "a ===1.0,>1", "a_", "a_>=1", "a[x_]", "A__[x]", "a\n", "a>=\n1", "a==1.0.po\u017ft1",
    "a>=18446744073709551616", "a<1.99999999999999999999", "a; os.name == 'posix'", "a; 'a' == 'b'", "a; extra in 'x'",
    "a; platform_release > '6'", "a>=1; os_name == 'a\\\\b'", "a;" + "(" * 65 + "os_name=='nt'" + ")" * 65,
]

REFUSED = [
    *". - _ * 1! -a _a .a a- a. a.. a-. a->=1 a.>=1 a! a? a/b a:b a,b a, a+ a* a=1 a== a> a~= a!= a=>1 a=<1".split(),
    *"a<>1 a!1 a~1 a>==1 a==1,,>0 a>=1,, a,>=1 a>=1<2 a>=1;<2 a>=1,2 a~=1 a~=1.* a>=1.* a<1.0.* a>=1+x a<1+x".split(),
    *"a~=1.0+x a==1.0rc1.* a==1.*.* a==1.0+x.* a==* a==1. a==1.0- a==1..0 a==x a>=french a==1.0,x a==1.0x".split(),
    *"a>=1.0,<= a(>=1 a>=1) a((>=1)) a(>=1),<2 a>1(<2) a(>=1)(<2) a[x a]x[ a[x]] a[[x]] a[x][y] a[,] a[x,] a[,x] a[x,,y]".split(),
    *"a[-x] a[x-] a[x.] a[_x] a[x!] a[x>=1] a(x) a[x;y] [x] [x]a >=1 ==1.0 (a) 'a' \"a\" a; ;a a;; a;x".split(),
    "a;os_name", "#a", "", " ", "\t", "a>=1\r", "a >=1\f", "a b", "a 1.0", "a > = 1", "a >= 1 0", "a == 1.0 -1", "a == 1. 0",
    "a >=1 <2", "a >=1 and <2", "a >=1 or <2", "a[x y]", "a[x;]>=1", "a # b", "a>=1 # b", "a os_name == 'posix'",
    "a>=1 os_name == 'posix'", "a ; ", "a ; # b", "a ; os_name == posix", "a;os_name=='nt';", "a, os_name == 'nt'", "a>=1; >=2",
    "a -- b", "a --hash=sha256:00", "-r a", "-e a", "a \\", "./a", "a.b/c", "git+https://x.example/a", "https://x.example/a.whl",
    "a\u00e9", "a\u017f", "\u00e9", "\uff41", "a==\uff11", "a[\u00e9]", "a;\u00e9",
]

URL = "a URL"
ARBITRARY = "`===`, also as `==` beside a text that begins with `=`"
LEGACY = "a dotted variable or `python_implementation`"
BACKSLASH = "a backslash in a quoted text"
LETTERS = "other than printable ASCII in a quoted text"
OUTSIDE = "a letter outside ASCII, outside quotes"
SPACES = "other white space than spaces and tabs, outside quotes"
NUMBERS = "a number of more than 64 bits"
DEPTH = "more than 64 open parentheses"
ENDINGS = "a name that ends in `_`, which packaging 23.0 reads"
TEXTS = "two quoted texts, of which packaging takes the right one for a variable"
VARIABLES = "two variables, of which packaging takes the right one for a text"
EXTRA = "`extra` in another use than by `==` or `!=` beside a quoted text"
COMPATIBLE = "`~=` on a right text that makes no clause, where packaging raises"
UNREAD = "a clause beside a left text that is no version, where packaging raises"
EMPTY = "`extra` beside an empty text with no extra asked, where packaging has them equal"
CLASSES = [
    *(URL, ARBITRARY, LEGACY, BACKSLASH, LETTERS, OUTSIDE, SPACES, NUMBERS),
    *(DEPTH, ENDINGS, TEXTS, VARIABLES, EXTRA, COMPATIBLE, UNREAD, EMPTY),
]
QUOTED = re.compile("'[^']*'|\"[^\"]*\"")
LEGACY_WORD = re.compile(r"\b(os|sys|platform)\.[a-z]|\bpython_implementation\b")


def deepest(text: str) -> int:
    depth, most = 0, 0
    for letter in text:
        depth += {"(": 1, ")": -1}.get(letter, 0)
        most = max(most, depth)
    return most


def form_class(text: str) -> str | None:
    """The class of a text by its letters alone."""
    quoted, bare = "".join(QUOTED.findall(text)), QUOTED.sub(" ", text)
    wanted = re.split("[;@]", bare)[0]
    if "@" in bare:
        return URL
    if "===" in bare:
        return ARBITRARY
    if LEGACY_WORD.search(bare.partition(";")[2]):
        return LEGACY
    if "\\" in quoted:
        return BACKSLASH
    if not all(" " <= letter <= "~" for letter in quoted):
        return LETTERS
    if not bare.isascii():
        return OUTSIDE
    if re.search(r"[\n\r\f\v]", bare):
        return SPACES
    if any(int(digits) > LARGEST for digits in re.findall("[0-9]+", text)):
        return NUMBERS
    if deepest(bare) > 64:
        return DEPTH
    return ENDINGS if re.search(r"[a-zA-Z0-9][._-]*_(?![a-zA-Z0-9._-])", wanted) else None


def reads(kind: Callable[[str], Any], fault: type[Exception], text: str) -> bool:
    try:
        kind(text)
    except fault:
        return False
    return True


def atom_class(left: Any, sign: Any, right: Any) -> str | None:
    """The class of a comparison."""
    sign, words = str(sign), [isinstance(side, Variable) for side in (left, right)]
    if words == [False, False]:
        return TEXTS
    extra = [side for side, word in zip((left, right), words) if word and side.value == "extra"]
    if extra and (sign not in ("==", "!=") or all(words)):
        return EXTRA
    if all(words):
        return VARIABLES
    values = {**ENVIRONMENT, "extra": ASKED}
    left, right = (values[side.value] if word else side.value for side, word in zip((left, right), words))
    if (sign + right).startswith("==="):
        return ARBITRARY
    if not reads(Specifier, InvalidSpecifier, sign + right):
        return COMPATIBLE if sign == "~=" else None
    return None if reads(Version, InvalidVersion, left) else UNREAD


def atoms(text: str) -> list[Any]:
    """The comparisons of a text's marker, as they are written."""
    parts: list[Any] = []
    left: list[Any] = [parse_requirement(text).marker or []]
    while left:
        for part in left.pop():
            if isinstance(part, list):
                left.append(part)
            elif isinstance(part, tuple):
                parts.append(part)
    return parts


def mark(marker: Any, extra: str) -> str:
    """Whether a marker holds with this extra."""
    try:
        return str(int(marker.evaluate({**ENVIRONMENT, "extra": extra})))
    except (UndefinedComparison, InvalidVersion, KeyError) as fault:
        sys.exit(f"requirements_table: {marker} isn't decided: {fault!r}")


def read(text: str, left_out: dict[str, int]) -> Requirement | None:
    """What packaging reads, or nothing where the text is left out."""
    requirement = Requirement(text)
    kind = form_class(text) or next(filter(None, (atom_class(*atom) for atom in atoms(text))), None)
    if kind is None:
        return requirement
    left_out[kind] += 1
    return None


def marker_row(text: str, left_out: dict[str, int]) -> Row | None:
    """A marker, and whether it holds with no extra, unless that is left out, and with the one asked."""
    # Packaging 23.0's `Marker(text)` ignores what stands behind a whole marker; a requirement's is read to its end.
    requirement = read(f"a;{text}", left_out)
    if requirement is None:
        return None
    marks = {"none": mark(requirement.marker, ""), ASKED: mark(requirement.marker, ASKED)}
    if {"extra", ""} in [{left.value, right.value} for left, _, right in atoms(f"a;{text}")]:
        left_out[EMPTY] += 1
        marks.pop("none")
    return row_of("marker", text, *marks), "".join(marks.values())


def requirement_row(text: str, left_out: dict[str, int]) -> Row | None:
    """A requirement: the normal name, the extras, how many clauses, the versions that match, and whether the marker holds."""
    requirement = read(text, left_out)
    if requirement is None:
        return None
    extras = ",".join(map(canonicalize_name, parse_requirement(text).extras))
    marks = "".join(str(int(requirement.specifier.contains(v, prereleases=True))) for v in VERSIONS)
    active = mark(requirement.marker, "") if requirement.marker else "-"
    name, clauses = canonicalize_name(requirement.name), len(requirement.specifier)
    return row_of("requirement", text), f"{name} [{extras}] {clauses} {marks} {active}"


def environment_row() -> Row:
    """The environment, its version, and the marker that holds in it alone."""
    marker = " and ".join(f'{name} == "{value}"' for name, value in sorted(ENVIRONMENT.items()))
    if not Marker(marker).evaluate(ENVIRONMENT):
        sys.exit("requirements_table: the environment doesn't meet its marker")
    return row_of("environment", json.dumps(ENVIRONMENT)), f"{ENVIRONMENT['python_full_version']}: {marker}"


def refuses_each(texts: list[str], before: str) -> None:
    """Stops where packaging reads one of the texts with `before` in front of it."""
    for text in texts:
        if reads(Requirement, InvalidRequirement, before + text):
            sys.exit(f"requirements_table: packaging reads {text!r}")


def refused_rows(texts: list[str]) -> list[Row]:
    """Rows of texts that are no requirements, each of about a line's length."""
    rows: list[list[str]] = [[]]
    for text in texts:
        if rows[-1] and len(row_of("requirements", *rows[-1], text)) > 100:
            rows.append([])
        rows[-1].append(text)
    return [(row_of("requirements", *row), "0" * len(row)) for row in rows]


def main() -> None:
    every = [MARKERS, REFUSED_MARKERS, REQUIREMENTS, REFUSED]
    for texts in every:
        if len(texts) != len(set(texts)):
            sys.exit(f"requirements_table: {max(texts, key=texts.count)!r} stands twice")
    left_out = dict.fromkeys(CLASSES, 0)
    markers = list(filter(None, (marker_row(text, left_out) for text in MARKERS)))
    requirements = list(filter(None, (requirement_row(text, left_out) for text in REQUIREMENTS)))
    refuses_each(REFUSED_MARKERS, "a;")
    refuses_each(REFUSED, "")

    rows = headlines(
        f"What packaging {packaging.__version__} reads in markers and requirements, printed by tools/requirements_table.py.",
        f"{len(markers)} markers, {len(REFUSED_MARKERS)} refused ones, "
        f"{len(requirements)} requirements, {len(REFUSED)} refused ones.",
        "Left out, since our rules differ by design or packaging's answer is a mistake:",
        *(f"- {kind}: {count}" for kind, count in left_out.items()),
        "",
        "The environment: its version, and the marker that holds in it alone.",
    )
    rows += [environment_row(), *headlines("", "Markers, and whether they hold with no extra and with one."), *markers]
    rows += headlines("", "Texts that are no markers.")
    rows += [(row_of("marker", text), "line 1: this is no marker") for text in REFUSED_MARKERS]
    rows += headlines("", "The versions on which the specifiers of requirements are tried.")
    rows += [(row_of("above" if place else "lowest", text), told(Version(text))) for place, text in enumerate(VERSIONS)]
    rows += headlines(
        "",
        "Requirements: the name, the extras, how many clauses there are, a mark for each version, and whether the marker",
        "holds, or a dash where there is none.",
    )
    rows += [*requirements, *headlines("", "Texts that are no requirements.")]
    print_rows("requirements_table.py", rows + refused_rows(REFUSED))


main()
