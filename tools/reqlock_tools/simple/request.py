"""The words behind `snapshot.py simple` and `snapshot.py again`."""

import argparse
import re
import urllib.parse
from collections.abc import Callable, Iterable
from dataclasses import dataclass, replace
from functools import partial

from reqlock_tools.libraries import absent_text, library
from reqlock_tools.limits import limits_of, limits_text
from reqlock_tools.names import called, tool
from reqlock_tools.number_words import number
from reqlock_tools.refusal import Refusal
from reqlock_tools.requirements import doubt_of, fault_of, read_lines
from reqlock_tools.simple.addresses import plain_url, without_password
from reqlock_tools.simple.bounds import read_constraints
from reqlock_tools.simple.cache import default_folder
from reqlock_tools.simple.locked import locked_versions, texts_of
from reqlock_tools.simple.made import is_moment, is_pattern, read_plan
from reqlock_tools.simple.plan import JOBS, RETRIES, SECONDS, Asking, IndexAddress, Options, Plan, followed_texts
from reqlock_tools.simple.targets import read_targets
from reqlock_tools.snapshot_output import say

MOST_JOBS = 256
WRITTEN = "`/`, `:` and `@` in a password are written %2F, %3A and %40, and so is an `@` in a path"
LIBRARIES = "packaging", "urllib3"
DESCRIPTION = """Make a snapshot, the index that reqlock locks from, of a package index that has the Simple API.

Packages are followed from the requirements file, and from NAMEs, which are requirements too, as 'flask[async]': all releases
of each, and what these depend on, with the extras that are asked for, where a marker can hold in one of the environments.
A release's metadata is read beside its wheels, from the end of a wheel, or from an sdist. What is fetched is kept in a cache.

What is left out is told on standard error, and so are names that the index doesn't have.

The status is 0; or 1 where a file or an answer is refused, which is named, and no snapshot is written; or 2 where the words
are no request; or 130 after Ctrl-C."""
AGAIN = """Make a snapshot again, in its place: of the same indexes, for the same environments and by the same options, as it tells itself
in its key `made`, with NAMEs too. Names that were given before stay, and so do the lines of requirements files, unless --for gives
others; in the same way --env, --constraints and --keep take the place of what was given then. The same answers of the indexes
give the same bytes."""


@dataclass(frozen=True)
class Sources:
    """What is followed, and for what, as it was typed: requirements, and the paths of files. An environment may have its name in
    front."""

    names: tuple[str, ...]
    requirements: tuple[str, ...]
    environments: tuple[str, ...]
    constraints: tuple[str, ...]
    keep: tuple[str, ...]


@dataclass(frozen=True)
class Request:
    """A snapshot that is to be made: what reads its plan, how indexes are asked, their addresses as they were typed, and where it is to
    stand, which is standard output where that is None."""

    plan: Callable[[], Plan]
    asking: Asking
    urls: tuple[str, ...]
    output: str | None


def add_limits(parser: argparse.ArgumentParser) -> None:
    parser.add_argument(
        "--limit", metavar="NAME=NUMBER", action="append", default=[],
        help="take more of something, or less: the limits stand below",
    )


def add_choices(parser: argparse.ArgumentParser) -> None:
    group = parser.add_argument_group("what goes into the snapshot")
    group.add_argument("--for-this-machine", action="store_true", help=argparse.SUPPRESS)
    group.add_argument("--any-platform", action="store_true", help="keep also what an environment takes no file of")
    group.add_argument("--only-binary", action="store_true", help="leave out sdists")
    group.add_argument("--no-pre", action="store_true", help="leave out pre-releases")
    group.add_argument(
        "--newest", metavar="N", type=number(int, 1), help="the newest N releases of a package, and as many pre-releases"
    )
    group.add_argument(
        "--exclude-newer", metavar="DATE", help="files that were uploaded on that day in UTC, or at that time, at the latest"
    )
    group.add_argument(
        "--assume-no-dependencies", action="store_true",
        help="keep a release that has only an sdist which doesn't tell all its dependencies, with those that it lists",
    )


def add_requests(parser: argparse.ArgumentParser) -> None:
    group = parser.add_argument_group("how the index is asked")
    group.add_argument("--jobs", metavar="N", type=number(int, 1, MOST_JOBS), default=JOBS, help=f"requests at the same time; {JOBS}")
    group.add_argument(
        "--timeout", metavar="SECONDS", type=number(float, 0.01), default=SECONDS, help=f"longest wait for an answer; {SECONDS:g}"
    )
    group.add_argument(
        "--retries", metavar="N", type=number(int, 0), default=RETRIES, help=f"how often a request is tried again; {RETRIES}"
    )
    group.add_argument("--cache", metavar="DIR", default=default_folder(), help="what is fetched is kept in DIR; %(default)s")
    group.add_argument("--refresh", action="store_true", help="ask also for pages that are said to be fresh yet")
    group.add_argument("--offline", action="store_true", help="ask nobody, and take all from the cache")
    add_limits(parser)


def add_sources(parser: argparse.ArgumentParser) -> None:
    """What is followed, and for what: the same for a new snapshot and for one that is made again."""
    parser.add_argument(
        "--for", metavar="FILE", dest="requirements", action="append", default=[], help="a requirements file to follow"
    )
    parser.add_argument(
        "--env", metavar="[NAME=]FILE", action="append", default=[],
        help=called("an environment, as environment.py prints it; may stand several times"),
    )
    parser.add_argument(
        "--constraints", metavar="FILE", action="append", default=[],
        help="leave out releases that aren't within the lines of FILE; or, where FILE is a lock, other versions than it has",
    )
    parser.add_argument(
        "--keep", metavar="LOCK", action="append", default=[],
        help="a pylock.toml whose releases stay, where an environment takes them; may stand several times",
    )


def simple_parser() -> argparse.ArgumentParser:
    parser = argparse.ArgumentParser(
        prog=f"{tool('snapshot')} simple", description=DESCRIPTION, formatter_class=argparse.RawDescriptionHelpFormatter,
        epilog=limits_text(),
    )
    parser.add_argument("url", metavar="URL", help="the index, as https://HOST/simple/")
    parser.add_argument("names", metavar="NAME", nargs="*", help="a package, or a requirement, to follow")
    parser.add_argument(
        "--index", metavar="URL", action="append", default=[], help="an index for names that those before it don't have"
    )
    parser.add_argument(
        "--only", metavar="NAME=URL", action="append", default=[],
        help="an index that is asked for NAME alone, in which * stands for any text; no other is asked for that",
    )
    add_sources(parser)
    parser.add_argument("--output", metavar="FILE", help="write the snapshot to FILE, not to standard output")
    add_choices(parser)
    add_requests(parser)
    return parser


def again_parser() -> argparse.ArgumentParser:
    parser = argparse.ArgumentParser(
        prog=f"{tool('snapshot')} again", description=AGAIN, formatter_class=argparse.RawDescriptionHelpFormatter, epilog=limits_text(),
    )
    parser.add_argument("names", metavar="NAME", nargs="*", help="a package, or a requirement, to follow too")
    add_sources(parser)
    parser.add_argument("--output", metavar="FILE", required=True, help="the snapshot that is made again, in its place")
    add_requests(parser)
    return parser


def simple_request(arguments: list[str]) -> Request:
    """The request that the words behind `simple` spell."""
    parser = simple_parser()
    options = parser.parse_intermixed_args(arguments)
    refuse_faults(parser, options.names, options.cache, options.limit)
    if not options.names and not options.requirements:
        parser.error("what is it for? Give --for FILE, or names of packages")
    addresses = addresses_of(parser, (options.url, *options.index), options.only)
    if options.exclude_newer is not None and not is_moment(options.exclude_newer):
        forms = "no date, as 2024-05-01, and no time, as 2024-05-01T12:00:00Z"
        parser.error(f"--exclude-newer: {options.exclude_newer!a} is {forms}")
    urls = (options.url, *options.index, *(word.partition("=")[2] for word in options.only))
    plan = partial(new_plan, sources_of(options), addresses, choices_of(options), options.for_this_machine)
    return Request(plan, asking_of(options), urls, options.output)


def again_request(arguments: list[str]) -> Request:
    """The request that the words behind `again` spell."""
    parser = again_parser()
    options = parser.parse_intermixed_args(arguments)
    refuse_faults(parser, options.names, options.cache, options.limit)
    return Request(partial(plan_again, options.output, sources_of(options)), asking_of(options), (), options.output)


def asking_of(options: argparse.Namespace) -> Asking:
    return Asking(
        jobs=options.jobs, timeout=options.timeout, retries=options.retries, cache=options.cache, is_offline=options.offline,
        is_refreshed=options.refresh, limits=limits_of(options.limit),
    )


def sources_of(options: argparse.Namespace) -> Sources:
    return Sources(
        names=tuple(options.names), requirements=tuple(options.requirements), environments=tuple(options.env),
        constraints=tuple(options.constraints), keep=tuple(options.keep),
    )


def choices_of(options: argparse.Namespace) -> Options:
    return Options(
        only_binary=options.only_binary, no_pre=options.no_pre, newest=options.newest, exclude_newer=options.exclude_newer,
        assume_no_dependencies=options.assume_no_dependencies, any_platform=options.any_platform,
    )


def new_plan(sources: Sources, addresses: tuple[IndexAddress, ...], choices: Options, is_here: bool) -> Plan:
    """The plan of words. Their files are read."""
    return Plan(
        indexes=addresses,
        names=followed_texts(sources.names),
        lines=read_followed(sources.requirements),
        environments=read_targets(sources.environments, choices.any_platform, is_here, say),
        constraints=tuple(read_constraints(path, say) for path in sources.constraints),
        keep=texts_of(locked_versions(sources.keep)),
        options=choices,
    )


def plan_again(path: str, sources: Sources) -> Plan:
    """The plan by which a snapshot was made, with more names. Files that are given take the place of those of the same kind."""
    plan = read_plan(path)
    plan = replace(plan, names=followed_texts([*plan.names, *sources.names]))
    if sources.requirements:
        plan = replace(plan, lines=read_followed(sources.requirements))
    if sources.environments:
        plan = replace(plan, environments=read_targets(sources.environments, plan.options.any_platform, False, say))
    if sources.keep:
        plan = replace(plan, keep=texts_of(locked_versions(sources.keep)))
    if sources.constraints:
        plan = replace(plan, constraints=tuple(read_constraints(path, say) for path in sources.constraints))
    elif plan.constraints:
        files = ", ".join(constraints.file for constraints in plan.constraints)
        say(f"constraints as they were then, of {files}; --constraints FILE reads them anew")
    return plan


def read_followed(paths: Iterable[str]) -> tuple[str, ...]:
    return followed_texts(text for path in paths for text in read_lines(path, say))


def addresses_of(parser: argparse.ArgumentParser, urls: Iterable[str], bound: Iterable[str]) -> tuple[IndexAddress, ...]:
    """The indexes in the order in which they are asked, of their addresses and of words of --only."""
    only: dict[str, list[str]] = {}
    for url in urls:
        only.setdefault(address_in(parser, url), [])
    for word in bound:
        pattern, _, url = word.partition("=")
        if not is_pattern(pattern):
            parser.error(f"--only: {without_password(word)!a} isn't NAME=URL, in which * may stand for any text of a name")
        only.setdefault(address_in(parser, url), []).append(re.sub("[-_.]+", "-", pattern).lower())
    return tuple(IndexAddress(url, tuple(patterns)) for url, patterns in only.items())


def address_in(parser: argparse.ArgumentParser, url: str) -> str:
    """The address of an index, without user and password."""
    try:
        parts = urllib.parse.urlsplit(url)
        port = parts.port
    except ValueError:
        parser.error(f"URL: its host and port can't be read; {WRITTEN}")
    if "@" in parts.path:
        parser.error(f"URL: an `@` is in its path, so what stands before may be a password; {WRITTEN}")
    if parts.scheme not in ("http", "https") or not parts.hostname or port == 0 or parts.query or parts.fragment:
        parser.error("URL is the address of an index, as https://HOST/simple/; a folder named simple is given as ./simple")
    return plain_url(url)


def refuse_faults(parser: argparse.ArgumentParser, names: Iterable[str], cache: str | None, limits: list[str]) -> None:
    """Ends with what is wrong with words that both calls take."""
    for name in LIBRARIES:
        if library(name) is None:
            parser.error(absent_text(name))
    for text in names:
        if fault := fault_of(text) or doubt_of(text):
            parser.error(f"{without_password(text)!a}: {without_password(fault)}")
    if cache is None:
        parser.error("--cache DIR is needed, since neither platformdirs nor pip is there to tell the user's own folder")
    try:
        limits_of(limits)
    except Refusal as fault:
        parser.error(str(fault))
