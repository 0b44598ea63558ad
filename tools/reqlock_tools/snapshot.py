"""Make a snapshot, the index that reqlock locks from: of a package index, or of a folder.

  snapshot.py simple URL [NAME ..] --for requirements.txt --env environment.json --output index.json
            asks the package index at URL; `snapshot.py simple --help` tells how
  snapshot.py again [NAME ..] --output index.json
            makes that snapshot of an index again, as it was made, with more names
  snapshot.py FOLDER --output index.json
            reads a folder of wheels, sdists and documents, and asks nobody. A folder that is
            named `simple` or `again` is given as ./simple or ./again

These files in FOLDER and the folders below it are read. Others are passed over.

  *.whl, *.tar.gz, *.zip
            wheels and sdists. Their URLs are those of the files here, unless --base-url
            tells where the folder will be served
  *.json    (or just "json") a body of the JSON API of package indexes: that of
            /pypi/NAME/json, or of /pypi/NAME/VERSION/json
  METADATA  of a wheel, or
  PKG-INFO  of an sdist: beside it stands files.json, the files of that release, as
            [{"name": "a-1.tar.gz", "url": "https://files.example/a-1.tar.gz",
              "size": 1000, "sha256": "64 hexadecimal digits"}, ..]
            where a file may have "yanked": true and "requires_python": ">=3.8" too

The body of /pypi/NAME/json lists the files of all releases, and tells the dependencies
of one. The others need bodies of their own: a release with files whose dependencies no
document tells is left out, and named on standard error. So is a release whose archives
ask for different things. A release that has archives is made of these; documents are
asked whether it is yanked, and for its dependencies where no archive tells them.

Packages that others depend on and of which nothing is told are named on standard error;
with --for, those that the requirements lead to, with the extras that they ask for.

The status is 0; or 1 where a document is refused, which is named, and no snapshot is
written; or 2 where the words are no request; or 130 after Ctrl-C.
"""

import argparse
import re
from collections.abc import Callable
from functools import partial

from reqlock_tools.folder_snapshot import FolderRequest, folder_packages, say_absent
from reqlock_tools.limits import limits_text
from reqlock_tools.names import called, tool
from reqlock_tools.refusal import Refusal, fault_text
from reqlock_tools.requirements import read_lines
from reqlock_tools.simple.addresses import parts_of
from reqlock_tools.simple.credentials import Credentials, way
from reqlock_tools.simple.request import Request, add_limits, again_request, simple_request
from reqlock_tools.simple.run import Run
from reqlock_tools.simple.targets import read_target
from reqlock_tools.snapshot_output import Snapshot, refuse_place, say, write_snapshot

INTERRUPTED = 130


def make_of_folder(request: FolderRequest) -> None:
    """Reads archives and documents, and writes the snapshot."""
    refuse_place(request.output)
    texts = [text for path in request.requirements for text in read_lines(path, say)] if request.requirements else None
    environments = [dict(read_target(word)[1].variables) for word in request.environments]
    packages = folder_packages(request)
    say_absent(packages, texts, environments)
    write_snapshot(Snapshot(packages, None), request.output)


def make_of_index(request: Request) -> None:
    """Asks the indexes, and writes the snapshot."""
    refuse_place(request.output)
    plan = request.plan()
    for url in request.urls:
        if parts_of(url).password is not None:
            say(f"each process of this machine can read the password in the words of this call: {way(url)}")
    credentials = Credentials(request.urls or [address.url for address in plan.indexes], say, are_typed=bool(request.urls))
    write_snapshot(Run(plan, request.asking, credentials).snapshot(), request.output)


def parser_of() -> argparse.ArgumentParser:
    """Of a snapshot of a folder; `simple` and `again` have parsers of their own."""
    parser = argparse.ArgumentParser(
        prog=tool("snapshot"), description=called(__doc__ or ""), formatter_class=argparse.RawDescriptionHelpFormatter,
        epilog=limits_text(),
    )
    parser.add_argument("folder", metavar="FOLDER", help="the folder of the archives and documents")
    parser.add_argument("--output", metavar="FILE", help="write the snapshot to FILE, not to standard output")
    parser.add_argument("--base-url", metavar="URL", help="where the folder with its archives will be served")
    parser.add_argument(
        "--for", metavar="FILE", dest="requirements", action="append", default=[],
        help="a requirements file: packages that it leads to are named where they are absent",
    )
    parser.add_argument(
        "--env", metavar="[NAME=]FILE", action="append", default=[],
        help="an environment: what no environment needs isn't named as absent",
    )
    parser.add_argument(
        "--assume-no-dependencies",
        action="store_true",
        help="keep a release whose dependencies no document tells, as if it had none",
    )
    add_limits(parser)
    return parser


def folder_request(arguments: list[str]) -> FolderRequest:
    parser = parser_of()
    options, rest = parser.parse_known_args(arguments)
    if any(re.match("https?://", word) for word in (options.folder, *rest)):
        parser.error(called("an index is asked by `snapshot.py simple URL ..`, with `simple` before all options"))
    if rest:
        parser.error(f"unrecognized arguments: {' '.join(rest)}")
    return FolderRequest(
        folder=options.folder, base_url=options.base_url, requirements=tuple(options.requirements), environments=tuple(options.env),
        assumes_none=options.assume_no_dependencies, limits=tuple(options.limit), output=options.output,
    )


def work_of(words: list[str]) -> Callable[[], None]:
    """What the words ask for."""
    if words[:1] == ["simple"]:
        return partial(make_of_index, simple_request(words[1:]))
    if words[:1] == ["again"]:
        return partial(make_of_index, again_request(words[1:]))
    return partial(make_of_folder, folder_request(words))


def main(words: list[str]) -> int:
    work = work_of(words)
    try:
        work()
    except (Refusal, OSError) as fault:
        say(fault_text(fault))
        return 1
    except KeyboardInterrupt:
        say("stopped; no snapshot is written")
        return INTERRUPTED
    return 0
