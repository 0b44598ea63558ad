"""What git has of a folder: its files in commits and in the index. No shell stands between, and lists are read with NULs."""

import os
import subprocess
from pathlib import Path
from typing import NamedTuple

from reqlock_tools.refusal import Refusal

# Of a file that others changed, as many commits are looked through for the version that reqlock saved.
MOST_COMMITS = 100
# A version that has more bytes isn't looked at, nor are all versions that have more.
LARGEST_VERSION = 128 * 2**20
MOST_BYTES = 1024 * 2**20
# A folder of a checkout can look like a git directory, whose settings would name programs to run; so may the checkout's own name
# one. Of things that have one name git takes its own first, and then tells no more of the others.
SETTINGS = "safe.bareRepository=explicit", "core.fsmonitor=false", "core.warnAmbiguousRefs=false"
GIT = "git", *(word for setting in SETTINGS for word in ("-c", setting))
# Git's names for the commit whose changes are being brought in. A rebase has the third one too.
INCOMING = "MERGE_HEAD", "REVERT_HEAD", "CHERRY_PICK_HEAD", "REBASE_HEAD"


class Sides(NamedTuple):
    """Git's names for the commits of both sides; `theirs` is empty where the index alone has the other side."""

    ours: str
    theirs: str


class Blob(NamedTuple):
    """A version of a file: git's name of what it holds, and its bytes."""

    name: str
    size: int


class Checkout:
    """A folder of a git checkout, at its top or below."""

    def __init__(self, folder: str) -> None:
        self.folder = folder
        self.bytes_left = MOST_BYTES
        if not os.path.isdir(folder):
            raise Refusal(f"{folder}: there is no such folder")
        if self.ended("rev-parse", "--is-inside-work-tree")[1] != b"true\n":
            raise Refusal(f"{folder}: it stands in no git checkout")

    def ended(self, *words: str, data: bytes = b"") -> tuple[int, bytes, bytes]:
        """The status of git, and what it wrote."""
        try:
            done = subprocess.run([*GIT, *words], cwd=self.folder, input=data, capture_output=True, check=False)
        except OSError as fault:
            raise Refusal(f"git: {fault.strerror}") from None
        if done.returncode < 0:
            raise Refusal(f"git {words[0]}: it was ended by signal {-done.returncode}")
        return done.returncode, done.stdout, done.stderr

    def call(self, *words: str, data: bytes = b"") -> bytes:
        status, output, errors = self.ended(*words, data=data)
        if status != 0:
            told = os.fsdecode(errors).strip().partition("\n")[0] or f"it ended with status {status}"
            raise Refusal(f"git {words[0]}: {told}")
        return output

    def has_commit(self, name: str) -> bool:
        return self.ended("rev-parse", "--verify", "--quiet", f"{name}^{{commit}}")[0] == 0

    def path_of(self, name: str) -> Path:
        """Where git keeps a file of its own."""
        return Path(self.folder, os.fsdecode(self.call("rev-parse", "--git-path", name).removesuffix(b"\n")))

    def has_head(self, name: str) -> bool:
        """Whether git keeps a commit under a name of its own. A tag or a branch of that name is another's."""
        return self.has_commit(name) and not self.call("rev-parse", "--symbolic-full-name", name).startswith(b"refs/")

    def blobs(self, names: list[str]) -> list[Blob | None]:
        """The versions of these names; None where one isn't there."""
        form = "--batch-check=%(objecttype) %(objectname) %(objectsize)"
        rows = self.call("cat-file", form, data="".join(f"{name}\n" for name in names).encode()).splitlines()
        fields = [row.split(b" ") for row in rows]
        return [Blob(words[1].decode(), int(words[2])) if words[0] == b"blob" else None for words in fields]

    def content(self, place: str, blob: Blob) -> bytes:
        """What a version holds, which git has at this place."""
        if blob.size > LARGEST_VERSION:
            raise Refusal(f"{place}: it has over {LARGEST_VERSION} bytes")
        self.bytes_left -= blob.size
        if self.bytes_left < 0:
            raise Refusal(f"{place}: the versions up to this one have over {MOST_BYTES} bytes")
        return self.call("cat-file", "blob", blob.name)

    def unmerged(self, names: list[str]) -> set[str]:
        """Those of the folder's files that git couldn't merge."""
        rows = self.call("ls-files", "--unmerged", "-z", "--", *names).split(b"\0")
        return {os.fsdecode(row.partition(b"\t")[2]) for row in rows if row}

    def sides(self, names: list[str]) -> Sides | None:
        """Both sides of what is in progress; None where nothing is."""
        is_rebasing = any(self.path_of(name).is_dir() for name in ("rebase-merge", "rebase-apply"))
        for name in INCOMING if is_rebasing else INCOMING[:-1]:
            if self.has_head(name):
                self.refuse_many(name)
                return Sides("HEAD", f"{name}^" if name == "REVERT_HEAD" else name)
        return Sides("HEAD", "") if self.unmerged(names) else None

    def refuse_many(self, name: str) -> None:
        if name == "MERGE_HEAD" and len(self.path_of(name).read_bytes().split()) > 1:
            raise Refusal("a merge of more than two branches is in progress; merge them one by one: git merge --abort")

    def versions_of(self, name: str) -> list[str]:
        """Git's names for the last versions of a file that is committed."""
        if not self.has_commit("HEAD"):
            return []
        commits = self.call("log", "-z", "--format=%H", f"--max-count={MOST_COMMITS}", "HEAD", "--", name).split(b"\0")
        return [f"{commit.decode().strip()}:./{name}" for commit in commits if commit.strip()]

    def stage(self, files: dict[str, bytes], gone: list[str]) -> None:
        """Puts files into the index as they are to stand in the folder, and takes out those that go."""
        prefix = self.call("rev-parse", "--show-prefix").removesuffix(b"\n")
        digests = {name: self.call("hash-object", "-w", "--stdin", f"--path={name}", data=data).strip() for name, data in files.items()}
        told = [(self.mode(name), digest, name) for name, digest in digests.items()]
        # (the mode 0 takes a file out, with a digest of zeros alone)
        told += [(b"0", b"0" * len(digest), name) for name in gone for digest in [*digests.values()][:1]]
        rows = b"".join(b"%s %s\t%s%s\0" % (mode, digest, prefix, name.encode()) for mode, digest, name in told)
        self.call("update-index", "-z", "--add", "--index-info", data=rows)

    def mode(self, name: str) -> bytes:
        """The mode that the index has for a file, or that of a file in general."""
        listed_mode = self.call("ls-files", "--stage", "-z", "--", name).partition(b" ")[0]
        return listed_mode if listed_mode.startswith(b"100") else b"100644"
