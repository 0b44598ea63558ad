"""Each relative link of a page leads to a file, and its part behind `#` to a heading of that file. Each page that is named in words stands
there too. Links of README.md lead to every page of docs/, by one other page at most. Pages for users are short, and so are the sentences of
all pages but CHANGELOG.md."""

import re
import unittest
from pathlib import Path

from support.places import TOP

FOLDERS = ".", "bench", "crates/*", "docs", "docs/makers", "tools/tests/support/*"
LINK = re.compile(r"\]\((?!https?:)([^()#\s]*)(?:#([^()\s]*))?\)")
NAMED = re.compile(r"(?<![\w/])docs/[\w/]+\.md\b")


def pages() -> list[Path]:
    return sorted(path for folder in FOLDERS for path in TOP.glob(f"{folder}/*.md"))


def headings(page: Path) -> set[str]:
    """The headings of a page, as a link names them: in lower case, without punctuation, with `-` for each space."""
    lines = re.findall(r"^#+ (.*)$", page.read_text(encoding="utf-8"), re.MULTILINE)
    return {re.sub(r"[^\w\- ]", "", line.lower()).replace(" ", "-") for line in lines}


def linked(page: Path) -> set[Path]:
    """The pages to which the links of a page lead."""
    paths = ((page.parent / path).resolve() for path, _ in LINK.findall(page.read_text(encoding="utf-8")) if path)
    return {path for path in paths if path.suffix == ".md" and path.is_file()}


def for_users() -> set[Path]:
    """README.md and the pages that its list has for those who use reqlock: the rows before that of what is trusted."""
    readme = TOP / "README.md"
    rows = readme.read_text(encoding="utf-8").split("## Pages\n")[1].split("\n| trust it |")[0]
    return {readme, *((TOP / path).resolve() for path, _ in LINK.findall(rows))}


def sentences(text: str) -> list[str]:
    """The sentences of a page, and what stands before a colon, without tables and indented or fenced blocks. Code is one word."""
    pieces = []
    for block in re.split(r"\n\s*\n|\n(?=- |\d+\. |\|)", re.sub(r"(?ms)^```.*?^```$", "", text)):
        if not block.startswith(("    ", "#", "|", "![", "<!--")):
            plain = re.sub(r"\]\([^)]*\)", "]", re.sub(r"`[^`]*`", "`x`", " ".join(block.split())))
            pieces += re.split(r"(?<=[a-z0-9`)\]][.!?:])\s+|(?<=[.!?]\*\*)\s+", plain)
    return [sentence for sentence in pieces if sentence]


class Pages(unittest.TestCase):
    def test_each_link_leads_somewhere(self) -> None:
        for page in pages():
            for path, heading in LINK.findall(page.read_text(encoding="utf-8")):
                with self.subTest(page=page.relative_to(TOP), link=path, heading=heading):
                    target = page.parent / path if path else page
                    self.assertTrue(target.exists())
                    if heading:
                        self.assertIn(heading, headings(target))

    def test_readme_leads_to_each_page(self) -> None:
        linked_pages = linked(TOP / "README.md")
        reached = linked_pages.union(*map(linked, linked_pages))
        self.assertEqual({path for path in pages() if path.is_relative_to(TOP / "docs")} - reached, set())

    def test_each_page_that_is_named_stands_there(self) -> None:
        for page in pages():
            for name in NAMED.findall(page.read_text(encoding="utf-8")):
                with self.subTest(page=page.relative_to(TOP), name=name):
                    self.assertTrue((TOP / name).exists())

    def test_pages_for_users_are_short(self) -> None:
        """At most 1,200 words. The tables of REFERENCE.md are made of what `--help` prints."""
        user_pages = for_users()
        self.assertGreater(len(user_pages), 20)
        for page in user_pages:
            with self.subTest(page=page.name):
                self.assertTrue(len(page.read_text(encoding="utf-8").split()) <= 1200 or page.name == "REFERENCE.md")

    def test_sentences_are_short(self) -> None:
        """Nine of ten sentences have fewer than 25 words."""
        for page in [page for page in pages() if page != TOP / "CHANGELOG.md"]:
            told = sentences(page.read_text(encoding="utf-8"))
            long = [sentence for sentence in told if len(sentence.split()) >= 25]
            with self.subTest(page=page.relative_to(TOP), long=long):
                self.assertLessEqual(10 * len(long), len(told))


if __name__ == "__main__":
    unittest.main()
