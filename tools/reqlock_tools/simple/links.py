"""The links of an HTML page with their attributes, read in one pass: what isn't ended stands for nothing, as in browsers."""

import html
import re
from dataclasses import dataclass, field

from reqlock_tools.limits import Limits

Attributes = dict[str, str]

OPENING = re.compile(r"<(!--|[!?]|/?[A-Za-z][^\s/>]*|/)")
ATTRIBUTE = re.compile(r"[\s/]*([^\s/>][^\s/>=]*)(?:\s*(=)\s*)?")
UNQUOTED = re.compile(r"[^\s>]*")
# No other attribute is read.
READ = {
    "href", "name", "content", "data-requires-python", "data-yanked", "data-core-metadata", "data-dist-info-metadata",
}
# What stands in these is no HTML.
RAW = "script", "style", "textarea", "title"


@dataclass
class Page:
    """What a page has: its links, its base, and the version of the API that it tells."""

    links: list[Attributes] = field(default_factory=list)
    base: str | None = None
    version: str = "1.0"

    def take(self, tag: str, attributes: Attributes) -> None:
        if tag == "a" and "href" in attributes:
            self.links.append(attributes)
        elif tag == "base" and self.base is None:
            self.base = attributes.get("href")
        elif tag == "meta" and attributes.get("name") == "pypi:repository-version":
            self.version = attributes.get("content", "")


def behind(text: str, end: str, place: int) -> int:
    """The place behind the next of these; that of the text's end where there is none."""
    end_place = text.find(end, place)
    return len(text) if end_place < 0 else end_place + len(end)


def read_attributes(text: str, place: int) -> tuple[Attributes, int] | None:
    """The attributes of a tag that are read, of two with one name the first, and the place behind the tag; None where it isn't
    ended."""
    attributes: Attributes = {}
    while attribute := ATTRIBUTE.match(text, place):
        value, place = "", attribute.end()
        if attribute[2] and text[place : place + 1] in ("'", '"'):
            start, quote = place + 1, text[place]
            place = behind(text, quote, start)
            value = text[start : place - 1]
            if place == len(text):
                return None
        elif attribute[2]:
            value = UNQUOTED.match(text, place)[0]  # type: ignore[index]  # (it matches each text)
            place += len(value)
        name = attribute[1].lower()
        if name in READ and name not in attributes:
            attributes[name] = unescaped(value)
    end = text.find(">", place)
    return None if end < 0 else (attributes, end + 1)


def unescaped(value: str) -> str:
    try:
        return html.unescape(value)
    except ValueError:  # (a number of thousands of digits)
        return value


def read_links(url: str, text: str, limits: Limits) -> Page:
    page, place = Page(), 0
    while opening := OPENING.search(text, place):
        tag = opening[1].lower()
        if tag == "!--":
            place = behind(text, "-->", opening.start() + 2)
        elif not tag[0].isalpha():
            place = behind(text, ">", opening.start())
        else:
            read = read_attributes(text, opening.end())
            if read is None:
                return page
            attributes, place = read
            page.take(tag, attributes)
            limits.refuse_over("files", len(page.links), url)
            if tag in RAW:
                end = re.compile(f"</{tag}", re.IGNORECASE).search(text, place)
                place = end.start() if end else len(text)
    return page
