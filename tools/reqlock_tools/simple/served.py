"""The files of a release that somebody serves."""

from collections.abc import Callable
from typing import TypeVar

from reqlock_tools.simple.addresses import Unfetched, Unreachable, address_of
from reqlock_tools.simple.left import Left
from reqlock_tools.simple.pages import Link

Item = TypeVar("Item")


class Served:
    """A release's files without those where nobody is. What is locked is never left out by that, and neither is what the index
    serves at its own address: that is an outage, which ends the run."""

    def __init__(self, links: list[Link], is_locked: bool, index: str) -> None:
        self.links, self.is_locked, self.origin = list(links), is_locked, address_of(index).origin
        self.left = Left()

    def archives(self, read: Callable[[Link], Item]) -> list[Item]:
        """What is read of the wheels, or where there is none any more, of the sdists."""
        archives: list[Item] = []
        while self.links and not archives:
            telling = [link for link in self.links if link.is_wheel] or self.links
            archives = self.each(read, telling)
        return archives

    def each(self, read: Callable[[Link], Item], links: list[Link] | None = None) -> list[Item]:
        """What is read of each of these files, or of all. Those where nobody is are left out."""
        archives = []
        for link in list(self.links if links is None else links):
            try:
                archives.append(read(link))
            except Unreachable as fault:
                self.leave(link, fault)
        return archives

    def leave(self, link: Link, fault: Unreachable) -> None:
        address = address_of(link.file.url)
        if self.is_locked or address.origin == self.origin:
            more = ", and it is a file of a locked release" if self.is_locked else ""
            raise Unfetched(f"{fault}{more}") from None
        self.links.remove(link)
        self.left.count(f"as nobody answers at {address.host}:{address.port}", 1, [] if self.links else [link.version])
