"""Files that know their place."""

import io


class SoughtFile(io.RawIOBase):
    """A file that can be read and sought, at a place that it counts itself."""

    place = 0

    def readable(self) -> bool:
        return True

    def seekable(self) -> bool:
        return True

    def tell(self) -> int:
        return self.place
