"""What rql refuses, with the status of each kind."""

from reqlock_tools.refusal import Refusal

FOUND, USAGE, NETWORK, STOPPED = 1, 2, 6, 130


class SettingsFault(Refusal):
    """Settings, or words, that can't be followed; it begins with their place."""

    status = USAGE


class IndexFault(Refusal):
    """An index that couldn't be made: of what it was made of, or of what it answered."""

    status = NETWORK


def status_of(fault: Exception) -> int:
    """The status with which a refusal ends."""
    status: int = getattr(fault, "status", USAGE)
    return status
