"""What is told of a merge: which side each locked version came from."""

from reqlock_tools.toml import read_toml

Versions = dict[str, str]


def versions_in(lock: bytes | None) -> Versions:
    """The versions of a lock by name; none where there is no lock."""
    return {} if lock is None else {entry["name"]: entry["version"] for entry in read_toml(lock.decode())["packages"]}


def told_pins(target: str, ours: Versions, theirs: Versions, locked: Versions) -> list[str]:
    """A line for each name that isn't locked alike on both sides and behind them."""
    names = sorted(ours.keys() | theirs.keys() | locked.keys())
    told = [told_pin(name, ours.get(name), theirs.get(name), locked.get(name)) for name in names]
    return [f"{target}: {line}" if target else line for line in told if line]


def told_pin(name: str, here: str | None, there: str | None, locked: str | None) -> str:
    others = [f"{side} {version}" for side, version in (("here", here), ("there", there)) if version not in (None, locked)]
    behind = f" ({', '.join(others)})" if others else ""
    if here == there == locked:
        return ""
    if locked is None:
        return f"gone: {name}{behind}"
    side = "this side" if locked == here else "other side" if locked == there else "neither side"
    return f"{side}: {name} {locked}{behind}"
