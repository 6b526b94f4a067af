"""Names that are nearly a given one: all that are one change away, else the nearest of those that begin or end alike."""
from __future__ import annotations

from collections.abc import Iterable, Iterator

from ..hints import MOST_CHANGES, nearest

LETTERS = "ABCDEFGHIJKLMNOPQRSTUVWXYZ0123456789_abcdefghijklmnopqrstuvwxyz"
MOST = 3
MOST_COMPARED = 4_000


def near(name: str, names: Iterable[str]) -> list[str]:
    """At most MOST of the names, the likeliest first; the name itself is none of them."""
    known = set(names)
    found = [other for other in dict.fromkeys(edits(name)) if other in known and other != name]
    if not found:
        alike = [other for other in known if abs(len(other) - len(name)) <= MOST_CHANGES and (other[:1] == name[:1] or other[-2:] == name[-2:])]
        one = nearest(name, sorted(alike)[:MOST_COMPARED])
        found = [one] if one else []
    return found[:MOST]


def edits(name: str) -> Iterator[str]:
    """The names one edit away, those first that a slip makes most often."""
    yield name.upper()
    yield name.lower()
    for at in range(len(name) - 1):
        yield name[:at] + name[at + 1] + name[at] + name[at + 2 :]
    for at in range(len(name)):
        yield name[:at] + name[at + 1 :]
    for at in range(len(name) + 1):
        for letter in LETTERS:
            yield name[:at] + letter + name[at:]
            yield name[:at] + letter + name[at + 1 :]
