"""What cases may reach in a rule base and a driver, and how often they do."""
from __future__ import annotations

from typing import NamedTuple

FORMULA, BRANCH, BOUND, CELL, VERIFICATION, COMMAND = KINDS = ("formula", "branch", "bound", "cell", "verification", "command")


class Point(NamedTuple):
    """Something that a case may reach: its kind, its name within the kind, the file, and its bytes. `why` is the key of the sentence for
    a point that no case reached."""

    kind: str
    name: str
    path: str
    begin: int
    end: int
    why: str

    @property
    def key(self) -> str:
        """The words by which exceptions name it."""
        return f"{self.kind} {self.name}"


class Points:
    """The points by their numbers, and how often each was reached."""

    def __init__(self) -> None:
        self.all: list[Point] = []
        self.hits: list[int] = []

    def add(self, point: Point) -> int:
        self.all.append(point)
        self.hits.append(0)
        return len(self.all) - 1

    def clear(self) -> None:
        self.hits[:] = [0] * len(self.hits)
