"""Which lines and pieces of sources cases reach, for pages and LCOV files: points by the pieces of text that they are about."""
from __future__ import annotations

from typing import TYPE_CHECKING, NamedTuple

from .points import BOUND, BRANCH, CELL
from .source import Lines

if TYPE_CHECKING:
    from .coverage import Coverage

WHOLE, PART, NONE = "+", "~", "-"


class Piece(NamedTuple):
    """A piece of a source: its bytes, the points that are about it, by their numbers, and whether it is a part of a formula alone."""

    begin: int
    end: int
    numbers: list[int]
    is_part: bool


class Sheet:
    """A source with its pieces. What is excepted has no part in it."""

    def __init__(self, followed: Coverage, path: str, excepted: set[str]):
        self.content, self.lines, self.hits = followed.contents[path], Lines(followed.contents[path]), followed.points.hits
        found: dict[tuple[int, int, bool], list[int]] = {}
        for k in followed.counted():
            point = followed.points.all[k]
            if point.path == path and point.key not in excepted:
                found.setdefault((point.begin, point.end, point.kind in (BRANCH, BOUND)), []).append(k)
        self.kinds = {k: followed.points.all[k].kind for numbers in found.values() for k in numbers}
        self.pieces = [Piece(*key[:2], numbers, key[2]) for key, numbers in found.items()]
        self.branches = [piece for piece in self.pieces if piece.is_part]

    def is_missed(self, piece: Piece) -> bool:
        return not all(self.hits[k] for k in piece.numbers)

    def missed(self) -> list[tuple[int, int]]:
        """The pieces of text that aren't reached, in their order, none within another."""
        found: list[tuple[int, int]] = []
        for begin, end in sorted((piece.begin, -piece.end) for piece in self.pieces if self.is_missed(piece)):
            if not found or begin >= found[-1][1]:
                found.append((begin, -end))
        return found

    def states(self) -> dict[int, str]:
        """For each line with a piece whether all, a part or nothing of it is reached."""
        said: dict[int, list[bool]] = {}
        for piece in self.pieces:
            first = self.lines.number(piece.begin)
            last = first if piece.is_part or self.kinds[piece.numbers[0]] == CELL else self.lines.number(piece.end - 1)
            for line in range(first, last + 1):
                said.setdefault(line, []).extend(self.hits[k] > 0 for k in piece.numbers)
        return {line: WHOLE if all(found) else PART if any(found) else NONE for line, found in said.items()}

    def counts(self) -> dict[int, int]:
        """For each line how often what begins on it is reached, at most."""
        found: dict[int, int] = {}
        for piece in self.pieces:
            line = self.lines.number(piece.begin)
            found[line] = max(found.get(line, 0), *(self.hits[k] for k in piece.numbers))
        return found
