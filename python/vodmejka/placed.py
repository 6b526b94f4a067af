"""A reading of rule files that keeps where the pieces of terms stand: the parts of conditionals, the arguments of max and min, whole formulas and checks."""
from __future__ import annotations

import sys
from typing import Any, NamedTuple

from . import items, source

Span = tuple[int, int]  # the first byte, and the byte behind the last one


class Placed(NamedTuple):
    """A formula or a check, the number of its rule or verification, its number within that, and where it stands."""

    item: Any
    rule: str
    number: int
    span: Span


class PlacedReader(items.RuleReader):
    """`parts` has the spans of the parts of each conditional, max and min, by the identity of its term, which lives as long as this."""

    def __init__(self, tokens: list[source.Token]):
        super().__init__(tokens)
        self.parts: dict[int, list[Span]] = {}
        self.placed_formulas: list[Placed] = []
        self.placed_checks: list[Placed] = []
        self.rule, self.count = "", 0
        self._depth, self._read = 0, dict[int, list[Span]]()

    def _span(self, begin: int) -> Span:
        last = self.tokens[self.at - 1]
        return self.tokens[begin].byte, last.byte + len(last.text)

    def term(self) -> Any:
        begin, self._depth = self.at, self._depth + 1
        try:
            found = super().term()
        finally:
            self._depth -= 1
        self._read.setdefault(self._depth, []).append(self._span(begin))
        return found

    def conditional(self) -> Any:
        return self._with_parts(super().conditional)

    def called(self, word: str) -> Any:
        return self._with_parts(lambda: super(PlacedReader, self).called(word))

    def _with_parts(self, read: Any) -> Any:
        before = len(self._read.setdefault(self._depth, []))
        found = read()
        self.parts[id(found)] = self._read[self._depth][before:]
        del self._read[self._depth][before:]
        return found

    def head(self, inside: str) -> None:
        begin = self.at
        super().head(inside)
        self.rule, self.count = next(token.text for token in self.tokens[begin:] if token.kind == "number"), 0

    def formula(self) -> None:
        begin = self.at
        super().formula()
        self.count += 1
        self.placed_formulas.append(Placed(self.formulas[-1], self.rule, self.count, self._span(begin)))

    def check(self) -> None:
        begin = self.at
        super().check()
        self.count += 1
        self.placed_checks.append(Placed(self.checks[-1], self.rule, self.count, self._span(begin)))


def read(file: source.RuleFile) -> PlacedReader:
    """The items of a file that the program accepts."""
    sys.setrecursionlimit(max(sys.getrecursionlimit(), 20_000))
    return PlacedReader(list(file.tokens)).read_all()
